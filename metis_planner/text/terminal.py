"""What is said on a terminal: one line at a time, without what a terminal would obey, and also where a stream is closed."""

import os
import sys

LONGEST_LINE = 1_000


def plain(text: str, longest: int = LONGEST_LINE) -> str:
    """A text as one line, of a length that can be read, and without what a terminal would obey."""
    line = " ".join(text[: 4 * longest].split())
    safe = "".join(each if each.isprintable() else each.encode("unicode_escape").decode() for each in line)
    return safe if len(safe) <= longest else safe[:longest] + " .."


def say(line: str) -> None:
    """Says a line on standard error, where there is one."""
    try:
        sys.stderr.write(f"metis: {plain(line)}\n")
        sys.stderr.flush()
    except (AttributeError, OSError):
        pass


def put(text: str) -> int:
    """Writes a text to standard output, and gives the status: 1 where it could not be written whole."""
    try:
        sys.stdout.write(text)
        sys.stdout.flush()
    except AttributeError:
        say("standard output is closed")
        return 1
    except OSError as fault:
        # Nothing is left for the end of the program to write in vain.
        os.dup2(os.open(os.devnull, os.O_WRONLY), sys.stdout.fileno())
        if not isinstance(fault, BrokenPipeError):
            say(f"standard output: {fault.strerror}")
        return 1
    return 0
