"""What tools/build.py and tools/unproved.py share: the folder that they keep things in, one build at a time, and its end."""

import contextlib
import fcntl
import os
import pathlib
import signal
import sys

TOP = pathlib.Path(__file__).resolve().parent.parent
PROGRAM = "metis"
# As the script ./metis has it.
CACHE = pathlib.Path(os.environ.get("XDG_CACHE_HOME") or os.environ.get("HOME", "") + "/.cache").absolute() / "metis-build"
SIGNALS = (signal.SIGINT, signal.SIGTERM, signal.SIGHUP)


def say(text: str) -> None:
    print(f"metis: {text}", file=sys.stderr, flush=True)


def end_by_signal(number, _):
    # A second one would end the program before it has cleared away.
    for it in SIGNALS:
        signal.signal(it, signal.SIG_IGN)
    sys.exit(128 + number)


@contextlib.contextmanager
def alone(room: pathlib.Path, what: str):
    """Keeps a second build in the same folder waiting: it would take away what the first one makes."""
    room.mkdir(parents=True, exist_ok=True)
    with open(room / "lock", "w") as lock:
        try:
            fcntl.flock(lock, fcntl.LOCK_EX | fcntl.LOCK_NB)
        except BlockingIOError:
            say(f"another {what} is under way; waiting for it")
            fcntl.flock(lock, fcntl.LOCK_EX)
        yield


def run(build, failed: int = 1) -> int:
    """The status of a build. A signal ends it as it would end a shell's command, once all is cleared away."""
    for it in SIGNALS:
        signal.signal(it, end_by_signal)
    try:
        return build()
    except OSError as fault:
        say(f"{fault.filename or CACHE}: {fault.strerror or fault}")
        return failed
