"""How much work something is, whatever the speed of the machine: beside a fixed piece of work, done in the same process.

A number of seconds says as much of the machine, and of what else runs on it, as of the code. So what has to end soon is measured in
units: how often the fixed piece of work could have been done in the same time of the processor. One unit is some 25 ms where
these tests were written, so that five seconds were 200 units there.

Whatever waits for another process has a deadline as well, which only ends a test that would never end. It is so late that no
machine that works at all gets there.
"""

import pathlib
import resource
import time
from collections.abc import Callable, Iterator
from contextlib import contextmanager

# What is allowed, in units. Most inputs need fewer than 40, and a few that are large need up to 150. Before what they say was
# bounded, they took minutes, which are thousands.
SOON, LATER = 200, 600
# Seconds, after which a test gives up. What must be cut off lasts longer than that.
DEADLINE = 300
FOREVER = 900
WORDS = 35_000


def fixed_work() -> int:
    """Makes strings, sorts them, joins them and takes them apart again: work of the kind that importers do."""
    words = [f"x{number * 7_919 % 100_003}" for number in range(WORDS)]
    text = ",".join(sorted(words))
    return len({word: len(word) for word in text.split(",")})


def spent() -> float:
    """The time of the processor that this process took, with the processes that it waited for."""
    others = resource.getrusage(resource.RUSAGE_CHILDREN)
    return time.process_time() + others.ru_utime + others.ru_stime


def unit() -> float:
    started = spent()
    fixed_work()
    return spent() - started


@contextmanager
def soon(most: float = SOON) -> Iterator[None]:
    """What is inside ends soon: it takes no more than so many units, by the slower of two that are measured before and after it."""
    before = unit()
    started = spent()
    yield
    took = spent() - started
    if took > most * before:
        units = took / max(before, unit())
        if units > most:
            raise AssertionError(f"it took {units:.0f} times as long as a fixed piece of work, and {most} times are allowed")


def is_running(pid: int) -> bool:
    """Whether a process is there and has not ended; one that has, and that nobody has asked for its status, has ended."""
    try:
        status = pathlib.Path(f"/proc/{pid}/stat").read_text()
    except (FileNotFoundError, ProcessLookupError):
        return False
    return status.rpartition(")")[2].split()[0] not in "ZX"


def wait_until(is_so: Callable[[], object], what: str = "what was waited for") -> None:
    """Looks again and again until something is so."""
    end = time.monotonic() + DEADLINE
    while not is_so():
        if time.monotonic() > end:
            raise AssertionError(f"{what} has not come about in {DEADLINE} s")
        time.sleep(0.02)
