"""Runs a command and tells how it ended. bench/measure.py starts this for each run.

    launch.py FILE LIMIT WORD..

Into the open file of this number go the status, the seconds of the processor and by the clock, and the most memory in megabytes.
The command is killed after LIMIT seconds; 0 is no limit. The system counts the memory of what starts a command as the command's
own, so what starts it has to be small: this has 9 megabytes, and a script that makes large plans has hundreds.
"""

import os
import select
import signal
import sys
import time


def main(file: int, limit: float, command: list[str]) -> None:
    begun = time.perf_counter()
    child = os.posix_spawnp(command[0], command, os.environ, file_actions=[(os.POSIX_SPAWN_CLOSE, file)])
    if limit and not select.select([os.pidfd_open(child)], [], [], limit)[0]:
        os.kill(child, signal.SIGKILL)
    _, status, used = os.wait4(child, 0)
    numbers = (os.waitstatus_to_exitcode(status), used.ru_utime + used.ru_stime, time.perf_counter() - begun, used.ru_maxrss / 1024)
    os.write(file, " ".join(map(str, numbers)).encode())


if __name__ == "__main__":
    main(int(sys.argv[1]), float(sys.argv[2]), sys.argv[3:])
