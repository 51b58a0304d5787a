"""What the scripts share that try plans for files: how the program is run, and what is printed of each file."""

import subprocess

from metis_planner.answers import Refused
from metis_planner.text import plans


def printed(metis, *words):
    """What the program prints for these words, whatever its status."""
    return subprocess.run([metis, *words], stdout=subprocess.PIPE, text=True, check=False).stdout


def try_files(paths, try_file):
    """Prints the lines on each file, and returns the status: 0 if all was well with all of them."""
    is_good = True
    for path in paths:
        try:
            lines, is_right = try_file(path)
        except (Refused, plans.NoText) as fault:
            lines, is_right = [f"{path}: {fault}"], False
        print("\n".join(lines), flush=True)
        is_good = is_good and is_right
    return 0 if is_good else 1
