"""python3 -m metis_planner WORD ..: the words of the front that are not the program's."""

import sys

if sys.version_info < (3, 11):
    sys.exit("metis: Python 3.11 or later has to be there; this is %d.%d" % sys.version_info[:2])

if __name__ == "__main__":
    from metis_planner.cli import main

    sys.exit(main())
