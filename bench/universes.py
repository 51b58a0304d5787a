#!/usr/bin/env python3
"""Writes a universe document of a given number of pairs to standard output.

    universes.py chain N    a long chain of requirements
    universes.py wide N     types that require many ports each

N is an even number from 4 to 2000. docs/FORMATS.md has the form of the document.
"""

from measure import KINDS, MOST_PAIRS, document, fail, usage, words_of


def main():
    kind, number = words_of(__doc__, 2, 2)
    if not (number.isascii() and number.isdigit()):
        usage(__doc__)
    if kind not in KINDS:
        fail("KIND is chain or wide", 2)
    if not (4 <= int(number) <= MOST_PAIRS and int(number) % 2 == 0):
        fail(f"N is an even number from 4 to {MOST_PAIRS}", 2)
    print(document(KINDS[kind](int(number) // 2)))


if __name__ == "__main__":
    main()
