"""A universe from a sketch, a line a type, or with --from the sketch of a universe.

    # the first state is the one in which it is made
    db: off > on(+sql)
    web: absent > installed > running(-sql -cache*2 +http), installed > absent

Behind a state's name stand the ports that it provides (+) and requires (-), with a count where it is not one.
"""

import argparse

from metis_planner.answers import Answer, Refused
from metis_planner.text import documents
from metis_planner.text.reading import read_bytes
from metis_planner.text.sketches import read_sketch, sketched, written
from metis_planner.text.universes import Reading, Rows, read_document


def rows_of(path: str, reading: Reading) -> Rows:
    if reading.rows is None or reading.faults:
        fault = reading.faults[0]
        line, column = reading.lines.place(fault.at)
        raise Refused(f"{path}:{line}:{column}: {fault.text()}")
    return reading.rows


def add_arguments(parser: argparse.ArgumentParser) -> None:
    which = parser.add_mutually_exclusive_group()
    which.add_argument("file", metavar="FILE", nargs="?", default="-", help="the sketch; standard input where none is named")
    which.add_argument("--from", dest="universe", metavar="FILE", help="print the sketch of this document of a universe")


def document_of(path: str) -> str:
    """The document that the sketch in a file is, within the limit of a document."""
    text = written(rows_of(path, read_sketch(read_bytes(path, documents.MOST_BYTES))))
    if len(text) > documents.MOST_BYTES:
        raise Refused(f"the document has {len(text)} bytes, and Metis takes at most {documents.MOST_BYTES}")
    return text


def universe_text(path: str) -> str:
    """The document of the universe in a file, which may be a sketch; of standard input for `-`."""
    if path.endswith(".sketch"):
        return document_of(path)
    return read_bytes(path, documents.MOST_BYTES).decode("utf-8", "surrogateescape")


def run(arguments: argparse.Namespace) -> Answer:
    if arguments.universe is None:
        return Answer(document_of(arguments.file))
    data = read_bytes(arguments.universe, documents.MOST_BYTES)
    return Answer(sketched(rows_of(arguments.universe, read_document(data))))
