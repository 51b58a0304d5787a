#!/usr/bin/env python3
"""Plants faults and sees whether the tests notice: python3 -m trials mutants [FILE ..]

Of each comparison, `and`, `or`, `not` and condition of a file one is changed at a time, and the tests of the file are run
over it in a copy of the packages. Without names the files are those of TESTS below, and then the edits of EDITS are tried,
each a rule of an importer that is lost. A fault that no test notices is printed with its line, unless SAME says of that line
why it changes nothing. The status is 0 if all are noticed.
"""

import argparse
import ast
import concurrent.futures
import copy
import os
import pathlib
import shutil
import subprocess
import sys
import tempfile
from collections.abc import Iterator, Sequence
from typing import NamedTuple

TOP = pathlib.Path(__file__).resolve().parent.parent
TESTS = {
    "metis_planner/importers/systemd/defaults.py": ("tests.importers.test_systemd_defaults", "tests.importers.test_systemd"),
    "metis_planner/importers/debian/control.py": ("tests.importers.test_control", "tests.importers.test_debian"),
}
# Faults that change nothing: the text of the changed line, and why.
BOTH = "a relation has an operator and a version, or neither of them"
SAME: dict[str, str] = {
    "self.operator is None or self.version is None  ->  self.operator is None and self.version is None": BOTH,
    "self.operator is None or self.version is None  ->  self.operator is None": BOTH,
    "self.operator is None or self.version is None  ->  self.version is None": BOTH,
}
OTHER = {
    ast.Eq: ast.NotEq,
    ast.NotEq: ast.Eq,
    ast.Lt: ast.LtE,
    ast.LtE: ast.Lt,
    ast.Gt: ast.GtE,
    ast.GtE: ast.Gt,
    ast.In: ast.NotIn,
    ast.NotIn: ast.In,
    ast.Is: ast.IsNot,
    ast.IsNot: ast.Is,
}
LONGEST_RUN = 120


class Edit(NamedTuple):
    """A rule that is lost: in which file, the text that stands there, and what stands in its place."""

    what: str
    path: str
    old: str
    new: str


HERE = "metis_planner/importers/"
EDITS = (
    Edit("no order behind what breaks a package", HERE + "debian/order.py", ', *self.barring(name, "Breaks")]', "]"),
    Edit("no order behind what conflicts with one", HERE + "debian/order.py", ', *self.barring(name, "Conflicts")]', "]"),
    Edit("no companions of what is recommended", HERE + "debian/installation.py", "                    self.bring_companions()\n", ""),
    Edit(".env over the environment", HERE + "compose/input.py", "{**told, **os.environ}", "{**os.environ, **told}"),
    Edit("read_only of a long volume lost", HERE + "compose/mounts.py", 'not flag(told, "read_only", where, False)', "True"),
    Edit("fuse. as remote", HERE + "systemd/defaults.py", "    return \"_netdev\" in", "    return unit.last(\"Type\").startswith(\"fuse.\") or \"_netdev\" in"),
    Edit("fuse. of the network not remote", HERE + "systemd/defaults.py", '.removeprefix("fuse.")', ""),
    Edit("tmpfs not after swap", HERE + "systemd/defaults.py", 'unit.last("Type") == "tmpfs"', "False"),
    Edit("the first of nofail and fail", HERE + "systemd/defaults.py", 'words[-1:] == ["nofail"]', 'words[:1] == ["nofail"]'),
    Edit("the root's mount", HERE + "systemd/defaults.py", 'OUTSIDE = ("/", ', "OUTSIDE = ("),
    Edit("pods of Helm's hooks not awaited", HERE + "kubernetes/phases.py", 'not in ("Job", "Pod")', 'not in ("Job",)'),
    Edit("the scope of rules", HERE + "kubernetes/webhooks.py", "return is_scope and ", "return "),
    Edit("the selector on a namespace itself", HERE + "kubernetes/webhooks.py", 'manifest.name if manifest.kind == "Namespace" else ', ""),
    Edit("OnFailure does not end", HERE + "kubernetes/kinds.py", '("Never", "OnFailure")', '("Never",)'),
)
TESTS_OF_EDITS = {
    "debian": ("tests.importers.test_debian", "tests.importers.test_debian_order"),
    "compose": ("tests.importers.test_compose", "tests.importers.test_compose_environment", "tests.importers.test_compose_data"),
    "systemd": ("tests.importers.test_systemd", "tests.importers.test_systemd_defaults"),
    "kubernetes": ("tests.importers.test_kubernetes", "tests.importers.test_kubernetes_streams"),
}


def changed(node: ast.AST) -> Iterator[ast.AST]:
    """What may stand in the place of a node."""
    if isinstance(node, ast.Compare):
        for at, operator in enumerate(node.ops):
            if type(operator) in OTHER:
                other = copy.deepcopy(node)
                other.ops[at] = OTHER[type(operator)]()
                yield other
    elif isinstance(node, ast.BoolOp):
        other_bool = copy.deepcopy(node)
        other_bool.op = ast.Or() if isinstance(node.op, ast.And) else ast.And()
        yield other_bool
        for value in node.values:
            yield copy.deepcopy(value)
    elif isinstance(node, ast.UnaryOp) and isinstance(node.op, ast.Not):
        yield copy.deepcopy(node.operand)
    elif isinstance(node, (ast.If, ast.IfExp, ast.While)):
        for value in (True, False):
            if not (isinstance(node, ast.While) and value):
                forced = copy.deepcopy(node)
                forced.test = ast.Constant(value)
                yield forced


class Put(ast.NodeTransformer):
    """Puts another node in the place of the one with this number."""

    def __init__(self, number: int, other: ast.AST) -> None:
        self.number, self.other, self.count = number, other, -1

    def generic_visit(self, node: ast.AST) -> ast.AST:
        self.count += 1
        if self.count == self.number:
            return self.other
        return super().generic_visit(node)


def nodes_in_order(tree: ast.AST) -> list[ast.AST]:
    """The nodes in the order in which Put counts them."""
    found: list[ast.AST] = []

    class Count(ast.NodeVisitor):
        def generic_visit(self, node: ast.AST) -> None:
            found.append(node)
            super().generic_visit(node)

    Count().visit(tree)
    return found


def faults_in(text: str) -> Iterator[tuple[int, str, str]]:
    """Each fault: its line, what stands there in place of what, and the text of the file with it."""
    tree = ast.parse(text)
    for number, node in enumerate(nodes_in_order(tree)):
        for other in changed(node):
            whole = ast.fix_missing_locations(Put(number, other).visit(copy.deepcopy(tree)))
            was = ast.unparse(node.test if isinstance(node, (ast.If, ast.IfExp, ast.While)) else node)
            now = ast.unparse(other.test if isinstance(other, (ast.If, ast.IfExp, ast.While)) and isinstance(node, type(other)) else other)
            yield getattr(node, "lineno", 0), f"{was}  ->  {now}", ast.unparse(whole)


def is_noticed(path: str, text: str, tests: Sequence[str]) -> bool:
    """Whether tests fail with this text in place of a file."""
    with tempfile.TemporaryDirectory() as folder:
        for name in ("metis_planner", "tests", "examples"):
            shutil.copytree(TOP / name, pathlib.Path(folder) / name, ignore=shutil.ignore_patterns("__pycache__"))
        (pathlib.Path(folder) / path).write_text(text)
        command = [sys.executable, "-B", "-m", "unittest", "-f", *tests]
        try:
            done = subprocess.run(command, cwd=folder, capture_output=True, timeout=LONGEST_RUN, check=False)
        except subprocess.TimeoutExpired:
            return True
        return done.returncode != 0


def try_file(path: str) -> int:
    """Prints the faults of a file that no test notices; how many."""
    text = (TOP / path).read_text()
    lines = text.split("\n")
    assert not is_noticed(path, text, TESTS[path]), f"the tests of {path} fail without a fault"
    faults = list(faults_in(text))
    with concurrent.futures.ThreadPoolExecutor(os.cpu_count()) as pool:
        noticed = list(pool.map(lambda fault: is_noticed(path, fault[2], TESTS[path]), faults))
    left = [fault[:2] for fault, is_seen in zip(faults, noticed) if not is_seen]
    unknown = [(line, what) for line, what in left if what not in SAME]
    for line, what in unknown:
        print(f"{path}:{line}: {what}\n    in: {lines[line - 1].strip()}", flush=True)
    print(f"{path}: {len(faults)} faults, {len(left) - len(unknown)} that change nothing, {len(unknown)} not noticed")
    return len(unknown)


def is_edit_noticed(edit: Edit) -> bool:
    text = (TOP / edit.path).read_text()
    assert text.count(edit.old) == 1, f"{edit.what}: {edit.path} has {text.count(edit.old)} times: {edit.old}"
    return is_noticed(edit.path, text.replace(edit.old, edit.new), TESTS_OF_EDITS[edit.path.split("/")[2]])


def try_edits() -> int:
    """Prints the edits that no test notices; how many."""
    with concurrent.futures.ThreadPoolExecutor(os.cpu_count()) as pool:
        noticed = list(pool.map(is_edit_noticed, EDITS))
    left = [edit.what for edit, is_seen in zip(EDITS, noticed) if not is_seen]
    print(f"{len(EDITS)} rules lost, {len(left)} not noticed{': ' if left else ''}{', '.join(left)}")
    return len(left)


def main() -> int:
    parser = argparse.ArgumentParser(description=__doc__, formatter_class=argparse.RawDescriptionHelpFormatter)
    parser.add_argument("files", metavar="FILE", nargs="*")
    arguments = parser.parse_args()
    left = sum([try_file(path) for path in arguments.files or TESTS])
    return 1 if left + (0 if arguments.files else try_edits()) else 0


if __name__ == "__main__":
    sys.exit(main())
