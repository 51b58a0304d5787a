#!/usr/bin/env python3
"""Compares `check` and `sketch` with the program: python3 -m trials check PROGRAM [--documents N] [--universes N] [--seed N]

Documents are drawn and damaged. `print` of the program has to refuse just those in which `check` finds a fault, with the line of
the first one. Universes of both versions, and each example, go to a sketch and back, and `print` has to print the same for both.
The gate does not run this. It ends with status 1 where something differs, or where some kind of fault was never met.
"""

import argparse
import collections
import concurrent.futures
import copy
import json
import pathlib
import random
import re
import subprocess
import sys

TOP = pathlib.Path(__file__).resolve().parent.parent

from metis_planner.text.sketches import read_sketch, sketched, written
from metis_planner.text.universes import read_document

SIDE_BY_SIDE = 2
NAMES = ("a", "b", "on", "off", "sql", "http", "x/y", "a-b", "v1.2", "u@h", "_", "port", "A" * 64)
# What may stand where something else is due.
NUMBERS = (0, 1, 2, 3, 16, 17, -1, 1.0, 1e300, 2**64, 2**64 - 1)
JUNK = (None, True, *NUMBERS, "", "a b", "é", "a:b", "A" * 65, "on", [], {}, ["on"], [1], {"port": "sql", "count": 2})
FORMS_OF_NUMBERS = (*map(str, NUMBERS), "-0", "1e0", "01", "+1", "1.", "-", "1e999")
CHARACTERS = '{}[]",:\\/ \n\t\r0123456789-+.eEaunltf\x00\x1f\x7fé\U0001f600\ufeff#\''
KINDS = {f"U{number}" for number in range(1, 14)} | {f"U12 {what}" for what in ("states", "requires", "pairs", "ports")}


def draw_universe(draw):
    """A document's value that Metis takes."""
    version = draw.choice((1, 2))
    types = []
    for name in draw.sample(NAMES, draw.randrange(len(NAMES) // 2)):
        states = draw.sample(NAMES, draw.randrange(1, 6))
        rows = [draw_state(draw, version, state, states) for state in states]
        row = {"name": name, "initial": draw.choice(states[:1] * 3 + states), "states": rows}
        types.append(shuffled(draw, row))
    return shuffled(draw, {"aeolus": version, "types": types})


def shuffled(draw, value):
    return dict(draw.sample(list(value.items()), len(value)))


def draw_state(draw, version, name, states):
    row = {"name": name}
    for key, names in (("provide", NAMES), ("require", NAMES), ("next", states)):
        if draw.random() < 0.6:
            row[key] = draw.choices(names, k=draw.randrange(4))
    if version == 2:
        row["require"] = [draw_need(draw, port) for port in row.get("require", [])]
    return shuffled(draw, row)


def draw_need(draw, port):
    return port if draw.random() < 0.5 else shuffled(draw, {"port": port, "count": draw.randrange(1, 17)})


def places_in(value, found):
    """All objects and lists in a value."""
    if isinstance(value, dict | list) and value:
        found.append(value)
        for each in value.values() if isinstance(value, dict) else value:
            places_in(each, found)
    return found


def damage_value(draw, value):
    """Puts junk somewhere, takes something away, says it twice, or gives a key another name."""
    places = places_in(value, []) or [value]
    counted = [it for it in places if isinstance(it, dict) and "count" in it]
    if counted and draw.random() < 0.2:
        draw.choice(counted)["count"] = draw.choice((0, 17, 2**64, 2**64 - 1, 2.0, -1))
        return
    where = draw.choice(places)
    if isinstance(where, dict) and where:
        key = draw.choice(list(where))
        if draw.random() < 0.3:
            where[draw.choice(("requires", "name", "port", "count", "next", "initial"))] = where.pop(key)
        elif draw.random() < 0.3:
            del where[key]
        else:
            where[key] = copy.deepcopy(draw.choice(JUNK))
    elif isinstance(where, list) and where:
        place = draw.randrange(len(where))
        if draw.random() < 0.5:
            where[place] = copy.deepcopy(draw.choice(JUNK))
        else:
            where.insert(place, copy.deepcopy(where[draw.randrange(len(where))]))


def damage_limit(draw, value):
    """Goes past one of the limits of a universe."""
    several = draw.choice((64, 65))
    kind = draw.randrange(4)
    if kind == 0:
        value["types"].append({"name": "many", "initial": "s0", "states": [{"name": f"s{at}"} for at in range(several)]})
    elif kind == 1:
        ports = [f"r{at}" for at in range(several)]
        states = [{"name": f"s{at}", "require": ports[: 64 + at * (several - 64)]} for at in range(2)]
        value["types"].append({"name": "much", "initial": "s0", "states": states})
    elif kind == 2:
        states = [{"name": f"s{at}"} for at in range(50)]
        value["types"] += [{"name": f"t{at}", "initial": "s0", "states": states} for at in range(several - 24)]
    else:
        for at in range(several - 24):
            states = [{"name": "s", "provide": [f"p{at}.{each}" for each in range(100)]}]
            value["types"].append({"name": f"t{at}", "initial": "s", "states": states})


def damage_text(draw, text):
    """Takes a character away, puts one in, changes two, repeats a part, ends early, nests, or writes a number or a text otherwise."""
    place = draw.randrange(len(text) + 1)
    kind = draw.randrange(8)
    if kind == 0:
        return text[:place] + text[place + 1 :]
    if kind == 1:
        return text[:place] + draw.choice(CHARACTERS) + text[place:]
    if kind == 2:
        return text[:place] + text[place + 1 : place + 2] + text[place : place + 1] + text[place + 2 :]
    if kind == 3:
        return text[:place]
    if kind == 4:
        end = draw.randrange(place, len(text) + 1)
        return text[:end] + text[place:end] + text[end:]
    if kind == 5:
        depth = draw.randrange(118, 130)
        return text.replace('"on"', "[" * depth + "]" * depth, 1)
    numbers = list(re.finditer(r"(?<=:)( ?)[0-9]+", text))
    if kind == 6 and numbers:
        found = draw.choice(numbers)
        return text[: found.start()] + draw.choice(FORMS_OF_NUMBERS) + text[found.end() :]
    escape = draw.choice(("\\u006f", "\\ud83d\\ude00", "\\ud83d", "\\udc00", "\\x", "\\n", "\\/", "\\u00g0"))
    return text.replace('"o', f'"{escape}', draw.randrange(1, 4))


def damaged(draw):
    """A document's bytes, with up to three damages."""
    value = draw_universe(draw)
    count = draw.choice((0, 1, 1, 1, 2, 3))
    by_text = sum(draw.random() < 0.35 for _ in range(count))
    for _ in range(count - by_text):
        if draw.random() < 0.04 and isinstance(value.get("types"), list):
            damage_limit(draw, value)
        else:
            damage_value(draw, value)
    indent, separators = draw.choice(((None, (",", ":")), (None, (", ", ": ")), (2, None)))
    text = json.dumps(value, indent=indent, separators=separators, ensure_ascii=draw.random() < 0.5)
    for _ in range(by_text):
        text = damage_text(draw, text)
    data = text.encode("utf-8", "surrogatepass") + draw.choice((b"", b"\n", b"\n\n", b" "))
    return data[:-1] + b"\xff" + data[-1:] if draw.random() < 0.01 else data


def printed(program, data):
    ran = subprocess.run([program, "print", "-"], input=data, capture_output=True, check=False)
    return ran.returncode, ran.stdout.decode()


def is_at_a_value(data, fault):
    """Whether a value of JSON stands where a fault of a document's content leads, as Python's own reader finds it."""
    if fault.line == "bad universe U1":
        return True
    text = data.decode()
    try:
        json.JSONDecoder().raw_decode(text, fault.at if fault.at else len(text) - len(text.lstrip()))
    except ValueError:
        return False
    return True


def kinds_of(line):
    words = line.split()
    return {words[2], " ".join(words[2:4])} & KINDS


def try_documents(program, count, draw, pool):
    """Compares `check` with `print`. Returns what differs, and how often each kind of fault came."""
    documents = [damaged(draw) for _ in range(count)]
    wrong, met = [], collections.Counter()
    for data, (status, text) in zip(documents, pool.map(lambda it: printed(program, it), documents)):
        faults = read_document(data).faults
        said = f"{faults[0].line}\n" if faults else None
        if (status, text) != (3, said) if faults else status:
            wrong.append(f"check says {said!r} where print has status {status}, {text[:80]!r}:\n{data[:400]!r}")
        lost = [it for it in faults if not is_at_a_value(data, it)]
        wrong += [f"no value stands at {it.at}, where check sees {it.line}:\n{data[:400]!r}" for it in lost]
        met.update(kinds_of(text) if status == 3 else ["taken"])
    return wrong, met


def there_and_back(data):
    """The document of the sketch of a document."""
    return written(read_sketch(sketched(read_document(data).rows).encode()).rows).encode()


def try_sketches(program, count, draw, pool):
    """Compares what `print` prints for a document and for the sketch of it."""
    documents = [json.dumps(draw_universe(draw)).encode() for _ in range(count)]
    documents += [it.read_bytes() for it in sorted((TOP / "examples").rglob("*.json")) if read_document(it.read_bytes()).rows]
    both = [it for data in documents for it in (data, there_and_back(data))]
    answers = list(pool.map(lambda it: printed(program, it), both))
    for place, data in enumerate(documents):
        if answers[2 * place][0] or answers[2 * place] != answers[2 * place + 1]:
            yield f"another form after a sketch: {data[:400]!r}"


def main():
    parser = argparse.ArgumentParser(description=__doc__, formatter_class=argparse.RawDescriptionHelpFormatter)
    parser.add_argument("program", metavar="PROGRAM")
    parser.add_argument("--documents", type=int, default=5000)
    parser.add_argument("--universes", type=int, default=2000)
    parser.add_argument("--seed", type=int, default=1)
    arguments = parser.parse_args()
    draw = random.Random(arguments.seed)
    with concurrent.futures.ThreadPoolExecutor(SIDE_BY_SIDE) as pool:
        wrong, met = try_documents(arguments.program, arguments.documents, draw, pool)
        counts = ", ".join(f"{kind} {met[kind]}" for kind in sorted(met))
        print(f"{arguments.documents} documents: {len(wrong)} otherwise; {counts}")
        wrong += [f"never met: {kind}" for kind in sorted(KINDS - set(met)) if arguments.documents]
        other = list(try_sketches(arguments.program, arguments.universes, draw, pool))
        print(f"{arguments.universes} universes and the examples to a sketch and back: {len(other)} otherwise")
    print(*wrong, *other, sep="\n", end="\n" if wrong or other else "")
    return 1 if wrong or other else 0


if __name__ == "__main__":
    sys.exit(main())
