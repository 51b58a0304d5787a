#!/usr/bin/env python3
"""Lists what the headline stands on: every definition that the clause `headline` of `run` reaches, file by file.

    tools/reading_list.py             prints the list
    tools/reading_list.py --write     writes it into docs/dev/HEADLINE.md, between its marks
    tools/reading_list.py --check     ends with status 1 where the page has another list, or where its table of phrases names
                                      a definition that is not on the list, or leaves one out of the promised part

A definition reaches the names in its text, by the `use` lines of its file. A name that is also that of a variable is
counted, so the list may have a definition too many, but none too few.
"""

import pathlib
import re
import sys

TOP = pathlib.Path(__file__).resolve().parent.parent
PAGE = TOP / "docs" / "dev" / "HEADLINE.md"
CLAUSE_FILE, CLAUSE = TOP / "crates" / "metis_top" / "src" / "top.rt", "headline"
# What is promised, apart from what is asked of words and files.
PROMISE = ("metis_top.specs.Deployment", "DeploysOrRefuses")
BEGIN, END = "<!-- the list, by tools/reading_list.py -->\n", "<!-- the end of the list -->\n"
PHRASES = "| phrase | definitions | laws and contracts |\n"

USE = re.compile(r"^(?:unfoldable )?(?:pub |ghost )?use Rattle\.([\w.]+?)(?:\.\{(.*)\}| as (\w+))?;?$")
ITEM = re.compile(r"^(?:abbrev pub|abbrev|pub abbrev|pub record|record|pub data|data) (\S+)")
WORD = re.compile(r"[^\s(){},;∷]+")


def imports_of(text):
    """The names that a file imports, and its names of modules, each with the module and the name there."""
    names, modules = {}, {}
    for line in text.splitlines():
        found = USE.match(line)
        if not found:
            continue
        module, listed, other = found.groups()
        if listed is None and other is None:
            module, _, name = module.rpartition(".")
            names[name] = module, name
        elif listed is None:
            modules[other] = module
        else:
            for item in filter(None, (it.strip() for it in listed.split(","))):
                name, _, local = item.partition(" as ")
                names[local.strip() or name] = module, name
    return names, modules


class Module:
    """A file of definitions: each with its text, and the names that it can use."""

    def __init__(self, path):
        self.path = path
        text = path.read_text()
        self.names, self.modules = imports_of(text)
        self.texts, name = {}, None
        for line in text.splitlines():
            found = ITEM.match(line)
            if found:
                name = found[1]
                self.texts[name] = ""
            if name and not line.startswith(("--", "use ", "pub use ")):
                self.texts[name] += line.split(" -- ")[0] + "\n"

    def reached(self, text):
        """The names of a text, as modules and names."""
        for word in WORD.findall(text):
            head, _, rest = word.partition(".")
            if rest and head in self.modules:
                yield self.modules[head], rest.split(".")[0]
            elif head in self.names:
                yield self.names[head]
            elif head in self.texts:
                yield module_of(self.path), head


def module_of(path):
    crate, _, *parts = path.relative_to(TOP / "crates").with_suffix("").parts
    return ".".join([crate, "specs", *parts])


def path_of(module):
    """The file of a module, where it is one of definitions of this repository."""
    crate, _, rest = module.partition(".specs.")
    path = TOP / "crates" / crate / "specs" / (rest.replace(".", "/") + ".antt")
    return path if rest and not rest.startswith("declared.") and path.is_file() else None


class List:
    def __init__(self):
        self.modules, self.found, self.types, self.kit = {}, {}, set(), set()

    def module(self, name):
        if name not in self.modules:
            path = path_of(name)
            self.modules[name] = Module(path) if path else None
        return self.modules[name]

    def follow(self, module, name):
        """Adds the definition and all that it reaches."""
        waiting = [(module, name)]
        while waiting:
            module, name = waiting.pop()
            home = self.module(module)
            if home is None:
                self.outside(module, name)
            elif name not in home.texts and name in home.names:
                waiting.append(home.names[name])
            elif name in home.texts and name not in self.found.get(module, ()):
                self.found.setdefault(module, set()).add(name)
                waiting.extend(home.reached(home.texts[name]))

    def outside(self, module, name):
        crate, _, rest = module.partition(".specs.")
        if rest.startswith("declared.") and (TOP / "crates" / crate).is_dir():
            place, kind = rest.split(".")[1:3]
            self.types.add((f"crates/{crate}/src/{place}.rt", kind))
        else:
            self.kit.add((module, name))

    def count(self):
        return sum(len(names) for names in self.found.values())


def headline():
    """What the clause reaches."""
    text = CLAUSE_FILE.read_text()
    names, _ = imports_of("\n".join(line for line in text.splitlines() if line.startswith("ghost use")))
    start = text.index(f"ensures {CLAUSE} {{")
    clause = text[start:text.index("\n\n", start)]
    found = List()
    for word in WORD.findall(clause):
        if word in names:
            found.follow(*names[word])
    return found


def promise():
    found = List()
    found.follow(*PROMISE)
    return found


def by_home(pairs):
    """Lines of a list: each home with its names."""
    homes = {}
    for home, name in sorted(pairs):
        homes.setdefault(home, []).append(f"`{name}`")
    return [f"- `{home}`: {', '.join(names)}" for home, names in homes.items()]


def told(found):
    """The list as a part of the page."""
    lines = [f"{found.count()} definitions in {len(found.found)} files of this repository:", ""]
    lines += ["| file | definitions |", "|---|---|"]
    for module in sorted(found.found):
        names = ", ".join(f"`{name}`" for name in found.module(module).texts if name in found.found[module])
        lines.append(f"| `{path_of(module).relative_to(TOP)}` | {names} |")
    lines += ["", "Types of the program that these name, with variants and fields as in the file:", "", *by_home(found.types)]
    count = len({module for module, _ in found.kit})
    lines += ["", f"Words of the kit, {len(found.kit)} in {count} modules; `rt lemma NAME` shows one:", "", *by_home(found.kit)]
    return "\n".join(lines) + "\n"


def with_list(page, listed):
    """The page with this list between its marks."""
    return page[:page.index(BEGIN) + len(BEGIN)] + listed + page[page.index(END):]


def phrase_names(page):
    """The definitions that the rows of the table of phrases name, one after the other."""
    rows = page[page.index(PHRASES) + len(PHRASES):].split("\n\n")[0].splitlines()[1:]
    return [name for row in rows for name in re.findall("`([^`]+)`", row.split(" | ")[1])]


def faults(page, found, promised):
    """What is wrong with the page."""
    if with_list(page, told(found)) != page:
        yield "the list is another one than that of the sources: tools/reading_list.py --write"
    named = phrase_names(page)
    wanted = {name for names in promised.found.values() for name in names}
    yield from (f"the table of phrases names {name} twice" for name in sorted(set(named)) if named.count(name) > 1)
    yield from (f"the table of phrases names {name}, on which the promise does not stand" for name in sorted(set(named) - wanted))
    yield from (f"the table of phrases leaves out {name}" for name in sorted(wanted - set(named)))


def main(words):
    found = headline()
    if words == ["--write"]:
        PAGE.write_text(with_list(PAGE.read_text(), told(found)))
    elif words == ["--check"]:
        wrong = list(faults(PAGE.read_text(), found, promise()))
        print(*wrong, sep="\n", end="\n" if wrong else "")
        return 1 if wrong else 0
    elif words:
        print(__doc__.strip(), file=sys.stderr)
        return 2
    else:
        print(told(found), end="")
    return 0


if __name__ == "__main__":
    sys.exit(main(sys.argv[1:]))
