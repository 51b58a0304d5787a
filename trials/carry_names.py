#!/usr/bin/env python3
"""Plans for universes with the worst names that Metis takes, and commands with the worst characters:

    python3 -m trials carry_names [--metis PROGRAM] [--universes N]

What each step sees in its variables has to be what the plan says, by make and by ninja, with types, states, ports and
hosts that are drawn from words such as `-rf`, `..`, `/etc/passwd`, `@make` or 64 dashes. The steps are named one by
one, or all at once. Graphviz has to take the pictures. make, ninja and dot have to be there.
"""

import argparse
import json
import pathlib
import random
import re
import subprocess
import sys
import tempfile


from metis_planner.carry import patterns, steps
from metis_planner.text import plans
from metis_planner.text.actions import line_of
from trials import trial
from trials.trial import TOP, Failed, expect

WORST = (
    *(
        "-rf",
        "--",
        "-",
        "..",
        ".",
        "/",
        "/etc/passwd",
        "../../x",
        "@",
        "@make",
        "a/b",
        "a_b",
        "a@b",
        "new",
        "delete",
        "bind",
    ),
    *(
        "after",
        "end",
        "from",
        "-n",
        "--help",
        "all",
        "fresh-1",
        "Makefile",
        "x" * 64,
        "-" * 64,
        "/" * 64,
        "C",
        "n",
        "e",
        "0",
    ),
    *("-e", "EOF", "done/0.1", "phony", "@RULES@", "esac", "in", "if", "done", "export", "exec"),
)
TEXT = 'it\'s "quoted" $HOME `id` $(id) \\ \\n %s * ? # ; & | < > ! ~ {} [] \t é\nsecond line'
BODY = f"""
[ "$TEXT" = "$(cat "$TOP/text")" ]
{trial.TRACED}
printf '%s|%s|%s|%s|%s\\n' "$METIS_ACTION" "$line" "$METIS_TYPE" "$METIS_NAME" "$METIS_HOST" >>"$TOP/trace"
cat <<'EOF' >/dev/null
 $not expanded ` ' " }}
EOF
: "a }} in a word"  # and one in a comment: }}
"""
WHENS = ("*: new", "*: delete", "*: bind *", "*: unbind *", "*: * -> *")


def universe(names: list[str]) -> dict:
    """Four types, each of which requires what the one before it provides; some names are used twice."""
    types = []
    before = None
    for kind, low, high, port in zip(names[:4], names[4:8], names[5:9], names[9:13]):
        states = [
            {"name": low, "next": [high]},
            {"name": high, "provide": [port], "require": [before] if before else []},
        ]
        types.append({"name": kind, "initial": low, "states": states})
        before = port
    return {"aeolus": 1, "types": types}


class Trial:
    """One universe, from its names to what the steps of its plan saw."""

    def __init__(self, program: str, seed: int, top: pathlib.Path) -> None:
        self.program, self.top = program, top
        self.draw = random.Random(seed)
        self.names = self.draw.sample(WORST, 13)
        self.hosts = self.draw.sample(WORST, 2)
        self.engine = self.draw.choice(["make", "ninja"])

    def go(self) -> None:
        (self.top / "text").write_text(TEXT)
        self.written("u", json.dumps(universe(self.names)))
        self.written("up", trial.printed(self.program, "plan", self.top / "u", f"{self.names[3]}:{self.names[8]}"))
        back = self.written("p", trial.printed(self.program, "rollout", self.top / "u", self.top / "up"))
        plan = plans.read(back)
        self.written("h", f"metis hosts 1\nhost {self.hosts[0]} 2\nhost {self.hosts[1]} 9\nend\n")
        placed = self.written(
            "placed", trial.printed(self.program, "place", self.top / "u", self.top / "p", self.top / "h")
        )
        self.written("c.toml", self.commands(plan))
        files = ["--commands", self.top / "c.toml", "--placement", self.top / "placed", "--universe", self.top / "u"]
        trial.exporters(self.engine, self.top / "p", *files, "--to", self.top / "f")
        done = trial.carry_out(trial.engine_words(self.engine, self.top / "f", 4))
        expect(done.returncode == 0, done.stdout)
        self.check(plan, placed)
        for drawn in ("p", "u"):
            picture = trial.exporters("graph", self.top / drawn)
            drawing = subprocess.run(["dot", "-Tsvg"], input=picture, stdout=subprocess.DEVNULL, text=True, check=False)
            expect(drawing.returncode == 0, picture)

    def written(self, name: str, text: str) -> str:
        (self.top / name).write_text(text)
        return text

    def commands(self, plan: plans.Plan) -> str:
        whens = WHENS
        if self.draw.random() < 0.5:
            short = self.draw.random() < 0.5
            found = map(patterns.subject, plan.actions)
            whens = sorted({re.sub(r" from [^ ]+$", "", text) if short else text for text in found})
        lines = [f'[env]\nTEXT = {json.dumps(TEXT)}\nTOP = "{self.top}"\n']
        for place, host in enumerate(self.hosts):
            via = 'via = ["env", "-u", "NOTHING"]\n' if place else ""
            lines.append(f'[hosts.{json.dumps(host)}]\naddress = "127.0.0.1"\n{via}')
        lines += [f"[[step]]\nwhen = {json.dumps(when)}\nrun = '''{BODY}'''\n" for when in whens]
        return "".join(lines)

    def check(self, plan: plans.Plan, placed: str) -> None:
        host_of = {int(line.split()[1]): line.split()[2] for line in placed.splitlines() if line.startswith("on ")}
        wanted = {action.number: action for action in plan.actions}
        instance_of = {}
        for row in (self.top / "trace").read_text().splitlines():
            number, line, kind, name, host = row.split("|")
            action = wanted.pop(int(number))
            seen = (line, kind, name, host)
            meant = (
                line_of(action),
                action.type,
                steps.name_of(action.type, action.instance),
            )
            expect(seen == (*meant, host_of[action.instance]), f"{seen} in place of {meant}")
            expect(re.fullmatch(r"[A-Za-z0-9][A-Za-z0-9_.-]{0,80}", name) is not None, name)
            expect(instance_of.setdefault(name, action.instance) == action.instance, name)
        expect(not wanted, f"not done: {wanted}")


def main() -> int:
    parser = argparse.ArgumentParser(description=__doc__, formatter_class=argparse.RawDescriptionHelpFormatter)
    parser.add_argument("--metis", default=str(TOP / "metis"), metavar="PROGRAM")
    parser.add_argument("--universes", type=int, default=100, metavar="N")
    arguments = parser.parse_args()
    for seed in range(arguments.universes):
        with tempfile.TemporaryDirectory() as top:
            try:
                Trial(arguments.metis, seed, pathlib.Path(top)).go()
            except (Failed, plans.NoText) as fault:
                print(f"universe {seed}: {fault}")
                return 1
    print(f"{arguments.universes} universes: each step saw what was meant")
    return 0


if __name__ == "__main__":
    sys.exit(main())
