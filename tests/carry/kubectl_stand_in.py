"""Stands in for kubectl where there is no cluster: it records its calls, and keeps a file for each object that is there.

`failing` names the file of a job that fails, and `stubborn` that of an object that no deletion takes away.
"""

import os
import pathlib
import sys

TOP = pathlib.Path(os.environ["STAND_IN"])
THERE = TOP / "there"
verb, *words = sys.argv[1:]
with (TOP / "calls").open("a") as calls:
    calls.write(" ".join([verb, *words]) + "\n")


def named(path: str) -> str:
    return (TOP / path).read_text() if (TOP / path).is_file() else ""


name = pathlib.Path(words[words.index("-f") + 1]).name if "-f" in words else ""
own = THERE / name
if verb in ("apply", "replace"):
    own.write_text("Failed" if named("failing") == name else "Complete")
elif verb == "delete" and named("stubborn") != name:
    own.unlink(missing_ok=True)
elif verb == "get" and not own.is_file():
    sys.exit(0 if "--ignore-not-found" in words else 1)
elif verb == "get":
    print(own.read_text() if any("conditions" in word for word in words) else name)
elif verb in ("rollout", "wait") and not own.is_file():
    sys.exit(1)
