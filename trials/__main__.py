"""python3 -m trials NAME ..: runs a trial. Without a name it lists them."""

import pathlib
import runpy
import sys

HERE = pathlib.Path(__file__).resolve().parent
# What several trials share, and no trial by itself.
SHARED = (
    "__init__",
    "__main__",
    "apt_root",
    "browsers",
    "docker_adopt",
    "docker_edits",
    "docker_engine",
    "page_browsing",
    "page_cases",
    "systemd_cases",
    "systemd_mounts",
    "systemd_roots",
    "trial",
    "trying",
)


def names() -> list[str]:
    return sorted(path.stem for path in HERE.glob("*.py") if path.stem not in SHARED)


def main() -> None:
    if len(sys.argv) < 2 or sys.argv[1] not in names():
        print("python3 -m trials NAME .., where NAME is one of", *names(), sep="\n  ", file=sys.stderr)
        raise SystemExit(2)
    name = sys.argv.pop(1)
    sys.argv[0] = f"trials {name}"
    runpy.run_module(f"trials.{name}", run_name="__main__")


if __name__ == "__main__":
    main()
