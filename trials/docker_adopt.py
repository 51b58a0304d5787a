"""What Compose brought up, taken over as it is found, and gone on with."""

from collections.abc import Callable

from trials.docker_engine import Engine, Trial, Value, changed, project_of
from trials.trial import expect


def nothing(trial: Trial, value: Value) -> None:
    """All as Compose left it."""


def two_stopped(trial: Trial, value: Value) -> None:
    trial.said("docker", "stop", f"{trial.name}-worker-2", f"{trial.name}-web-1")


def one_removed(trial: Trial, value: Value) -> None:
    trial.said("docker", "rm", "-f", f"{trial.name}-worker-1")


def edited(trial: Trial, value: Value) -> None:
    value["services"]["web"]["environment"] = {"A": "1"}
    trial.write(value)


def database_stopped(trial: Trial, value: Value) -> None:
    trial.said("docker", "stop", f"{trial.name}-db-1")


def one_more(trial: Trial, value: Value) -> None:
    trial.said("docker", "compose", "up", "-d", "--no-recreate", "--scale", "worker=3")


# What happens before it is taken over, whether all is marked then, and which containers a call after that concerns.
CASES: tuple[tuple[Callable[[Trial, Value], None], bool, str], ...] = (
    (nothing, True, ""),
    (two_stopped, False, "web-1 worker-2"),
    (one_removed, False, "worker-1 worker-3"),
    (edited, False, "web-1"),
    (database_stopped, False, "db-1"),
    (one_more, True, "migrate-1 worker-3"),  # Compose runs the migration again, and what it has made more goes by hand
)


def adopted(engine: Engine) -> None:
    """What Compose brought up is taken over and not touched; a call after that does what lacks, and no more."""
    engine.tag("trial-app:1", "trial-tag:1")
    for case, is_whole, concerned in CASES:
        value = project_of("tiers")
        trial = Trial(engine, "adopted", value)
        trial.said("docker", "compose", "up", "-d")
        original = trial.containers()
        case(trial, value)
        before, rows = trial.containers(), trial.rows()
        expect("metis adopt" in trial.up().stderr, f"{case.__name__}: up does not name adopt")
        done = trial.run(engine.metis, "adopt", "compose.yaml", "--yes")
        said = done.stdout + done.stderr
        expect((trial.top / ".metis/plan.txt").is_file(), f"{case.__name__}: {said[-800:]}")
        expect(done.returncode == (not is_whole), f"{case.__name__}: adopt ended with {done.returncode}: {said[-800:]}")
        expect(trial.containers() == before, f"{case.__name__}: what was taken over was touched")
        goes_on(trial, case, set(concerned.split()), original)
        expect(rows in (-1, trial.rows()), f"{case.__name__}: Metis ran the migration again")
        print(f"  {case.__name__}: {concerned or 'nothing'}", flush=True)
        trial.run(engine.metis, "down", ".metis", "--yes")


def goes_on(trial: Trial, case: Callable[[Trial, Value], None], concerned: set[str], original: dict[str, tuple[str, str]]) -> None:
    if case is one_more:
        done = trial.up()
        expect(done.returncode == 0 and "worker-3" in trial.containers(), f"one more: {done.stderr[-500:]}")
        trial.said("docker", "rm", "-f", f"{trial.name}-worker-3")
    trial.is_up()
    found = changed(original, trial.containers())
    expect(found <= concerned, f"{case.__name__}: {sorted(found)} changed, and {sorted(concerned)} are concerned")


def edited_after(engine: Engine) -> None:
    """An edit of what was taken over concerns its own container alone."""
    engine.tag("trial-app:1", "trial-tag:1")
    value = project_of("tiers")
    trial = Trial(engine, "edited-after", value)
    trial.said("docker", "compose", "up", "-d")
    trial.said(engine.metis, "adopt", "compose.yaml", "--yes")
    before = trial.containers()
    edited(trial, value)
    trial.is_up()
    expect(changed(before, trial.containers()) == {"web-1"}, "an edit after that changes more than it concerns")
    trial.compose_makes_nothing()
    trial.is_down()


PARTS: dict[str, Callable[[Engine], None]] = {each.__name__: each for each in (adopted, edited_after)}
