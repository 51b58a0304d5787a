"""Draws the chart of `gantt`: a lane an instance, a bar an action."""

import dataclasses
from collections.abc import Iterator, Sequence

from metis_planner.carry.steps import Step, who
from metis_planner.draw.picture import short
from metis_planner.text.actions import VERBS, Verb, in_words

FILLS: dict[Verb, str] = {"new": "#d0d0d0", "delete": "#f0b49e", "bind": "#b5d3ee", "unbind": "#d8c6e8", "move": "#b9dfb3"}
CRITICAL = "#c23b22"
# What is not done: a thick dark frame where it failed, a dashed one while it runs.
FRAMES = {
    "failed": 'stroke="#5b0f0a" stroke-width="3"',
    "running": 'stroke="#0067a5" stroke-width="2" stroke-dasharray="4 2"',
}
LANE, BAR, TOP, LEAST, WIDTH, MARGIN = 22, 14, 54, 3, 1000, 60
CHARACTER = 6.2
# Where all is dark the chart is too: light and dark change places, and each colour stays what it is.
DARK = "<style>@media (prefers-color-scheme: dark) { svg { filter: invert(.92) hue-rotate(180deg); } }</style>\n"
STEPS = (1, 2, 5)
MOST_TICKS = 12


@dataclasses.dataclass(frozen=True)
class Bar:
    """An action in the chart."""

    step: Step
    start: float
    end: float
    slack: float
    is_critical: bool
    status: str = ""  # `running` or `failed`, of what is not done


@dataclasses.dataclass(frozen=True)
class Fold:
    """A pause that is folded away: where it stands in the chart, and how many seconds it took."""

    at: float
    seconds: float

    @property
    def label(self) -> str:
        for unit, size in (("h", 3600), ("min", 60)):
            if self.seconds >= 2 * size:
                return f"{self.seconds / size:.0f} {unit} later"
        return f"{self.seconds:.0f} s later"


class Chart:
    """The lanes with their bars, and the pauses that are folded away."""

    def __init__(self, lanes: Sequence[Sequence[Bar]], unit: str, folds: Sequence[Fold] = ()) -> None:
        self.unit, self.folds = unit, folds
        self.lanes = sorted(lanes, key=lambda lane: (lane[-1].end, lane[0].step.action.instance))
        self.finish = max((bar.end for lane in self.lanes for bar in lane), default=0)
        self.left = 20 + CHARACTER * max((len(who(lane[0].step.action)) for lane in self.lanes), default=0)
        self.scale = WIDTH / (self.finish or 1)

    def x(self, time: float) -> float:
        return self.left + time * self.scale

    def lines(self) -> Iterator[str]:
        width, height = self.left + WIDTH + MARGIN, TOP + LANE * len(self.lanes) + 20
        yield f'<svg xmlns="http://www.w3.org/2000/svg" width="{width:.0f}" height="{height}"'
        yield f' viewBox="0 0 {width:.0f} {height}" font-family="DejaVu Sans, sans-serif" font-size="10">\n'
        yield DARK
        yield f'<rect width="{width:.0f}" height="{height}" fill="white"/>\n'
        yield from self.legend()
        yield from (self.tick(time, height, "#e4e4e4", "#666666") for time in self.ticks())
        yield self.tick(self.finish, height, CRITICAL, CRITICAL)
        yield from (self.fold(fold, height) for fold in self.folds)
        for place, lane in enumerate(self.lanes):
            yield from self.lane(lane, TOP + LANE * place)
        yield "</svg>\n"

    def legend(self) -> Iterator[str]:
        x = self.left
        used = {bar.step.action.verb for lane in self.lanes for bar in lane}
        fills: dict[str, str] = {verb: f'fill="{FILLS[verb]}"' for verb in VERBS if verb in used}
        bars = [bar for lane in self.lanes for bar in lane]
        if any(bar.is_critical for bar in bars):
            fills["the longest chain"] = f'fill="white" stroke="{CRITICAL}" stroke-width="1.6"'
        fills |= {name: f'fill="white" {frame}' for name, frame in FRAMES.items() if any(bar.status == name for bar in bars)}
        for name, look in fills.items():
            yield f'<rect x="{x:.1f}" y="8" width="12" height="10" {look}/>'
            yield f'<text x="{x + 16:.1f}" y="17">{name}</text>\n'
            x += 30 + CHARACTER * len(name)

    def ticks(self) -> list[int]:
        """Round times, at most a dozen, and none that would touch the last one."""
        unit = 1
        while self.finish > MOST_TICKS * STEPS[-1] * unit:
            unit *= 10
        step = next(each * unit for each in STEPS if self.finish <= MOST_TICKS * each * unit)
        return [time for time in range(0, int(self.finish) + 1, step) if self.finish - time > step / 2]

    def tick(self, time: float, height: int, line: str, text: str) -> str:
        label = f"{time:.10g} {self.unit}".strip() if time == int(time) else f"{time:.1f} {self.unit}".strip()
        return (
            f'<line x1="{self.x(time):.1f}" y1="{TOP - 8}" x2="{self.x(time):.1f}" y2="{height - 14}" stroke="{line}"/>'
            f'<text x="{self.x(time):.1f}" y="{TOP - 12}" text-anchor="middle" fill="{text}">{label}</text>\n'
        )

    def fold(self, fold: Fold, height: int) -> str:
        """A dotted line at which nothing ran for a while."""
        x = self.x(fold.at)
        return (
            f'<line x1="{x:.1f}" y1="{TOP - 8}" x2="{x:.1f}" y2="{height - 14}" stroke="#888888" stroke-width="3"'
            f' stroke-dasharray="1 3"/><text x="{x:.1f}" y="{height - 4}" text-anchor="middle" fill="#888888">{fold.label}</text>\n'
        )

    def lane(self, lane: Sequence[Bar], y: float) -> Iterator[str]:
        yield f'<line x1="0" y1="{y + LANE}" x2="{self.left + WIDTH:.1f}" y2="{y + LANE}" stroke="#f0f0f0"/>'
        yield f'<text x="{self.left - 8:.1f}" y="{y + 15}" text-anchor="end">{who(lane[0].step.action)}</text>\n'
        for bar in lane:
            yield from self.bar(bar, y + (LANE - BAR) / 2)

    def bar(self, bar: Bar, y: float) -> Iterator[str]:
        action, x = bar.step.action, self.x(bar.start)
        is_long = bar.end > bar.start
        width = max((bar.end - bar.start) * self.scale, LEAST if is_long or bar.is_critical else 1)
        tip = f"{action.number} {in_words(action)}: {bar.start:.10g} to {bar.end:.10g}"
        tip += f", {bar.status}" if bar.status else ""
        tip += f", may start {bar.slack:.10g} later" if bar.slack else ""
        yield f"<g><title>{tip.replace('>', '&gt;')}</title>"
        if bar.slack and is_long:
            end, middle = x + width, y + BAR / 2
            yield f'<line x1="{end:.1f}" y1="{middle}" x2="{end + bar.slack * self.scale:.1f}" y2="{middle}"'
            yield ' stroke="#bbbbbb" stroke-dasharray="2 2"/>'
        # The chain is a frame, so that a bar keeps the colour of what it does.
        frame = f'stroke="{CRITICAL}" stroke-width="1.6"' if bar.is_critical else 'stroke="white" stroke-width="0.7"'
        frame = FRAMES.get(bar.status, frame)
        yield f'<rect x="{x:.1f}" y="{y}" width="{width:.1f}" height="{BAR}" fill="{FILLS[action.verb]}" {frame}/>'
        for label in (f"{action.number} {short(action)}", str(action.number)):
            if len(label) * CHARACTER < width - 4:
                yield f'<text x="{x + 3:.1f}" y="{y + 11}" fill="black">{label}</text>'
                break
        yield "</g>\n"
