"""The page of a refusal and of an explanation: the reasons as a picture and as sentences, and how far one gets."""

import argparse
import dataclasses
import html
import os
from collections.abc import Iterator, Sequence

from metis_planner import program
from metis_planner.answers import Refused
from metis_planner.look.show import Look, explanation_lines
from metis_planner.page import sheet, values, verdict
from metis_planner.page.cause import Cause, Link, Node
from metis_planner.text import plans
from metis_planner.text.documents import ComponentType
from metis_planner.text.reading import read_text

CHARACTER, HEIGHT, EDGE = 6.9, 40, 14
WIDEST = 900  # a picture from left to right is no wider: else it goes from the top down
MOST_LINES = 400
UNCHECKED = "Not checked, since no universe was named: with --universe FILE the program checks it."


@dataclasses.dataclass(frozen=True)
class Said:
    """What is read of a target that is not attained: a refusal, an explanation, or both, each with its text."""

    refusal: tuple[plans.Refusal, str] | None
    explanation: tuple[plans.Explanation, str] | None

    @property
    def goal(self) -> str:
        found = self.refusal or self.explanation
        assert found is not None
        return found[0].lacks


def page(arguments: argparse.Namespace, text: str, title: str) -> str:
    for name in ("waves", "olds", "placement"):
        if getattr(arguments, name):
            raise Refused(f"{arguments.plan}: it is no plan, so --{'from' if name == 'olds' else name} says nothing of it")
    said = read(arguments, text)
    types = values.types_in(arguments)
    return sheet.of_reasons(title, verdict_of(arguments, said), "\n".join(parts(said, types)))


def read(arguments: argparse.Namespace, text: str) -> Said:
    found = [(text, arguments.plan)]
    if arguments.why:
        found.append((read_text(arguments.why, plans.MOST_BYTES), arguments.why))
    refusal, explanation = None, None
    for each, path in found:
        try:
            said = plans.read(each)
        except plans.NoText as fault:
            raise Refused(f"{path}: {fault}") from fault
        if isinstance(said, plans.Refusal):
            refusal = (said, each)
        elif isinstance(said, plans.Explanation):
            explanation = (said, each)
        else:
            raise Refused(f"{path}: a plan, where a refusal or an explanation is wanted")
    if refusal and explanation and refusal[0].lacks != explanation[0].lacks:
        raise Refused(f"{arguments.why}: it says that {explanation[0].lacks} is lacking, and not {refusal[0].lacks}")
    if explanation and len(explanation[0].reasons) > MOST_LINES:
        raise Refused(
            f"{len(explanation[0].reasons)} lines, and a picture of more than {MOST_LINES} is not read by anybody"
        )
    if refusal and not explanation and arguments.universe:
        explanation = asked_why(arguments.universe, refusal[0].lacks)
    return Said(refusal, explanation)


def asked_why(universe: str, goal: str) -> tuple[plans.Explanation, str] | None:
    """What `metis why` says of a goal, if the program is there and its explanation is one that can be drawn."""
    try:
        text = program.ask(["why", os.path.abspath(universe), goal]).text
        found = plans.read(text)
    except (Refused, OSError, plans.NoText):
        return None
    if not isinstance(found, plans.Explanation) or found.lacks != goal or len(found.reasons) > MOST_LINES:
        return None
    return found, text


def verdict_of(arguments: argparse.Namespace, said: Said) -> verdict.Verdict:
    if not arguments.universe:
        return verdict.Verdict("none", UNCHECKED)
    texts = (("refute", said.refusal), ("confirm", said.explanation))
    questions = [verdict.Question(word, found[1], (said.goal,)) for word, found in texts if found]
    return verdict.of(arguments.universe, questions)


def parts(said: Said, types: Sequence[ComponentType] | None) -> Iterator[str]:
    if said.explanation:
        yield from explained(said.explanation[0])
    else:
        goal = html.escape(said.goal)
        why = "metis why says in a few lines what prevents it: add --why FILE."
        yield f'<main><div><p class="say">{goal} is not attained.</p><p>{why}</p></div></main>'
    if said.refusal:
        yield from reached(said.refusal[0], types)


def explained(explanation: plans.Explanation) -> Iterator[str]:
    cause = Cause(explanation)
    title, *sentences = explanation_lines(explanation, Look())
    red = {link.line for link in cause.links if cause.is_in_ring(link)}
    items = [
        f'<li tabindex="0" data-line="{line}"{" class=ring" if line in red else ""}>{html.escape(text.strip())}</li>'
        for line, text in enumerate(sentences)
    ]
    yield '<main><div><div id="scroll"><div id="pane">'
    label = f"the reasons why {explanation.lacks} is not attained, which are beside it as sentences"
    for is_narrow in (False, True):
        yield from Picture(cause, is_narrow).lines(html.escape(label))
    yield '</div></div><p class="notes"><span>→ needs, from</span><span>⇢ dashed: is reached from</span>'
    yield "<span>thick and red: a circle</span></p></div>"
    yield f'<aside id="beside"><section id="told"><p class="say">{html.escape(title)}</p><ol>{"".join(items)}</ol></section>'
    yield f'<section id="more">{"".join(conclusions(cause, explanation))}</section></aside></main>'


def conclusions(cause: Cause, explanation: plans.Explanation) -> Iterator[str]:
    for names in cause.circles():
        listed = html.escape(", ".join(names[:-1]))
        last = html.escape(names[-1])
        text = (
            f"{listed} and {last} wait for each other, so none of them can be the first."
            if listed
            else f"{last} waits for itself."
        )
        yield f'<p class="circle"><span class="bad">A circle.</span> {text}</p>'
    for reason in explanation.reasons:
        if not reason.names and not reason.is_start:
            text = f"No move leads to {reason.pair}." if reason.comes else f"Nothing provides {reason.needs}."
            yield f'<p class="bad">{html.escape(text)}</p>'
    mend = "Make any one of these sentences false: let another state provide the port, add a move, or require less."
    first = mend if explanation.reasons else "Let a state provide it."
    yield f"<p>{first} If another cause is left, <i>metis why</i> names it next.</p>"


def reached(refusal: plans.Refusal, types: Sequence[ComponentType] | None) -> Iterator[str]:
    """How far one gets: each type with its states, of which those that cannot be attained are dashed."""
    got = set(refusal.pairs)
    rows: dict[str, list[str]] = {}
    if types is not None:
        rows = {kind.name: [state.name for state in kind.states] for kind in types}
    else:
        for pair in refusal.pairs:
            kind, _, state = pair.partition(":")
            rows.setdefault(kind, []).append(state)
    more = "; dashed cannot" if types is not None else ""
    title = f"How far one gets: {sheet.counted(len(got), 'pair')} can be attained{more}"
    yield f'<section aria-label="how far one gets"><h2>{title}</h2><div class=pairs>'
    for kind, states in rows.items():
        chips = []
        for state in states:
            pair = f"{kind}:{state}"
            name = "chip" if pair in got else "chip goal" if pair == refusal.lacks else "chip not"
            chips.append(f'<span class="{name}">{html.escape(state)}</span>')
        yield f"<p><b>{html.escape(kind)}</b> {' '.join(chips)}</p>"
    yield "</div></section>"


class Picture:
    """The graph as SVG: from left to right or, if that is too wide, from the top down."""

    def __init__(self, cause: Cause, is_narrow: bool) -> None:
        self.cause, self.is_narrow = cause, is_narrow
        texts = [text for node in cause.nodes for text in (node.text, *node.notes)]
        self.width = max(90.0, CHARACTER * max(map(len, texts)) + 24)
        self.gap = max(60.0, CHARACTER * max((len(link.text) for link in cause.links), default=0) + 26)
        columns = 1 + max(node.column for node in cause.nodes)
        self.is_down = is_narrow or columns * (self.width + self.gap) - self.gap + 2 * EDGE > WIDEST
        self.right = self.bottom = 0.0
        self.at = self.placed()

    def placed(self) -> dict[int, tuple[float, float]]:
        columns = self.cause.columns()
        tall = max(map(len, columns))
        at: dict[int, tuple[float, float]] = {}
        for column, places in enumerate(columns):
            for number, place in enumerate(places):
                if self.is_down:
                    at[place] = (EDGE + number * (self.width + 16), 20 + column * (HEIGHT + 52))
                else:
                    middle = number + (tall - len(places)) / 2
                    at[place] = (EDGE + column * (self.width + self.gap), 20 + middle * (HEIGHT + 34))
                self.reach(at[place][0] + self.width, at[place][1] + HEIGHT)
        return at

    def reach(self, right: float, bottom: float) -> None:
        self.right, self.bottom = max(self.right, right + EDGE), max(self.bottom, bottom + EDGE)

    def lines(self, label: str) -> Iterator[str]:
        links = [part for link in self.cause.links for part in self.link(link)]
        nodes = [self.node(node, *self.at[place]) for place, node in enumerate(self.cause.nodes)]
        size = f'width="{self.right:.0f}" height="{self.bottom:.0f}" viewBox="0 0 {self.right:.0f} {self.bottom:.0f}"'
        name = "narrow" if self.is_narrow else "wide"
        yield f'<svg class="{name}" {size} role="img" aria-label="{label}">'
        yield from sorted(links, key=lambda part: part.startswith("<text"))
        yield from nodes
        yield "</svg>"

    def node(self, node: Node, x: float, y: float) -> str:
        kinds = [("none", node.is_none), ("goal", node is self.cause.nodes[0]), ("ring", node.ring > 0)]
        name = " ".join(["node", *(kind for kind, is_so in kinds if is_so)])
        lines = {line for line in node.lines}
        lines |= {link.line for link in self.cause.links if link.line is not None and self.cause.nodes[link.end] is node}
        middle = f'x="{self.width / 2:.1f}" text-anchor="middle"'
        notes = "".join(f'<text class="cap" {middle} y="32">{html.escape(note)}</text>' for note in node.notes[:1])
        return (
            f'<g class="{name}" data-lines="{" ".join(map(str, sorted(lines)))}" transform="translate({x:.1f},{y:.1f})">'
            f'<rect width="{self.width:.1f}" height="{HEIGHT}" rx="6"/>'
            f'<text class="say" {middle} y="{17 if node.notes else 24}">{html.escape(node.text)}</text>{notes}</g>'
        )

    def link(self, link: Link) -> Iterator[str]:
        path, tip, text = self.curve(link)
        is_aside = self.is_down and self.cause.nodes[link.start].column >= self.cause.nodes[link.end].column
        wide = CHARACTER * len(link.text)
        left = text[0] if is_aside else max(EDGE, text[0] - wide / 2)
        self.reach(left + wide, 0)
        ring = " ring" if self.cause.is_in_ring(link) else ""
        way = " way" if link.is_way else ""
        own = f'data-lines="{"" if link.line is None else link.line}"'
        yield f'<path class="arrow{way}{ring}" {own} d="{path}"/>'
        yield f'<path class="tip{ring}" {own} d="M0 0L-9-5L-9 5Z" transform="translate({tip[0]:.1f},{tip[1]:.1f}) rotate({tip[2]})"/>'
        label = html.escape(link.text)
        at, anchor = (left, "start") if is_aside else (left + wide / 2, "middle")
        yield f'<text class="tag{ring}" {own} x="{at:.1f}" y="{text[1]:.1f}" text-anchor="{anchor}">{label}</text>'

    def curve(self, link: Link) -> tuple[str, tuple[float, float, int], tuple[float, float]]:
        """The path of a link, its tip with the way it points, and where its text is."""
        (x, y), (to_x, to_y) = self.at[link.start], self.at[link.end]
        back = self.cause.nodes[link.start].column - self.cause.nodes[link.end].column
        if back >= 0 and self.is_down:
            first, last = self.cause.nodes[link.end].column, self.cause.nodes[link.start].column
            beside = [self.at[place][0] for place, node in enumerate(self.cause.nodes) if first <= node.column <= last]
            out = max(beside) + self.width + 46
            y1, y2 = y + HEIGHT / 2, to_y + HEIGHT / 2
            path = curved((x + self.width, y1), (out, y1), (out, y2), (to_x + self.width + 7, y2))
            self.reach(out + 20, 0)
            return path, (to_x + self.width, to_y + HEIGHT / 2, 180), (out - 4, (y + to_y + HEIGHT) / 2)
        if back >= 0:
            low = max(y, to_y) + HEIGHT + 30 + 14 * back
            x1, x2 = x + self.width / 2 + 12, to_x + self.width / 2 - 12
            self.reach(0, low + 6)
            path = curved((x1, y + HEIGHT), (x1, low + 10), (x2, low + 10), (x2, to_y + HEIGHT + 7))
            return path, (x2, to_y + HEIGHT, -90), ((x1 + x2) / 2, low - 3)
        if self.is_down:
            x1, x2, half = x + self.width / 2, to_x + self.width / 2, (y + HEIGHT + to_y - 7) / 2
            path = curved((x1, y + HEIGHT), (x1, half), (x2, half), (x2, to_y - 7))
            return path, (x2, to_y, 90), ((x1 + x2) / 2, half + 4)
        x1, x2, y1, y2 = x + self.width, to_x - 7, y + HEIGHT / 2, to_y + HEIGHT / 2
        half = (x1 + x2) / 2
        return curved((x1, y1), (half, y1), (half, y2), (x2, y2)), (to_x, y2, 0), (half, (y1 + y2) / 2 - 6)


def curved(*points: tuple[float, float]) -> str:
    start, *rest = (f"{x:.1f} {y:.1f}" for x, y in points)
    return f"M{start}C{' '.join(rest)}"
