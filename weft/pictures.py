"""Pictures of what a verdict says, as SVG: services as lines from left to right, and what was received as arrows.

They are 800 pixels wide. A chain of many hops goes on in further bands below. All text is escaped, and none of it lies on a line."""

from __future__ import annotations

import html
from typing import NamedTuple, Optional, Sequence

from weft.events import drawn_event
from weft.formats import MapHead
from weft.lines import Line
from weft.pages import ListedStep
from weft.reports import Event, Hop, Report
from weft.texts import count_of, printable

WIDTH, LEFT = 800, 150
ROW, MARGIN, RADIUS = 62, 24, 6
MOST_HOPS = 4
# So many steps of a history are drawn.
MOST_STEPS = 12
CHARACTERS, LETTER = 90, 7.6


class Node(NamedTuple):
    """A step of a service, and the letter of the event that stands there, if one does."""

    service: str
    step: int
    letter: str = ""


class Arrow(NamedTuple):
    """From one node to a later one, by their numbers: `hop`, `carried` or `none`, of what wasn't received."""

    start: int
    end: int
    kind: str


class Scene(NamedTuple):
    """Nodes from left to right, arrows between them, and which lines bind which node: the node's number and the line's step."""

    nodes: list[Node]
    arrows: list[Arrow]
    binds: list[tuple[int, int]]


STYLE = """text { font: 13px sans-serif; fill: #222; paint-order: stroke; stroke: #fff; stroke-width: 3px; stroke-linejoin: round }
.name, .title { font-weight: bold } .title { font-size: 15px } .row { stroke: #c8c8c8; stroke-width: 1.5 }
.node, .event { fill: #246; stroke: #fff; stroke-width: 1.5 }
.hop { stroke: #246; stroke-width: 2; fill: none } .carried { stroke: #a30; stroke-width: 2; stroke-dasharray: 6 4; fill: none }
.none { stroke: #a30; stroke-width: 2; stroke-dasharray: 2 4; fill: none } .cross { stroke: #a30; stroke-width: 3 }
.bind { stroke: #2a7d4f; stroke-width: 5; stroke-linecap: round } .line { fill: #2a7d4f; stroke: #fff; stroke-width: 1.5 }
.letter { fill: #fff; stroke: none; font-weight: bold; font-size: 12px }
.head-hop { fill: #246 } .head-carried { fill: #a30 }"""


def escaped(words: str) -> str:
    """Words as the content of an element."""
    return html.escape(words, quote=False)


def text(x: float, y: float, words: str, kind: str = "", place: str = "start") -> str:
    """A text, escaped."""
    shown = escaped(printable(words)).replace('"', "&quot;")
    return f'<text x="{x:.0f}" y="{y:.0f}" text-anchor="{place}" class="{kind}">{shown}</text>'


def wrapped(words: str) -> list[str]:
    """A long caption in lines."""
    return [words[at : at + CHARACTERS] for at in range(0, len(words), CHARACTERS)] or [""]


def wide(number: int) -> float:
    """How much room a step's number takes."""
    return LETTER * len(f"{number:,}")


class Band:
    """A scene as it is drawn: a row for each service, in the order in which they come."""

    def __init__(self, scene: Scene, top: float):
        self.scene = scene
        names = list(dict.fromkeys(node.service for node in scene.nodes))
        self.rows = {name: top + MARGIN + ROW * place for place, name in enumerate(names)}
        self.right = WIDTH - 30 - max([wide(step) for _, step in scene.binds], default=0.0)
        space = self.right - LEFT - 40 - wide(scene.nodes[-1].step)
        gap = min(150.0, space / max(1, len(scene.nodes) - 1))
        self.at = [LEFT + 20 + gap * place for place in range(len(scene.nodes))]
        self.bottom = top + ROW * len(names) + 8

    def place(self, number: int) -> tuple[float, float]:
        """Where a node stands."""
        return self.at[number], self.rows[self.scene.nodes[number].service]

    def drawn(self) -> list[str]:
        """All of it, what lies below first."""
        parts = []
        for name, y in self.rows.items():
            parts.append(f'<line x1="{LEFT - 8}" y1="{y}" x2="{self.right + 12:.0f}" y2="{y}" class="row"/>')
            parts.append(text(LEFT - 18, y + 5, name, "name", "end"))
        for number, step in self.scene.binds:
            parts += self.bind(number, step)
        for arrow in self.scene.arrows:
            parts += self.arrow(arrow)
        for number in range(len(self.scene.nodes)):
            parts += self.node(number)
        return parts

    def bind(self, number: int, step: int) -> list[str]:
        """What a line binds: from the node to the line's mark at the right end."""
        x, y = self.place(number)
        right = self.right
        return [
            f'<line x1="{x:.0f}" y1="{y}" x2="{right:.0f}" y2="{y}" class="bind"/>',
            f'<path d="M{right:.0f} {y - 9}l9 9l-9 9l-9 -9z" class="line"/>',
            text(right + 16, y + 5, f"{step:,}"),
        ]

    def arrow(self, arrow: Arrow) -> list[str]:
        """An arrow, which ends in front of its node."""
        (x, y), (to_x, to_y) = self.place(arrow.start), self.place(arrow.end)
        length = max(1.0, ((to_x - x) ** 2 + (to_y - y) ** 2) ** 0.5)
        back = (RADIUS + 4) / length
        end_x, end_y = to_x - (to_x - x) * back, to_y - (to_y - y) * back
        head = "carried" if arrow.kind == "none" else arrow.kind
        parts = [f'<line x1="{x:.1f}" y1="{y:.1f}" x2="{end_x:.1f}" y2="{end_y:.1f}" class="{arrow.kind}" marker-end="url(#{head})"/>']
        if arrow.kind == "none":
            mid_x, mid_y = (x + to_x) / 2, (y + to_y) / 2
            parts.append(f'<path d="M{mid_x - 8:.1f} {mid_y - 8:.1f}l16 16m0 -16l-16 16" class="cross"/>')
        return parts

    def is_below(self, number: int) -> bool:
        """Whether a step's number stands below it: where an arrow goes up from it; and where the next step is of the same service, and its number
        stands above."""
        nodes, y = self.scene.nodes, self.place(number)[1]
        if any(arrow.start == number for arrow in self.scene.arrows):
            return any(arrow.start == number and self.place(arrow.end)[1] < y for arrow in self.scene.arrows)
        return number + 1 < len(nodes) and nodes[number + 1].service == nodes[number].service and not self.is_below(number + 1)

    def node(self, number: int) -> list[str]:
        """A step's mark, and its number where no arrow goes."""
        node, (x, y) = self.scene.nodes[number], self.place(number)
        label = text(x + 9, y + 21 if self.is_below(number) else y - 10, f"{node.step:,}")
        if not node.letter:
            return [f'<circle cx="{x:.0f}" cy="{y}" r="{RADIUS}" class="node"/>', label]
        return [
            f'<rect x="{x - 9:.0f}" y="{y - 9}" width="18" height="18" rx="3" class="event"/>',
            text(x, y + 4.5, node.letter, "letter", "middle"),
            label,
        ]


LEGEND = {
    "node": ('<circle cx="{x}" cy="{y}" r="6" class="node"/>', "a step, with its number"),
    "event": ('<rect x="{l}" y="{t}" width="18" height="18" rx="3" class="event"/>', "the step of an event"),
    "hop": ('<line x1="{l}" y1="{y}" x2="{r}" y2="{y}" class="hop" marker-end="url(#hop)"/>', "received"),
    "carried": ('<line x1="{l}" y1="{y}" x2="{r}" y2="{y}" class="carried" marker-end="url(#carried)"/>', "carried: its receiver's word"),
    "none": ('<line x1="{l}" y1="{y}" x2="{r}" y2="{y}" class="none" marker-end="url(#carried)"/>', "not received"),
    "bind": (
        '<line x1="{l}" y1="{y}" x2="{r}" y2="{y}" class="bind"/><path d="M{r} {t}l9 9l-9 9l-9 -9z" class="line"/>',
        "bound by a line that you hold, of this step",
    ),
}


def legend(kinds: list[str], top: float) -> tuple[list[str], float]:
    """What the marks mean, and where it ends."""
    parts, x, y = [], 30.0, top + 20
    for kind in kinds:
        mark, words = LEGEND[kind]
        width = 64 + 7.2 * len(words)
        if x + width > WIDTH:
            x, y = 30.0, y + 28
        parts.append(mark.format(x=x + 10, y=y, l=x, t=y - 9, r=x + 26))
        parts.append(text(x + 42, y + 5, words))
        x += width
    return parts, y + 24


def kinds_of(scenes: list[Scene]) -> list[str]:
    """The marks that the scenes have, in the order of the legend."""
    used = {arrow.kind for scene in scenes for arrow in scene.arrows}
    used |= {"event" if node.letter else "node" for scene in scenes for node in scene.nodes}
    used |= {"bind" for scene in scenes if scene.binds}
    return [kind for kind in LEGEND if kind in used]


def picture(title: str, captions: list[str], scenes: list[Scene]) -> str:
    """The picture, as the text of a file."""
    parts, y = [text(30, 32, title, "title")], 56.0
    for line in (line for caption in captions for line in wrapped(caption)):
        parts.append(text(30, y, line))
        y += 20
    for scene in scenes:
        band = Band(scene, y + 8)
        parts += band.drawn()
        y = band.bottom
    marks, y = legend(kinds_of(scenes), y)
    head = f'<svg xmlns="http://www.w3.org/2000/svg" width="{WIDTH}" height="{y:.0f}" viewBox="0 0 {WIDTH} {y:.0f}" role="img">'
    heads = "".join(
        f'<marker id="{kind}" viewBox="0 0 8 8" refX="7" refY="4" markerWidth="5" markerHeight="5" orient="auto"><path d="M0 0 8 4 0 8z" '
        f'class="head-{kind}"/></marker>'
        for kind in ("hop", "carried")
    )
    ground = f'<rect width="{WIDTH}" height="{y:.0f}" fill="#fff"/>'
    body = [head, f"<title>{escaped(printable(title))}</title>", f"<style>{STYLE}</style>", f"<defs>{heads}</defs>", ground, *parts, *marks]
    return "\n".join([*body, "</svg>\n"])


# ---- what the verdicts of each kind look like


def tops(lines: list[Line]) -> dict[str, int]:
    """The step of the line that is held of each service."""
    return {line.service: line.step for line in lines}


def caption(letter: str, event: Event) -> str:
    """What an event's letter stands for."""
    return f"{letter}: {event.service}, step {event.step:,}, event {event.index}: {drawn_event(event.data)}"


def chain_scene(hops: list[Hop], first: Optional[Node], last: Optional[Node], held: dict[str, int]) -> Scene:
    """Some hops that follow one another, with the first event and the second where they stand there."""
    nodes: list[Node] = [first] if first else []
    arrows, binds = [], []
    for hop in hops:
        start = Node(hop.service, hop.step)
        if not nodes or nodes[-1][:2] != start[:2]:
            nodes.append(start)
        if not hop.is_carried and hop.service in held:
            binds.append((len(nodes) - 1, held[hop.service]))
        nodes.append(Node(hop.by, hop.archived))
        arrows.append(Arrow(len(nodes) - 2, len(nodes) - 1, "carried" if hop.is_carried else "hop"))
    if last:
        if nodes and nodes[-1][:2] == last[:2]:
            nodes[-1] = last
        else:
            nodes.append(last)
        if last.service in held:
            binds.append((len(nodes) - 1, held[last.service]))
    return Scene(nodes, arrows, binds)


def hops_of_a_band(report: Report, held: dict[str, int]) -> int:
    """How many hops fit beside one another, by the longest number of a step."""
    longest = max([wide(number) for hop in report.hops for number in (hop.step, hop.archived)], default=0.0)
    room = WIDTH - LEFT - 70 - longest - max([wide(step) for step in held.values()], default=0.0)
    return max(1, min(MOST_HOPS, int(room / (longest + 22)) // 2))


def chain(report: Report, held: dict[str, int]) -> list[Scene]:
    """The hops in bands."""
    first, last = (Node(event.service, event.step, letter) for event, letter in zip(report.events, "AB"))
    most = hops_of_a_band(report, held)
    bands = [report.hops[at : at + most] for at in range(0, len(report.hops), most)] or [[]]
    end = len(bands) - 1
    return [chain_scene(band, first if place == 0 else None, last if place == end else None, held) for place, band in enumerate(bands)]


def received(words: list[str], held: dict[str, int]) -> Scene:
    """A line that was received."""
    service, step, peer, number, _, archived = words
    nodes = [Node(peer, int(number)), Node(service, int(archived))]
    if step != archived:
        nodes.append(Node(service, int(step)))
    return Scene(nodes, [Arrow(0, 1, "hop")], [(1, held[service])] if service in held else [])


def absent(words: list[str], held: dict[str, int]) -> Scene:
    """One that wasn't."""
    service, step, peer, number = words
    nodes = [Node(peer, int(number)), Node(service, int(step))]
    return Scene(nodes, [Arrow(0, 1, "none")], [(1, held[service])] if service in held else [])


def between(report: Report, head: MapHead, held: dict[str, int]) -> Scene:
    """A step between two of a peer."""
    low, high = report.other("low")[0], report.other("high")[0]
    service, peer = (head.service, head.peer) if head.kind == "low" else (head.peer, head.service)
    nodes = ([Node(peer, int(low))] if low != "0" else []) + [Node(service, head.step)] + ([Node(peer, int(high))] if high != "none" else [])
    own = next(place for place, node in enumerate(nodes) if node.service == service)
    arrows = [Arrow(place, place + 1, "hop") for place in range(len(nodes) - 1)]
    binds = [(own, held[service])] if service in held else []
    if high != "none" and peer in held:
        binds.append((len(nodes) - 1, held[peer]))
    return Scene(nodes, arrows, binds)


def fork(report: Report, held: dict[str, int]) -> list[Scene]:
    """Two lines that no history has both, each as it was received."""
    scenes = []
    for word in ("first", "second"):
        service, step, _, by, archived = report.other(word)
        nodes = [Node(service, int(step)), Node(by, int(archived))]
        scenes.append(Scene(nodes, [Arrow(0, 1, "hop")], [(1, held[by])] if by in held else []))
    return scenes


def steps_drawn(steps: Sequence[ListedStep], bound: int) -> list[ListedStep]:
    """Of a history's steps so many as a picture has room for: all, or the first and last ones, those about the bound one, and the first that received something."""
    if len(steps) <= MOST_STEPS:
        return list(steps)
    last = len(steps)
    wanted = dict.fromkeys([1, last, bound, min(bound + 1, last), *(step.number for step in steps if step.received is not None), *range(2, MOST_STEPS + 1)])
    chosen = sorted([number for number in wanted if number][:MOST_STEPS])
    return [steps[number - 1] for number in chosen]


def history_scene(service: str, steps: Sequence[ListedStep], bound: int) -> Scene:
    """Some steps of a history that follow one another, and what they received; what a line binds where one does."""
    nodes, arrows, first = list[Node](), list[Arrow](), None
    for step in steps:
        if step.received is not None:
            nodes.append(Node(step.received.service, step.received.step))
            arrows.append(Arrow(len(nodes) - 1, len(nodes), "carried"))
        nodes.append(Node(service, step.number))
        first = len(nodes) - 1 if first is None else first
    return Scene(nodes, arrows, [(first, bound)] if first is not None and steps[-1].number <= bound else [])


def history(service: str, steps: Sequence[ListedStep], bound: int) -> str:
    """The picture of a whole history that is bound up to a step, 0 for by no line: its steps, or as many of them as there is room for, and what they received."""
    drawn = steps_drawn(steps, bound)
    parts = [[step for step in drawn if step.number <= bound], [step for step in drawn if step.number > bound]]
    scenes = [history_scene(service, part[at : at + MOST_HOPS], bound) for part in parts for at in range(0, len(part), MOST_HOPS)]
    events, received = sum(len(step.events) for step in steps), sum(step.received is not None for step in steps)
    captions = [f"{count_of(len(steps), 'step')}, {count_of(events, 'event')}, {count_of(received, 'received line')}", *([f"{len(drawn)} of its steps are drawn"] * (len(drawn) < len(steps)))]
    bound_told = f"bound up to step {bound:,}" if bound else "bound by no line that you hold"
    return picture(f"The history of {service}, {bound_told}", captions, scenes)


def verdict(report: Report, lines: list[Line], head: Optional[MapHead]) -> str:
    """The picture of an accepted verdict."""
    held = tops(lines)
    captions = [caption(letter, event) for letter, event in zip("AB", report.events)]
    if report.kind == "precedes":
        first, second = report.events
        way = f"over {len(report.hops)} hops" if len(report.hops) != 1 else "over one hop"
        title = f"Step {first.step:,} of {first.service} came before step {second.step:,} of {second.service}, {way}"
        return picture(title, captions, chain(report, held))
    if report.kind == "exists":
        event = report.events[0]
        binds = [(0, held[event.service])] if event.service in held else []
        return picture(f"{event.service} recorded A in its step {event.step:,}", captions, [Scene([Node(event.service, event.step, "A")], [], binds)])
    if report.kind == "map" and head:
        return picture(f"Step {head.step:,} of {head.service} among the steps of {head.peer}", [], [between(report, head, held)])
    if report.kind == "fork":
        return picture(f"No history of {report.other('first')[0]} has both of these", [], fork(report, held))
    words = report.other(report.kind)
    if report.kind == "thread":
        return picture(f"{words[0]} received step {int(words[3]):,} of {words[2]}", [], [received(words, held)])
    if report.kind == "absent":
        return picture(f"{words[0]} received no step {int(words[3]):,} of {words[2]} up to its step {int(words[1]):,}", [], [absent(words, held)])
    nodes = [Node(words[0], int(words[1]))]
    return picture(f"Step {int(words[1]):,} of {words[0]} has {words[3][:16]}..", [], [Scene(nodes, [], [(0, int(words[2]))])])
