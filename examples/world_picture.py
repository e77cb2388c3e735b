"""Draws what `timeweave replay` printed of a script as a picture in SVG: who told whom of which step, and over which hops a proof leads.

    timeweave replay FILE | python3 examples/world_picture.py FILE > world.svg

Each service has a row, and each line of the script its place from left to right. A dot is a step that a line made, with its number; an arrow leads from a
step to the step of another service that archived it, broken where the message was forged; a cross is a line that a crash stopped. The hops of the last
proof that `verify` accepted are drawn thick. The picture shows what the program printed, and judges nothing.
"""

import sys
from typing import NamedTuple

import svg

ROW, COLUMN, LEFT, TOP, RADIUS = 70, 34, 130, 70, 6


class Told(NamedTuple):
    """A line of the script with its number, and the words of its answer."""

    number: int
    words: list
    answer: list


class Dot(NamedTuple):
    """A step of a service, or where a line of it was stopped, in the column of its line."""

    service: str
    step: int
    column: int
    kind: str


class Arrow(NamedTuple):
    """A step of a service, and the step of another that archived it."""

    sender: str
    step: int
    receiver: str
    archived: int


def told_lines(script, output):
    """The lines of a script with their answers, but for the last line, which counts."""
    answers = [line.split() for line in output.splitlines() if not line.startswith("{")]
    lines = script.splitlines()
    return [Told(int(number), lines[int(number) - 1].split(), answer) for number, *answer in answers]


class World:
    """What the lines made: services in their order, dots, arrows, and of each file the hops that its proof shows."""

    def __init__(self, told):
        self.services, self.dots, self.arrows, self.hops = [], [], [], set()
        self.steps, self.messages, self.files = {}, [], []
        for column, line in enumerate(told):
            getattr(self, line.words[0], self.other)(column, *line.words[1:], answer=line.answer)

    def other(self, column, *words, answer):
        """A line that shows nothing."""

    def service(self, column, name, answer):
        self.services.append(name)
        self.steps[name] = 0

    def moved(self, column, name, steps, kind):
        """A dot for the service's step, where it has one more."""
        if steps > self.steps[name]:
            self.steps[name] = steps
            self.dots.append(Dot(name, steps, column, kind))

    def ended(self, column, name, answer):
        """What is seen of a line that may add a step; the number of a step that is told."""
        told = answer[0] in ("step", "receipt")
        if told:
            self.moved(column, name, int(answer[1]), "step")
        if answer[0] == "stopped":
            self.moved(column, name, int(answer[2]), "step")
        if "reopened" in answer:
            self.dots.append(Dot(name, 0, column, "crash"))
        return int(answer[1]) if told else None

    def append(self, column, name, *events, answer):
        self.ended(column, name, answer)

    def send(self, column, name, since, answer):
        self.messages.append((name, self.steps[name]) if answer[0] == "message" else None)

    def inject(self, column, name, text, answer):
        self.messages.append((name, None))

    def deliver(self, column, number, name, answer):
        archived = self.ended(column, name, answer)
        sender = self.messages[int(number) - 1]
        if archived is not None and sender is not None:
            self.arrows.append(Arrow(*sender, name, archived))

    def prove(self, column, name, kind, *words, answer):
        shown = {(words[1], int(words[2]), name)} if kind == "thread" and answer[0] == "file" else set()
        self.files.append(shown)

    def join(self, column, *numbers, answer):
        parts = [self.files[int(number) - 1] for number in numbers]
        self.files.append(set().union(*parts) if answer[0] == "file" else set())

    def verify(self, column, number, answer):
        if answer[0] == "accepted" and self.files[int(number) - 1]:
            self.hops = self.files[int(number) - 1]

    def is_shown(self, arrow):
        """Whether the last accepted proof has this hop."""
        return (arrow.sender, arrow.step, arrow.receiver) in self.hops


def x_of(column):
    return LEFT + COLUMN * column


def rows(world):
    """Where the row of each service is."""
    return {name: TOP + ROW * row for row, name in enumerate(world.services)}


def drawn_arrows(world, top, at):
    """Each archived thread: from its step, or, of a name that lies, from above."""
    for arrow in world.arrows:
        x, y = at[arrow.receiver, arrow.archived], top[arrow.receiver]
        from_x = at.get((arrow.sender, arrow.step), x)
        from_y = top.get(arrow.sender, y - ROW // 2)
        kind = "hop" if world.is_shown(arrow) else "thread" if (arrow.sender, arrow.step) in at else "forged"
        back = (RADIUS + 3) if y > from_y else -(RADIUS + 3)
        yield svg.shape("line", x1=from_x, y1=from_y, x2=x, y2=y - back, class_=kind, marker_end="url(#arrow)")


def drawn(world, columns):
    """The lines of the picture: rows, arrows, and dots."""
    top = rows(world)
    at = {(dot.service, dot.step): x_of(dot.column) for dot in world.dots if dot.step}
    for name, y in top.items():
        yield svg.text(LEFT - 20, y + 4, name, "end", class_="service")
        yield svg.shape("line", x1=LEFT - 10, y1=y, x2=x_of(columns), y2=y, class_="row")
    yield from drawn_arrows(world, top, at)
    for dot in world.dots:
        x, y = x_of(dot.column), top[dot.service]
        if dot.kind == "crash":
            yield svg.shape("path", d=f"M{x - 5} {y - 16}l10 10m0 -10l-10 10", class_="crash")
        else:
            yield svg.shape("circle", cx=x, cy=y, r=RADIUS)
            yield svg.text(x, y + 22, dot.step, "middle", class_="step")


STYLE = """text { font: 12px sans-serif } .service { font-weight: bold } .row { stroke: #ddd } circle { fill: #246 } .thread, .forged { stroke: #888 }
.forged { stroke-dasharray: 4 3 } .hop { stroke: #a30; stroke-width: 2.5 } .crash { stroke: #a30; stroke-width: 2; fill: none }"""


def picture(script, output):
    """The picture, as the text of a file."""
    told = told_lines(script, output)
    world = World(told)
    width, height = x_of(len(told)) + 40, TOP + ROW * len(world.services)
    title = f"{len(told)} lines, {sum(world.steps.values())} steps, {len(world.arrows)} archived threads"
    parts = [svg.arrow(6, "#666"), svg.text(20, 28, title, class_="service"), *drawn(world, len(told))]
    return svg.picture(width, height, parts, title, STYLE)


if __name__ == "__main__":
    with open(sys.argv[1], encoding="ascii") as file:
        sys.stdout.write(picture(file.read(), sys.stdin.read()))
