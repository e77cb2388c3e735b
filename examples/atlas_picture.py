"""Draws what `timeweave atlas` prints as a picture in SVG: which services a step leads to, over which hops.

    timeweave atlas NAME POS FILE .. | python3 examples/atlas_picture.py > atlas.svg

Each service has a row, and stands in it with each step of its that a leg leads to, by how many hops: a line is a leg, with the step whose thread
was received where that is a later one than the step that the leg goes on from. The steps of arrivals are filled: the earliest of each service. The
picture shows what the program printed, and judges nothing: receipts are claims.
"""

import sys
from collections import Counter
from typing import NamedTuple

import svg

ROW, COLUMN, LEFT, TOP, RADIUS = 40, 150, 150, 60, 6


class Leg(NamedTuple):
    """A hop, and the number of the leg that it goes on from, 0 for the start."""

    after: int
    service: str
    step: int
    by: str
    archived: int


class Atlas(NamedTuple):
    """The start, the legs from number 1 on, and the numbers of the legs that arrive first, by their services."""

    service: str
    step: int
    legs: list
    arrivals: dict


class Stop(NamedTuple):
    """Where the start or a leg stands in the picture, and with which step."""

    x: int
    y: int
    step: int


def read_atlas(lines):
    """The atlas of the lines that the program printed."""
    (_, service, step), *rest = (line.split() for line in lines)
    legs = [Leg(int(words[3]), words[5], int(words[6]), words[7], int(words[8])) for words in rest if words[0] == "leg"]
    arrivals = {words[1]: int(words[4]) for words in rest if words[0] == "arrive"}
    return Atlas(service, int(step), legs, arrivals)


def depths(atlas):
    """How many hops lead to the start and to each leg."""
    found = [0]
    for leg in atlas.legs:
        found.append(found[leg.after] + 1)
    return found


def places(atlas):
    """The service of the start and of each leg, with how many hops lead there."""
    return list(zip([atlas.service, *(leg.by for leg in atlas.legs)], depths(atlas)))


def rows(atlas):
    """The services in the order in which they are reached first, and how many stops of one column stand in the row of each."""
    most = dict.fromkeys(sorted(atlas.arrivals, key=atlas.arrivals.get), 1)
    for (service, _), count in Counter(places(atlas)).items():
        most[service] = max(most[service], count)
    return most


def stops(atlas):
    """Where the start and each leg stand, those of one row and column one below the other; and where the row of each service is."""
    top, at = {}, TOP
    for service, most in rows(atlas).items():
        top[service], at = at, at + ROW * most
    taken, found = Counter(), []
    for (service, depth), step in zip(places(atlas), [atlas.step, *(leg.archived for leg in atlas.legs)]):
        found.append(Stop(LEFT + COLUMN * depth, top[service] + ROW * taken[service, depth], step))
        taken[service, depth] += 1
    return found, top


def drawn(atlas):
    """The lines of the picture: rows, legs, and stops."""
    found, top = stops(atlas)
    for service, y in top.items():
        yield svg.text(LEFT - 30, y + 4, service, "end", class_="service")
    for leg, stop in zip(atlas.legs, found[1:]):
        before = found[leg.after]
        yield svg.shape("line", x1=before.x, y1=before.y, x2=stop.x - RADIUS - 3, y2=stop.y, marker_end="url(#arrow)")
        if leg.step != before.step:
            yield svg.text((before.x + stop.x) // 2, (before.y + stop.y) // 2 - 6, f"from {leg.step}", "middle", class_="from")
    for number, stop in enumerate(found):
        kind = "first" if number in atlas.arrivals.values() else "later"
        yield svg.shape("circle", cx=stop.x, cy=stop.y, r=RADIUS, class_=kind)
        yield svg.text(stop.x + RADIUS + 4, stop.y - 6, stop.step, class_="step")


STYLE = """text { font: 13px sans-serif } .service { font-weight: bold } .from { font-size: 11px; fill: #666 } line { stroke: #888 }
circle { stroke: #246; stroke-width: 1.5 } .first { fill: #246 } .later { fill: white }"""


def picture(atlas):
    """The picture, as the text of a file."""
    width = LEFT + COLUMN * max(depths(atlas)) + 100
    height = TOP + ROW * sum(rows(atlas).values())
    title = f"Where step {atlas.step} of {atlas.service} leads"
    return svg.picture(width, height, [svg.arrow(7, "#888"), svg.text(20, 28, title, class_="service"), *drawn(atlas)], title, STYLE)


if __name__ == "__main__":
    sys.stdout.write(picture(read_atlas(sys.stdin)))
