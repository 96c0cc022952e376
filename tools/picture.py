#!/usr/bin/env python3
"""Draws designs as SVG.

picture incidence [--design N] < SOURCE or DOSSIER   the incidence matrix: a row for each point, a column for each block
picture circle [--design N] < SOURCE or DOSSIER      the base blocks of a cyclic group as polygons on the circle of its elements, one
                                                     circle for each block, and the differences of each below it

Of a source the development of its family is drawn, which has to be accepted; of a dossier its design N, from 1 (the first, where
it isn't stated). A side and a diagonal of a polygon have the same colour where their difference is the same up to its sign. Fixed
points stand beside the circle. No proof is claimed of this tool; the program that it calls is proved.
"""
import math
import re
import sys
from dataclasses import dataclass
from itertools import combinations, islice

import dossiers

USAGE = "picture: incidence or circle is wanted, and maybe --design N; --help tells more"
CELL, MARGIN, LETTER = 12, 10, 7
RADIUS, PANEL, LINE, PANELS_IN_A_ROW = 90, 260, 14, 4


@dataclass(frozen=True)
class Request:
    form: str
    design: int


def request_of(words):
    """The request, or None where the words are wrong."""
    if not words or words[0] not in FORMS:
        return None
    if len(words) == 1:
        return Request(words[0], 1)
    if len(words) == 3 and words[1] == "--design" and re.fullmatch(r"[0-9]{1,18}", words[2]) and int(words[2]) > 0:
        return Request(words[0], int(words[2]))
    return None


def nth(items, number):
    """The item of a number from 1."""
    found = next(islice(items, number - 1, None), None)
    if found is None:
        raise dossiers.Refusal(dossiers.STATUS_BAD_INPUT, f"there is no design {number}")
    return found


# Parts of SVG

def document(width, height, parts):
    head = (f'<svg xmlns="http://www.w3.org/2000/svg" width="{width}" height="{height}" viewBox="0 0 {width} {height}" '
            'font-family="sans-serif" font-size="11">')
    return "\n".join([head, f'<rect class="paper" width="{width}" height="{height}" fill="white"/>', *parts, "</svg>"]) + "\n"


def text_at(x, y, words, anchor="middle"):
    return f'<text x="{x:.1f}" y="{y:.1f}" text-anchor="{anchor}">{words}</text>'


# The incidence matrix

def incidence_picture(text, number):
    design = nth(dossiers.designs_of(text), number)
    names, blocks = design.problem.points, design.blocks
    left = 2 * MARGIN + LETTER * max(map(len, names))
    width, height = left + CELL * len(blocks) + MARGIN, 2 * MARGIN + CELL * len(names)
    parts = [text_at(left - 5, MARGIN + CELL * row + CELL - 2, name, "end") for row, name in enumerate(names)]
    parts += [f'<rect class="cell" x="{left + CELL * column}" y="{MARGIN + CELL * point}" width="{CELL}" height="{CELL}" fill="black" '
              'stroke="white" stroke-width="0.5"/>' for column, block in enumerate(blocks) for point in block]
    parts.append(f'<rect class="frame" x="{left}" y="{MARGIN}" width="{CELL * len(blocks)}" height="{CELL * len(names)}" fill="none" '
                 'stroke="black"/>')
    return document(width, height, parts)


# Base blocks on the circle

def circle_picture(text, number):
    problem, base_blocks = base_blocks_of(text, number)
    if len(problem.factors) != 1:
        raise dossiers.Refusal(dossiers.STATUS_BAD_INPUT, "only a cyclic group of one factor has a circle")
    columns = max(1, min(PANELS_IN_A_ROW, len(base_blocks)))
    panel_height = PANEL + LINE * max(map(lines_below, base_blocks), default=0)
    rows = -(-len(base_blocks) // columns)
    parts = [part for place, block in enumerate(base_blocks)
             for part in panel(problem, block, PANEL * (place % columns), panel_height * (place // columns))]
    return document(PANEL * columns, panel_height * max(1, rows), parts)


def base_blocks_of(text, number):
    """The problem and the base blocks, as names, of a family that is accepted or of a design of a dossier."""
    if not dossiers.is_dossier(text):
        problem = nth(iter([dossiers.design_of_family(text).problem]), number)
        return problem, [names for _, names in problem.base_blocks]
    blocks_of_all = ((dossier.source, names) for dossier in dossiers.dossiers_of(text) for names in dossier.designs)
    source, names = nth(blocks_of_all, number)
    return dossiers.problem_of_source(source), list(names)


def elements_and_fixed(block):
    return [int(name) for name in block if not name.startswith("inf")], [name for name in block if name.startswith("inf")]


def differences(order, elements):
    """All differences of two different elements, in order, repeats kept."""
    return sorted((one - other) % order for one in elements for other in elements if one != other)


def lines_below(block):
    """How many lines of differences stand below a circle, at 10 in a line, after the line of the block."""
    elements, _ = elements_and_fixed(block)
    return 1 + -(-len(elements) * (len(elements) - 1) // 10)


def place_on_circle(order, element, radius):
    angle = 2 * math.pi * element / order - math.pi / 2
    return PANEL / 2 + radius * math.cos(angle), PANEL / 2 + radius * math.sin(angle)


def colour(order, difference):
    """One colour for a difference and its negative."""
    least = min(difference, order - difference)
    return f"hsl({360 * (least - 1) // max(1, order // 2)}, 75%, 40%)"


def panel(problem, block, x, y):
    """One base block: the circle, its chords, the points and the lines below."""
    order = problem.factors[0]
    elements, fixed = elements_and_fixed(block)
    yield f'<g class="block" transform="translate({x} {y})">'
    yield f'<circle cx="{PANEL / 2}" cy="{PANEL / 2}" r="{RADIUS}" fill="none" stroke="lightgrey"/>'
    yield from (chord(order, one, other) for one, other in combinations(elements, 2))
    yield from (mark(order, element, element in elements) for element in range(order))
    yield from (text_at(PANEL - 8, PANEL - 20 - LINE * place, name, "end") for place, name in enumerate(reversed(fixed)))
    yield text_at(PANEL / 2, PANEL + LINE - 6, "block " + " ".join(block))
    found = differences(order, elements)
    for line, begin in enumerate(range(0, len(found), 10)):
        words = " ".join(map(str, found[begin:begin + 10]))
        yield text_at(PANEL / 2, PANEL + LINE * (line + 2) - 6, ("differences " if line == 0 else "") + words)
    yield "</g>"


def chord(order, one, other):
    (x1, y1), (x2, y2) = (place_on_circle(order, element, RADIUS) for element in (one, other))
    difference = (other - one) % order
    least = min(difference, order - difference)
    return (f'<line class="chord" x1="{x1:.1f}" y1="{y1:.1f}" x2="{x2:.1f}" y2="{y2:.1f}" stroke="{colour(order, difference)}" '
            f'stroke-width="2"><title>{one} and {other}: difference {least} or {order - least}</title></line>')


def mark(order, element, is_in_block):
    x, y = place_on_circle(order, element, RADIUS)
    word_x, word_y = place_on_circle(order, element, RADIUS + 16)
    kind, fill, radius = ("point", "black", 4) if is_in_block else ("other", "lightgrey", 2)
    name = text_at(word_x, word_y + 4, element) if is_in_block or order <= 40 else ""
    return f'<circle class="{kind}" cx="{x:.1f}" cy="{y:.1f}" r="{radius}" fill="{fill}"/>{name}'


FORMS = {"incidence": incidence_picture, "circle": circle_picture}


def main(words):
    if words in (["--help"], ["-h"]):
        dossiers.write_answer(__doc__.lstrip())
        return 0
    request = request_of(words)
    if request is None:
        print(USAGE, file=sys.stderr)
        return dossiers.STATUS_USAGE
    return dossiers.ended_with("picture", lambda: dossiers.write_answer(FORMS[request.form](dossiers.read_input(), request.design)))


if __name__ == "__main__":
    sys.exit(main(sys.argv[1:]))
