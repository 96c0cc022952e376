#!/usr/bin/env python3
"""Writes designs in the formats of other programs.

convert FORMAT < SOURCE     the development of a source's family, which has to be accepted
convert FORMAT < DOSSIER    each design of a dossier, or of a chain of dossiers

The formats:
  xml        the external representation of designtheory.org, which GAP's package DESIGN reads; points from 0
  incidence  the incidence matrix: a line for each point, a column for each block; an empty line between designs
  lists      one line for each design: its blocks as lists of points from 0, for Python, Sage or JSON
  gap        a list of block designs for GAP's package DESIGN; points from 1
  latex      one displayed formula for each design: its blocks by the names of their points
  csv        a line for each point of each block: the numbers of design and block from 1, the place in the block, the point's name
  dot        for graphviz, a graph for each design: a node for each point and block, an edge where the point is in the block

Points are numbered in their order: the elements of the group, then the fixed points. No proof is claimed of this tool; the program
that it calls is proved.
"""
import csv
import io
import json
import sys
from xml.sax.saxutils import quoteattr

import dossiers

USAGE = "convert: one format is wanted: xml, incidence, lists, gap, latex, csv or dot; --help tells more"


# The designtheory.org format

def xml_text(designs):
    designs = list(designs)
    head = ('<?xml version="1.0" encoding="UTF-8"?>\n'
            '<list_of_designs xmlns="http://designtheory.org/xml-namespace" dtrs_protocol="2.0" design_type="block_design" '
            f'pairwise_nonisomorphic="unknown" no_designs="{len(designs)}">\n<designs>\n')
    return head + "".join(xml_design(design, number) for number, design in enumerate(designs)) + "</designs>\n</list_of_designs>\n"


def xml_design(design, number):
    points, blocks = len(design.problem.points), design.blocks
    identity = quoteattr(f"v{points}-b{len(blocks)}-{number}")
    lines = [f'<block_design id={identity} v="{points}" b="{len(blocks)}">', '<blocks ordered="true">']
    lines += ["<block>" + "".join(f"<z>{point}</z>" for point in block) + "</block>" for block in blocks]
    return "\n".join(lines + ["</blocks>", "</block_design>"]) + "\n"


# Formats of one design after another

def incidence_text(designs):
    return "\n".join(map(incidence_matrix, designs))


def incidence_matrix(design):
    sets = list(map(set, design.blocks))
    rows = ([str(int(point in block)) for block in sets] for point in range(len(design.problem.points)))
    return "".join(" ".join(row) + "\n" for row in rows)


def lists_text(designs):
    return "".join(json.dumps(design.blocks) + "\n" for design in designs)


def gap_text(designs):
    return "designs := [\n" + ",\n".join(map(gap_design, designs)) + "\n];\n"


def gap_design(design):
    blocks = [[point + 1 for point in block] for block in design.blocks]
    return f"BlockDesign({len(design.problem.points)}, {json.dumps(blocks)})"


def latex_text(designs):
    return "".join(map(latex_formula, designs))


def latex_formula(design):
    names = list(map(latex_point, design.problem.points))
    blocks = ["\\{" + ", ".join(names[point] for point in block) + "\\}" for block in design.blocks]
    return "\\[\n\\begin{array}{l}\n" + " \\\\\n".join(blocks) + "\n\\end{array}\n\\]\n"


def latex_point(name):
    if name.startswith("inf"):
        return "\\infty_{" + name[3:] + "}"
    return f"({name})" if "," in name else name


def csv_text(designs):
    text = io.StringIO()
    table = csv.writer(text, lineterminator="\n")
    table.writerow(["design", "block", "place", "point"])
    for number, design in enumerate(designs, 1):
        names = design.problem.points
        for block_number, block in enumerate(design.blocks, 1):
            table.writerows([number, block_number, place, names[point]] for place, point in enumerate(block, 1))
    return text.getvalue()


def dot_text(designs):
    return "".join(dot_graph(design, number) for number, design in enumerate(designs, 1))


def dot_graph(design, number):
    names = design.problem.points
    lines = [f"graph design_{number} {{", "  node [shape=circle];"]
    lines += [f'  "{name}";' for name in names]
    lines.append("  node [shape=box];")
    lines += [f'  "block {place}";' for place in range(1, len(design.blocks) + 1)]
    for place, block in enumerate(design.blocks, 1):
        lines += [f'  "{names[point]}" -- "block {place}";' for point in block]
    return "\n".join(lines + ["}"]) + "\n"


FORMATS = {"xml": xml_text, "incidence": incidence_text, "lists": lists_text, "gap": gap_text, "latex": latex_text, "csv": csv_text,
           "dot": dot_text}


def main(words):
    if words in (["--help"], ["-h"]):
        dossiers.write_answer(__doc__.lstrip())
        return 0
    if len(words) != 1 or words[0] not in FORMATS:
        print(USAGE, file=sys.stderr)
        return dossiers.STATUS_USAGE
    return dossiers.ended_with("convert", lambda: dossiers.write_answer(FORMATS[words[0]](dossiers.designs_of(dossiers.read_input()))))


if __name__ == "__main__":
    sys.exit(main(sys.argv[1:]))
