#!/usr/bin/env python3
"""Compares a JSON listing with a dossier of the same search. Python's own json reads the listing.

compare.py DOSSIER LISTING    prints 'same N' with the number of designs, or what differs first, and then ends with 1
"""
import json, sys


def told(dossier):
    """What a dossier without a log tells, with the members of a listing; the blocks of each design come behind it as comments."""
    lines = dossier.split("\n")
    count = int(lines[1].split()[1])
    begins = 2 + count
    blocks, designs, end = [], [], None
    for line in lines[begins + 1:-1]:
        word, _, rest = line.partition(" ")
        if word == "design":
            designs.append([block.split() for block in rest.split(" ; ")] if rest else [])
            blocks.append([])
        elif line.startswith("# block "):
            blocks[-1].append(line.removeprefix("# block ").split())
        else:
            end = line.split()
    found = {"blocks": blocks, "designs": designs, "end": end[1]}
    if end[1] == "spent":
        found["next"] = [int(number) for number in end[7:]]
    found["nodes"] = int(end[5])
    found["source"] = lines[2:begins]
    if lines[begins] != "from 0" or int(end[3]) != len(designs):
        sys.exit("this is no dossier of a whole search")
    return found


def main():
    dossier, text = (open(name, encoding="ascii", newline="").read() for name in sys.argv[1:3])
    listing = json.loads(text)
    wanted = told(dossier)
    if "blocks" not in listing:
        if any(wanted.pop("blocks")):
            sys.exit("the listing has no blocks")
    if list(listing) != list(wanted):
        sys.exit(f"the members are {' '.join(listing)}, not {' '.join(wanted)}")
    for member in wanted:
        if listing[member] != wanted[member]:
            sys.exit(f"{member} differs")
    if text != json.dumps(wanted, separators=(",", ":")) + "\n":
        sys.exit("the text differs")
    print(f"same {len(wanted['designs'])}")


if __name__ == "__main__":
    main()
