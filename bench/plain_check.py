"""Logs and chains, by what their lines say.

Part of plain.py. The decisions are a list with True, False or None for each column, and needs and caps are added up anew for
each line.
"""
from plain_dossier import Dossiers, Refused, bad_form, wrong
from plain_matrix import Limit


class Log:
    """The log of a chain: the decisions whose logs are still to come, and the design line that is wanted, if one is."""

    def __init__(self, matrix, steps):
        self.matrix, self.steps = matrix, steps
        self.wanted = [[None] * len(matrix.columns)]
        self.design = None
        self.designs = 0

    def is_whole(self):
        return not self.wanted and self.design is None

    def line(self, word, value):
        """Takes an entry or a design line; the fault where it doesn't hold."""
        matrix = self.matrix
        self.steps.take(1 + len(matrix.targets) + len(matrix.columns))
        if self.is_whole():
            return "AfterClose"
        if self.design is not None and word != "design":
            return "DesignWanted"
        if word == "design":
            return "NotEntry" if self.design is None else self.take_design(value)
        fault = self.fault_of(value)
        if fault is None:
            self.take(value)
        return fault

    def take_design(self, blocks):
        same = 0
        while blocks[same:same + 1] == self.design[same:same + 1] != []:
            same += 1
        if blocks != self.design:
            return f"DesignDiffers place {same}"
        self.design, self.designs = None, self.designs + 1

    def take(self, entry):
        """Goes on after an entry that holds."""
        decided = self.wanted.pop()
        if entry[0] == "branch":
            for value in (False, True):
                self.wanted.append(decided[:entry[1]] + [value] + decided[entry[1] + 1:])
        if entry[0] == "settled":
            self.design = [b for b, yes in zip(self.matrix.representatives, decided) if yes]

    def need(self, row):
        taken = sum(c[row] for c, yes in zip(self.matrix.columns, self.wanted[-1]) if yes)
        return self.matrix.targets[row] - taken

    def undecided(self):
        return [column for column, value in enumerate(self.wanted[-1]) if value is None]

    def fault_of(self, entry):
        """Why an entry doesn't hold, or None."""
        word, rows = entry[0], range(len(self.matrix.targets))
        if word == "branch":
            if entry[1] >= len(self.matrix.columns):
                return "ColumnRange"
            return None if entry[1] in self.undecided() else "ColumnDecided"
        if word == "settled":
            needing = next((row for row in rows if self.need(row) != 0), None)
            return None if needing is None else f"NotSettled row {needing} need {self.need(needing)}"
        weighted = entry[1] if word == "cut" else [(1, entry[1])]
        if any(row not in rows for _, row in weighted):
            return "RowRange"
        need = sum(weight * self.need(row) for weight, row in weighted)
        gives = lambda c: sum(weight * self.matrix.columns[c][row] for weight, row in weighted)
        entries = [(c, gives(c)) for c in self.undecided()]
        return getattr(self, word)(need, entries, *entry[2:])

    def over(self, need, entries):
        return None if need < 0 else f"NotOver need {need}"

    def under(self, need, entries):
        cap = sum(e for _, e in entries)
        return None if need > cap else f"NotUnder need {need} cap {cap}"

    def residue(self, need, entries, divisor):
        column = next((c for c, e in entries if e % divisor), -1)
        return None if column == -1 and need % divisor else f"NotResidue need {need} column {column}"

    def cut(self, need, entries):
        least, greatest = sum(e for _, e in entries if e < 0), sum(e for _, e in entries if e > 0)
        return None if need < least or need > greatest else f"NotCut least {least} greatest {greatest}"


class Chain:
    """A chain of dossiers: the first source, and where the next dossier has to begin."""

    def __init__(self, data, matrix_of, steps):
        self.dossiers, self.matrix_of, self.steps = Dossiers(data, steps), matrix_of, steps
        self.log, self.source = None, None
        self.place, self.begin = 0, (0, [])
        self.open_at = 0

    def take_source(self):
        """Reads the first source, or compares a later one with it."""
        place, count = self.dossiers.count()
        if self.log is None:
            problem, self.source = self.dossiers.problem(place, count)
            try:
                self.log = Log(self.matrix_of(problem, self.steps), self.steps)
            except Limit as limit:
                raise Refused(3, str(limit))
            return
        if count != len(self.source):
            wrong(place, "SourceDiffers")
        for (place, line), first in zip(self.dossiers.source_lines(count), self.source):
            if line != first:
                wrong(place, "SourceDiffers")

    def take_dossier(self):
        """Reads one dossier; whether there was one."""
        plain = self.dossiers.head()
        if plain is None:
            return False
        self.take_source()
        place, path = self.dossiers.start()
        if path != self.begin:
            wrong(place, "ChainBroken")
        for place, word, value in self.dossiers.log(self.log.matrix.problem, plain):
            if word == "end":
                self.take_end(place, *value)
                continue
            fault = self.log.line(word, value)
            if fault:
                wrong(place, fault)
        return True

    def take_end(self, place, finished, path):
        if finished and not self.log.is_whole():
            wrong(place, "OpenAtEnd")
        self.begin, self.open_at = (None, 0) if finished else (path, place)


def check_lines(data, matrix_of, steps):
    """The text of `check` for a chain that is complete; raises Refused."""
    chain = Chain(data, matrix_of, steps)
    if not chain.take_dossier():
        bad_form(0, "BadHead")
    while chain.take_dossier():
        pass
    if chain.open_at:
        wrong(chain.open_at, "OpenAtEnd")
    return [f"complete {chain.log.designs}"]
