"""Jobs that grow, to show what reading, a settle and a seek cost with more cells and more rules.

Each rule holds where every cell has its least count. That is then the first plan, and a seek finds it without going
back, one step for each cell that is open: what is measured is the cost of a step and not luck.
"""
from draw import Draw
from jobs import INTERSECTION, NO_CELL, PLUS, SUBSET, UNION, Job

KINDS = ("plates", "triples", "totals", "mixed")
STEPS = ((16, 4), (64, 16), (256, 64), (256, 256), (1024, 256), (1024, 1024))
NAMED_BY_PLATE = 8
NAMED_BY_TOTAL = 6
TRIPLES = (UNION, INTERSECTION, PLUS, SUBSET)
MAKES = {UNION: max, INTERSECTION: min, PLUS: lambda a, b: a + b}


def growth(kind, cells, rules):
    """A job of so many cells and rules, and its first plan."""
    plates, triples, totals = shares(kind, rules)
    pairs = plates if plates <= cells // 4 else cells // 8
    found = min(triples - triples // 4, cells // 4)
    made = Growth(Draw(rules * 8192 + cells * 4 + KINDS.index(kind)))
    made.add_given(cells - 2 * pairs - found)
    made.add_plates(plates, pairs)
    made.add_triples(triples, found)
    made.add_totals(totals)
    return made.job, made.plan


def shares(kind, rules):
    """How many of the rules are plates, triples and totals."""
    if kind == "mixed":
        return rules // 4, rules // 2, rules // 4
    return tuple(rules if kind == one else 0 for one in KINDS[:3])


class Growth:
    def __init__(self, draw):
        self.draw = draw
        self.job = Job()
        self.plan = []
        self.given = []

    def add_cell(self, low, high, count):
        """A cell and its count in the first plan; answers its number."""
        self.job.cells.append((low, high))
        self.plan.append(count)
        return len(self.plan) - 1

    def add_given(self, cells):
        """Cells that start at their count; all others are raised to it by a rule."""
        for _ in range(cells):
            low = self.draw.below(4)
            self.given.append(self.add_cell(low, low + self.draw.between(1, 6), low))

    def some(self, cells):
        """So many of the given cells, each once."""
        chosen = []
        while len(chosen) < cells:
            cell = self.draw.of(self.given)
            if cell not in chosen:
                chosen.append(cell)
        return chosen

    def add_plates(self, plates, pairs):
        """Slots and variety are cells of the plate's own, or shared by plates with the same sum and variety."""
        owned = []
        for plate in range(plates):
            counts = self.some(NAMED_BY_PLATE)
            if plate < pairs:
                slots, variety = self.tally(counts)
                pair = self.add_cell(0, slots + 2, slots), self.add_cell(0, NAMED_BY_PLATE, variety)
                owned.append(pair)
            pair = owned[plate % pairs]
            while self.tally(counts) != tuple(self.plan[cell] for cell in pair):
                counts = self.some(NAMED_BY_PLATE)
            self.job.plates.append((*pair, counts))

    def tally(self, counts):
        return sum(self.plan[cell] for cell in counts), sum(self.plan[cell] > 0 for cell in counts)

    def add_triples(self, triples, found):
        """Three of four make a count of two others: of a cell of their own, or later of one that has it already."""
        made = []
        for triple in range(triples):
            kind = TRIPLES[triple % 4]
            a, b = sorted(self.some(2), key=lambda cell: self.plan[cell])
            third = self.third(kind, a, b, made, len(made) < found)
            if third == NO_CELL:
                kind = SUBSET
            self.job.triples.append((kind, a, b, third))

    def third(self, kind, a, b, made, fresh):
        if kind == SUBSET:
            return NO_CELL
        count = MAKES[kind](self.plan[a], self.plan[b])
        if fresh:
            made.append(self.add_cell(0, count + 2, count))
            return made[-1]
        same = [cell for cell in made if self.plan[cell] == count]
        return self.draw.of(same) if same else NO_CELL

    def add_totals(self, totals):
        for _ in range(totals):
            terms = [(cell, self.draw.between(1, 1000)) for cell in self.some(NAMED_BY_TOTAL)]
            total = sum(weight * self.plan[cell] for cell, weight in terms)
            slack = self.draw.between(0, 2000)
            self.job.totals.append((max(total - slack, 0), total + slack, terms))
