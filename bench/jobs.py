"""A job: its file as the planner reads it, and the same problem in FlatZinc."""
import struct

# The kinds of a triple, as its record has them, and what FlatZinc calls them.
UNION, INTERSECTION, PLUS, SUBSET = 1, 2, 3, 4
TRIPLE = {UNION: "int_max", INTERSECTION: "int_min", PLUS: "int_plus", SUBSET: "int_le"}
NO_CELL = 65535
MOST_BYTES = 65535
MOST_CEILING = 10_000_000_000_000


class Job:
    """Cells are (low, high); rules are in the order of their numbers: plates, triples, totals."""

    def __init__(self):
        self.cells = []
        self.plates = []  # (slots cell, variety cell, count cells)
        self.triples = []  # (kind, a, b, c)
        self.totals = []  # (floor, ceiling, [(cell, weight)])

    def rules(self):
        return len(self.plates) + len(self.triples) + len(self.totals)

    def file(self):
        """The job file."""
        cells = b"".join(struct.pack("<HH", *cell) for cell in self.cells)
        plates = b"".join(
            struct.pack(f"<HHH{len(counts)}H", slots, variety, len(counts), *counts)
            for slots, variety, counts in self.plates
        )
        triples = b"".join(struct.pack("<HHHH", *triple) for triple in self.triples)
        totals = b"".join(
            struct.pack("<HQQ", len(terms), floor, ceiling)
            + b"".join(struct.pack("<HI", *term) for term in terms)
            for floor, ceiling, terms in self.totals
        )
        bodies = [(k + 1, b) for k, b in enumerate((cells, plates, triples, totals)) if b]
        contents, place = b"", 1 + 9 * len(bodies)
        for kind, body in bodies:
            contents += struct.pack("<BII", kind, place, len(body))
            place += len(body)
        if place > MOST_BYTES:
            raise ValueError(f"the file has {place} bytes")
        return bytes([len(bodies)]) + contents + b"".join(body for _, body in bodies)

    def flatzinc(self):
        """The same cells and rules, searched in the order in which the planner seeks."""
        lines = [f"var {low}..{high}: x{c} :: output_var;" for c, (low, high) in enumerate(self.cells)]
        for k in range(sum(len(counts) for _, _, counts in self.plates)):
            lines += [f"var bool: b{k};", f"var 0..1: i{k};"]
        lines += self.constraints()
        order = ",".join(f"x{c}" for c in range(len(self.cells)))
        lines.append(f"solve :: int_search([{order}],input_order,indomain_min,complete) satisfy;")
        return "\n".join(lines) + "\n"

    def constraints(self):
        lines, present = [], 0
        for slots, variety, counts in self.plates:
            lines.append(equal_sum([f"x{c}" for c in counts], f"x{slots}"))
            for k, c in enumerate(counts, present):
                lines += [f"constraint int_le_reif(1,x{c},b{k});", f"constraint bool2int(b{k},i{k});"]
            lines.append(equal_sum([f"i{k}" for k in range(present, present + len(counts))], f"x{variety}"))
            present += len(counts)
        for kind, *named in self.triples:
            cells = ",".join(f"x{c}" for c in named if c != NO_CELL)
            lines.append(f"constraint {TRIPLE[kind]}({cells});")
        for total in self.totals:
            lines += bounds(*total)
        return lines


def equal_sum(parts, whole):
    ones = ",".join("1" for _ in parts)
    return f"constraint int_lin_eq([{ones},-1],[{','.join(parts)},{whole}],0);"


def bounds(floor, ceiling, terms):
    """A total is two inequalities; a ceiling that is left open is none, as it is past the numbers of FlatZinc."""
    cells = ",".join(f"x{c}" for c, _ in terms)
    weights = ",".join(str(weight) for _, weight in terms)
    less = ",".join(str(-weight) for _, weight in terms)
    above = f"constraint int_lin_le([{less}],[{cells}],{-floor});"
    if ceiling == MOST_CEILING:
        return [above]
    return [f"constraint int_lin_le([{weights}],[{cells}],{ceiling});", above]
