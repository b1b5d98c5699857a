"""Template-design jobs: how many slots of each plate a design gets, so that a press run of each prints every order."""
from dataclasses import dataclass

from draw import Draw
from jobs import Job


@dataclass(frozen=True)
class Design:
    """Plates of so many designs and slots and a least variety; each order may be exceeded by the slack."""

    seed: int
    plates: int
    designs: int
    slots: int
    least: int
    slack: int
    # The first plates may be printed already: their counts are known.
    printed: int = 0
    # With the last order moved there is most likely no plan.
    moved: int = 0

    def job(self):
        draw = Draw(self.seed)
        runs = [draw.between(50, 400) for _ in range(self.plates)]
        job = Job()
        orders = [0] * self.designs
        for plate, run in enumerate(runs):
            counts = self.counts(draw)
            self.add_plate(job, counts if plate < self.printed else None)
            orders = [order + run * count for order, count in zip(orders, counts)]
        orders[-1] += self.moved
        width = self.designs + 2
        for design, order in enumerate(orders):
            terms = [(plate * width + design, run) for plate, run in enumerate(runs)]
            job.totals.append((order, order + self.slack, terms))
        return job

    def counts(self, draw):
        """A plate that keeps the rules; what the press prints of such plates are the orders."""
        kinds = draw.between(self.least, min(self.designs, self.slots))
        chosen = draw.shuffled(range(self.designs))[:kinds]
        counts = [int(design in chosen) for design in range(self.designs)]
        for _ in range(self.slots - kinds):
            counts[draw.of(chosen)] += 1
        return counts

    def add_plate(self, job, known):
        first = len(job.cells)
        after = first + self.designs
        job.cells += [(c, c) for c in known] if known else [(0, self.slots)] * self.designs
        job.cells += [(self.slots, self.slots), (self.least, self.designs)]
        job.plates.append((after, after + 1, list(range(first, after))))


DESIGNS = {
    "9x4": Design(4, plates=9, designs=4, slots=8, least=3, slack=0),
    "3x16": Design(2, plates=3, designs=16, slots=16, least=8, slack=10),
    "5x6-none": Design(2, plates=5, designs=6, slots=8, least=3, slack=0, printed=1, moved=1),
    "10x8-printed": Design(4, plates=10, designs=8, slots=9, least=3, slack=5, printed=6),
    "4x8": Design(4, plates=4, designs=8, slots=9, least=3, slack=5),
    "3x18": Design(3, plates=3, designs=18, slots=20, least=9, slack=10),
    "6x14-printed": Design(5, plates=6, designs=14, slots=16, least=6, slack=30, printed=3),
    "5x5-none": Design(7, plates=5, designs=5, slots=8, least=3, slack=0, moved=1),
    "14x5-printed": Design(5, plates=14, designs=5, slots=8, least=3, slack=5, printed=9),
    "3x16-long": Design(3, plates=3, designs=16, slots=20, least=8, slack=40),
    "3x12": Design(4, plates=3, designs=12, slots=16, least=6, slack=20),
}
