"""What the makers of random tiles and texts share."""


class Maker:
    """Makes random things, in which each part is wrong with a small chance."""

    def __init__(self, rng, wrong):
        self.rng = rng
        self.wrong = wrong

    def slips(self, times=1.0):
        return self.rng.random() < self.wrong * times
