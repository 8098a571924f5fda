"""What all that is made from a seed is chosen by: the same seed gives the same choices."""

import random


class Seeded:
    def __init__(self, seed):
        self.random = random.Random(seed)

    def pick(self, values):
        return self.random.choice(values)
