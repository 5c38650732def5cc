"""Random numbers from a seed: a xorshift of 64 bits, so that any language gets the same graphs."""

MASK = (1 << 64) - 1


class Seeded:
    def __init__(self, seed):
        self.state = (seed * 0x9E3779B97F4A7C15 + 1) & MASK
        for _ in range(20):  # small seeds begin alike
            self.next()

    def next(self):
        state = self.state
        state ^= state << 13 & MASK
        state ^= state >> 7
        state ^= state << 17 & MASK
        self.state = state
        return state >> 11 & 0xFFFFFFFF

    def below(self, bound):
        return self.next() % bound
