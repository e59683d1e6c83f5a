"""Numbers without a pattern: the linear congruential generator of Knuth's MMIX, and its high bits. A seed gives the same numbers in
every version of Python."""


class Numbers:
    def __init__(self, seed):
        self.state = seed

    def below(self, bound):
        self.state = (self.state * 6364136223846793005 + 1442695040888963407) % 2**64
        return (self.state >> 33) % bound

    def pick(self, table):
        return table[self.below(len(table))]
