"""Whatever numbers come in, a call ends with an answer or a refusal, and what it makes can be asked."""

import math
import random
import unittest
import warnings

from guineaplume import Edit, List, Ramp, Refusal, Unread

MAKERS = [Ramp.linear, Ramp.smoothstep, Ramp.sharp, Ramp.basis, Ramp.catmull_rom]
ODD = [0.0, -0.0, 1.0, math.nan, math.inf, -math.inf, 1e38, 3e38, 1e39, 1e-45, -5e3]
WORDS = ['0', '1', '2', '255', '-3', 'red', 'x', '1,5', '\n', '\n', '0/0/0']
FORMATS = [name for name in vars(List) if name.startswith('to_')]


class AnyNumbers(unittest.TestCase):
    def setUp(self):
        kept = warnings.catch_warnings()
        kept.__enter__()
        self.addCleanup(kept.__exit__, None, None, None)
        # channels above 1 are warned of
        warnings.simplefilter('ignore')
        self.chance = random.Random(20)
        self.refused = set()

    def number(self, odd=0.5):
        return self.chance.choice(ODD) if self.chance.random() < odd else self.chance.random()

    def some_ramp(self):
        kind, count = self.chance.random(), self.chance.choice([0, 1, 2, 3, 4, 8, 30])
        if kind < 0.1:
            return Ramp.from_ggr(bytes(self.chance.randrange(256) for _ in range(100)))
        if kind < 0.2:
            return Ramp.from_cpt(' '.join(self.chance.choice(WORDS) for _ in range(40)).encode())
        colours = [[self.number(0.02) for _ in range(4)] for _ in range(count)]
        if kind < 0.3:
            return Ramp.bands(colours, (self.number(), self.number()), self.number())
        places = sorted(self.number(0.0) for _ in range(count)) if kind < 0.9 else [self.number() for _ in range(count)]
        return self.chance.choice(MAKERS)(places, colours)

    def ask(self, ramp):
        self.assertEqual(len(ramp([self.number() for _ in range(5)])), 5)
        record = ramp.sample(self.number())
        edit = Edit.move(self.chance.randrange(-1, 9), self.number())
        calls = [
            lambda: self.write(ramp.flatten(self.number())),
            lambda: self.write(ramp.within(self.number(), self.number())),
            lambda: list(ramp.stops_of(record)),
            lambda: ramp.judge(List([self.number() for _ in range(3)], ramp.colours[:3]), self.number()),
            lambda: ramp.apart(ramp.within(), [self.number() for _ in range(3)], self.number()),
            lambda: self.assertEqual(ramp.refresh(record, edit).sample(record.threshold), record),
        ]
        for call in calls:
            self.attempt(call)

    def write(self, listed):
        for name in FORMATS:
            if name != 'to_matplotlib':
                self.attempt(getattr(listed, name))

    def attempt(self, call):
        try:
            return call()
        except Refusal as refusal:
            self.refused.add(int(refusal.number))
        except Unread as unread:
            self.assertTrue(unread.words)

    def test_an_answer_or_a_refusal(self):
        asked = 0
        for _ in range(400):
            ramp = self.attempt(self.some_ramp)
            if ramp:
                self.attempt(lambda: self.ask(ramp))
                asked += 1
        self.assertGreater(asked, 100)
        self.assertLessEqual({1, 2, 3, 6, 10, 17, 19, 23}, self.refused)


if __name__ == '__main__':
    unittest.main()
