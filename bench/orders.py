"""The lines of several drivers, tried in orders: what they end in, and what each line was answered."""
import math, random

from text import Mistake
from words import count_words, missed

MOST_AT_ONCE = 20000


class Trial:
    """What came of the orders: each end with how many orders led there and one of them, and each line's answers with an order for each."""

    def __init__(self, drivers, library, start):
        self.drivers, self.library = [lines for _, lines in drivers], library
        self.ends, self.answers, self.start = {}, {}, start

    def step(self, driver, place, image, order):
        """Plays a driver's next line; gives the record that it leaves."""
        call = self.drivers[driver][place]
        answer = self.library.answer(call.event, image)
        key = answer.number, answer.data, *missed(call.expected, answer.phrases())
        self.answers.setdefault(call, {}).setdefault(key, (answer, order + (driver,)))
        return answer.image

    def end(self, image, order, count):
        before, first = self.ends.get(image, (0, order))
        self.ends[image] = before + count, first

    def every(self):
        """The library keeps nothing between calls: orders that have played the same lines and come to the same record go on together."""
        reached = {((0,) * len(self.drivers), self.start): (1, ())}
        for _ in range(sum(map(len, self.drivers))):
            ahead = {}
            for (places, image), (count, order) in reached.items():
                for driver, place in enumerate(places):
                    if place < len(self.drivers[driver]):
                        key = places[:driver] + (place + 1,) + places[driver + 1 :], self.step(driver, place, image, order)
                        before, first = ahead.get(key, (0, order + (driver,)))
                        ahead[key] = before + count, first
            if len(ahead) > MOST_AT_ONCE:
                raise Mistake(f"over {MOST_AT_ONCE} records are reached: draw some orders instead")
            reached = ahead
        for (_, image), (count, order) in reached.items():
            self.end(image, order, count)

    def drawn(self, count, seed):
        """So many orders, each drawn anew and played from its start to its end."""
        source = random.Random(seed)
        for _ in range(count):
            order = [driver for driver, lines in enumerate(self.drivers) for _ in lines]
            source.shuffle(order)
            image, places = self.start, [0] * len(self.drivers)
            for at, driver in enumerate(order):
                image = self.step(driver, places[driver], image, tuple(order[:at]))
                places[driver] += 1
            self.end(image, tuple(order), 1)

    def orders(self):
        """How many orders there are."""
        left, count = sum(map(len, self.drivers)), 1
        for lines in self.drivers:
            count *= math.comb(left, len(lines))
            left -= len(lines)
        return count

    def line_numbers(self, order):
        """An order as the numbers of the script's lines."""
        lines = [iter(calls) for calls in self.drivers]
        return " ".join(str(next(lines[driver]).line.number) for driver in order)

    def phrases(self):
        alike = all(len(answers) == 1 for answers in self.answers.values())
        return [count_words(len(self.ends), "end")] + ["answers alike"] * alike
