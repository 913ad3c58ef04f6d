#!/usr/bin/env python3
"""An independent computation of the PHOLD day that the program `phold_day` runs, from docs/RULES.md alone.

    python3 oracle/phold_day.py

prints what the program must print.
"""
from collection_day import Day, Place

MODULUS = 2147483647
TOP = 2 ** 32 - 1
PLACES, SEED, REPLICATION, END = 4, 1, 0, 500
STARTS = [(0, 0, 0, 100), (0, 1, 0, 101), (0, 2, 0, 102), (10, 3, 0, 103), (10, 3, 7, 104)]


def draw(x):
    return 16807 * x % MODULUS


def multiplier(k):
    return pow(16807, 65536 * k, MODULUS)


class PholdDay(Day):
    """A day of PHOLD: only what it begins with and how it reacts are its own."""

    def __init__(self, places, seed, replication, end, starts):
        Day.__init__(self, 0, 0, end, starts)
        self.places = [Place() for _ in range(places)]
        for i, place in enumerate(self.places):
            place.words[0] = seed * multiplier(32 * replication + i) % MODULUS

    def react(self, p, time, sender, kind, data):
        w = self.places[p].words
        a = draw(w[0] % MODULUS)
        b = draw(a)
        w[0], w[1] = b, min(TOP, w[1] + 1)
        return [(a % len(self.places), 1 + b % (100 * (1 + self.places[p].order % 256)), 0, data)]


def main():
    x = 1
    for _ in range(10000):
        x = draw(x)
    print("draw 10000 from seed 1 is", x)
    print(f"PHOLD with {PLACES} places, seed {SEED}, replication {REPLICATION}, until {END}")
    day = PholdDay(PLACES, SEED, REPLICATION, END, STARTS)
    while day.waiting:
        if len(day.journal) == 20:
            day.places[2].order = 3
            print("order 3 at place 2")
        time, p, sender, number, _, data = day.event()[0]
        print(f"time {time} receiver {p} sender {sender} number {number} data {data}")
    for i, place in enumerate(day.places):
        print(f"place {i}: word 0 {place.words[0]} word 1 {place.words[1]} sent {place.sent}")


if __name__ == "__main__":
    main()
