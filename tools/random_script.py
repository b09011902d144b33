#!/usr/bin/env python3
"""Writes a random script of calls for crates/replay and for the driver of the original: random_script.py NUMBER LINES.

The same number gives the same script. Books stay so small that nodes are never short among 4,096: the original's own refusals lose entries.
"""
import random
import sys

numbers = random.Random(int(sys.argv[1]))
lines = int(sys.argv[2])
most_key = numbers.choice((30, 300, 3000, 2**32 - 1))
rising = numbers.random() < 0.3
books = numbers.randint(1, 6)
kinds = ["map"] * 16
puts, next_key = 0, 0


def place(kind):
    """Mostly a place of this kind, among the first ones where there is such a one; at times any, and at times none of the sixteen."""
    if numbers.random() < 0.02:
        return numbers.randint(0, 18)
    fitting = [p for p in range(16) if kinds[p] == kind]
    few = [p for p in fitting if p < books]
    return numbers.choice(few or fitting or [0])


def say(*words):
    print(*words)


while lines > 0:
    lines -= 1
    kind = numbers.random()
    key = numbers.randint(0, most_key)
    walks = "walk" in kinds
    if kind < 0.55 and puts < 9000:
        puts += 1
        next_key = min(next_key + numbers.randint(1, 3), 2**32 - 1)
        say("p", place("map"), next_key if rising else key, numbers.randint(0, 999))
    elif kind < 0.70:
        say("g", place("map"), key)
    elif kind < 0.74:
        say("c", place("map"), numbers.randint(0, 15), key)
    elif kind < 0.745:
        p = place("map")
        say("w", p)
        if p < 16:
            kinds[p] = "walk"
    elif kind < 0.90 and walks:
        say(numbers.choice("nb"), place("walk"))
    elif kind < 0.905 and walks:
        p = place("walk")
        say("e", p)
        if p < 16 and kinds[p] == "walk":
            kinds[p] = "map"
    elif kind < 0.91:
        say("r", place("map"))
    elif kind < 0.95:
        say("l", place(numbers.choice(("map", "walk"))))
    elif kind < 0.97:
        say("s", place(numbers.choice(("map", "walk"))))
    elif kind < 0.98:
        say("a")
    else:
        say("f")
