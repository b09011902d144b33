#!/usr/bin/env python3
"""Writes the first part of the script that crates/replay performs: puts, lookups, cuts, walks, releases, audits, shapes and counts on sixteen
places. decade_script.py writes the rest.

Its answers in crates/replay/stdout are the original's: its map, version 0.4.9, unedited, was given the same calls by a driver that keeps sixteen
of its maps under an allocator which grants as many nodes as crates/replay/args says. The driver asks the map beforehand how many nodes a call
takes, and prints `refused 6` with that number and the allowance where there are too few. For an audit it looks whether each map is in good form, and
the nodes that are out are those that the maps and walks reach.
"""
import random

from script_lines import Lines

numbers = random.Random(20261118)
out = Lines()
say, build, look = out.say, out.build, out.look


def walk(place, letters, every):
    """Steps at these ends, with the nodes out behind each; a look in front, behind every so many, and at the end."""
    look(place)
    for number, letter in enumerate(letters, 1):
        say(letter, place)
        if number % every == 0 or number == len(letters):
            look(place)
        else:
            say("f")


# one tree of 12, cut at every position
for q in range(0, 14):
    build(0, range(1, 13))
    say("c", 0, 1, q)
    look(0, 1)
    say("r", 0)
    say("r", 1)

# one tree of 40, put in from both ends, cut at every position
rows = [k for pair in zip(range(1, 21), range(40, 20, -1)) for k in pair]
for q in range(0, 42):
    build(2, rows)
    say("c", 2, 3, q)
    look(2, 3)
    say("r", 2)
    say("r", 3)

# keys that are there, absent ones, strange places, empty places
build(0, range(2, 24, 2))
for k in (13, 4, 13, 22, 1, 23, 24):
    say("p", 0, k, k)
for k in range(0, 26):
    say("g", 0, k)
look(0)
for line in ("p 16 1 1", "g 16 1", "c 16 0 1", "c 0 16 1", "c 0 0 5", "w 16", "n 0", "b 3", "e 0", "l 5", "s 5", "g 5 1", "c 5 6 1", "r 5", "r 16", "l 16"):
    out.append(line)
say("a")
say("w", 5)
for line in ("s 5", "a", "n 5", "b 5", "p 5 1 1", "c 0 5 3", "c 5 6 3", "w 5", "r 5", "l 5", "s 5", "a", "e 5", "s 5", "s 16", "a"):
    out.append(line)
say("r", 0)

# a walk over a root without entries, as a cut below all of them leaves it
build(0, range(1, 4))
say("c", 0, 1, 0)
for place in (0, 1):
    say("w", place)
    walk(place, "nbnb", 1)
    say("e", place)
    look(place)

# heights 2 and 3, cut again and again
for order, size in ((1, 150), (2, 420), (3, 700)):
    keys = list(range(1, 2 * size + 1, 2))
    random.Random(order).shuffle(keys)
    build(0, keys)
    look(0)
    for _ in range(40):
        say("g", 0, numbers.randint(0, 2 * size + 2))
    used = [0]
    for to in range(1, 9):
        at = numbers.choice(used)
        say("c", at, to, numbers.randint(0, 2 * size + 2))
        used.append(to)
        look(at, to)
    for k in numbers.sample(range(0, 2 * size), 30):
        say("p", numbers.choice(used), k, 7)
    look(*used)
    for p in used[:4]:
        say("w", p)
        walk(p, numbers.choices("nb", k=40), 10)
        say("e", p)
        say("a")
    for p in used[4:]:
        say("r", p)
    say("f")
    say("a")

# mixed walks at heights 0 to 3
for size in (0, 1, 5, 11, 12, 40, 88, 89, 300, 640):
    build(4, range(1, size + 1))
    say("w", 4)
    ends = "nnb" if size % 2 else "nbb"
    walk(4, numbers.choices(ends, k=min(size + 3, 251)), 1 if size < 20 else 11 if size < 100 else 60)
    say("e", 4)
    say("f")
    say("a")

# front alone and back alone, to the end
for letter in "nb":
    build(6, range(100, 0, -1))
    say("w", 6)
    for step in range(101):
        say(letter, 6)
        say("f")
        if step % 9 == 0:
            say("s", 6)
            say("a")
    say("e", 6)

# two walks at once, while other places take the nodes that they give back
for place in (0, 1):
    build(place, range(place, 120, 2 + place))
    say("w", place)
for turn in range(8):
    for place in (0, 1):
        walk(place, numbers.choices("nb", k=6), 6)
    build(2, range(turn, 400, 23))
    say("c", 2, 3, 40 * turn)
    look(2, 3)
    say("r", 3)
for place in (0, 1):
    say("e", place)
say("r", 2)
look(0, 1, 2)

# height 4, with few nodes left: refusals, and what they leave
build(7, range(1900, 0, -1))
look(7)
build(8, range(3000, 3400))
look(7, 8)
say("c", 7, 9, 950)
say("c", 8, 9, 3100)
look(7, 8, 9)
say("p", 16, 1, 1)
say("p", 8, 3400, 1)
say("a")
say("r", 8)
say("c", 7, 10, 950)
look(7, 10)
for k in range(0, 1900, 19):
    say("g", 7, k)
    say("g", 10, k)
say("w", 10)
walk(10, numbers.choices("nb", k=120), 60)
say("e", 10)
say("a")
for p in (7, 8, 9, 10):
    say("r", p)
say("f")

print("\n".join(out))
