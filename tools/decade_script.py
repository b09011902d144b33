#!/usr/bin/env python3
"""Cuts at a decade and the least entries of decades: lines for crates/replay that the original cannot answer, since its queries stand at one place.

    decade_script.py lines                    the last lines of crates/replay/stdin
    decade_script.py answers                  their answers, the last lines of crates/replay/stdout
    decade_script.py random NUMBER LINES      a random script with such lines
    decade_script.py check SCRIPT ANSWERS     compares answers with those of the model, as far as it has one, and counts them

The answers are those of the model of books in book_model.py, which knows nothing of the bank. Where it has none, a line says None.
"""
import random
import sys

from book_model import Bank
from script_lines import Lines

NODES = 500
LAST = 2**32 - 1


def stored():
    """The lines behind those of replay_script.py, from sixteen bare places on."""
    out = Lines()
    say, build, look = out.say, out.build, out.look

    def leasts(place, tens):
        for each in tens:
            say("m", place, each)

    # 12 entries: the decades before, of and behind them; the root is of the first one, and so are six entries below it
    for tens in range(0, 3):
        build(0, range(1, 13))
        leasts(0, range(0, 3))
        say("C", 0, 1, tens)
        look(0, 1)
        for place in (0, 1):
            leasts(place, range(0, 3))
            say("r", place)

    # 40 entries, put in from both ends
    rows = [key for pair in zip(range(1, 21), range(40, 20, -1)) for key in pair]
    for tens in range(0, 6):
        build(2, rows)
        say("C", 2, 3, tens)
        look(2, 3)
        leasts(2, range(0, 6))
        leasts(3, range(0, 6))
        say("r", 2)
        say("r", 3)

    # decades with no entry, with one and with two; cut between, and lookups beside
    build(4, range(3, 600, 7))
    for lost in (5, 6, 30, 31, 32, 58):
        leasts(4, (lost,))
    build(5, [key for key in range(0, 700, 3) if key // 10 not in (0, 7, 8, 30, 31, 69)])
    leasts(5, range(0, 71))
    for tens, to in ((31, 6), (7, 7), (69, 8)):
        say("C", 5, to, tens)
        look(5, to)
        leasts(5, range(tens - 2, tens + 2))
        leasts(to, range(tens - 1, tens + 3))
        say("g", to, 10 * tens + 3)
    for place in (4, 5, 6, 7, 8):
        say("r", place)

    # the least and the greatest numbers
    for key in (0, 9, 10, 4294967289, 4294967290, LAST):
        say("p", 0, key, key)
    leasts(0, (0, 1, 2, 429496728, 429496729, 429496730, LAST))
    say("C", 0, 1, LAST)
    look(0, 1)
    say("r", 1)
    say("C", 0, 1, 429496729)
    look(0, 1)
    say("C", 0, 2, 0)
    look(0, 1, 2)
    leasts(0, (0,))
    leasts(1, (429496728, 429496729))
    leasts(2, (0, 1))
    for place in (0, 1, 2):
        say("r", place)

    # places that are bare, walks, the same or not there
    build(0, range(1, 13))
    say("w", 1)
    for line in ("m 5 0", "m 1 0", "m 16 0", "C 5 6 0", "C 1 5 0", "C 0 1 0", "C 0 0 0", "C 16 5 0", "C 0 16 0", "C 5 0 0", "m 0 1", "e 1", "r 0"):
        out.append(line)
    look(0, 1)

    # heights 2 and 3, cut again and again, with entries put in between
    numbers = random.Random(20261127)
    for size in (150, 700):
        keys = random.Random(size).sample(range(0, 4 * size), size)
        build(0, keys)
        look(0)
        used = [0]
        for to in range(1, 7):
            at = numbers.choice(used)
            tens = numbers.randint(0, 4 * size // 10)
            say("m", at, tens)
            say("C", at, to, tens)
            used.append(to)
            look(at, to)
            for key in numbers.sample(range(0, 4 * size), 12):
                say("p", numbers.choice(used), key, 7)
        for _ in range(60):
            say("m", numbers.choice(used), numbers.randint(0, 4 * size // 10))
        say("w", used[1])
        for letter in "nbn":
            say(letter, used[1])
        say("e", used[1])
        for place in used[:1] + used[2:]:
            say("r", place)
        say("f")

    # height 4: no node to spare, and then cut all the same
    build(7, range(1990, 0, -1))
    for place in range(8, 14):
        build(place, (1,))
    say("f")
    for tens in (0, 100, 199, 200):
        say("m", 7, tens)
        say("C", 7, 14, tens)
    look(7, 14)
    for place in range(8, 14):
        say("r", place)
    say("C", 7, 14, 100)
    look(7, 14)
    leasts(7, range(0, 101, 9))
    leasts(14, range(99, 201, 9))
    say("r", 7)
    say("r", 14)
    say("f")
    return out


def by_chance(number, lines):
    """A random script: mostly puts, with cuts at decades and at numbers, least entries and lookups. Nodes are not short among 4,096."""
    numbers = random.Random(number)
    most = numbers.choice((40, 400, 4000))
    books = numbers.randint(1, 5)
    out = []

    def place():
        return numbers.randrange(books) if numbers.random() < 0.97 else numbers.randint(0, 17)

    for _ in range(lines):
        kind, key = numbers.random(), numbers.randint(0, most)
        tens = numbers.randint(0, most // 10 + 1)
        if kind < 0.55:
            out.append(f"p {place()} {key} {numbers.randint(0, 999)}")
        elif kind < 0.72:
            out.append(f"m {place()} {tens}")
        elif kind < 0.78:
            out.append(f"g {place()} {key}")
        elif kind < 0.82:
            out.append(f"C {place()} {numbers.randrange(books)} {tens}")
        elif kind < 0.83:
            out.append(f"c {place()} {numbers.randrange(books)} {key}")
        elif kind < 0.85:
            out.append(f"r {place()}")
        elif kind < 0.93:
            out.append(f"s {place()}")
        elif kind < 0.97:
            out.append(f"l {place()}")
        else:
            out.append(numbers.choice("fa"))
    return out


def answers(lines, nodes):
    bank = Bank(nodes)
    return [str(bank.answer(line)) for line in lines]


def check(script, given, nodes):
    lines, there = open(script).read().splitlines(), open(given).read().splitlines()
    assert len(lines) == len(there), f"{len(lines)} lines and {len(there)} answers"
    compared = 0
    for number, (line, model, answer) in enumerate(zip(lines, answers(lines, nodes), there), 1):
        if model != "None":
            compared += 1
            if model != answer:
                sys.exit(f"line {number}, {line}: the model says {model}, and the answer is {answer}")
    print(f"{compared} of {len(lines)} answers compared with the model's, none differs")


def main(words):
    if words[:1] == ["lines"]:
        print("\n".join(stored()))
    elif words[:1] == ["answers"]:
        print("\n".join(answers(stored(), NODES)))
    elif words[:1] == ["random"]:
        print("\n".join(by_chance(int(words[1]), int(words[2]))))
    elif words[:1] == ["check"]:
        check(words[1], words[2], int(words[3]) if len(words) > 3 else NODES)
    else:
        sys.exit(__doc__)


main(sys.argv[1:])
