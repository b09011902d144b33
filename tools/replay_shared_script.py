#!/usr/bin/env python3
"""Writes the script of crates/replay_shared, its arguments and its answers: replay_shared_script.py PROGRAM [WORD ..]

Two callers work by turns on one bank of NODES nodes, of which each may have as many as LIMITS says: together more than there are.

Each caller's lines, without the turns between them, go to PROGRAM, which performs them alone on as many nodes as its last argument says, here the
caller's limit: crates/replay, or the driver of the original that tools/replay_script.py tells of. Its answers are put where the lines stand in
the script. They are right there as long as they do not hang on what the other caller has out, and this is looked after before each line: either the
other leaves this caller its whole limit, or both ways more nodes are left than any line needs.

In front and at the end are lines whose answers are worked out by hand from docs/RULES.md: wrong callers, and declines where the sum decides.
"""
import pathlib
import random
import subprocess
import sys

NODES = 100
LIMITS = (80, 30)
# in trees of up to 100 nodes, whose height is at most 3: a cut takes a node a level, and an insertion at most one more
MOST_NEEDED = 5

tools = pathlib.Path(__file__).parent
crate = tools.parent / "crates" / "replay_shared"
numbers = random.Random(20261127)


def at_random(number, lines):
    """A script of one caller, from tools/random_script.py."""
    words = [sys.executable, tools / "random_script.py", str(number), str(lines)]
    return subprocess.run(words, check=True, capture_output=True, text=True).stdout.splitlines()


def emptied(places):
    """Looks at places and empties them, whatever they hold: a closing or a release is refused."""
    return [f"{letter} {place}" for place in places for letter in "sler"] + ["f", "a"]


def put(place, keys):
    return [f"p {place} {key} {10 * key + 1}" for key in keys]


def answers(caller, lines):
    """What PROGRAM answers to these lines, and how many nodes are out behind each."""
    script = "".join(f"{line}\nf\n" for line in lines)
    words = sys.argv[1:] + [str(LIMITS[caller])]
    told = subprocess.run(words, input=script, check=True, capture_output=True, text=True).stdout.splitlines()
    assert len(told) == 2 * len(lines)
    return told[0::2], [int(count) for count in told[1::2]]


class Caller:
    """One caller's lines, and how far they have been put into the script."""

    def __init__(self, number, lines):
        self.number = number
        self.lines = lines
        self.told, self.out = answers(number, lines)
        self.next = 0

    def ended(self):
        return self.next == len(self.lines)

    def out_now(self):
        return self.out[self.next - 1] if self.next else 0

    def is_free(self, other):
        """Whether the next line is answered as if this caller were alone."""
        limit, left = LIMITS[self.number], NODES - other.out_now()
        return limit <= left or self.out_now() + MOST_NEEDED <= min(limit, left)


script, replies = [], []


def say(line, reply):
    script.append(line)
    replies.append(reply)


def turn(caller):
    say(f"t {caller}", "turned")


def by_turns(callers):
    """Puts the lines of both callers into the script, some of one and then some of the other."""
    served = 0
    while not all(caller.ended() for caller in callers):
        caller, other = callers[served], callers[1 - served]
        begun = caller.next
        most = begun + (numbers.randint(1, 12) if numbers.random() < 0.7 else numbers.randint(20, 120))
        while caller.next < min(most, len(caller.lines)) and caller.is_free(other):
            say(caller.lines[caller.next], caller.told[caller.next])
            caller.next += 1
        assert caller.next > begun or other.ended() or other.is_free(caller), "neither can go on"
        served = 1 - served
        turn(served)


# both at random, the second often at its limit; then the first takes all of its limit, and the second has fourteen leaves
every = range(16)
first = [line for number in (13, 9, 19) for line in at_random(number, 700) + emptied(every)]
second = [line for number in (2, 17, 21) for line in at_random(number, 700) + emptied(every)]
first += put(8, range(1, 13)) + put(7, range(1, 520)) + ["l 7", "f", "a"]
second += [line for place in range(14) for line in put(place, [1])] + ["f", "a"]

for wrong in (2, 65535, 65536):
    say(f"t {wrong}", "refused 10")
turn(0)
by_turns([Caller(0, first), Caller(1, second)])

# By hand. The first has 80 nodes out, of which place 8 has 3; the second has 14, a leaf with the key 1 in each of the places 0 to 13.
turn(1)
for place in (0, 1, 2, 3):
    for line in put(place, range(2, 12)):
        say(line, "new")
# a full leaf needs two nodes. Six of the hundred are left, then four, then two, then none, though the limit leaves ten
for place in (0, 1, 2):
    say(f"p {place} 12 121", "new")
say("f", "20")
say("p 3 12 121", "refused 6 2 0")
say("p 15 1 11", "refused 6 1 0")
say("c 0 15 7", "refused 6 2 0")
say("p 3 11 5", "old 111")
say("g 3 11", "5 11")
say("s 0", "(1: [6: 1 2 3 4 5 6] 7 [5: 8 9 10 11 12])")
say("s 3", "[11: 1 2 3 4 5 6 7 8 9 10 11]")
say("s 15", "bare")
say("a", "yes")
# the first gives three back and the second takes them: then the first has three fewer than its limit, and can have none
turn(0)
say("f", "80")
say("p 0 1 11", "refused 6 1 0")
say("r 8", "12")
turn(1)
say("p 15 1 11", "new")
say("p 3 12 121", "new")
say("f", "23")
say("c 0 14 7", "refused 6 2 0")
turn(0)
say("f", "77")
say("p 0 1 11", "refused 6 1 0")
say("a", "yes")
# the second gives four back: of these the first takes three, up to its limit, and the second has the last one again
turn(1)
say("r 2", "12")
say("r 4", "1")
say("f", "19")
turn(0)
for line in put(0, range(1, 13)):
    say(line, "new")
say("f", "80")
say("p 1 1 11", "refused 6 1 0")
say("s 0", "(1: [6: 1 2 3 4 5 6] 7 [5: 8 9 10 11 12])")
say("a", "yes")
turn(1)
say("c 0 14 7", "refused 6 2 1")
say("p 4 1 11", "new")
say("p 2 1 11", "refused 6 1 0")
say("f", "20")
say("s 1", "(1: [6: 1 2 3 4 5 6] 7 [5: 8 9 10 11 12])")
say("a", "yes")

(crate / "args").write_text("".join(f"{number}\n" for number in (NODES, *LIMITS)))
(crate / "stdin").write_text("".join(f"{line}\n" for line in script))
(crate / "stdout").write_text("".join(f"{reply}\n" for reply in replies))
