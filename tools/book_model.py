"""A model of the bank's books in Python, for answers that do not come from the bank.

Written from docs/RULES.md, with nodes that point to each other in place of numbers in tables. Beside each tree stands the plain sorted list of its
entries: what a call answers about entries is read from that list, and only the comparisons, the shapes and the nodes come from the tree. After each
call the two are compared.

A query is a function from a key to -1, 0 or 1: the query is below the key, the same, or above.
"""

CAPACITY = 11


class Refused(Exception):
    """A call that is refused, with the numbers that are printed."""


class Node:
    def __init__(self, entries, children):
        self.entries = entries
        self.children = children

    def is_leaf(self):
        return not self.children

    def find(self, query):
        """The index of the first entry that is not below the query, and the comparisons made."""
        for index, (key, _) in enumerate(self.entries):
            if query(key) <= 0:
                return index, index + 1
        return len(self.entries), len(self.entries)

    def listed(self):
        out = []
        for index, entry in enumerate(self.entries):
            if not self.is_leaf():
                out += self.children[index].listed()
            out.append(entry)
        return out if self.is_leaf() else out + self.children[-1].listed()

    def count_nodes(self):
        return 1 + sum(child.count_nodes() for child in self.children)

    def height(self):
        return 0 if self.is_leaf() else 1 + self.children[0].height()

    def written(self):
        parts = [str(len(self.entries)) + ":"]
        for index in range(len(self.entries) + 1):
            if not self.is_leaf():
                parts.append(self.children[index].written())
            if index < len(self.entries):
                parts.append(str(self.entries[index][0]))
        body = " ".join(parts)
        return f"[{body}]" if self.is_leaf() else f"({body})"

    def put(self, index, entry, right):
        """An entry goes in, and a new child behind it. A full node gives up its middle entry, which is answered with the new right node."""
        if len(self.entries) < CAPACITY:
            self.entries.insert(index, entry)
            if right:
                self.children.insert(index + 1, right)
            return None
        up = self.entries[6]
        other = Node(self.entries[7:], self.children[7:])
        self.entries, self.children = self.entries[:6], self.children[:7]
        if index <= 6:
            self.put(index, entry, right)
        else:
            other.put(index - 7, entry, right)
        return up, other

    def enter(self, key, value):
        """As `put`, at the leaf where the key belongs. Its key is not there yet."""
        index, _ = self.find(point(key))
        if self.is_leaf():
            return self.put(index, (key, value), None)
        risen = self.children[index].enter(key, value)
        return self.put(index, *risen) if risen else None

    def full_run(self, key):
        """How many full nodes lie in a row above the leaf of a key, the leaf included, and whether this node is one of them."""
        below = 0
        if not self.is_leaf():
            below, whole = self.children[self.find(point(key))[0]].full_run(key)
            if not whole:
                return below, False
        full = len(self.entries) == CAPACITY
        return (below + 1, True) if full else (below, False)

    def parted(self, query):
        """Two nodes of what is below the query and what is not, border children included, and the comparisons made on the way."""
        index, made = self.find(query)
        left, right = Node(self.entries[:index], []), Node(self.entries[index:], [])
        if not self.is_leaf():
            low, high, more = self.children[index].parted(query)
            left.children = self.children[:index] + [low]
            right.children = [high] + self.children[index + 1:]
            made += more
        return left, right, made

    def mend(self, last):
        """Repairs the border below this node, which has an entry or is a leaf: the last border of a left tree, the first of a right one."""
        node = self
        while not node.is_leaf():
            at = len(node.entries) - 1 if last else 0
            left, right = node.children[at], node.children[at + 1]
            border = right if last else left
            if len(left.entries) + len(right.entries) + 1 <= CAPACITY:
                left.entries += [node.entries.pop(at)] + right.entries
                left.children += right.children
                del node.children[at + 1]
                border = left
            elif len(border.entries) < 6:
                row = left.entries + [node.entries[at]] + right.entries
                kids = left.children + right.children
                keep = len(row) - 7 if last else 6
                left.entries, node.entries[at], right.entries = row[:keep], row[keep], row[keep + 1:]
                if kids:
                    left.children, right.children = kids[:keep + 1], kids[keep + 1:]
            node = border


def without_empty_roots(root):
    while not root.is_leaf() and not root.entries:
        root = root.children[0]
    return root


def mended(root, last):
    root = without_empty_roots(root)
    root.mend(last)
    return without_empty_roots(root)


def point(sought):
    return lambda key: (sought > key) - (sought < key)


def decade(tens):
    return lambda key: (tens > key // 10) - (tens < key // 10)


class Book:
    """A place: bare without a root and no walk; a walk is told by its entries alone."""

    def __init__(self):
        self.root = None
        self.entries = []
        self.walking = False

    def agrees(self):
        assert self.walking or self.entries == (self.root.listed() if self.root else [])


class Bank:
    """Answers lines of a script as the bank prints them. What a model of walks would have to answer is None: shapes of walks, and nodes while one is open."""

    def __init__(self, size):
        self.size = size
        self.books = [Book() for _ in range(16)]

    def place(self, number):
        if number > 15:
            raise Refused("refused 3")
        return self.books[number]

    def map(self, number):
        book = self.place(number)
        if book.walking:
            raise Refused("refused 4")
        return book

    def walk(self, number):
        book = self.place(number)
        if not book.walking:
            raise Refused("refused 4")
        return book

    def walks_open(self):
        return any(book.walking and book.root for book in self.books)

    def out(self):
        return sum(book.root.count_nodes() for book in self.books if book.root)

    def want(self, needed):
        assert not self.walks_open() or self.out() + needed <= self.size, "what may be taken beside a walk is not modelled"
        if self.size - self.out() < needed:
            raise Refused(f"refused 6 {needed} {self.size - self.out()}")

    def insert(self, place, key, value):
        book = self.map(place)
        for at, (k, old) in enumerate(book.entries):
            if k == key:
                book.entries[at] = (key, value)
                self.replace(book.root, key, value)
                return f"old {old}"
        if not book.root:
            self.want(1)
            book.root = Node([(key, value)], [])
        else:
            run, whole = book.root.full_run(key)
            self.want(run + 1 if whole else run)
            risen = book.root.enter(key, value)
            if risen:
                book.root = Node([risen[0]], [book.root, risen[1]])
        book.entries = sorted(book.entries + [(key, value)])
        return "new"

    def replace(self, node, key, value):
        index, _ = node.find(point(key))
        if index < len(node.entries) and node.entries[index][0] == key:
            node.entries[index] = (key, value)
        else:
            self.replace(node.children[index], key, value)

    def lookup(self, place, key):
        book = self.map(place)
        node, made = book.root, 0
        while node:
            index, more = node.find(point(key))
            made += more
            if node.is_leaf() or index < len(node.entries) and node.entries[index][0] == key:
                break
            node = node.children[index]
        value = dict(book.entries).get(key, "none")
        return f"{value} {made}"

    def least(self, place, query):
        book = self.map(place)
        same = [entry for entry in book.entries if query(entry[0]) == 0]
        return "%d %d" % min(same) if same else "none"

    def cut(self, place, other, query):
        book, second = self.place(place), self.place(other)
        if book.walking or second.walking or second.root or place == other:
            raise Refused("refused 4")
        if not book.entries:
            return "0 0 0"
        self.want(book.root.height() + 1)
        left, right, made = book.root.parted(query)
        book.root, second.root = mended(left, True), mended(right, False)
        whole = book.entries
        book.entries = [entry for entry in whole if query(entry[0]) > 0]
        second.entries = [entry for entry in whole if query(entry[0]) <= 0]
        return f"{len(book.entries)} {len(second.entries)} {made}"

    def drop(self, book):
        dropped = len(book.entries)
        book.root, book.entries, book.walking = None, [], False
        return str(dropped)

    def step(self, place, at):
        book = self.walk(place)
        return "%d %d" % book.entries.pop(at) if book.entries else "none"

    def open(self, place):
        self.map(place).walking = True
        return "open"

    def shape(self, place):
        book = self.place(place)
        if book.walking:
            return None
        return book.root.written() if book.root else "bare"

    def called(self, letter, numbers):
        first, second, third = numbers
        calls = {
            "p": lambda: self.insert(first, second, third),
            "g": lambda: self.lookup(first, second),
            "c": lambda: self.cut(first, second, point(third)),
            "C": lambda: self.cut(first, second, decade(third)),
            "m": lambda: self.least(first, decade(second)),
            "w": lambda: self.open(first),
            "n": lambda: self.step(first, 0),
            "b": lambda: self.step(first, -1),
            "e": lambda: self.drop(self.walk(first)),
            "r": lambda: self.drop(self.map(first)),
            "l": lambda: str(len(self.place(first).entries)),
            "s": lambda: self.shape(first),
            "f": lambda: None if self.walks_open() else str(self.out()),
            "a": lambda: "yes",
        }
        return calls[letter]()

    def answer(self, line):
        """What is printed for a line, or None."""
        letter, *words = line.split()
        numbers = [int(word) for word in words] + [0, 0, 0]
        try:
            answer = self.called(letter, numbers[:3])
        except Refused as refusal:
            answer = str(refusal)
        for place in set(number for number in numbers[:2] if number < 16):
            self.books[place].agrees()
        return answer
