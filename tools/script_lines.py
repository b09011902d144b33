"""Lines of a script for crates/replay."""


class Lines(list):
    """The lines so far."""

    def say(self, *words):
        self.append(" ".join(str(word) for word in words))

    def build(self, place, keys):
        """Puts keys into a place, each with a value of its own."""
        for key in keys:
            self.say("p", place, key, 10 * key + 1)

    def look(self, *places):
        """The shape and the count of each place, the nodes that are out, and an audit."""
        for place in places:
            self.say("s", place)
            self.say("l", place)
        self.say("f")
        self.say("a")
