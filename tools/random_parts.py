"""What random scripts are made of: parts of variables, variables and procedures, with what calm scripts put there."""

SIMPLE = ("cell", "set", "max")
# Those that are read at a key, and those whose numbers are levels that a get can wait for.
KEYED, LEVELS = ("map", "tally"), ("max", "tally")
OPERATORS = "+-*/%<="
HUGE = (9223372036854775807, -9223372036854775808, 3037000500, -4611686018427387905)
# The most steps of a calm script, and the most local statements that a procedure executes.
MOST_COST, MOST_WORK = 300, 150


class Part:
    """A cell, a set, a counter, a map or a tally, and which numbers calm scripts put there."""

    def __init__(self, rng, kind):
        self.kind = kind
        self.value = rng.randint(-50, 50)
        self.size = rng.randint(2, 5)
        self.top = rng.randint(1, 3 if kind == "tally" else 9)
        self.factor = rng.randint(-3, 3)

    def events(self):
        """How many events there can be at most."""
        keys = 2 * self.size
        return {"cell": 1, "set": keys, "max": self.top, "map": keys, "tally": keys * self.top}[self.kind]

    def at(self, key):
        """The number that a calm script puts at the key of a map."""
        return key * self.factor + self.value

    def number(self, rng):
        """A number that a calm script may put, into a tally at any key."""
        level = rng.randint(0, self.top)
        return {"cell": self.value, "set": rng.randrange(self.size), "max": level, "tally": level}[self.kind]


class Variable:
    """A variable with its parts: its two sides, or itself."""

    def __init__(self, rng, name, kinds):
        self.name, self.kinds = name, kinds
        self.parts = [Part(rng, it) for it in (kinds[1:] if kinds[0] == "pair" else kinds)]
        self.pools = []

    def events(self):
        return sum(it.events() for it in self.parts)


class Procedure:
    """A procedure, as far as it is written."""

    def __init__(self, name, parameters):
        self.name, self.parameters = name, parameters
        self.lines, self.locals, self.guarded = [], list(parameters), set()
        self.depth, self.times, self.cost, self.work, self.loops = 1, 1, 1, 0, 0
        self.puts, self.targets, self.is_plain, self.reads = set(), [], True, 0.2
        self.most_depth, self.is_written = None, False

    def line(self, *words):
        self.work += self.times
        self.lines.append("  " * self.depth + " ".join(map(str, words)))

    def acts(self, cost=1):
        self.cost += self.times * cost

    def text(self):
        return [" ".join(["proc", self.name, *self.parameters]), *self.lines, "end"]
