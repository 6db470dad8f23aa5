"""The statements of random scripts."""

import math

from random_parts import HUGE, KEYED, LEVELS, OPERATORS


class Statements:
    """Writes statements of a script of a kind."""

    def __init__(self, rng, kind):
        self.rng, self.kind = rng, kind
        self.is_calm = kind in ("calm", "frozen")
        self.has_tallies = rng.random() < 0.3
        self.variables, self.procedures = [], []
        self.seen, self.sure = [], []
        self.frozen, self.free = [], []

    # Numbers and locals.

    def any_number(self):
        """A number of any size where runs may err, else a small one."""
        if not self.is_calm and self.rng.random() < 0.1:
            return self.rng.choice(HUGE)
        return self.rng.choice((0, 1, 2, 3, self.rng.randint(-9, 9), self.rng.randint(-999, 999)))

    def term(self, at):
        """A local or a number."""
        if at.locals and self.rng.random() < 0.7:
            return self.rng.choice(at.locals)
        return self.any_number()

    def target(self, at):
        """A local that may be changed."""
        free = [it for it in at.locals if it not in at.guarded]
        if free and self.rng.random() < 0.5:
            return self.rng.choice(free)
        return self.assigned(at, self.rng.choice("abcdefg"))

    def assigned(self, at, name):
        name = name if name not in at.guarded else "h"
        if name not in at.locals:
            at.locals.append(name)
        return name

    def remainder(self, at, size):
        """A local with a number that is nearer to 0 than this."""
        name, term = self.assigned(at, "t"), self.term(at)
        at.line("let", name, term, "%", size)
        return name

    # What is put and read.

    def wild_number(self, part):
        if self.rng.random() < 0.6:
            return part.number(self.rng)
        if part.kind in LEVELS:
            return self.rng.choice((0, 1, 999, 1000, 1000, 1001, -1))
        return self.rng.randint(-4, 9)

    def number_for(self, at, part):
        """What is put into a cell, a set or a counter: a number, or a local that has one."""
        if not self.is_calm:
            return self.wild_number(part) if self.rng.random() < 0.6 else self.term(at)
        if self.rng.random() < 0.5:
            return part.number(self.rng)
        if part.kind == "cell":
            name = self.assigned(at, "t")
            at.line("let", name, part.value)
            return name
        if part.kind == "set":
            return self.remainder(at, part.size)
        return self.level(at, part.top)

    def level(self, at, top):
        """A local with a number from 0 to the top."""
        if self.rng.random() < 0.3:
            name, term = self.assigned(at, "t"), self.term(at)
            at.line("let", name, term, self.rng.choice("<="), self.term(at))
            return name
        name = self.remainder(at, math.isqrt(top) + 1)
        at.line("let", name, name, "*", name)
        return name

    def entry_for(self, at, part):
        """The key and the number that are put into a map or a tally."""
        if not self.is_calm:
            number = self.number_for(at, part) if part.kind == "tally" else self.term(at)
            return [self.rng.randint(0, 3) if self.rng.random() < 0.6 else self.term(at), number]
        if part.kind == "tally":
            return self.amount_for(at, part)
        if self.rng.random() < 0.5:
            key = self.rng.randrange(part.size)
            return [key, part.at(key)]
        key, number = self.remainder(at, part.size), self.assigned(at, "u")
        at.line("let", number, key, "*", part.factor)
        at.line("let", number, number, "+", part.value)
        return [key, number]

    def amount_for(self, at, part):
        """The key and the amount that a calm script puts into a tally."""
        if self.rng.random() < 0.5:
            return [self.rng.randrange(part.size), part.number(self.rng)]
        amount = self.assigned(at, "u")
        at.line("let", amount, self.level(at, part.top))
        return [self.remainder(at, part.size), amount]

    def put(self, at):
        """A put into one of the variables that the procedure may put into."""
        variable = self.rng.choice(at.targets)
        side = self.rng.randrange(len(variable.parts))
        part = variable.parts[side]
        words = self.entry_for(at, part) if part.kind in KEYED else [self.number_for(at, part)]
        if variable.kinds[0] == "pair":
            words = [side + 1, *words]
        at.line("put", variable.name, *words)
        at.acts()
        at.puts.add(variable)
        self.note(at, variable, side, words)

    def note(self, at, variable, side, words):
        """Keeps what is put by a line with numbers, and what `main` puts for sure."""
        if not any(isinstance(it, str) for it in words):
            self.seen.append((variable, side, words))
            if at.name == "main" and at.depth == 1:
                self.sure.append((variable, words))

    def get(self, at):
        """A get of what some line puts, mostly."""
        variable = self.rng.choice(self.variables)
        side = self.rng.randrange(len(variable.parts))
        part = variable.parts[side]
        number = self.rng.randint(0, 9)
        key = [self.rng.randint(0, 3)] if part.kind in KEYED else []
        if self.seen and self.rng.random() < 0.9:
            variable, side, words = self.rng.choice(self.seen)
            part, number = variable.parts[side], words[-1]
            key = words[:1] if part.kind in KEYED else []
        if part.kind == "tally" and self.rng.random() < 0.4:
            at.line("get", self.target(at), variable.name, "total", self.total(at, part, number))
            at.acts()
            return
        place = [side + 1] if variable.kinds[0] == "pair" else key
        passes = self.passes(at, part, number)
        at.line("get", self.target(at), variable.name, *place, *passes)
        at.acts()

    def total(self, at, part, number):
        """A total that a get waits for; where it is the number, it passes with it."""
        if not self.is_calm:
            return self.rng.choice((0, number, part.top, 9999, 10000, 10001, -1, self.term(at)))
        return self.level(at, part.top) if self.rng.random() < 0.3 else self.rng.choice((number, part.top + 1))

    def passes(self, at, part, number):
        """What a get waits for, which passes with the number."""
        if self.rng.random() < 0.4 or (part.kind in LEVELS and not 0 <= number <= 1000):
            return ["in", *self.members(part, number)]
        if part.kind in ("cell", "map"):
            return ["any"]
        word = "has" if part.kind == "set" else "least"
        if at.locals and self.rng.random() < 0.3:
            if self.is_calm and part.kind in LEVELS:
                return [word, self.level(at, part.top)]
            return [word, self.rng.choice(at.locals)]
        return [word, number]

    def members(self, part, number):
        if part.kind in LEVELS:
            number = min(max(number, 0), 1000)
        if part.kind == "set" or part.kind in LEVELS:
            return [number] * self.rng.randint(1, 2)
        members = [number, *(self.rng.randint(-9, 9) for _ in range(self.rng.randint(0, 3)))]
        self.rng.shuffle(members)
        return members

    # Local statements.

    def let(self, at):
        """A let; in a calm script one that leaves its local below a million."""
        if self.rng.random() < 0.25:
            term = self.term(at)
            at.line("let", self.target(at), term)
            return
        operator, first, second = self.rng.choice(OPERATORS), self.term(at), self.term(at)
        if operator in "/%" and (self.is_calm or self.rng.random() < 0.7):
            second = self.rng.choice((-1, 1, 2, 3, 7, -5, 100))
        elif operator in "<=" and self.rng.random() < 0.2:
            second = self.rng.choice(HUGE)
        name = self.target(at)
        at.line("let", name, first, operator, second)
        if operator in "+-*" and (self.is_calm or self.rng.random() < 0.5):
            at.line("let", name, name, "%", self.rng.choice((3, 10, 997)))

    def block(self, at, count):
        at.depth += 1
        for _ in range(count):
            self.statement(at)
        at.depth -= 1

    def condition(self, at):
        term = self.term(at)
        at.line("if", term)
        self.block(at, self.rng.randint(0, 3))
        if self.rng.random() < 0.5:
            at.line("else")
            self.block(at, self.rng.randint(0, 3))
        at.line("end")

    def loop(self, at):
        """A loop with a bound; in a wild script also one without."""
        if not self.is_calm and self.rng.random() < 0.12:
            self.endless(at)
            return
        at.loops += 1
        count, test = self.assigned(at, f"i{at.loops}"), self.assigned(at, f"c{at.loops}")
        bound = self.rng.randint(0, 4)
        guarded, times = set(at.guarded), at.times
        at.guarded |= {count, test}
        at.times *= max(bound, 1)
        (self.rising if self.rng.random() < 0.5 else self.falling)(at, count, test, bound)
        at.guarded, at.times = guarded, times

    def endless(self, at):
        """A loop that goes on for ever, or never begins. Where there are several tasks, it makes steps."""
        at.line("while", self.rng.choice((1, 1, 0, self.term(at))))
        at.depth += 1
        if self.kind == "wild":
            self.put(at)
        at.depth -= 1
        self.block(at, self.rng.randint(0, 2))
        at.line("end")

    def long_loop(self, at):
        """Some hundred or thousand local statements, for which its task pauses up to 6 times."""
        at.loops += 1
        count, bound = self.assigned(at, f"i{at.loops}"), self.rng.randint(100, 2500)
        at.line("let", count, bound)
        at.line("while", count)
        at.line("  let", count, count, "-", 1)
        at.line("end")
        at.acts(1 + bound * 2 // 1000)

    def rising(self, at, count, test, bound):
        at.line("let", count, 0)
        at.line("let", test, count, "<", bound)
        at.line("while", test)
        self.block(at, self.rng.randint(1, 3))
        at.line("  let", count, count, "+", 1)
        at.line("  let", test, count, "<", bound)
        at.line("end")

    def falling(self, at, count, test, bound):
        at.line("let", test, 1)
        at.line("let", count, bound)
        at.line("while", count)
        self.block(at, self.rng.randint(1, 3))
        at.line("  let", count, count, "-", 1)
        at.line("end")

    # Tasks, calls, handlers.

    def terms_for(self, at, procedure):
        if procedure.most_depth is not None:
            return [self.rng.randint(0, procedure.most_depth)]
        return [self.term(at) for _ in procedure.parameters]

    def call(self, at):
        """A call of a procedure that puts only where this one may, and forks only where this one may."""
        fit = [it for it in self.procedures if it.puts <= set(at.targets) and (it.is_plain or not at.is_plain)]
        if self.is_calm or at.times > 1 or self.rng.random() < 0.9:
            fit = [it for it in fit if it.is_written]
        if fit:
            procedure = self.rng.choice(fit)
            at.line("call", procedure.name, *self.terms_for(at, procedure))
            at.acts(procedure.cost)
            at.work += at.times * procedure.work
            at.puts |= procedure.puts

    def fork(self, at):
        fit = [it for it in self.procedures if not self.is_calm or it.puts <= set(self.free)]
        if fit and not at.is_plain:
            procedure = self.rng.choice(fit)
            at.line("fork", procedure.name, *self.terms_for(at, procedure))
            at.acts(1 + procedure.cost)
            at.puts |= procedure.puts

    def handle(self, at):
        variables = [it for it in (self.free if self.is_calm else self.variables) if it.pools]
        fit = [it for it in self.procedures if len(it.parameters) == 2]
        if self.is_calm:
            fit = [it for it in fit if it.puts <= set(self.free)]
        if fit and variables and not at.is_plain:
            self.add_handler(at, self.rng.choice(variables), self.rng.choice(fit))

    def add_handler(self, at, variable, procedure):
        at.line("handle", self.rng.choice(variable.pools), procedure.name)
        at.acts(1 + variable.events() * (1 + procedure.cost))
        at.puts |= procedure.puts

    def freeze(self, at):
        """A freeze of any variable: of wild scripts, and of those with one task."""
        variable = self.rng.choice(self.variables)
        words = [variable.name]
        if variable.pools and self.rng.random() < 0.6:
            words += ["after", *self.rng.sample(variable.pools, self.rng.randint(1, len(variable.pools)))]
        procedures = [it for it in self.procedures if len(it.parameters) == 2]
        if procedures and self.rng.random() < 0.4:
            words += ["each", self.rng.choice(procedures).name]
        self.freeze_line(at, words)

    def freeze_line(self, at, words):
        at.line("freeze", self.target(at), *words)
        at.acts()

    # Procedures.

    def statement(self, at):
        choices = [(self.let, 3), (self.put, 4), (self.get, 10 * at.reads)]
        if at.depth < 4:
            choices += [(self.condition, 1), (self.loop, 1), (self.long_loop, 0.2)]
        choices += [(self.call, 1)]
        if not at.is_plain:
            choices += [(self.fork, 1.5), (self.handle, 1.5)]
        if not self.is_calm:
            choices += [(self.freeze, 0.8)]
        made, weights = zip(*choices)
        self.rng.choices(made, weights)[0](at)

    def write(self, at, targets, is_plain, reads=0.2):
        """Writes the statements of a procedure that puts into these variables."""
        at.targets, at.is_plain, at.reads = targets, is_plain, reads
        for _ in range(self.rng.randint(1, 6)):
            self.statement(at)
        at.is_written = True
        return at
