"""Random scripts: what tools/random_scripts runs.

A script is one of four kinds, and by its kind all its runs come to the same, or they may not:

- calm: no run can err, and nothing is frozen.
- frozen: no run can err, and variables are frozen, where nothing raises them any more.
- alone: one task alone, without a fork or a handler, so there is one run. It may err, or go on for ever.
- wild: anything that the language has. Runs may freeze variables in different orders, err, and go on for ever.

No run errs of a calm or frozen script by how it is made. What is put into one cell, or at one key of a map,
is always the same number; what is put into a counter is within its range. Locals stay below a million: a
sum, a difference or a product is followed by a remainder, and divisors are numbers other than 0. No procedure
names itself or one that names it, but for two with a small depth of their own. What a task freezes is either
its own, and nobody else puts into it; or `main` freezes it after all who put into it are done: after each
task that it forked for this has put its number into the set `done`, as its last act, and in an order in which a
variable's handlers put into it and later ones alone, each freeze after all of the variable's pools. What
`main` puts into it afterwards is there already.
"""

import random

from random_parts import MOST_COST, MOST_WORK, SIMPLE, Procedure, Variable
from random_statements import Statements


class Maker(Statements):
    """Makes a script of a kind."""

    # Declarations.

    def kinds(self):
        """A kind of variable."""
        kind = self.rng.choice(("cell", "set", "set", "max", "map", "pair", *["tally"] * 2 * self.has_tallies))
        return (kind, self.rng.choice(SIMPLE), self.rng.choice(SIMPLE)) if kind == "pair" else (kind,)

    def declare(self, count, prefix):
        made = [Variable(self.rng, f"{prefix}{i}", self.kinds()) for i in range(count)]
        self.variables += made
        return made

    def declare_pools(self, variables):
        for i, it in enumerate(self.rng.sample(variables, self.rng.randint(1, len(variables)))):
            it.pools.append(f"p{it.name}")
            if self.rng.random() < 0.3:
                it.pools.append(f"q{it.name}")

    def declarations(self):
        lines = [" ".join([it.kinds[0], it.name, *it.kinds[1:]]) for it in self.variables]
        self.rng.shuffle(lines)
        return lines + [f"pool {pool} {it.name}" for it in self.variables for pool in it.pools]

    # Procedures.

    def parameters(self):
        return [["k", "n"], ["k", "n"], [], ["x"], ["x", "y", "z"]][self.rng.randrange(5)]

    def tree(self, targets):
        """A procedure that forks itself twice, to a small depth."""
        at = Procedure("tree", ["k"])
        at.targets, at.is_plain, at.most_depth = targets, False, 3
        at.line("let go 0 < k")
        at.line("if go")
        at.line("  let k k - 1")
        at.line("  fork tree k")
        at.line("  fork tree k")
        at.line("end")
        at.locals, at.guarded = ["k", "go"], {"k", "go"}
        self.put(at)
        at.cost, at.is_written = 15 * 4, True
        return at

    def down(self, targets):
        """A procedure that calls itself, to a small depth."""
        at = Procedure("down", ["k"])
        at.targets, at.most_depth = targets, 9
        at.locals, at.guarded = ["k", "go"], {"k", "go"}
        self.put(at)
        at.line("let go 0 < k")
        at.line("if go")
        at.line("  let k k - 1")
        at.line("  call down k")
        at.line("end")
        at.cost, at.work, at.is_written = 12, 60, True
        return at

    def deep_ones(self, targets):
        if self.rng.random() < 0.25:
            self.procedures.append(self.tree(targets))
        if self.rng.random() < 0.25:
            self.procedures.append(self.down(targets))

    # Whole scripts, by kind.

    def calm(self):
        """Tasks and handlers that put and get, and no freeze."""
        self.free = self.declare(self.rng.randint(1, 5), "v")
        self.declare_pools(self.variables)
        self.deep_ones(self.free)
        for i in range(self.rng.randint(1, 5)):
            self.procedures.append(self.write(Procedure(f"f{i}", self.parameters()), self.free, False))
        main = Procedure("main", [])
        main.targets = self.free
        for _ in range(self.rng.randint(0, 4)):
            self.put(main)
        return self.write(main, self.free, False)

    def wild(self):
        """Anything, with a budget."""
        self.declare(self.rng.randint(1, 5), "v")
        self.declare_pools(self.variables)
        is_plain = self.kind == "alone"
        written = [Procedure(f"f{i}", self.parameters()) for i in range(self.rng.randint(1, 5))]
        for it in written:
            it.is_plain = is_plain
        self.procedures = list(written)
        for it in written:
            self.write(it, self.variables, is_plain, 0.03 if is_plain else 0.15)
        main = Procedure("main", [])
        return self.write(main, self.variables, is_plain, 0.03 if is_plain else 0.15)

    def frozen_script(self):
        """Tasks and handlers that put, and `main`, which freezes where they are done."""
        self.frozen = self.declare(self.rng.randint(1, 3), "w")
        self.free = self.declare(self.rng.randint(1, 3), "v")
        self.declare_pools(self.variables)
        own = self.declare(self.rng.randint(0, 2), "own")
        done = Variable(self.rng, "done", ("set",))
        self.variables.append(done)
        self.deep_ones(self.free)
        self.procedures.append(self.write(Procedure("g0", ["k", "n"]), self.free, False))
        shared = [*self.frozen, *self.free]
        for i in range(self.rng.randint(1, 3)):
            self.procedures.append(self.write(Procedure(f"f{i}", self.parameters()), shared, True, 0.05))
        main = Procedure("main", [])
        main.targets = shared
        for _ in range(self.rng.randint(1, 5)):
            self.put(main)
        workers, count = self.workers(main, shared)
        handlers = self.handlers_of(main)
        owners = [self.owner(main, it) for it in own]
        if self.rng.random() < 0.5:
            self.write(main, shared, True, 0.05)
        for i in range(1, count + 1):
            main.line("get", "x", "done", "has", i)
            main.acts()
            self.assigned(main, "x")
        eaches = self.freezes(main)
        self.afterwards(main)
        self.procedures += [*workers, *handlers, *owners, *eaches]
        return main

    def workers(self, main, targets):
        """Procedures that `main` forks, each of which puts its number into `done` as its last act."""
        made, count = [], 0
        for i in range(self.rng.randint(0, 3)):
            at = Procedure(f"work{i}", ["me"])
            at.guarded.add("me")
            self.write(at, targets, True, 0.05)
            at.line("put done", "me")
            at.acts()
            made.append(at)
            for _ in range(self.rng.randint(1, 3)):
                count += 1
                main.line("fork", at.name, count)
                main.acts(1 + at.cost)
        return made, count

    def handlers_of(self, main):
        """Handlers on variables that are frozen later, each puts into its own and later ones."""
        made = []
        for i, variable in enumerate(self.frozen):
            for pool in variable.pools * self.rng.randint(0, 1):
                targets = [*self.frozen[i:], *self.free]
                at = self.write(Procedure(f"hand{len(made)}", ["k", "n"]), targets, True, 0.05)
                main.line("handle", pool, at.name)
                main.acts(1 + variable.events() * (1 + at.cost))
                made.append(at)
        return made

    def owner(self, main, variable):
        """A procedure that puts into a variable of its own and freezes it, forked once."""
        at = self.write(Procedure(f"by{variable.name}", ["z"]), [variable], True, 0.05)
        at.line("freeze", "count", variable.name)
        at.acts()
        at.locals.append("count")
        at.targets = self.free
        self.put(at)
        main.line("fork", at.name, self.term(main))
        main.acts(1 + at.cost)
        return at

    def freezes(self, main):
        """The freezes of `main`, in the order of the variables, each after all pools of its variable."""
        made = []
        for i, variable in enumerate(self.frozen):
            words = [variable.name, *(["after", *variable.pools] if variable.pools else [])]
            if self.rng.random() < 0.5:
                later = [*self.frozen[i + 1 :], *self.free]
                at = self.write(Procedure(f"each{len(made)}", ["k", "n"]), later, True, 0.02)
                words += ["each", at.name]
                main.acts(variable.events() * at.cost)
                made.append(at)
            if self.rng.random() < 0.2:
                main.line("let", self.target(main), self.any_number())
            self.freeze_line(main, words)
        return made

    def afterwards(self, main):
        """What `main` does once all is frozen: it puts what is there already, and goes on elsewhere."""
        for variable, words in self.sure:
            if variable in self.frozen and self.rng.random() < 0.5:
                main.line("put", variable.name, *words)
                main.acts()
        if self.rng.random() < 0.3:
            main.line("freeze", self.target(main), self.rng.choice(self.frozen).name)
            main.acts()
        self.write(main, self.free, False, 0.1)

    def lines(self):
        """The script's lines; none where it could take too many steps."""
        main = {"calm": self.calm, "frozen": self.frozen_script}.get(self.kind, self.wild)()
        written = [*self.procedures, main]
        if (self.is_calm and main.cost > MOST_COST) or max(it.work for it in written) > MOST_WORK:
            return None
        self.rng.shuffle(written)
        version = ["lvish 2"] if self.has_tallies else []
        lines = [*version, *self.declarations(), *(line for it in written for line in it.text())]
        return dressed(self.rng, lines)


def dressed(rng, lines):
    """The lines, with comments, blank lines, more spaces and other spellings of numbers here and there."""
    made = []
    for line in lines:
        chance = rng.random()
        if chance < 0.02:
            line = line.replace(" 0", " -0", 1) if " 0" in line else line.replace(" 1", " 01", 1)
        elif chance < 0.03:
            line += " # said"
        elif chance < 0.04:
            line = "\t" + line.replace(" ", "  ")
        elif chance < 0.05:
            made.append(rng.choice(("", "# a comment")))
        made.append(line)
    return made


class Script:
    """A random script: its name, kind and lines, whether its runs come to the same, and its budget."""

    def __init__(self, seed, number):
        rng = random.Random(f"{seed}.{number}")
        self.name = f"{seed}.{number}"
        self.kind = rng.choices(("calm", "frozen", "alone", "wild"), (30, 30, 8, 32))[0]
        self.is_alike = self.kind != "wild"
        self.budget = 10000 if self.kind in ("calm", "frozen") else rng.randint(10, 120 if self.kind == "wild" else 60)
        self.lines = None
        while self.lines is None:
            self.lines = Maker(rng, self.kind).lines()

    def may_come_to(self, outcomes):
        """Whether runs of the script can come to these: no run errs of one that is made so."""
        return self.kind not in ("calm", "frozen") or set(outcomes) <= {"ended", "blocked"}

    def question(self, is_counted=False):
        words = ["replayed"] + ["alike"] * self.is_alike + ["counted"] * is_counted
        return " ".join(words + [str(self.budget)] * (self.budget != 10000))

    def row(self, is_counted):
        """The row of a file; where its steps are counted, every answer is printed, since none is expected."""
        answer = "" if is_counted else " 8 traces replayed" + ", alike" * self.is_alike
        return "\n".join([f"== {self.kind} {self.name}", *self.lines, f"$ {self.question(is_counted)} => 0{answer}", ""])
