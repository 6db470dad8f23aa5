"""The line forms of scripts, and which of them a script has."""

from random_parts import KEYED, OPERATORS, SIMPLE


def kind_at(kinds, words):
    """The kind of what a put or a get with these words is about: a cell, a set, a counter, a map, or a side."""
    of = kinds[words[0]]
    if of[0] != "pair":
        return of[0]
    side = of[int(words[1])] if words[1].lstrip("0") in ("1", "2") else "?"
    return f"pair's {side}"


def form_of(kinds, pools, words):
    """The form of a line with these words."""
    first, rest = words[0], words[1:]
    if first == "let":
        return "let" if len(rest) == 2 else f"let {rest[2]}"
    if first == "put":
        return f"put {kind_at(kinds, rest)}"
    if first == "get":
        test = next(it for it in rest[2:] if it in ("any", "in", "has", "least", "total"))
        return f"get {kind_at(kinds, rest[1:])} {test}"
    if first == "handle":
        return f"handle on {kinds[pools[rest[0]]][0]}"
    if first == "freeze":
        return " ".join(["freeze", kinds[rest[1]][0], *(it for it in ("after", "each") if it in rest)])
    if first in ("fork", "call", "proc"):
        return f"{first} {'with' if len(rest) > 1 else 'without'} terms"
    if first in ("if", "while"):
        return f"{first} {'number' if rest[0].lstrip('-').isdigit() else 'local'}"
    return " ".join([first, *rest[1:]]) if first == "pair" else first


def forms_of(lines):
    """The form of each line of a script."""
    kinds, pools, forms = {}, {}, []
    for line in lines:
        words = line.partition("#")[0].split()
        if words:
            if words[0] in (*SIMPLE, *KEYED, "pair"):
                kinds[words[1]] = [words[0], *words[2:]]
            if words[0] == "pool":
                pools[words[1]] = words[2]
            forms.append(form_of(kinds, pools, words))
    return forms


def all_forms():
    """Every line form."""
    reads = {"cell": ("any", "in"), "map": ("any", "in"), "set": ("has", "in"), "max": ("least", "in")}
    reads.update({f"pair's {it}": reads[it] for it in SIMPLE})
    reads["tally"] = ("least", "in", "total")
    kinds = (*SIMPLE, *KEYED, "pair")
    forms = ["lvish", *SIMPLE, *KEYED, *(f"pair {a} {b}" for a in SIMPLE for b in SIMPLE), "pool", "end", "else", "let"]
    forms += [f"let {it}" for it in OPERATORS]
    forms += [f"put {it}" for it in reads] + [f"get {it} {test}" for it, tests in reads.items() for test in tests]
    forms += [f"handle on {it}" for it in kinds]
    forms += [f"freeze {it}{how}" for it in kinds for how in ("", " after", " each", " after each")]
    forms += [f"{it} {how} terms" for it in ("fork", "call", "proc") for how in ("with", "without")]
    return forms + [f"{it} {how}" for it in ("if", "while") for how in ("number", "local")]
