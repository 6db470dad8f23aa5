"""Scripts that are long and only checked, each of a shape of its own."""

from workload_runs import Workload

SIZES = [4096, 16384, 65536]


def fill(head, unit, tail, size):
    """Returns a text of units between a head and a tail, and a comment that fills it up to its size."""
    parts, room, number = [head], size - len(head) - len(tail), 0
    while len(part := unit(number)) <= room:
        parts.append(part)
        room, number = room - len(part), number + 1
    return "".join(parts) + (f"#{'c' * (room - 2)}\n" if room > 1 else "") + tail


def locals_(size):
    """many locals"""
    return fill("proc main\n", lambda it: f"let v{it} v{it // 2}\n", "end\n", size)


def lists(size):
    """a long list"""
    numbers = fill("cell a\nproc main\nget x a in", lambda it: f" {7 * it}", "", size - 32).split("#")[0]
    return f"{numbers}\nend\n"


def nests(size):
    """blocks in blocks"""
    unit = "if x\n" * 63 + "let x 1\n" + "end\n" * 63
    return fill("proc main\nlet x 0\n", lambda _: unit, "end\n", size)


def mix(size):
    """a mix of all lines"""
    head = "set s\nmap t\npair q set max\npool p s\nproc h k n\nlet a k + n\nput s a\nend\nproc w a b c\nend\nproc main\n"
    unit = "let a{0} 12345 * 77\nput t a{0} -9\nget b t 5 any\nwhile b\nfork w a{0} 1 b\ncall h b 3\nif a{0}\nput q 2 17\nelse\n"
    unit += "get z q 1 has 4 # a comment\nend\nend\nfreeze y s after p each h\n"
    return fill(head, lambda it: unit.format(it % 50), "end\n", size)


def words(size):
    """lines of many words"""
    names = [f"{'abcdefghijklmnopqrstuvwxyz'[it % 26]}{it}" for it in range(size // 10)]
    return f"proc f {' '.join(names)}\nend\nproc main\nfork f {' '.join('7' for _ in names)}\nend\n"


SHAPES = {"locals": locals_, "lists": lists, "nests": nests, "mix": mix, "words": words}


def check(text):
    """Returns the workload that checks a text."""
    return Workload(text, ["check", "FILE"], "ok\n", 0)
