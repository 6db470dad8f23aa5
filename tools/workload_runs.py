"""Scripts that are run to measure programs, each with the report that it must have, worked out without running it."""

import textwrap
import typing

STEPS = ["--steps", "1000000"]
# The local statements after which a task pauses.
TURN = 1000


class Workload(typing.NamedTuple):
    """A script of a kind and a size, what is asked of it, and what must be printed."""

    script: str
    words: list
    output: str
    steps: int
    # The local statements that all tasks execute, where these are what is measured.
    statements: int = 0


def lines(text):
    """Returns the lines of an indented text, without their indents."""
    return textwrap.dedent(text).lstrip("\n")


def braces(items):
    """Returns a set's numbers as a report has them, or a map's entries."""
    if isinstance(items, dict):
        return "{" + " ".join(f"{key}:{items[key]}" for key in sorted(items)) + "}"
    return "{" + " ".join(map(str, sorted(items))) + "}"


def run(script, steps, contents=(), with_all=False, statements=0):
    """Returns the workload that runs a script to its end, at which nothing is blocked."""
    states = "".join(f"{name} = {content}\n" for name, content in contents)
    words = ["run", "FILE", *STEPS, *(["--all"] if with_all else [])]
    return Workload(script, words, f"{states}steps {steps}\nblocked 0\n", steps, statements)


def one(_):
    """a script of one step, for what a start takes"""
    return run("proc main\nend\n", 1)


def collatz(number, known):
    """Returns how many steps it takes from a number to 1, and how many of them from an odd number."""
    way = []
    while number not in known:
        way.append(number)
        number = 3 * number + 1 if number % 2 else number // 2
    steps, odd = known[number]
    for it in reversed(way):
        steps, odd = steps + 1, odd + it % 2
        known[it] = steps, odd
    return steps, odd


def local(numbers, tasks=64):
    """64 tasks with long loops"""
    script = lines("""
        map lengths
        proc count id number last
        let sum 0
        let more number < last
        while more
        let x number
        let on 1 < x
        while on
        let odd x % 2
        if odd
        let x x * 3
        let x x + 1
        else
        let x x / 2
        end
        let sum sum + 1
        let on 1 < x
        end
        let number number + 1
        let more number < last
        end
        put lengths id sum
        end
        proc main
        """)
    bounds = [1 + numbers * it // tasks for it in range(tasks + 1)]
    sums, steps, statements, known = {}, tasks + 1, 0, {1: (0, 0)}
    for task, (first, last) in enumerate(zip(bounds, bounds[1:])):
        ways = [collatz(it, known) for it in range(first, last)]
        sums[task] = sum(it for it, _ in ways)
        # before the loop; of each number; of each of its steps, of which one from an odd number has two
        own = 3 + 6 * len(ways) + sum(6 * it + odd for it, odd in ways)
        statements += own
        steps += own // TURN + 2
        script += f"fork count {task} {first} {last}\n"
    return run(script + "end\n", steps, [("lengths", braces(sums))], True, statements)


def tree(leaves):
    """Returns the script of a binary tree of tasks, and the number of its levels."""
    depth = leaves.bit_length() - 1
    script = lines(f"""
        proc grow d
        let c 0 < d
        if c
        let e d - 1
        fork grow e
        fork grow e
        end
        end
        proc main
        fork grow {depth}
        end
        """)
    return script, depth


def forktree(leaves):
    """a binary tree of tasks"""
    return run(tree(leaves)[0], 4 * leaves - 1)


def picktree(leaves):
    """a binary tree of tasks by picks"""
    script, depth = tree(leaves)

    def labels(name, levels):
        yield from [f"run {name}\n"] * (3 if levels else 1)
        for child in (1, 2) if levels else ():
            yield from labels(f"{name}/{child}", levels - 1)

    trace = "run main\n" * 2 + "".join(labels("main/1", depth))
    steps = trace.count("\n")
    return Workload(script, ["pick", "FILE", *STEPS], f"{trace}steps {steps}\nblocked 0\n", steps)


def cascade(elements):
    """each event put by the handling of the one before"""
    script = lines(f"""
        set s
        pool p s
        proc next key n
        let c n < {elements}
        if c
        let m n + 1
        put s m
        end
        end
        proc main
        handle p next
        put s 1
        freeze x s after p
        end
        """)
    return run(script, 3 * elements + 3, [("s", braces(range(1, elements + 1)))])


def counted(count, body):
    """Returns the lines of a loop whose `i` goes from 0 below a number of turns, one at least."""
    return f"let i 0\nlet c 1\nwhile c\n{body}let i i + 1\nlet c i < {count}\nend\n"


def mixing(count):
    """Returns two numbers by which x * one + other, modulo a power of two, comes to each number below it once."""
    return 65, 2 * (count // 3) + 1


def mapput(entries):
    """one task puts entries and reads each"""
    one, other = mixing(entries)
    put = f"put t k i\nlet k k * {one}\nlet k k + {other}\nlet k k % {entries}\n"
    script = f"map t\nproc main\nlet k 0\n{counted(entries, put)}{counted(entries, 'get x t i any' + chr(10))}end\n"
    content, key = {}, 0
    for number in range(entries):
        content[key] = number
        key = (key * one + other) % entries
    return run(script, 2 * entries + 1, [("t", braces(content))], True)


def waiting(tasks, kind, get, put):
    """Returns a script in which each of the tasks waits for its number, and then puts that of another."""
    one, other = mixing(tasks)
    script = f"set ready\n{kind} s\nproc wait i\nput ready i\n{get}\nlet j i * {one}\nlet j j + {other}\nlet j j % {tasks}\n{put.format('j')}\nend\n"
    ready = "get x ready has i\n"
    return script + f"proc main\n{counted(tasks, 'fork wait i' + chr(10))}{counted(tasks, ready)}{put.format(0)}\nend\n"


def waiters(tasks):
    """tasks wait for elements of one set and release one another"""
    script = waiting(tasks, "set", "get x s has i", "put s {}")
    numbers = braces(range(tasks))
    return run(script, 6 * tasks + 2, [("ready", numbers), ("s", numbers)], True)


def waitmap(tasks):
    """tasks wait for keys of one map and release one another"""
    script = waiting(tasks, "map", "get x s i any", "put s {} 1")
    return run(script, 6 * tasks + 2, [("ready", braces(range(tasks))), ("s", braces(dict.fromkeys(range(tasks), 1)))], True)


def bigframe(locals_, puts=50_000):
    """a task with many locals makes 50,000 puts"""
    named = "".join(f"let v{it} {it}\n" for it in range(locals_))
    script = f"max m\nproc main\n{named}{counted(puts, 'put m 1' + chr(10))}end\n"
    return run(script, (locals_ + 3) // TURN + puts + 1, [("m", 1)], True)


def deepname(parts, forks=50_000):
    """a task deep in the tree forks 50,000 others"""
    script = lines(f"""
        proc leaf
        end
        proc down d
        let c 0 < d
        if c
        let e d - 1
        fork down e
        else
        {{}}end
        end
        proc main
        fork down {parts - 1}
        end
        """).format(counted(forks, "fork leaf\n"))
    return run(script, 2 * parts + 2 * forks + 1)


def manyhands(elements, handlers=64):
    """64 handlers on one set"""
    handle, put = "handle p h\n", "put s i\n"
    script = f"set s\npool p s\nproc h k n\nend\nproc main\n{counted(handlers, handle)}{counted(elements, put)}freeze x s after p\nend\n"
    return run(script, handlers + elements + 2 + 2 * handlers * elements, [("s", braces(range(elements)))])


def found(first, next_of):
    """Returns the nodes of a graph that are reached from the first."""
    seen, todo = {first}, [first]
    while todo:
        fresh = set(next_of(todo.pop())) - seen
        seen |= fresh
        todo += fresh
    return seen


REACH = lines("""
    map edges
    set seen
    pool walks seen
    proc write from to x
    let k from * {degree}
    let end_of to * {degree}
    let c k < end_of
    while c
    let x x * 1103515245
    let x x + 12345
    let x x % 2147483648
    let y x / 64
    let y y % {nodes}
    put edges k y
    let k k + 1
    let c k < end_of
    end
    end
    proc visit key node
    let k node * {degree}
    let end_of k + {degree}
    let c k < end_of
    while c
    get y edges k any
    put seen y
    let k k + 1
    let c k < end_of
    end
    end
    proc look key node
    let odd node % 2
    end
    proc main
    handle walks visit
    put seen 0
    """)


def reach(nodes, degree=4, writers=8):
    """a walk through a graph that is being written"""
    script, edges = REACH.format(nodes=nodes, degree=degree), []
    places = [nodes * it // writers for it in range(writers + 1)]
    for writer, (first, last) in enumerate(zip(places, places[1:])):
        x = 1000 + 7919 * writer
        script += f"fork write {first} {last} {x}\n"
        for _ in range((last - first) * degree):
            x = (x * 1103515245 + 12345) % (1 << 31)
            edges.append(x // 64 % nodes)
    seen = found(0, lambda node: edges[node * degree : (node + 1) * degree])
    # main's, with a pause for each thousand statements of its `each`; the writers'; the visits'
    steps = writers + 4 + 2 * len(seen) // TURN + nodes * degree + writers + (2 + 2 * degree) * len(seen)
    return run(script + "freeze x seen after walks each look\nend\n", steps, [("seen", braces(seen))])


NODES, NEIGHBOURS = 8192, 4


def neighbours(node):
    """Returns the neighbours of a node of the walks' graph, which arithmetic gives."""
    return [((5 * node + it) * 48271 + 12345) % 1048573 % NODES for it in range(NEIGHBOURS)]


def walk(statements):
    """Returns a walk through a graph, with so many local statements at each node."""
    turns = statements // 3
    script = lines(f"""
        set seen
        pool p seen
        proc visit key node
        let j 0
        let c j < {turns}
        while c
        let j j + 1
        let c j < {turns}
        end
        let i 0
        let d i < {NEIGHBOURS}
        while d
        let y node * 5
        let y y + i
        let y y * 48271
        let y y + 12345
        let y y % 1048573
        let y y % {NODES}
        put seen y
        let i i + 1
        let d i < {NEIGHBOURS}
        end
        end
        proc main
        handle p visit
        put seen 0
        freeze x seen after p
        end
        """)
    seen = found(0, neighbours)
    # (a task pauses within the statements that come before its first put)
    pauses = (3 + 3 * turns + 3 + 6) // TURN
    return run(script, 4 + (2 + pauses + NEIGHBOURS) * len(seen), [("seen", braces(seen))])


# Each kind with its sizes, the greatest last, and what they count.
KINDS = {
    one: ([1], "step"),
    local: ([2048, 8192, 32768], "numbers"),
    forktree: ([2048, 8192, 32768, 131072], "leaves"),
    cascade: ([4096, 16384, 65536, 262144], "elements"),
    mapput: ([4096, 16384, 65536, 262144], "entries"),
    reach: ([2048, 8192, 32768], "nodes"),
    waiters: ([1024, 4096, 16384, 65536], "tasks"),
    waitmap: ([1024, 4096, 16384], "tasks"),
    bigframe: ([250, 1000, 4000], "locals"),
    deepname: ([4, 16, 60], "parts"),
    manyhands: ([256, 1024, 4096], "elements"),
    picktree: ([512, 2048, 8192], "leaves"),
}
WALKS = [0, 10, 100, 1000, 10000]
