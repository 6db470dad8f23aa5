"""The manual page docs/lvish.1, made of what the program's help says.

`python3 tools/manual.py` writes it from the words and texts in crates/lvish_cli/src/commands.rt and arguments.rt;
tools/documents says where it is another, or lacks a command or a flag.
"""

import os
import re
import sys

sys.dont_write_bytecode = True
sys.path.insert(0, os.path.dirname(os.path.abspath(__file__)))
import kit

PAGE = "docs/lvish.1"
SOURCES = ("crates/lvish_cli/src/commands.rt", "crates/lvish_cli/src/arguments.rt")
TEXT = r'"((?:[^"\\]|\\.|\\\n)*)"'
CONSTANT = re.compile(rf"(?m)^(?:pub )?const (\w+): &str =\s*{TEXT};")
FUNCTION = re.compile(r"(?ms)^(?:pub )?fn (\w+)<'a>\(.*?^\}")
ARGUMENT = re.compile(rf"const (\w+): Argument = Argument \{{\s*name: {TEXT},\s*value: {TEXT},\s*help: {TEXT},\s*takes: Takes::(\w+)")
COMMAND = re.compile(rf"CommandText \{{\s*name: {TEXT},\s*kind: CommandKind::(\w+),\s*about: {TEXT},\s*help: (\w+),")
OF = re.compile(r"CommandKind::(\w+) => (\w+)\.as_slice\(\),")
LIST = re.compile(r"static (\w+): \[Argument; \d+\] = \[([^\]]*)\];")
# What takes no value, and what stands without a flag.
NOTHING, PLAIN = ("Nothing", "NothingWithout"), ("Text", "Picks", "Numbers")
ALSO = "docs/LANGUAGE.md has the script language, each fault, and all that is printed."


def told(text):
    """Returns the text that a string of the sources stands for."""
    return re.sub(r"\\(.)", r"\1", re.sub(r"\\\n\s*", "", text))


def written(name, value, takes):
    """Returns how an argument is written."""
    if takes in PLAIN:
        return value
    return f"--{name}" + ("" if takes in NOTHING else f"[={value}]" if takes == "Whether" else f" {value}")


class Words:
    """What the sources say: texts and arguments by their names, and of each command its name, what it does, its help and its arguments."""

    def __init__(self):
        source = ""
        for path in SOURCES:
            if os.path.exists(f"{kit.ROOT}/{path}"):
                with open(f"{kit.ROOT}/{path}", encoding="utf-8") as it:
                    source += it.read()
        self.texts = {name: told(text) for name, text in CONSTANT.findall(source)}
        self.program = next(it[0] for it in FUNCTION.finditer(source) if 'Command::new(alloc, "lvish")' in it[0])
        self.arguments = {it[0]: (written(it[1], it[2], it[4]), told(it[3])) for it in ARGUMENT.findall(source)}
        lists = {name: re.findall(r"\w+", names) for name, names in LIST.findall(source)}
        of = dict(OF.findall(source))
        self.commands = [(name, told(about), self.texts[text], lists[of[kind]]) for name, kind, about, text in COMMAND.findall(source)]

    def of_program(self, method):
        """Returns what the program is told by a method: a text, or what a text's name stands for."""
        found = re.search(rf'\.{method}\(\s*(?:{TEXT}|(\w+)),?\s*\)', self.program)
        return self.texts[found[2]] if found[2] else told(found[1])


def line_of(text):
    """Returns a line in troff: names in back-quotes are bold, and a hyphen of a flag is one."""
    text = text.replace("\\", "\\e").replace("--", "\\-\\-")
    text = re.sub(r"`([^`]+)`", r"\\fB\1\\fR", text)
    return f"\\&{text}" if text[:1] in (".", "'") else text


def paragraphs(text):
    """Returns the lines in troff of a text; a paragraph with lines that are set in stands as it is."""
    found = []
    for part in text.strip("\n").split("\n\n"):
        own = [line_of(it) for it in part.split("\n")]
        found += [".PP", ".nf", *own, ".fi"] if "\n  " in f"\n{part}" else [".PP", *own]
    return found


def page(words):
    """Returns the whole page."""
    about = words.of_program("about")
    lines = ['.\\" Made by tools/manual.py.', ".TH LVISH 1", ".SH NAME", f"lvish \\- {about[0].lower()}{about[1:]}"]
    lines += [".SH SYNOPSIS", ".nf", *(line_of(it.strip()) for it in words.of_program("override_usage").split("\n")), ".fi"]
    lines += [".SH DESCRIPTION", *paragraphs(words.of_program("after_help"))[1:]]
    lines += [".PP", line_of("With --help it says the same, of a command too."), ".SH COMMANDS"]
    for name, about, text, arguments in words.commands:
        lines += [f".SS lvish {name}", f"{line_of(about)}."]
        for argument in arguments:
            lines += [".TP", f".B {line_of(words.arguments[argument][0])}", line_of(words.arguments[argument][1])]
        lines += paragraphs(text)
    return "\n".join([*lines, ".SH SEE ALSO", ALSO, ""])


def faults():
    """Returns where the page is another than the help, or lacks a word of the sources."""
    words, path = Words(), f"{kit.ROOT}/{PAGE}"
    own = ""
    if os.path.exists(path):
        with open(path, encoding="utf-8") as it:
            own = it.read()
    found = [] if own == page(words) else [f"{PAGE}: not as tools/manual.py makes it"]
    parts = [line_of(it) for it, _ in words.arguments.values()] + [f".SS lvish {it[0]}" for it in words.commands]
    return found + [f"{PAGE}: lacks {it}" for it in parts if it not in own]


if __name__ == "__main__":
    with open(f"{kit.ROOT}/{PAGE}", "w", encoding="utf-8") as it:
        it.write(page(Words()))
