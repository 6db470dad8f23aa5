"""Grammars of the script language for editors: tools/editors/lvish.vim and tools/editors/lvish.tmLanguage.json.

Their words are the names of the rows in rows/reserved.rows. `python3 tools/grammars.py` writes both files; tools/documents
says where they are others.
"""

import json
import os
import re
import sys

sys.dont_write_bytecode = True
sys.path.insert(0, os.path.dirname(os.path.abspath(__file__)))
import kit
import row_files

TABLE = "rows/reserved.rows"
# What vim and TextMate call the words of a row.
CLASSES = {
    "declarations": ("Declaration", "Type", "storage.type"),
    "blocks": ("Block", "Conditional", "keyword.control"),
    "statements": ("Statement", "Statement", "keyword.other.statement"),
    "reads": ("Read", "Operator", "keyword.operator.word.read"),
    "freezes": ("Freeze", "Operator", "keyword.operator.word.freeze"),
    "version 2": ("Version", "PreProc", "keyword.other.version"),
}
# A word begins and ends at a separator, at an end of the line, and nowhere else: `a#b` is one word.
BEGIN, END = r"(?<![^ \t])", r"(?![^ \t\r])"


def words():
    """Returns the words of each class, by the names of the rows."""
    found = {}
    for row in row_files.rows_of(f"{kit.ROOT}/{TABLE}"):
        name, colon, rest = row.name.partition(": ")
        if colon:
            found[name] = rest.split()
    return found


def unused(classes):
    """Returns each word that no script of its row has, of those that are accepted."""
    found = []
    for row in row_files.rows_of(f"{kit.ROOT}/{TABLE}"):
        own = classes.get(row.name.partition(": ")[0], [])
        used = {word for it in row.questions if it.status == 0 for word in it.script.decode().split()}
        found += [it for it in own if it not in used]
    return found


def vim(classes):
    """Returns the grammar for vim."""
    lines = ['" The script language of lvish; made by tools/grammars.py.', 'if exists("b:current_syntax")', "  finish", "endif"]
    lines += ["syn case match", "syn iskeyword 33-126", "setlocal commentstring=#\\ %s"]
    lines += [f"syn keyword lvish{CLASSES[it][0]} {' '.join(own)}" for it, own in classes.items()]
    lines += [r"syn match lvishNumber /\S\@1<!-\?\d\+\S\@!/", r"syn match lvishOperator /\S\@1<![-+*\/%<=]\S\@!/"]
    lines += [r"syn match lvishComment /\S\@1<!#.*$/ contains=@Spell"]
    links = {**{f"lvish{CLASSES[it][0]}": CLASSES[it][1] for it in classes}, "lvishNumber": "Number", "lvishOperator": "Operator", "lvishComment": "Comment"}
    lines += [f"hi def link {name} {group}" for name, group in links.items()]
    return "\n".join([*lines, 'let b:current_syntax = "lvish"', ""])


def text_mate(classes):
    """Returns the grammar for TextMate, and for editors that read its form."""
    patterns = [{"name": "comment.line.number-sign.lvish", "match": f"{BEGIN}#.*$"}]
    patterns += [{"name": f"{CLASSES[it][2]}.lvish", "match": f"{BEGIN}(?:{'|'.join(own)}){END}"} for it, own in classes.items()]
    patterns += [{"name": "constant.numeric.lvish", "match": f"{BEGIN}-?[0-9]+{END}"}]
    patterns += [{"name": "keyword.operator.lvish", "match": f"{BEGIN}[-+*/%<=]{END}"}]
    grammar = {"name": "lvish", "scopeName": "source.lvish", "fileTypes": ["lvish"], "patterns": patterns}
    return json.dumps(grammar, indent=2) + "\n"


def texts():
    """Returns the text of each file."""
    classes = words()
    return {"tools/editors/lvish.vim": vim(classes), "tools/editors/lvish.tmLanguage.json": text_mate(classes)}


def faults():
    """Returns what doesn't agree with the table: the files, LANGUAGE.md's list, the words that the checks compare with."""
    classes = words()
    table = {it for own in classes.values() for it in own}
    found = [f"{TABLE}: no script of its row has {it}" for it in unused(classes)]
    for path, text in texts().items():
        with open(f"{kit.ROOT}/{path}", encoding="utf-8") as it:
            found += [] if it.read() == text else [f"{path}: not as tools/grammars.py makes it"]
    with open(f"{kit.ROOT}/docs/LANGUAGE.md", encoding="utf-8") as it:
        reserved = re.search(r"is no reserved word: `([a-z ]*)`; in version 2 also `([a-z ]*)`", it.read())
    own = [it for name, of in classes.items() if name != "version 2" for it in of]
    found += [] if reserved and sorted(reserved[1].split()) == sorted(own) else ["docs/LANGUAGE.md: other reserved words than in the table"]
    found += [] if reserved and reserved[2].split() == classes["version 2"] else ["docs/LANGUAGE.md: other words of version 2 than in the table"]
    compared = set()
    for folder, _, names in os.walk(f"{kit.ROOT}/crates/lvish_checks/src"):
        for name in names:
            with open(f"{folder}/{name}", encoding="utf-8") as it:
                compared |= set(re.findall(r'b"([a-z]+)"', it.read()))
    # (`main` is no reserved word: a check asks for the procedure of this name)
    found += [f"crates/lvish_checks: compares with {it}, which isn't in the table" for it in sorted(compared - table - {"main"})]
    return found + [f"{TABLE}: crates/lvish_checks compares no word with {it}" for it in sorted(table - compared)]


if __name__ == "__main__":
    for path, text in texts().items():
        with open(f"{kit.ROOT}/{path}", "w", encoding="utf-8") as it:
            it.write(text)
