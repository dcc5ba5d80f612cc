#!/usr/bin/env python3
"""respell: run once at the top, after the kit's port.py: brings the repository's own words to the kit's spelling.

Words in snake case; the kit's choice by a test and its test of two numbers in place of the repository's own; the same in the edits.
"""
import re
from pathlib import Path

OWN_TESTS = "Rattle.lists.specs.Tests"
OF_KIT = ("◌==◌", "if◌then◌else◌")
RENAMED_BY_PORT = {"getD": "get_or", "indexOf": "index_of"}
# Names that would fall together with a definition in snake case: the folder, the name, the name from now on.
APART = [
    ("crates/applets/proofs", r"\bby_number\b", "by_number_lem"),
    ("crates/card/proofs/Back.antt", r"\bby_number\b", "by_number_lem"),
    ("crates/card/proofs/Turn.antt", r"(?<![.\w-])in_order\b", "call_order"),
    ("crates/history/proofs/Calling.antt", r"(?<=^  )in_order(?= [:\[(])|(?<=\()in_order(?= [hl] )", "in_order_lem"),
    ("crates/history/proofs", r"(?<![.\w-])is_open\b", "is_open_lem"),
    ("crates/promises/proofs", r"(?<![.\w-])is_open\b", "is_open_lem"),
    ("crates/timers/proofs", r"\bnone_free\b", "none_free_lem"),
    ("crates/script_line", r"\brecord_of\b", "a_record"),
    ("crates/script", r"\brecord_of\b", "a_record"),
]
CAMEL = re.compile(r"(?<![\w'])[a-z][a-z0-9]*(?:[A-Z][A-Za-z0-9]*)+(?![\w])")
STRING = re.compile(r'b?"(?:[^"\\\n]|\\.|\\\n)*"|b\'[^\']*\'')


def snake(word):
    return RENAMED_BY_PORT.get(word) or re.sub(r"(?<=[a-z0-9])(?=[A-Z])", "_", word).lower()


def respelled(text):
    """Camel case becomes snake case, outside of strings."""
    pieces, at = [], 0
    for string in STRING.finditer(text):
        pieces += [CAMEL.sub(lambda m: snake(m[0]), text[at:string.start()]), string[0]]
        at = string.end()
    return "".join(pieces) + CAMEL.sub(lambda m: snake(m[0]), text[at:])


def imports_of_kit(text):
    """What stands for the repository's own choice and test of numbers comes from the kit's Prelude."""
    def turned(line):
        names = [name.strip() for name in line[2].split(",")]
        kit = [name for name in names if name in OF_KIT]
        own = [name for name in names if name not in OF_KIT]
        return "\n".join(f"{line[1]}{module}.{{{', '.join(some)}}}{line[3]}"
                         for module, some in ((OWN_TESTS, own), ("Rattle.std.specs.Prelude", kit)) if some)
    return re.sub(rf"(?m)^((?:ghost )?use ){re.escape(OWN_TESTS)}\.\{{([^}}]*)\}}(;?)$", turned, text)


def without_own_tests(text):
    start, end = text.index("-- the first where"), text.index("-- the first is smaller")
    text = text[:start] + text[end:]
    return text.replace("infix 50 ◌==◌\n", "").replace("infixr 5 if◌then◌else◌\n", "").replace("The choice by a test, and the tests", "The tests")


def apart(path, text):
    for folder, name, other in APART:
        if path.suffix == ".antt" and f"{path}/".startswith(f"{folder}/"):
            text = re.sub(name, other, text, flags=re.M)
    return text


def tight(text):
    """The text of an edit of a definition, with projections as the kit writes them."""
    def line(text):
        before = None
        while before != text:
            before = text
            text = re.sub(r"\(([\w'?]+(?:\.[\w'?]+)*) \.([\w'?]+)\)", r"\1.\2", text)
            text = re.sub(r"(?<![\w'?.])([\w'?]+(?:\.[\w'?]+)*) \.([\w'?]+)", r"\1.\2", text)
        return text
    if not re.search(r"(?m)^file: specs/", text):
        return text
    return "".join(word if word.startswith("file: ") else line(word) for word in text.splitlines(True))


def main():
    tests = Path("crates/lists/specs/Tests.antt")
    tests.write_text(without_own_tests(tests.read_text()))
    for top in ("crates", "tests/wrong-rules"):
        for path in sorted(Path(top).rglob("*")):
            if path.suffix in (".antt", ".rt", ".edit") and "out" not in path.parts:
                text = respelled(apart(path, imports_of_kit(path.read_text())))
                path.write_text(tight(text) if path.suffix == ".edit" else text)


main()
