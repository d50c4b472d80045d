#!/usr/bin/env python3
"""Brings the names that the crates' .antt files declare to today's spelling: words in snake case.

usage: tools/respell.py [--check]       at the top of the repository, once, after the kit's port.py

A name that begins with a small letter gets small letters and underscores alone: lookUp becomes look_up, map-inode
map_inode. A law that would then have the name of a definition gets _lem. Types, modules and Rust's own names keep their
spelling, and so do the goals of a Proof.antt, which it declares under types that begin with 'tie.', and its theorem. The
script goes over the contracts in .rt files, the .antt files and the must-fail edits. --check writes nothing, and lists the
names that fall together.
"""

import os
import re
import sys

ROOT = os.path.join(os.path.dirname(os.path.realpath(__file__)), "..", "crates")
TOKEN = re.compile(r'(?<![^\s(){}.;,@"«»⌜⌝`])[^\s(){}.;,@"«»⌜⌝`]+')
DECLARED = re.compile(r"^( *)(?:(?:pub|abbrev|unfoldable) +)*([^\s(){}.;,@\"«»:]+)(?: [({][^:]*?:.*?[)}])* :(?: |$)(.*)")
OWN = r"Rattle\.(?!std\b)\w+\.(?:specs|proofs)"
# Names that say an older word of the library, or that would meet another name.
SAID = {"getD-table": "get_or_table", "inOrder": "is_in_order"}
# Laws that the kit's script gave the name that a definition now gets.
LAWS = {"zero_rest", "read_table", "same_names", "is_digit"}


def files():
    for folder, dirs, names in os.walk(ROOT):
        dirs[:] = sorted(d for d in dirs if d != "out")
        for name in sorted(names):
            if name.endswith((".rt", ".antt", ".edit")):
                yield os.path.join(folder, name)


def snake(name):
    if name in SAID:
        return SAID[name]
    return re.sub(r"(?<=[a-z0-9])[A-Z]", lambda m: "_" + m[0].lower(), name).replace("-", "_")


def declared(path, text):
    """Each name that the text declares, and whether it is a goal of a proof by hand, with its indent."""
    for line in text.split("\n"):
        m = DECLARED.match(line)
        if m and not line.startswith(("use ", "pub use ", "--")):
            goal = path.endswith("Proof.antt") and ("tie." in m[3] or m[2].endswith("-spec"))
            yield m[2], goal, len(m[1])


def main(check):
    texts = {}
    for path in files():
        with open(path, encoding="utf-8") as f:
            texts[path] = f.read()
    table, foreign, names, goals, inner = {}, set(), set(), {}, set()
    for path, text in texts.items():
        if path.endswith(".antt"):
            goals[path] = set()
            for name, goal, indent in declared(path, text):
                if goal:
                    goals[path].add(name)
                    continue
                names.add(name)
                if indent:
                    inner.add(name)
                if name[0].islower() and snake(name) != name:
                    table[name] = snake(name)
            for m in re.finditer(rf"^(?:pub )?use (?!{OWN})[^\n{{]*\{{([^}}]*)\}}", text, re.M):
                foreign.update(w for it in m[1].split(",") for w in it.split())
        elif path.endswith(".rt"):
            for m in re.finditer(r"ghost use Rattle\.std\.[^;{]*\{([^}]*)\}", text):
                foreign.update(w for it in m[1].split(",") for w in it.split())
    for name in sorted(set(table) & foreign):
        print("left: a library has the name too:", name, "->", table[name])
        del table[name]
    definitions = {to for name, to in table.items() if "-" not in name} | (names - set(table) - LAWS)
    for name, to in table.items():
        if "-" in name and to in definitions and to not in ("free_blocks", "free_inodes", "entry_at"):
            table[name] = to + "_lem"
    ends = {}
    for name, to in table.items():
        ends.setdefault(to, []).append(name)
    for to, olds in sorted(ends.items()):
        if len(olds) > 1 or to in names:
            print("look: fall together:", olds + [to] * (to in names), "->", to)
    print(len(table), "names")
    if check:
        return
    for path, text in texts.items():
        if path.endswith((".rt", ".edit")):
            def one(m):
                return table.get(m[0], m[0])
            turned = re.sub(r"(?<![\w'-])[a-z]\w*(?![\w'-])", one, text)
            if path.endswith(".edit") and ".antt" in text:
                turned = re.sub(r"(?<![\w'-])[a-z]\w*(?:-\w+)+(?![\w'-])", one, turned)
        else:
            by_hand = path.endswith("Proof.antt")
            lines = []
            for line in text.split("\n"):
                at = line.find("--") if re.match(r"\s*--", line) else line.find(" -- ")
                code, said = (line, "") if at < 0 else (line[:at], line[at:])

                def one(m, code=code, path=path):
                    name, behind = m[0], m.start() and m.string[m.start() - 1] == "."
                    if name in goals[path]:
                        return name
                    if name in LAWS:
                        return name if behind else name + "_lem"
                    if by_hand and behind and "-" in name and name not in inner:
                        return name
                    return table.get(name, name)

                code = TOKEN.sub(one, code)
                said = TOKEN.sub(lambda m: m[0] if "-" in m[0] else table.get(m[0], m[0]), said)
                lines.append(code + said)
            turned = "\n".join(lines)
        if turned != text:
            with open(path, "w", encoding="utf-8") as f:
                f.write(turned)


main("--check" in sys.argv)
