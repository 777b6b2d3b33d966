#!/usr/bin/env python3
"""Spells this repository's own definitions and lemmas in snake case, over the crates, their must-fail edits and the pages.

usage: tools/snake_names.py [--list]     (at the top of the repository; --list only prints the names, and where two would fall together)

A name is turned where it is declared in a crate's specs/ or in a lemma file of its proofs/: a definition, a lemma, a field of a record,
a constructor, a name under `where`. Types, facts and modules keep their capitals; operators, the names that Rattle makes, names of its
library, and the functions, fields and constants of src/ keep theirs. A name of RENAMED gets the name that stands there: its own would
meet another. A name in a comment is turned where it cannot be a word of the sentence; in a page, between backticks.
"""
import os
import re
import sys

NAME = r"[^\s(){}.;,@\"«»]+"
TOKEN = re.compile(NAME)
SIGNATURE = re.compile(r"(?m)^( *)(?:(?:pub|abbrev|unfoldable|mutual) +)*([^\s(){}.;,@\"«»:]+)(?: +\{[^{}\n]*\})* :(?!:)")
MANY = re.compile(r"(?m)^ *(?:pub )?((?:[^\s(){}.;,@\"«»:]+ )+): ")

RENAMED = {}
exec(open(os.path.join(os.path.dirname(os.path.realpath(__file__)), "snake_renamed.txt")).read())


def snake(name):
    words = re.sub(r"(?<=[a-z0-9'])[A-Z]", lambda m: "_" + m[0].lower(), name)
    return RENAMED.get(name, words.replace("-", "_"))


def files(folder, ends):
    for at, folders, names in os.walk(folder):
        folders[:] = sorted(f for f in folders if f not in ("out", ".git", "target"))
        for name in sorted(names):
            if name.endswith(ends):
                yield os.path.join(at, name)


def is_lemma_file(path):
    parts = path.split("/")
    return "specs" in parts or ("proofs" in parts and parts[-2] == "proofs")


def blank_comments(text):
    return re.sub(r"--[^\n]*", lambda m: " " * len(m[0]), text)


def imported_from_library(text):
    found = set()
    for path, names in re.findall(r"\buse ([^\s;{]+)\{([^}]*)\}", text):
        steps = path.strip(".").split(".")
        if steps[0] != "Rattle" or steps[1] in ("std", "core", "io", "libc", "os"):
            found.update(n.strip() for n in names.split(","))
    return found


def collect():
    declared, library, where = set(), set(), {}
    for path in files("crates", ".antt"):
        text = open(path).read()
        library |= imported_from_library(text)
        if not is_lemma_file(path):
            continue
        code = blank_comments(text)
        for m in SIGNATURE.finditer(code):
            declared.add(m[2])
            where.setdefault(m[2], path)
        for m in MANY.finditer(code):
            for n in m[1].split():
                if n not in ("pub", "abbrev", "unfoldable"):
                    declared.add(n)
                    where.setdefault(n, path)
    for path in files("crates", ".rt"):
        library |= imported_from_library(open(path).read())
    return declared, library, where


def candidates(declared, fields, tokens):
    """The new names. Where a lemma would have the name of a definition or of another lemma, it gets `_lem`."""
    table, back = dict(RENAMED), {}
    for name in declared:
        if "◌" not in name and re.match(r"[a-z]", name) and name not in table and snake(name) != name:
            table[name] = snake(name)
    for old, new in table.items():
        back.setdefault(new, []).append(old)
    for new, olds in back.items():
        lemmas = [n for n in olds if "-" in n and n not in fields]
        if len(olds) > 1:
            for n in lemmas:
                table[n] = new + "_lem"
        elif new in tokens and new not in RENAMED:
            if lemmas:
                table[olds[0]] = new + "_lem"
            elif new in declared and new not in fields:
                table[new] = new + "_lem"
    return table


def turn_code(text, table, fields, in_function):
    def one(m):
        word = m[0]
        if word not in table:
            return word
        if in_function and m.start() and text[m.start() - 1] == "." and word not in fields:
            return word
        return table[word]
    return TOKEN.sub(one, text)


def turn_comment(text, table):
    def one(m):
        word = m[0]
        if "-" in word or word not in table:
            return word
        return table[word]
    text = TOKEN.sub(one, text)
    return re.sub(r"`([^`\n]+)`", lambda m: "`" + TOKEN.sub(lambda t: table.get(t[0], t[0]), m[1]) + "`", text)


def turn_file(path, table, fields):
    text = open(path).read()
    mark = "--" if path.endswith(".antt") else "//"
    in_function = path.endswith(".antt") and not is_lemma_file(path)
    lines = []
    for line in text.split("\n"):
        # a comment begins a line or stands behind code after two spaces
        m = re.search(rf"(?:^|\s){re.escape(mark)}(?=\s|-|$).*", line)
        code, said = (line[: m.start()], line[m.start():]) if m else (line, "")
        lines.append(turn_code(code, table, fields, in_function) + turn_comment(said, table))
    new = "\n".join(lines)
    if new != text:
        open(path, "w").write(new)
        return 1
    return 0


def main():
    declared, library, where = collect()
    fields, tokens = set(), set()
    for path in files("crates", ".antt"):
        if is_lemma_file(path):
            code = blank_comments(open(path).read())
            for m in re.finditer(r"(?m)^(?:pub )?record\b.*\n((?:(?:  .*|\s*)\n)+)", code):
                for n in re.findall(r"(?m)^  (?:pub )?((?:[^\s(){}.;,@\"«»:]+ )+):", m[1]):
                    fields.update(n.split())
        tokens.update(TOKEN.findall(blank_comments(open(path).read())))
    fields.discard("pub")
    table = candidates(declared, fields, tokens)
    for name in library:
        table.pop(name, None)
    if "--list" in sys.argv:
        tokens, rust = {}, {}
        print("fields:", sorted(f for f in fields if f in table))
        for path in files("crates", ".antt"):
            for t in set(TOKEN.findall(blank_comments(open(path).read()))):
                tokens.setdefault(t, path)
        for path in files("crates", ".rt"):
            for t in set(re.findall(r"[A-Za-z_]\w*", re.sub(r"ghost use[^;]*;|(?:requires|ensures)\s*\{[^\n]*\}|//[^\n]*", "", open(path).read()))):
                rust.setdefault(t, path)
        back = {}
        for old, new in sorted(table.items()):
            back.setdefault(new, []).append(old)
            if new in tokens or new in rust:
                print("meets:", old, "->", new, where[old], "| antt:", tokens.get(new, "-"), "| rust:", rust.get(new, "-"))
        for new, olds in sorted(back.items()):
            if len(olds) > 1:
                print("together:", new, olds, [where[o] for o in olds])
        print(len(table), "names")
        return
    done = 0
    for path in list(files("crates", (".antt", ".rt"))):
        done += turn_file(path, table, fields)
    for path in files("crates", ".edit"):
        text = open(path).read()
        new = turn_code(text, table, fields, False)
        if new != text:
            open(path, "w").write(new)
            done += 1
    for path in [p for p in files(".", ".md")]:
        text = open(path).read()
        new = re.sub(r"`([^`\n]+)`", lambda m: "`" + TOKEN.sub(lambda t: table.get(t[0], t[0]), m[1]) + "`", text)
        if new != text:
            open(path, "w").write(new)
            done += 1
    print(len(table), "names,", done, "files")


main()
