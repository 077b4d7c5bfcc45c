#!/usr/bin/env python3
"""Spells the project's own definitions, lemmas and fields of specs/ and proofs/ in snake case, in antt files, clauses, and must-fail edits.

usage: tools/respell.py [--check] [FOLDER]

It goes by what the files of specs/ and proofs/ declare. A name that a file imports from a library stays in that file, and so does what stands behind a dot,
unless a record of the project has a field of that name. Types, modules and constructors keep their capital. A second run changes nothing.
--check writes nothing, and lists the names that would fall together with another in a file.
"""

import os
import re
import sys

TOKEN = r"[^\s(){}.;,@\"«»\[\]|∷]+"
MODIFIERS = r"(?:(?:pub|abbrev|unfoldable|mutual|private)\s+)*"
DECLARED = re.compile(rf"(?m)^[ \t]*{MODIFIERS}((?:{TOKEN}[ \t]+)+):(?=\s)")
BINDER = re.compile(r"[({]((?:[^\s(){}.;,:@\"«»]+[ \t]+)+):(?=\s)")
LET = re.compile(rf"\blet[ \t]+({TOKEN})(?=[ \t]+[:=])")
USE = re.compile(r"(?m)^[ \t]*(?:ghost )?use ([^\s;{]+)(\{[^}]*\})?")
COMMENT = re.compile(r"--[^\n]*|//[^\n]*")
OTHER = {
    # What would fall together with another name in its file, each with its own.
    "bothConstant": "are_constants",
    "isDigit": "is_digit_byte",
    "thenBranch": "then_branch",
    "elseBranch": "else_branch",
    "notEqual": "not_equal",
    "goodJ": "good_j",
    "no-else": "without_else",
    "most-held": "held_most",
    "is-nan": "is_nan_lem",
}
STAY = set()


def snake(name):
    return OTHER.get(name) or plain(name)


def plain(name):
    name = name.replace("getD", "get_or").replace("get_d_", "get_or_")
    name = re.sub(r"(?<=[a-z0-9])[A-Z]{2,}(?![a-z])", lambda m: "_" + m[0].lower(), name)
    words = re.sub(r"(?<=[a-z0-9])[A-Z]", lambda m: "_" + m[0].lower(), name)
    return re.sub(r"(?<=\w)-(?=\w)", "_", words).replace("′", "'")


def turns(name):
    return bool(re.match(r"[a-z]", name)) and name not in STAY and "·" not in name and snake(name) != name


def files(root, ends):
    for folder, dirs, names in os.walk(os.path.join(root, "crates")):
        dirs[:] = sorted(d for d in dirs if d != "out")
        for name in sorted(names):
            if name.endswith(ends):
                yield os.path.join(folder, name)


def read(path):
    with open(path, encoding="utf-8") as f:
        return f.read()


def bare(text):
    return COMMENT.sub("", text)


def ours(path, crates):
    words = path.rstrip(".").split(".")
    return words[0] == "package" or words[0] == "Rattle" and len(words) > 1 and words[1] in crates


def of_library(text, crates):
    found = set()
    for it in USE.finditer(text):
        if it[2] and not ours(it[1], crates):
            found |= {w for one in it[2][1:-1].split(",") for w in one.replace(" as ", " ").split()}
    return found


def declared(root):
    names, fields = set(), set()
    for path in files(root, ".antt"):
        text = bare(read(path))
        for it in DECLARED.finditer(text):
            for name in it[1].split():
                if re.search(rf"(?m)^[ \t]*{MODIFIERS}{re.escape(name)} : tie\.", text):
                    continue
                names.add(name)
        for it in BINDER.finditer(text):
            names.update(it[1].split())
        names.update(LET.findall(text))
        lines = text.split("\n")
        inside, indent = False, 0
        for line in lines:
            if re.match(r"\s*(?:pub )?record .* where\s*$", line):
                inside, indent = True, len(line) - len(line.lstrip())
                continue
            if inside and line.strip() and len(line) - len(line.lstrip()) <= indent:
                inside = False
            if inside:
                m = re.match(rf"\s*{MODIFIERS}((?:{TOKEN} +)+):", line)
                if m:
                    fields.update(m[1].split())
    # A lemma that would have a definition's name gets _lem, and so does any name with a dash that would meet another.
    plain_ones = {n for n in names | fields if plain(n) == n} | {plain(n) for n in names | fields if "-" not in n}
    for n in names | fields:
        if "-" in n and n not in OTHER and turns(n) and plain(n) in plain_ones:
            OTHER[n] = plain(n) + "_lem"
    return {n for n in names | set(OTHER) if turns(n)}, {n for n in fields if turns(n)}


def turned(text, names, fields, kept):
    aliases = set(re.findall(r"(?m)^[ \t]*use \S+ as ([a-z]\w*)[ \t]*$", text))

    def one(it):
        word, before = it[0], text[: it.start()]
        if word in kept or before.endswith("»") or word not in names | fields:
            return word
        if before.endswith(".") and not before.endswith((" .", "..")):
            head = re.search(r"([^\s(){};,@\"]*)\.$", before)[1]
            if word not in fields and head not in aliases and not re.fullmatch(r"(?:\w+\.)*[A-Z]\w*", head):
                return word
            if head.startswith(("tie", "goal", "given", "need")):
                return word
        return snake(word)

    pieces, at = [], 0
    for it in COMMENT.finditer(text):
        pieces.append((text[at : it.start()], False))
        pieces.append((it[0], True))
        at = it.end()
    pieces.append((text[at:], False))
    out = []
    for piece, is_comment in pieces:
        text = piece
        if is_comment:
            piece = re.sub(r"`([^`]*)`", lambda it: "`" + re.sub(TOKEN, lambda w: snake(w[0]) if w[0] in names | fields else w[0], it[1]) + "`", piece)
            out.append(re.sub(r"(?<![\w-])[a-z]+[A-Z]\w*", lambda w: snake(w[0]) if w[0] in names | fields else w[0], piece))
        else:
            out.append(re.sub(TOKEN, one, piece))
    return "".join(out)


CLAUSE = re.compile(r"(?m)^\s*(?:requires|ensures)\*?[^{\n]*\{|^\s*(?:pub )?ghost[^{\n]*\{|ghost use [^\n{]*\{")


def clauses(text):
    """The spans of a .rt file that are antt."""
    for it in CLAUSE.finditer(text):
        depth, k = 1, it.end()
        while depth and k < len(text):
            depth += (text[k] == "{") - (text[k] == "}")
            k += 1
        yield it.end(), k - 1, it[0]


def fall_together(path, old, new, said):
    def words(text):
        if path.endswith(".rt"):
            text = "\n".join(text[a:b] for a, b, _ in clauses(text))
        return re.findall(r"(?<!\.)(?<![^\s(){};,@\"«»\[\]|∷.])" + TOKEN, re.sub(r"(?m)^[ \t]*use [^{\n]*(?=\{)", "", bare(text)))

    first, pairs = {}, list(zip(words(old), words(new)))
    for a, b in pairs:
        if a != b:
            first.setdefault(b, set()).add(a)
    rest = {a for a, b in pairs if a == b}
    for b, each in sorted(first.items()):
        if len(each) > 1 or b in rest:
            said.append(f"{path}: {b}: {' '.join(sorted(each))}{' and itself' if b in rest else ''}")


def main(argv):
    check = "--check" in argv
    rest = [a for a in argv if a != "--check"]
    root = rest[0] if rest else "."
    crates = set(os.listdir(os.path.join(root, "crates")))
    names, fields = declared(root)
    said, count = [], 0
    for path in files(root, (".antt", ".rt", ".edit")):
        old = read(path)
        if path.endswith(".antt"):
            new = turned(old, names, fields, of_library(old, crates))
        elif path.endswith(".rt"):
            kept, new, at = of_library(old, crates), "", 0
            for a, b, head in clauses(old):
                new += old[at:a]
                if head.startswith("ghost use") and not ours(head.split()[2].rstrip("{"), crates):
                    new += old[a:b]
                else:
                    new += turned(old[a:b], names, fields, kept)
                at = b
            new += old[at:]
        else:
            is_antt = re.search(r"(?m)^file: specs/", old)
            new = "\n".join(
                turned(line, names, fields, set()) if re.match(r"(old|new): ", line) and (is_antt or re.search(r"requires|ensures|≡", line)) else line
                for line in old.split("\n")
            )
        if new != old:
            count += 1
            fall_together(path, old, new, said)
            if not check:
                with open(path, "w", encoding="utf-8") as f:
                    f.write(new)
    print("\n".join(said))
    print(f"{count} files, {len(names)} names, {len(fields)} fields")
    return 0


if __name__ == "__main__":
    sys.exit(main(sys.argv[1:]))
