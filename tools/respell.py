#!/usr/bin/env python3
"""Brings the names of definitions and lemmas to the spelling of the library: words in snake case, types
and facts in upper camel case, a dash only where it joins two names, no middle dot. It runs once, after
the kit's port.py, at the top of the repository, and prints each name with its new spelling."""
import collections
import os
import re

# What ends a name in a proof file, and in a page or a source of code.
WORD = re.compile(r"[^\s(){}\[\]:;,.\"λ→×⊎¬`]+")
DEFINED = re.compile(r"^\s*(?:abbrev |unfoldable )?(?:pub )?(?:record |data )?([^\s:(){}]+) (?:\([^:]*:[^)]*\) |\{[^}]*\} )*:( |$)")

# Names of the library and of the language that a lemma's name may join by a dash.
LIBRARY = set("""length append take drop map sum zip filter replicate reverse flatten concat get_or set cond not nat_eq nat_le
    paste part every all pow mul add sub div mod suc zero""".split())

# Words that are also a definition's name, and are plain words in the name of a lemma.
PLAIN = set("only first second after front holds leaves answers read".split())

# Lemmas, fields and constructors whose new name a definition has that stands in a file with them.
LEMMAS = """bad-byte body-placed by-line no-codes row-in span-at told_at two-recalls two-rents""".split()


def snake(word):
    """One word in snake case: a capital after a small letter or a digit begins another part."""
    if not re.match(r"[a-z]", word):
        return word
    return re.sub(r"(?<=[a-z0-9'])([A-Z]+)", lambda m: "_" + m[1].lower(), word)


def files(top, ending):
    for folder, _, names in os.walk(top):
        for name in sorted(names):
            if name.endswith(ending):
                yield os.path.join(folder, name)


def is_walk(path):
    """A proof of one function, whose own names follow the code."""
    return path.endswith(("Proof.antt", "Answers.antt", "Invariants.antt")) and path.count("/proofs/") == 1 and os.path.dirname(path).split("/proofs")[1]


def without_comment(line):
    return re.sub(r"(^|\s)--( .*)?$", "", line)


def definitions():
    """Each name that a file of specs/ or proofs/ defines, and those that specs/ define."""
    shared, spoken, own = set(), set(), collections.defaultdict(set)
    for path in files("crates", ".antt"):
        for line in open(path, encoding="utf-8"):
            m = DEFINED.match(without_comment(line.rstrip("\n")))
            if not m:
                continue
            if is_walk(path):
                own[path].add(m[1])
                continue
            shared.add(m[1])
            if "/specs/" in path:
                spoken.add(m[1])
    return shared, spoken, own


def respelled(name, known):
    """The name's new spelling: each part in snake case, a dash kept only between two known names."""
    parts = [snake(p) for p in name.split("-")]
    if len(parts) == 1 or "" in parts or not all(re.match(r"[a-z0-9']", p) for p in parts[1:]):
        return "-".join(parts) if len(parts) > 1 else parts[0]
    text, run = parts[0], parts[0]
    for p in parts[1:]:
        joins = run in known and p in known and p.split("_")[0] not in PLAIN
        text += ("-" if joins else "_") + p
        run = p if joins else run + "_" + p
    return text


def turned(text, table, pattern, label_kept):
    def one(m):
        word = m[0]
        if word not in table:
            return word
        if label_kept and m.start() and text[m.start() - 1] == "." and "-" in word:
            return word
        return table[word]
    return pattern.sub(one, text)


def main():
    shared, spoken, own = definitions()
    known = {snake(n) for n in spoken if "-" not in n} | LIBRARY
    table = {}
    for name in shared:
        if re.match("[A-Z]", name):
            continue
        new = respelled(name, known)
        if new != name:
            table[name] = new
    for path, names in own.items():
        for name in names:
            if "-" not in name and snake(name) != name:
                table.setdefault(name, snake(name))
    # Each of these would get the name of the definition that it speaks of, in one file with it.
    table.update({name: snake(name.replace("-", "_")) + "_lem" for name in LEMMAS})
    table["No-line"] = "NoLine"
    dotted = re.compile(r"(?<=[A-Za-z])·(?=[a-z])")
    for path in list(files("crates", ".antt")) + list(files("crates", ".rt")) + list(files("crates", ".edit")):
        text = open(path, encoding="utf-8").read()
        here = {**table, "bad-byte": "bad_byte"} if path.endswith("EntryPoints.antt") else table
        word = WORD if path.endswith((".antt", ".edit")) else re.compile(r"(?<![\w'])[a-z][a-z0-9]*(?:[A-Z][A-Za-z0-9]*)+(?:-[a-z]+)*")
        new = turned(text, here, word, bool(is_walk(path)))
        new = dotted.sub("-", new)
        if new != text:
            open(path, "w", encoding="utf-8").write(new)
    ticked = re.compile(r"`[^`\n]*`")
    for path in ["README.md"] + list(files("docs", ".md")) + [".ci/run"]:
        text = open(path, encoding="utf-8").read()
        if path.endswith(".md"):
            new = ticked.sub(lambda m: turned(m[0], table, WORD, False), text)
        else:
            new = re.sub(r"(?<![\w'])[a-z]+(?:[A-Z][a-z0-9]*)+", lambda m: table.get(m[0], m[0]), text)
        if new != text:
            open(path, "w", encoding="utf-8").write(new)
    for name in sorted(table):
        print(f"{name}\t{table[name]}")


main()
