#!/usr/bin/env python3
"""Brings the names of the repository's own definitions, lemmas, fields and constructors in specs/ and proofs/ to
snake case, as `textSays` and `text-says` to `text_says`: in every .antt file, in the clauses and imports of every
.rt file, in the edits, and in the code spans of the pages. It goes by spelling. Names that Rattle makes, as
`returns-in_ok` or a step of `c`, names of std, and names of src/ keep theirs.

usage: tools/respell.py [--check]      at the top of the repository; --check only prints the table
"""
import collections
import os
import re
import sys

WORD = re.compile(r'[^\s(){}.;,@"«»]+')
STRING = re.compile(r'"(?:[^"\\\n]|\\.)*"')
MADE = re.compile(r"proofs/.*/(Answers|Invariants)\.antt$")


def files(*endings):
    for top in ("crates", "edits"):
        for folder, dirs, names in os.walk(top):
            dirs[:] = sorted(d for d in dirs if d != "out")
            for name in sorted(names):
                if name.endswith(endings):
                    yield os.path.join(folder, name)


def read(path):
    with open(path, encoding="utf-8") as f:
        return f.read()


def wants(name):
    """A plain word or words with a capital or a dash between them."""
    if not re.fullmatch(r"[A-Za-zℕℤ₀-₉][\w'₀-₉ℕℤ≡≢≤<-]*", name):
        return False
    return "-" in name or (name[0].islower() and re.search(r"[a-z0-9'][A-Z]", name))


def snake(name):
    """Words in snake case; the capital that begins the name of a fact or a type stays."""
    parts = name.split("-")
    if name[0].isupper():
        return "_".join([parts[0]] + [re.sub(r"(?<=[a-z0-9'])([A-Z])", r"_\1", p).lower() for p in parts[1:]])
    return "_".join(re.sub(r"(?<=[a-z0-9'])([A-Z])", r"_\1", p).lower() for p in parts)


def declared(text):
    """Names that stand at the head of a signature: of the file, of a record or of a data type."""
    for line in text.splitlines():
        m = re.match(r"^\s*(?:abbrev |unfoldable )?(?:pub )?(?:record |data |ruleset )?([^\s(:{]+)(?: [({].*)? :(?: |$)", line)
        if m and not line.lstrip().startswith(("use ", "--")):
            yield m.group(1)
    for line in re.findall(r"^(?:pub |ghost )?use [^\n]*", text, re.M):
        yield from re.findall(r" as (%s)" % WORD.pattern, line)


def table():
    own, made, foreign = collections.defaultdict(set), set(), set()
    for path in files(".antt", ".rt"):
        text = read(path)
        for m in re.finditer(r"^(?:pub )?use (Rattle\.std|native|borrow|denote|mathlib|Prim|lib)\b[^{\n]*\{([^}]*)\}", text, re.M):
            foreign.update(re.findall(r"[^\s,]+", m.group(2)))
        goals = set(re.findall(r"\bgoal\.(%s)" % WORD.pattern, text))
        if MADE.search(path):
            made |= goals
            for m in re.finditer(r"\b(?:c|l|w|g)\.((?:%s)(?:\.%s)*)" % (WORD.pattern, WORD.pattern), text):
                made.update(m.group(1).split("."))
        for name in declared(text):
            if wants(name) and name not in goals:
                own[name].add(path)
    return own, made, foreign



# spelled so by a script before this one, beside a definition that gets the same spelling here
LEMMAS = {
    "crates/shelf/proofs/Settled.antt": {"settled_on": "settled_on_lem"},
    "crates/language/specs/Worked.antt": {"plus_one": "plus_one_holds"},
    "crates/language/proofs/Examples.antt": {"plus_one": "plus_one_holds"},
}


def functions():
    """Names of functions of src/."""
    found = set()
    for path in files(".rt"):
        found.update(re.findall(r"\bfn (\w+)", read(path)))
    return found


def spellings():
    """Old spelling to new. Where two fall together, a lemma gets `_lem` and a field `_holds`."""
    own, made, foreign = table()
    taken = functions()
    for path in files(".antt"):
        taken.update(n for n in declared(read(path)) if not wants(n) or "-" not in n)
    taken = {snake(n) for n in taken}
    fields = set()
    for path in files(".antt"):
        for line in read(path).splitlines():
            m = re.match(r"^  +(?:pub )?([^\s(:{]+)(?: [({].*)? :(?: |$)", line)
            if m:
                fields.add(m.group(1))
    new = {}
    for name in sorted(own):
        if name in foreign and "-" in name:
            continue
        to = snake(name)
        if "-" in name and to in taken:
            to += "_holds" if name in fields else "_lem"
        new[name] = to
    rust = functions()
    return new, {n for n in made if n.replace("-", "_") in rust}


def turn_words(text, new, made, inside):
    """Turns each word of code. `inside`: a file of answers, where names behind a dot may be Rattle's."""

    def word(m):
        w = m.group(0)
        if w not in new:
            return w
        if inside and m.start() and text[m.start() - 1] == "." and w in made:
            return w
        if w in made and re.search(r"goal\.%s(?![\w-])" % re.escape(w), text) and (inside and is_goal(text, m.start(), w)):
            return w
        return new[w]

    return WORD.sub(word, text)


def is_goal(text, at, w):
    """Whether a name stands at the head of an answer's signature or equation."""
    line = text[text.rfind("\n", 0, at) + 1 : at]
    return line in ("", "pub ", "abbrev pub ")


def turn_comment(text, new):
    def word(m):
        w = m.group(0)
        return new[w] if w in new and "-" not in w else w

    text = re.sub(r"`([^`\n]*)`", lambda m: "`" + WORD.sub(lambda x: new.get(x.group(0), x.group(0)), m.group(1)) + "`", text)
    return WORD.sub(word, text)


def turn(path, text, new, made):
    inside = bool(MADE.search(path))
    new = {**new, **LEMMAS.get(path, {})}
    comment = r"//[^\n]*" if path.endswith(".rt") else r"(?:(?<=\s)|(?<=^))--(?=\s|$)[^\n]*"
    if path.endswith(".edit"):
        comment = r"^file:[^\n]*"
    out, at = [], 0
    for m in re.finditer(r'%s|"(?:[^"\\\n]|\\.)*"' % comment, text, re.M):
        out.append(turn_words(text[at : m.start()], new, made, inside))
        held = m.group(0)
        out.append(held if held.startswith('"') or path.endswith(".edit") else turn_comment(held, new))
        at = m.end()
    out.append(turn_words(text[at:], new, made, inside))
    return "".join(out)


def turn_page(text, new):
    return re.sub(r"`([^`\n]*)`", lambda m: "`" + WORD.sub(lambda x: new.get(x.group(0), x.group(0)), m.group(1)) + "`", text)


def main():
    new, made = spellings()
    if "--check" in sys.argv:
        for old in sorted(new):
            print(old, "\t", new[old], "\t", "made" if old in made else "")
        return
    pages = ["README.md"] + ["docs/" + f for f in sorted(os.listdir("docs")) if f.endswith(".md")]
    turned = [(p, turn(p, read(p), new, made)) for p in files(".antt", ".rt", ".edit")]
    turned += [(p, turn_page(read(p), new)) for p in pages]
    for path, text in turned:
        if text != read(path):
            with open(path, "w", encoding="utf-8") as f:
                f.write(text)


if __name__ == "__main__":
    main()
