#!/usr/bin/env python3
"""Brings the repository's own names in specs/, proofs/ and clauses to one spelling: words in snake case (`bigEndian` is `big_endian`), constants as in
Rust (`MAX-INPUT` is `MAX_INPUT`), and in a lemma's name a dash only between two names (`length-pad`), with `_` before a plain word (`pad_front`).

usage: tools/respell.py [--check] [--force] FOLDER      once, where FOLDER holds crates/ and was just turned by the kit's port.py

Names of Rust code, names that the prover makes (after a dot, or answered as a goal), and names of the kit's library stay.
It stops, and writes nothing, where two names of one file would fall together; with --force it writes, once a reader has seen that
these are fields of different records. --check writes nothing at all."""
import collections
import os
import re
import sys

WORD = re.compile(r"[^\s(){}\[\];,.@\"«»⟨⟩⟦⟧`|]+")
CAMEL = re.compile(r"(?<=[a-z0-9])(?=[A-Z])")
DEFINED = re.compile(r"(?m)^ *(?:\.?(?:unfoldable|abbrev|private|instance) )*(?:pub )?([^\s(){}:;.,=λ]+)(?: +[^\s(){}:;.,=λ]+)* :(?= |$)")
LEFT = re.compile(r"(?m)^ *(?:where|let)? *([a-z][^\s(){}:;.,=λ]*) :(?= )")
OWN_PATH = re.compile(r"^use (Rattle\.[\w.+'-]+) as (\S+)$", re.M)


def files(top):
    for folder, dirs, names in os.walk(os.path.join(top, "crates")):
        dirs[:] = sorted(d for d in dirs if d not in ("out", "data", "must-fail"))
        for n in sorted(names):
            if n.endswith((".antt", ".rt")):
                yield os.path.join(folder, n)


def read(path):
    with open(path, encoding="utf-8") as f:
        return f.read()


def uncomment(text):
    return re.sub(r"(?m)(?:^|(?<=\s))--(?= |$).*$", "", text)


def imported(text):
    """Names that a file takes from the kit's library."""
    found = set()
    for m in re.finditer(r"use ((?:lib|borrow|denote|mathlib|native|Prim|Rattle\.(?:std|core))[\w.'-]*)\.\{([^}]*)\}", text):
        for item in m.group(2).split(","):
            found.update(item.strip().split(" as "))
    return found


def snake(word):
    """`wordIn` is `word_in`; what begins with a capital stays."""
    return "-".join(CAMEL.sub("_", p).lower() if re.match(r"[a-z]", p) and CAMEL.search(p) and not re.search(r"_[A-Z]", p) else p for p in word.split("-"))


def is_constant(word):
    return "-" in word and re.fullmatch(r"[A-Z][A-Z0-9]*(-[A-Z0-9]+)+", word)


def table(top, texts):
    crates = set(os.listdir(os.path.join(top, "crates")))
    specs, defined, goals, kit, functions = set(), set(), set(), set(), set()
    for path, text in texts.items():
        kit |= imported(text)
        if path.endswith(".rt"):
            functions |= set(re.findall(r"\bfn (\w+)", text))
            continue
        plain = uncomment(text)
        names = set(m.group(1) for m in DEFINED.finditer(plain))
        if "/specs/" in path:
            specs |= names
        for m in re.finditer(r"(?m)^ *(?:pub |abbrev |unfoldable )*(\S+) : (?:tie|goal|given)\.", plain):
            goals.add(m.group(1))
        if not path.endswith("/Proof.antt"):
            defined |= names
    known = {snake(w) for w in specs} | functions | {w for w in kit if re.match(r"[a-z]\w*$", w)}

    def lemma(word):
        parts = word.split("-")
        said = parts[0]
        for a, b in zip(parts, parts[1:]):
            said += ("-" if a in known and b in known else "_") + b
        return said

    new = {}
    for w in sorted(defined):
        if w in kit or w in goals:
            continue
        to = w.replace("-", "_") if is_constant(w) else snake(w)
        if "-" in to and re.match(r"[A-Za-z]", to):
            # a record's field and a definition are names, not lemmas: no dash
            to = to.replace("-", "_") if w in specs else lemma(to)
        if to != w:
            new[w] = to
    # a lemma that would have the name of a definition, of another lemma or of what is already called so
    taken = {new.get(w, w) for w in specs} | (defined - set(new)) | kit
    for w in sorted(new):
        if "-" in w and not is_constant(w) and w not in specs:
            if new[w] in taken:
                new[w] += "_lem"
            taken.add(new[w])
    return new, kit, goals


def turned(path, text, new, goals_here):
    aliases = {m.group(2) for m in OWN_PATH.finditer(text) if ".Goals" not in m.group(1) and ".Given" not in m.group(1) and not m.group(1).endswith(".Tie")}
    aliases |= set(re.findall(r"ghost use Rattle\.[\w.]+ as (\w+);", text))

    apart = {old: to for ends, old, to in APART if any(path.endswith("/" + e) or path.endswith(e) and "/" in e for e in ends.split())}
    library = "/specs/" in path or re.search(r"/proofs/[^/]*$", path)

    def one(m):
        w = m.group(0)
        if "::" in w or "/" in w:
            # a path of Rust or of a file
            return w
        if w in apart:
            return apart[w]
        to = new.get(w)
        if to is None:
            # a local name, or one in prose
            to = snake(w) if re.match(r"[a-z]", w) and snake(w) != w and w not in KIT else w
            if to == w:
                return w
        if w in goals_here:
            return w
        if m.start() and text[m.start() - 1] == "." and "-" in w and not library and w not in FIELDS:
            head = re.search(r"([\w'+-]+)\.$", text[: m.start()])
            if not head or (head.group(1) not in aliases and not re.search(r"Rattle\.[\w.+'-]*$", text[: m.start()])):
                return w
        return to

    if path.endswith(".antt"):
        return WORD.sub(one, text)
    # Rust: ghost lines, clauses and comments; names of code have neither a dash nor an inner capital
    return "".join(part if part.startswith(('"', "b\"")) else WORD.sub(one, part) for part in re.split(r'(b?"(?:[^"\\]|\\.)*")', text))


KIT, FIELDS = set(), set()

# Names that would fall together with another of the same scope: files that have them (by the end of their paths), the name, the new one.
APART = [
    ("Depths.antt DepthsLaws.antt barrowtide/src/prove.rt", "firstString", "first_string_of"),
    ("ExistLaws.antt AmountLaws.antt AmountTheorems.antt AmountsExactly.antt proofs/outputs/outputs_at/Proof.antt", "outputs-at", "outputs_at_lem"),
    ("bundle/proofs/BundlePasses.antt", "by-ids", "by_ids_lem"),
    ("OneMoreBump.antt", "still-stands", "still_stands_lem"),
    ("WindowLaws.antt bundle/proofs/PassLaws.antt", "fresh_in", "fresh_in_lem"),
    ("levels/proofs/OrderedLaws.antt leaflist/proofs/LeafListTheorems.antt Rising.antt RowsLaws.antt", "next_level", "next_level_lem"),
]


def main(argv):
    check = "--check" in argv
    top = [a for a in argv if not a.startswith("--")][0]
    texts = {p: read(p) for p in files(top)}
    new, kit, _ = table(top, texts)
    KIT.update(kit)
    # a file of definitions or laws knows nothing of what the prover makes: what stands behind a dot there is a record's
    for path, text in texts.items():
        if "/specs/" in path or re.search(r"/proofs/[^/]*$", path):
            FIELDS.update(re.findall(r"(?<=[\w)'])\.([a-z][\w']*(?:-[\w']+)+)", uncomment(text)))
    bad = []
    changed = {}
    for path, text in texts.items():
        here = set(re.findall(r"(?m)^ *(?:pub |abbrev |unfoldable )*(\S+) : (?:tie|goal|given)\.", text)) if path.endswith(".antt") else set()
        after = turned(path, text, new, here)
        if after != text:
            changed[path] = after
        code = uncomment if path.endswith(".antt") else lambda s: re.sub(r"//.*|\bfn \w+", "", s)
        # what stands behind a dot is a field or what the prover makes, and falls together with nothing
        code_of = lambda s: re.sub(r"\.[\w'-]+", ".x", code(s))
        before, later = WORD.findall(code_of(text)), WORD.findall(code_of(after))
        if len(before) != len(later):
            bad.append(f"{path}: words were joined or parted")
            continue
        to_from = collections.defaultdict(set)
        for a, b in zip(before, later):
            to_from[b].add(a)
        for b, froms in to_from.items():
            if len(froms) < 2:
                continue
            if path.endswith(".rt") and not re.search(rf"(?<!const )\b{b}:|\blet (?:mut )?{b}\b|\bfor {b}\b|\| ?{b} ?\|", text):
                # a function or a constant and its definition have one name
                continue
            bad.append(f"{path}: {b} <- {sorted(froms)}")
    print(f"{len(new)} names, {len(changed)} files of {len(texts)}")
    for b in bad:
        print("together:", b)
    if bad and "--force" not in argv:
        return 1
    if not check:
        for path, text in changed.items():
            with open(path, "w", encoding="utf-8") as f:
                f.write(text)
    return 0


if __name__ == "__main__":
    raise SystemExit(main(sys.argv[1:]))
