#!/usr/bin/env python3
"""Respells the repository's own definitions and lemmas after the kit's port.py: snake case for words, camel case for facts.

usage: python3 tools/respell.py        at the top of the repository, once, right after port.py

A fact (a name that begins with a capital) loses its dashes: Found-fits is FoundFits. In every other name a capital inside becomes _ and a small letter
(wholeF is whole_f), and a dash becomes _, but for a lemma's dash that joins the names of two definitions (sum-append, bit-or). It turns .antt files,
the clauses and comments of .rt files, edits and names in backticks of Markdown; functions of src/, strings, inputs and outputs stay. It stops
where two names would fall together in one file.
"""
import collections
import glob
import re
import sys

TOKEN = re.compile(r"[^\s(){}.;,@\"«»\[\]\\`|:]+")
DECL = re.compile(r"(?m)^( *)((?:abbrev |unfoldable |pub |data |record |ruleset )*)([^\s(){}.;,@\"«»\[\]\\:=]+) (?::|=) ")
COMMENT = re.compile(r"--[^\n]*")
# Operations whose names the library joins by a dash.
JOINED = set("""length append take drop set sum map filter reverse suc zero add sub mul min max neg round not and or xor cond replicate any all contains
bit sort insert arrange""".split())
# Words of the subject that stand in comments as English.
ENGLISH = set("""alpha-beta must-win non-losing fail-soft in-range first-child best-move in-place knuth-moore off-by one-by""".split())
# Where the rule makes two names one, or a name that something else has.
BY_HAND = {
    "in-float": "whole_in_float",
    "in-signed": "whole_in_signed",
    "to-signed": "whole_to_signed",
    "is-nan": "nan_by_test",
}


# A field of two records, each under its own record.
FIELDS = {"key-words"}


def sources():
    return sorted(glob.glob("crates/*/specs/*.antt") + glob.glob("crates/*/proofs/*.antt"))


def declared():
    found = collections.defaultdict(set)
    for path in sources():
        with open(path) as f:
            text = COMMENT.sub("", f.read())
        for m in DECL.finditer(text):
            found[m.group(3)].add("specs" if "/specs/" in path else "proofs")
    # Records with parameters, constructors in a row, names given by `as`: what has a dash and is imported from no library.
    own = "|".join(sorted(p.split("/")[1] for p in glob.glob("crates/*/")))
    ours = re.compile(rf"(?m)^use (?!Rattle\.(?:{own})\.)\S+\.\{{([^}}]*)\}}")
    taken = set()
    for path in glob.glob("crates/*/*/**/*.antt", recursive=True):
        with open(path) as f:
            for m in ours.finditer(f.read()):
                taken |= {n.strip().split(" as ")[0] for n in m.group(1).split(",")}
    for path in sources():
        with open(path) as f:
            text = COMMENT.sub("", f.read())
        for t in TOKEN.findall(text):
            if re.search(r"[A-Za-z0-9]-[A-Za-z0-9]", t) and t not in taken and t not in found:
                found[t].add("specs" if "/specs/" in path else "proofs")
    return found


def snake(part):
    part = re.sub(r"(?<=[a-z0-9])([A-Z])(?=[a-z]|[^A-Za-z]|$)", lambda m: "_" + m.group(1).lower(), part)
    return re.sub(r"(?<=[a-z])([ℕℤ])", r"_\1", part)


def respelled(name, kinds, words):
    if name in BY_HAND:
        return BY_HAND[name]
    if name[0].isupper():
        return "".join(p[:1].upper() + p[1:] for p in name.split("-"))
    parts = [snake(p) for p in name.split("-")]
    out = parts[0]
    for a, b, old_a, old_b in zip(parts, parts[1:], name.split("-"), name.split("-")[1:]):
        joins = kinds == {"proofs"} and old_a in words and old_b in words
        out += ("-" if joins else "_") + b
    return out


def table():
    found = declared()
    words = JOINED
    made = {}
    for name, kinds in found.items():
        if "-" not in name and not re.search(r"[a-z][A-Z]|[a-z][ℕℤ]", name):
            continue
        if re.search(r"^◌|◌$", name):
            continue
        new = respelled(name, kinds, words)
        if new != name:
            made[name] = new
    return made


def clauses(text):
    """The spans of an .rt file that are ghost text: `ghost use` lines, the braces of clauses and ghost members, comments."""
    spans = []
    for m in re.finditer(r"//[^\n]*|\bghost use [^;]*;|\b(?:requires|ensures|ghost)\*?\b[^{;\n]*\{", text):
        if m.group().startswith(("//", "ghost use")):
            spans.append((m.start(), m.end()))
            continue
        depth, k = 1, m.end()
        while depth and k < len(text):
            depth += {"{": 1, "}": -1}.get(text[k], 0)
            k += 1
        spans.append((m.start(), k))
    return spans


def turn(text, made, comment=False):
    def one(m):
        t = m.group()
        if comment and t in ENGLISH:
            return t
        return made.get(t, t)

    return TOKEN.sub(one, text)


def turn_antt(text, made):
    out, at = [], 0
    for m in COMMENT.finditer(text):
        out.append(turn(text[at : m.start()], made))
        out.append(turn(m.group(), made, True))
        at = m.end()
    return "".join(out) + turn(text[at:], made)


def turn_rt(text, made):
    out, at = [], 0
    for a, b in clauses(text):
        if a < at:
            continue
        out.append(text[at:a])
        out.append(turn(text[a:b], made, text[a:b].startswith("//")))
        at = b
    return "".join(out) + text[at:]


def turn_edit(text, made):
    lines = text.split("\n")
    antt = False
    for i, line in enumerate(lines):
        if line.startswith("file:"):
            antt = line.endswith(".antt")
        elif line.startswith(("old:", "new:")):
            lines[i] = turn_antt(line, made) if antt or re.search(r"requires|ensures|ghost", line) else line
        else:
            lines[i] = turn(line, made, True)
    return "\n".join(lines)


def turn_page(text, made):
    return re.sub(r"`[^`\n]*`", lambda m: turn(m.group(), made, True), text)


def main():
    made = table()
    files = {}
    for pattern, how in [
        ("crates/*/specs/*.antt", turn_antt), ("crates/*/proofs/**/*.antt", turn_antt), ("crates/*/src/*.rt", turn_rt),
        ("crates/*/must-fail/*.edit", turn_edit), ("crates/*/refuted/*.edit", turn_edit), ("docs/**/*.md", turn_page), ("README.md", turn_page),
        ("tools/**/*.antt.in", turn_antt), ("tools/**/*.rt.in", turn_rt),
    ]:
        for path in sorted(glob.glob(pattern, recursive=True)):
            files[path] = how
    back = collections.defaultdict(set)
    for old, new in made.items():
        back[new].add(old)
    bad = 0
    # A name beside a Rust function of the same name is no clash: a clause cannot call the function.
    functions = set()
    for path in files:
        if path.endswith(".rt"):
            with open(path) as f:
                functions |= set(re.findall(r"\bfn (\w+)", f.read()))
    for path, how in files.items():
        if not path.endswith((".antt", ".rt")):
            continue
        with open(path) as f:
            text = f.read()
        bare = COMMENT.sub("", text) if path.endswith(".antt") else re.sub(r"//[^\n]*", "", text)
        tokens = set(TOKEN.findall(bare))
        for t in tokens:
            if t in made and t not in FIELDS:
                clash = ({made[t]} | back[made[t]]) - {t}
                for other in clash & tokens - (functions if path.endswith(".rt") or path.count("/") > 3 else set()):
                    print(f"{path}: {t} and {other} would both be {made[t]}")
                    bad += 1
    if bad:
        return 1
    for path, how in files.items():
        with open(path) as f:
            text = f.read()
        new = how(text, made)
        if new != text:
            with open(path, "w") as f:
                f.write(new)
            print(path)
    return 0


if __name__ == "__main__":
    sys.exit(main())
