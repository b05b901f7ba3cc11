#!/usr/bin/env python3
"""Brings the repository's own definitions and lemmas to the kit's spelling: words in snake case, types in camel case.

usage: tools/respell.py [--check]        at the top of the repository, once, right after the kit's port.py

Which names: those that crates/*/specs/*.antt and crates/*/proofs/*.antt declare (definitions, fields, constructors,
lemmas). In each part between dashes that begins in lower case, a capital becomes a dash below and a small letter; a dash
stays, since in the kit too it joins the names that a lemma speaks of (`length-drop`).
Where: .antt files, but for their `--` comments' dashed words; .rt files outside strings; code spans of pages; must-fail
edits and tests/wrong-programs.txt. Functions of src/, strings, inputs and outputs keep their names: none of them has a
capital behind a small letter. Prints the names that would fall together. Once it has run, it finds nothing to turn.
"""
import glob
import os
import re
import sys

WORD = r"[^\s(){}.;,@\"«»`\[\]:]+"
DECLARED = re.compile(
    r"^\s*(?:(?:abbrev|unfoldable|opaque|data|record|mutual|pub|rule|where)\s+)*(" + WORD + r")(?:\s+\{[^{}\n]*\})*\s:(?:\s|$)"
)
PLAIN = re.compile(r"[A-Za-z0-9_'-]+$")
# Lemmas that port.py spelled as the definition that they are about will be spelled: the crate, and the lemma.
LEMMAS = {"expand": "kept_full", "marks": "has_words", "text": "no_number"}


def snake(name):
    name = re.sub(r"\bgetD\b", "get_or", name)
    name = re.sub(r"(?<=[a-z0-9_])([A-Z])", lambda m: "_" + m[1].lower(), name)
    return name


def declared():
    names = {}
    for f in sorted(glob.glob("crates/*/specs/*.antt") + glob.glob("crates/*/proofs/*.antt")):
        for line in open(f, encoding="utf-8"):
            m = DECLARED.match(line.split("--")[0])
            if m and PLAIN.match(m[1]):
                names.setdefault(m[1], set()).add(f)
    return names


def table(names):
    rows = {}
    for n in names:
        new = "-".join(part if part[:1].isupper() else snake(part) for part in n.split("-"))
        if new != n:
            rows[n] = new
    return rows


def turner(rows):
    def turn(m):
        return rows.get(m[0], m[0])

    return turn


CAMEL = r"(?<![\w'-])[A-Za-z][\w'-]*(?![\w-])"


def turn_antt(text, camel, all_, in_proof):
    """Code: camel words everywhere; dashed words not behind a dot. Comments: camel words, and code spans."""
    out = []
    for line in text.split("\n"):
        code, sep, comment = line.partition("--") if re.search(r"(?:^|\s)--(?:\s|$)", line) else (line, "", "")
        if sep:
            at = re.search(r"(?:^|\s)(--)(?:\s|$)", line).start(1)
            code, sep, comment = line[:at], "--", line[at + 2 :]

        def word(m):
            w = m[0]
            behind = m.start() > 0 and m.string[m.start() - 1] == "."
            if w in camel:
                return camel[w]
            if w in all_ and not behind:
                return all_[w]
            return w

        code = re.sub(r"(?<![\w'-])[A-Za-z_][\w'-]*", word, code)
        comment = re.sub(CAMEL, lambda m: camel.get(m[0], m[0]), comment)
        comment = re.sub(r"`([^`]*)`", lambda m: "`" + re.sub(CAMEL, lambda k: all_.get(k[0], k[0]), m[1]) + "`", comment)
        out.append(code + sep + comment)
    return "\n".join(out)


def turn_rt(text, camel, all_):
    parts = re.split(r'("(?:\\.|[^"\\\n])*")', text)
    for i in range(0, len(parts), 2):
        p = re.sub(CAMEL, lambda m: camel.get(m[0], m[0]), parts[i])
        p = re.sub(r"`([^`\n]*)`", lambda m: "`" + re.sub(CAMEL, lambda k: all_.get(k[0], k[0]), m[1]) + "`", p)
        p = re.sub(r"ghost use[^;]*;", lambda m: re.sub(CAMEL, lambda k: all_.get(k[0], k[0]), m[0]), p)
        parts[i] = p
    return "".join(parts)


def turn_page(text, all_):
    return re.sub(r"`([^`\n]*)`", lambda m: "`" + re.sub(CAMEL, lambda k: all_.get(k[0], k[0]), m[1]) + "`", text)


def turn_words(text, camel):
    return re.sub(CAMEL, lambda m: camel.get(m[0], m[0]), text)


def together(names, rows):
    """Names that would fall together: of one file, by its words before and after."""
    bad = []
    ends = {}
    for old, new in rows.items():
        ends.setdefault(new, []).append(old)
        if new in names:
            bad.append(f"{old} -> {new}: declared already: {sorted(names[old])[:2]} {sorted(names[new])[:2]}")
    for new, olds in ends.items():
        if len(olds) > 1:
            bad.append(f"{olds} -> {new}: {[sorted(names[o])[0] for o in olds]}")
    olds = set(rows)
    for f in sorted(glob.glob("crates/**/*.antt", recursive=True) + glob.glob("crates/*/src/**/*.rt", recursive=True)):
        text = open(f, encoding="utf-8").read()
        words = set(re.findall(r"(?<![\w'.-])[A-Za-z_][\w'-]*", text))
        for w in words & olds:
            if rows[w] in words:
                bad.append(f"{f}: {w} meets {rows[w]}")
    return bad


def main(argv):
    names = declared()
    rows = table(names)
    camel = rows
    bad = together(names, rows)
    print("\n".join(bad))
    print(f"respell: {len(rows)} names, {len(camel)} without a dash; {len(bad)} to look at")
    if "--check" in argv:
        return 0
    changed = 0
    for crate, lemma in LEMMAS.items():
        for f in glob.glob(f"crates/{crate}/**/*.antt", recursive=True):
            text = open(f, encoding="utf-8").read()
            new = re.sub(rf"(?<![\w'.-]){lemma}(?![\w'-])", lemma + "_lem", text)
            if new != text:
                open(f, "w", encoding="utf-8").write(new)
    files = glob.glob("crates/**/*.antt", recursive=True) + glob.glob("crates/*/src/**/*.rt", recursive=True)
    files += glob.glob("crates/*/must-fail/*.edit") + glob.glob("**/*.md", recursive=True) + ["tests/wrong-programs.txt"]
    for f in sorted(set(files)):
        if "/out/" in f or f.startswith("docs/PORT"):
            continue
        text = open(f, encoding="utf-8").read()
        if f.endswith(".antt"):
            new = turn_antt(text, camel, rows, "/proofs/" in f and f.count("/") > 3)
        elif f.endswith(".rt"):
            new = turn_rt(text, camel, rows)
        elif f.endswith(".md"):
            new = turn_page(text, rows)
        else:
            new = turn_words(text, camel)
        if new != text:
            open(f, "w", encoding="utf-8").write(new)
            changed += 1
    print(f"respell: {changed} files changed")
    return 0


if __name__ == "__main__":
    raise SystemExit(main(sys.argv[1:]))
