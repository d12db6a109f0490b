#!/usr/bin/env python3
"""Spells the repository's own definitions and lemmas as today's Rattle spells names, in the checkout whose top is the working folder.

Run once, after the kit's own script, before any edit by hand. It goes by words:
- a word that begins with a small letter and has a capital inside is turned into snake case: capped_kwh for cappedKwh. It is turned wherever
  it stands as a word of an .antt or .rt file, of an edit of must-fail/ or of a page, since nothing of the library is spelled so;
- a dash in the name of a lemma stays where it joins two names, as in sum-append; before or behind a plain word it becomes an underscore. Such a
  name is turned where it is declared, in the lists of `use`, and where it stands by itself; behind a dot only where a record's field is called so;
- a lemma that would have its function's name ends in _lem;
- the proof of a function f is f_spec.
A name whose new spelling something else has already stays, and is printed. Names of functions, of exports, strings, inputs and outputs stay.
"""
import collections
import os
import re
import sys

# Names of the library that a dash of ours joins to another name.
LIBRARY = set("""abs all any append between concat cond cons count div drop eq filter first get get_or iota last le le_z leb length less lt lt_z
ltb map max member min mod mul nat_abs none nth pos power prefix refl reverse set snoc some sub suc sum swap take true false zero""".split())

# Lemmas that would have their function's name, with the crates whose lemma files say them.
LEMMAS = {
    "count_at": ("watch_month", "watch"),
    "live_at": ("watch_month", "watch", "settle"),
    "goes_on": ("demands",),
    "last-of": ("rules",),
}

WORD = re.compile(r'[^\s(){}.;,@"«»:`|\[\]]+')
DECLARED = re.compile(r"^ *((?:(?:pub|abbrev|unfoldable|pattern|axiom) )*)([^\s(){}.;,@\"«»]+)((?: \{[^{}\n]*\}| \([^()\n]*\))*) :", re.M)


def camel(word):
    """The word in snake case, where it begins small and has a capital inside; each part between dashes by itself."""
    parts = word.split("-")
    return "-".join(snake(it) if re.match(r"[a-z]", it) else it for it in parts)


def snake(word):
    if not re.fullmatch(r"[A-Za-z0-9_'ℤℕ]+", word):
        return word
    return re.sub(r"(?<=[a-z0-9])([A-Zℤℕ])", lambda m: "_" + m[1].lower(), word)


def dashes(name, names):
    """The name with each dash that joins no two names as an underscore."""
    if name.endswith("-spec"):
        return name.replace("-", "_")
    parts = name.split("-")
    out = parts[0]
    for it in parts[1:]:
        left = re.split(r"[-]", out)[-1]
        joins = left in names and it in names or re.match(r"[A-ZℕℤΣ<+≤*]", left) or re.match(r"[A-ZℕℤΣ<+≤*]", it)
        out += ("-" if joins else "_") + it
    return out


def texts(ends):
    for top in ("crates",):
        for folder, dirs, files in os.walk(top):
            dirs[:] = sorted(d for d in dirs if d != "out")
            for f in sorted(files):
                if f.endswith(ends):
                    yield os.path.join(folder, f)


def read(path):
    with open(path, encoding="utf-8") as f:
        return f.read()


def of_a_function(path):
    """Whether a file is part of the proof of one function, where the names are Rattle's labels or private."""
    return "/proofs/" in path and path.split("/proofs/")[1].count("/") > 0


def main():
    for p in texts(".antt"):
        crate, t = p.split("/")[1], read(p)
        if "/proofs/" not in p or of_a_function(p):
            continue
        for name in LEMMAS:
            if crate in LEMMAS[name]:
                t = re.sub(rf"(?<![\w-]){name}(?![\w-])", name.replace("-", "_") + "_lem", t)
        with open(p, "w", encoding="utf-8") as f:
            f.write(t)
    antt = {p: read(p) for p in texts(".antt")}
    # definitions, as camel case leaves them
    defined = set(LIBRARY)
    lemmas = collections.defaultdict(set)
    fields = set()
    for p, t in antt.items():
        if of_a_function(p):
            for m in DECLARED.finditer(t):
                if m[2].endswith("-spec") and "pub " in m[1]:
                    lemmas[m[2]].add(p)
            continue
        record = False
        for line in t.split("\n"):
            m = DECLARED.match(line)
            if re.match(r" *(?:pub )?(?:record|data) ", line):
                record = True
                continue
            if not m:
                continue
            inside = line.startswith("  ") and record
            if not line.startswith(" "):
                record = False
            if inside and "pub " in m[1]:
                fields.add(m[2])
            if "-" in m[2]:
                lemmas[m[2]].add(p)
            elif "/specs/" in p and not inside:
                defined.add(camel(m[2]))
    table = {}
    for name in sorted(lemmas):
        new = dashes(camel(name), defined)
        if new != name:
            table[name] = new
    # what stands by itself in each file; a label behind a dot and the name of a Rust function meet no definition
    words = collections.defaultdict(set)
    for p, t in antt.items():
        # a name that is private to the proof of a function meets nothing outside
        t = "" if of_a_function(p) else re.sub(r"(?m)(^|(?<=\s))--.*$", "", t)
        for m in WORD.finditer(t):
            if not t[max(0, m.start() - 2) : m.start()].endswith((".", "::")):
                words[m[0]].add(p)
    for p in texts(".rt"):
        t = re.sub(r"(?m)//.*|^ *(?:pub )?use [^;]*;", "", read(p))
        for m in WORD.finditer(t):
            if not re.search(r"(\.|::|\bfn |\bmod )$", t[max(0, m.start() - 8) : m.start()]) and not re.match(r"\(|::|\.rt", t[m.end() :]):
                words[m[0]].add(p)
    every = set(words)
    for p, t in antt.items():
        every.update(WORD.findall(re.sub(r"(?m)(^|(?<=\s))--.*$", "", t)))
    camels = {w: camel(w) for w in every if camel(w) != w and not re.match(r"[km]W", w)}
    kept = []
    back = collections.defaultdict(set)
    for old, new in list(camels.items()) + list(table.items()):
        back[new].add(old)
    for new, olds in sorted(back.items()):
        plain = sorted(o for o in olds if "-" not in o)
        dashed = sorted(o for o in olds if "-" in o)
        if new in words and "-" not in new and new not in plain:
            plain.append(new) if new in defined or not dashed else None
        if len([o for o in plain if o != new]) == 1 and dashed or new in defined and dashed:
            # a lemma that would have its function's name
            for o in dashed:
                table[o] = new + "_lem" if len(dashed) == 1 else None
                if len(dashed) > 1:
                    kept.append(f"{o} (for {new})")
                    table.pop(o)
        for o in plain:
            if o in camels and words[o] & words.get(new, set()):
                kept.append(f"{o} (for {new}, {sorted(words[o] & words[new])[:3]})")
                camels.pop(o)
        for o in dashed:
            if o in table and table[o] == new and (words[o] & words.get(new, set()) or len(dashed) > 1):
                kept.append(f"{o} (for {new}, {sorted(words[o] & words.get(new, set()))[:3]})")
                table.pop(o)
    for it in kept:
        print("stays:", it)

    def turn(text, here):
        out, at = [], 0
        for m in WORD.finditer(text):
            w = m[0]
            new = None
            if w in camels and w not in table:
                new = camels[w]
            if w in table:
                dot = m.start() > 0 and text[m.start() - 1] == "."
                # behind a dot stands a label that Rattle makes, a field or a name of a module
                if not dot or w in fields or not here or text[: m.start() - 1].endswith(tuple("abcdefghijklmnopqrstuvwxyz")) and re.search(r"[A-Z]\w*\.$", text[max(0, m.start() - 40) : m.start()]):
                    new = table[w]
                elif w in camels:
                    new = camels[w]
            if new:
                out += [text[at : m.start()], new]
                at = m.end()
        return "".join(out) + text[at:]

    n = 0
    for p in list(texts((".antt", ".rt", ".edit"))) + ["README.md"] + sorted(os.path.join("docs", f) for f in os.listdir("docs") if f.endswith(".md")):
        t = read(p)
        new = turn(t, of_a_function(p))
        if new != t:
            n += 1
            with open(p, "w", encoding="utf-8") as f:
                f.write(new)
    print(f"respelled: {len(table)} lemmas, {len(camels)} words in camel case, in {n} files")


if __name__ == "__main__":
    if not os.path.isdir("crates"):
        sys.exit("run it at the top of the checkout")
    main()
