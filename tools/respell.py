#!/usr/bin/env python3
"""Respells the repository's own definitions, lemmas and record fields: words in snake case (allowedSize, last-first: allowed_size, last_first).

usage: tools/respell.py      at the top of the repository, once, after the older Rattle's spelling was turned

Names are collected from specs/ and proofs/ of every crate: those declared at the left edge or in a `module`. In a folder of proofs that belongs to one function
the names with a dash are Rattle's labels, which stay; only the name of that function's proof, f-spec, is turned. Where a definition and a lemma about it fall
together, the lemma gets another name, as SPECIAL says. Must-fail edits and pages go along. Nothing else is touched: functions, exported names and strings have no
such names.
"""
import collections
import glob
import re
import sys

HEAD = re.compile(r"^((?:  ){0,4})((?:(?:unfoldable|abbrev|pub|data|record)\s+)*)([^\s:{}(),.=|\[\]]+)\s*(?:\{[^}]*\}\s*)*:\s")
PART = r"[^\s(){}\[\],;.:=|◌`\"/<>*+&\\!?#@]"

# a lemma that falls together with the definition that it is about, or with a library's name
SPECIAL = {
    "last-doubled": "last_doubled_is", "parts-merged": "parts_merged_are", "twiddle-cos": "twiddle_cos_is", "twiddle-sin": "twiddle_sin_is",
    "turn-entry": "turn_entry_is", "lengths-fit": "lengths_fit_if", "first-place": "first_place_is", "cos-of": "cos_of_is", "sin-of": "sin_of_is",
    "cos-turn": "cos_turn_is", "sin-turn": "sin_turn_is", "cos-fast": "cos_fast_is", "sin-fast": "sin_fast_is", "block-leaves": "block_leaves_is",
    "exponent-of": "exponent_of_is", "is-nan": "is_nan_only", "cos-left": "cos_left_is", "cos-right": "cos_right_is", "sin-left": "sin_left_is",
    "sin-right": "sin_right_is", "cosine-at": "cosine_at_is", "first-scaled": "first_scaled_is", "second-scaled": "second_scaled_is",
    "cos-units": "cos_units_is", "sin-units": "sin_units_is", "first-spread": "first_spread_is", "second-spread": "second_spread_is",
    "merged-two": "merged_two_is",
}
# lemmas in snake case already, with which a definition's new name would fall together: file, old, new
BEFORE = {"fold_at": "fold_at_is", "minus_one": "minus_one_is", "front_of": "front_of_is"}


def snake(name):
    name = name.replace("getD", "get_or").replace("-", "_")
    return re.sub(r"(?<=[a-z0-9])([A-Z])", lambda m: "_" + m.group(1).lower(), name)


def turns(name):
    return ("-" in name.strip("-") and not name.startswith("-")) or (re.match(r"[a-zμ]", name) and re.search(r"[a-z0-9][A-Z]", name))


def main():
    antt = sorted(glob.glob("crates/*/specs/**/*.antt", recursive=True) + glob.glob("crates/*/proofs/**/*.antt", recursive=True))
    rest = sorted(glob.glob("crates/*/src/**/*.rt", recursive=True) + glob.glob("crates/*/must-fail/*.edit") + glob.glob("docs/**/*.md", recursive=True) + ["README.md"])
    own, fields, local = {}, set(), collections.defaultdict(dict)
    for path in antt:
        folder = re.search(r"/proofs/[+a-z]", path)
        kind = ""
        for line in open(path, encoding="utf-8"):
            m = HEAD.match(line)
            if line[:1] not in " -\n":
                kind = "record" if re.match(r"(pub |abbrev )*record ", line) else "data" if re.match(r"(pub |abbrev )*data ", line) else ""
            if not m:
                continue
            name = m.group(3)
            if not turns(name):
                continue
            if folder and "-" in name:
                if name.endswith("-spec") and "pub" in m.group(2) and "/proofs/" in path:
                    local[path][name] = name.replace("-", "_")
                continue
            own[name] = SPECIAL.get(name) or snake(name)
            if m.group(1) == "  " and kind == "record":
                fields.add(name)
    after = collections.Counter(own.values())
    both = [n for n in own if after[own[n]] > 1]
    if both:
        sys.exit("these fall together: " + ", ".join(sorted(both)))
    own.update(BEFORE)

    word = re.compile(r"(?<![\w'⁻₀-₉→ᴰ·-])(%s)(?![\w'⁻₀-₉→ᴰ·-])" % "|".join(re.escape(n) for n in sorted(own, key=len, reverse=True)))

    crate = re.compile(r"Rattle\.(%s)(\.|$)" % "|".join(d.split("/")[-1] for d in glob.glob("crates/*")))

    def turn(text, mine, code):
        # what this file takes from libraries, and the short names of modules: a library's stay as they are
        foreign, modules, libraries = set(), set(), set()
        for path, names, short in re.findall(r"^(?:ghost )?use (\S+?)(?:\.\{([^}]*)\})?(?: as (\S+?))?;?$", text, re.M):
            if not crate.match(path):
                foreign |= set(re.split(r"[,\s]+", names))
                libraries.add(short or path.split(".")[-1])
            elif not names:
                modules.add(short or path.split(".")[-1])

        def one(m):
            name = m.group(1)
            if name in foreign:
                return name
            whole = re.search(r"([\w.+]+)\.$", text[max(0, m.start() - 200) : m.start()])
            if whole and whole.group(1) not in modules and not crate.match(whole.group(1)):
                if whole.group(1) in libraries or name not in fields and "-" in name:
                    return name
            if name in BEFORE and code:
                return name
            return own[name]

        out = word.sub(one, text)
        for old, new in mine.items():
            out = re.sub(r"(?<![\w'+-])%s(?![\w'-])" % re.escape(old), new, out)
        return out

    count = 0
    for path in antt + rest:
        text = open(path, encoding="utf-8").read()
        new = turn(text, local.get(path, {}), not path.endswith(".antt"))
        if new != text:
            count += 1
            with open(path, "w", encoding="utf-8") as f:
                f.write(new)
    print(f"{len(own)} names, {len(fields)} of them fields; {count} files")
    print("fields:", " ".join(sorted(fields)))


if __name__ == "__main__":
    main()
