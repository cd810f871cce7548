#!/usr/bin/env python3
"""Spells the definitions and lemmas that this repository declares as today's Rattle does, after port.py and on what it left.

usage: tools/port/respell.py [--check]        at the top of the checkout

Words in snake case. A dash stays where it joins two names, as in `length-padded`; a plain word is joined by `_`, as in `take_counted`.
What two old names would share goes to the definition, and the lemma gets `_lem`. Declared names turn in specs/ and proofs/, in clauses and in
their own comments. The goals that a proof file answers keep the checker's names. Names that fall together in one module or in one file that
sees both, or with a name that a file binds itself, are printed, and then nothing is written.
"""

import collections
import glob
import re
import sys

NAME = r'[^\s(){}.;,@"«»:\[\]]+'
TOKEN = re.compile(r'--[^\n]*|[^\s(){}.;,@"«»:\[\]]+')
DECLARED = re.compile(r"(?m)^ *((?:(?:abbrev|unfoldable) )?(?:pub )?)(%s)(?: \{[^{}\n]*\})* :(?= |$)" % NAME)
CAMEL = re.compile(r"(?<=[a-z0-9])[A-Z]")

# words of the libraries that lemmas here are named after
LIBRARY = set(
    """length append map take drop set get_or replicate reverse add sub mul div mod min max pow suc zero cond ltb leb eqb and or not
    sum all neg to_ℕ ℤ ℕ""".split()
)


def snake(word):
    return CAMEL.sub(lambda m: "_" + m[0].lower(), word)


def spelled(name, names):
    """The new spelling of a declared name: its parts in snake case, a dash where both sides are names."""
    if "-" not in name.strip("-") or name[0].isupper():
        return snake(name) if name[0].islower() else name
    parts = [snake(part) for part in name.split("-")]
    if any(not re.fullmatch(r"[\w₀-₉']+", part) for part in parts):
        return "-".join(parts)
    out = parts[0]
    for at in range(1, len(parts)):
        both = parts[at - 1] in names and "-".join(parts[at:]) in names or parts[at - 1] in names and parts[at] in names
        out += ("-" if both else "_") + parts[at]
    return out


def main():
    files = sorted(glob.glob("crates/*/specs/**/*.antt", recursive=True) + glob.glob("crates/*/proofs/**/*.antt", recursive=True))
    texts = {path: open(path, encoding="utf-8").read() for path in files}
    sources = {path: open(path, encoding="utf-8").read() for path in sorted(glob.glob("crates/*/src/**/*.rt", recursive=True))}

    defined, declared, where = set(), {}, collections.defaultdict(set)
    for path, text in texts.items():
        if path.endswith("/Proof.antt"):
            continue
        for mark, name in DECLARED.findall(text):
            declared.setdefault(name, bool(mark.strip() and ("abbrev" in mark or "unfoldable" in mark)))
            declared[name] |= "abbrev" in mark or "unfoldable" in mark
            where[name].add(path)
            if "abbrev" in mark or "unfoldable" in mark:
                defined.add(snake(name))
    names = defined | LIBRARY
    new = {name: spelled(name, names) for name in declared}
    new = {old: to for old, to in new.items() if old != to}

    # a lemma about the library's test of that name
    new["is-nan"] = "is_nan_lem"

    # what would fall together: the definition has the name, a lemma gets `_lem`
    taken = collections.defaultdict(list)
    for name in declared:
        taken[new.get(name, name)].append(name)
    for to, olds in sorted(taken.items()):
        if len(olds) > 1:
            keep = sorted(olds, key=lambda it: (not declared[it], it != to, it))[0]
            for it in olds:
                if it != keep:
                    new[it] = to + "_lem"
                    if to + "_lem" in declared:
                        sys.exit(f"{it}: {to}_lem is taken")
            print(f"together: {' and '.join(olds)}: {keep} is {new.get(keep, keep)}, the other {to}_lem")
    again = collections.Counter(new.get(name, name) for name in declared)
    bad = [f"twice: {to}" for to, n in again.items() if n > 1]

    # a file that binds the new spelling already
    for path, text in texts.items():
        words = set(re.findall(r"(?<![\w.])%s" % NAME, re.sub(r"(?m)--.*|^(?:pub )?use [^{\n]*", "", text)))
        for old in words & set(new):
            if new[old] in words and new[old] not in declared:
                bad.append(f"{path}: {old} would meet {new[old]}")
    if bad:
        print("\n".join(sorted(set(bad))))
        if "--force" not in sys.argv:
            sys.exit("names fall together: nothing was written")

    crates = {path.split("/")[1] for path in files}

    def lent(text):
        """The names that a file has from the libraries: they keep the libraries' spelling there."""
        out = set()
        for path, items in re.findall(r"use ([^\s{]+)\.\{([^}]*)\}", text):
            if not (path.startswith("Rattle.") and path.split(".")[1] in crates):
                out |= {it.split(" as ")[-1].strip() for it in items.split(",")}
        return out

    def in_antt(text):
        stays = lent(text)
        def one(m):
            word = m[0]
            if word.startswith("--"):
                return re.sub(r"(?<![\w-])%s(?![\w-])" % r"[\w₀-₉'ℕℤ-]+", lambda n: new[n[0]] if n[0] in new and (CAMEL.search(n[0]) or f"`{n[0]}`" in word) else n[0], word)
            return word if word in stays else new.get(word, word)

        return TOKEN.sub(one, text)

    def in_rust(text):
        stays = lent(text)
        def one(m):
            word = m[0]
            if word.startswith("//"):
                return re.sub(r"(?<![\w-])[\w'-]+(?![\w-])", lambda n: new[n[0]] if n[0] in new and CAMEL.search(n[0]) else n[0], word)
            if word.startswith(('"', "b\"")):
                return word
            if word in stays:
                return word
            return new.get(word, word) if CAMEL.search(word) or "-" in word else word

        return re.sub(r'//[^\n]*|b?"(?:[^"\\]|\\.)*"|[^\s(){}.;,@"«»:\[\]]+', one, text)

    if "--check" in sys.argv:
        for old in sorted(new):
            print(old, new[old])
        return
    changed = 0
    for path, text in [*texts.items(), *sources.items()]:
        now = in_antt(text) if path.endswith(".antt") else in_rust(text)
        if now != text:
            open(path, "w", encoding="utf-8").write(now)
            changed += 1
    print(f"{len(new)} names, {changed} files")


if __name__ == "__main__":
    main()
