#!/usr/bin/env python3
"""Brings the must-fail edits of the landed commit over to the texts as they stand today.

usage: tools/port/edits.py [--write] [CRATE..]        at the top of a checkout that has the landed commit in its history

An edit replaces a text that stands once in a file by another one. For each such pair the line of the landed file is found, then the same line of
today's file (the files are aligned by their lines, as they read with case, dashes and brackets aside), and the same tokens of it are replaced:
tokens that both texts of the edit have are today's, others take the spelling that the aligned files of the repository show. An edit that is
brought over already and stands is left alone; --write writes the others. What cannot be carried is printed, and is for a hand. The edits of
crates/NAME/wrong come to crates/NAME/must-fail, under their names.
"""

import collections
import difflib
import os
import re
import subprocess
import sys

LANDED = "7b12eda3bf8e1b5dd8cc989c07d28dd17ea8131b"
WORD = r"[^\s(){}\[\].;,@\"«»:&*!=<>+/%|^~?#'-][^\s(){}\[\].;,@\"«»:&*!=<>+/%|^~?#]*"
TOKEN = re.compile(r"\s+|\.?%s|[\s\S]" % WORD)


def landed(path):
    """A file of the landed commit; None if it has none of that name."""
    run = subprocess.run(["git", "show", f"{LANDED}:{path}"], stdout=subprocess.PIPE, stderr=subprocess.DEVNULL, check=False)
    return run.stdout.decode() if run.returncode == 0 else None


def today(path):
    return open(path, encoding="utf-8").read() if os.path.isfile(path) else None


def landed_files(pattern):
    names = subprocess.run(["git", "ls-tree", "-r", "--name-only", LANDED, "crates"], stdout=subprocess.PIPE, check=True).stdout.decode().split()
    return sorted(name for name in names if re.fullmatch(pattern, name))


# ---- an edit: its lines, and its pairs

def pairs_of(text):
    """The pairs of an edit, as (number of the `old` line, number of the `new` line, file, old, new)."""
    file = old = at = None
    for number, line in enumerate(text.split("\n")):
        if line.startswith("file: "):
            file = line[6:].strip()
        elif line.startswith("old: "):
            old, at = line[5:], number
        elif line.startswith("new:"):
            yield at, number, file, old, line[4:].removeprefix(" ")


def applied(text, read):
    """Applies an edit to the files that `read` gives; what is at fault, or the edited files."""
    texts = {}
    for _, _, file, old, new in pairs_of(text):
        if file not in texts:
            texts[file] = read(file)
        if texts[file] is None:
            return f"there is no {file}", texts
        found = texts[file].count(old)
        if found != 1:
            return f"{found} times in {file}: {old}", texts
        texts[file] = texts[file].replace(old, new)
    return None, texts


# ---- spelling

def tight(text):
    """A projection as it is written today: `(f x .g)` is `(f x).g`, and `(x .g)` is `x.g`."""
    word = r"[\w'′₀-₉]+"
    for _ in range(3):
        text = re.sub(r"\((%s) \.(%s)\)" % (word, word), r"\1.\2", text)
        text = re.sub(r"\((\([^()]*\)) \.(%s)\)" % word, r"\1.\2", text)
        text = re.sub(r"\((%s(?: %s)+) \.(%s)\)" % (word, word, word), r"(\1).\2", text)
        text = re.sub(r"(= )(%s(?: %s)+) \.(%s)" % (word, word, word), r"\1(\2).\3", text)
        text = re.sub(r"(%s|\)) \.(%s)(?![\w.])" % (word, word), r"\1.\2", text)
    return text


def plain(line):
    """A line as it is aligned: case, dashes, brackets and blanks aside, and what the clauses and projections of then and now differ in."""
    line = re.sub(r"⌜|⌝|λ r\. |\b(now|entry|exit|old|new|result)\b", "", line)
    line = re.sub(r"\bgetD\b", "get_or", line)
    return re.sub(r"[^\wℕℤ∷≡≤<+*/%^&|=!]|_", "", line).lower()


def is_import(line):
    return re.match(r"\s*(?:pub )?(?:ghost )?use ", line)


def aligned(before, after):
    """For each line of one text the line of the other that stands for it, or None; by number."""
    one = [(number, plain(line)) for number, line in enumerate(before) if not is_import(line) and line.strip()]
    two = [(number, plain(line)) for number, line in enumerate(after) if not is_import(line) and line.strip()]
    found = {}
    for kind, a, b, c, d in difflib.SequenceMatcher(None, [it for _, it in one], [it for _, it in two], autojunk=False).get_opcodes():
        if kind == "equal" or kind == "replace" and b - a == d - c:
            found.update((one[a + k][0], two[c + k][0]) for k in range(b - a))
        elif kind == "replace":
            # lines that were split or joined: the one that is most alike
            for number, line in one[a:b]:
                alike = difflib.get_close_matches(line, [it for _, it in two[c:d]], 1, 0.6)
                if alike:
                    found[number] = next(at for at, it in two[c:d] if it == alike[0])
    for number, line in enumerate(before):
        if is_import(line):
            module = re.match(r"\s*(?:pub )?(?:ghost )?use ([^{]*)", line)[1].rstrip(". ")
            last = re.split(r"[.·]", module)[-1]
            same = [at for at, it in enumerate(after) if is_import(it) and re.search(r"[.·]%s\b" % re.escape(last), it)]
            if len(same) == 1:
                found[number] = same[0]
    return found


def spellings(files):
    """How each word of then is written today, as the aligned lines show it."""
    seen = collections.defaultdict(collections.Counter)
    for path in files:
        then, now = landed(path), today(path)
        if then is None or now is None:
            continue
        then, now = then.split("\n"), now.split("\n")
        for a, b in aligned(then, now).items():
            one, two = (re.findall(WORD, it) for it in (tight(then[a]), now[b]))
            if len(one) == len(two) and not then[a].lstrip().startswith(("--", "//")):
                for old, new in zip(one, two):
                    seen[old][new] += 1
    return {old: news.most_common(1)[0][0] for old, news in seen.items()}


# A name of a library by its whole path, and one of another crate; the first is one of the library's Prelude today, where that has it.
PATH = re.compile(r"(?<![\w.])(?:(mathlib|lib|Prim)((?:\.[A-Z]\w*)+)\.([^\s(){}.;,]+)|Rattle·(\w+)\.)")
PRELUDE = re.compile(r"use Rattle\.std\.specs\.Prelude\.\{([^}]*)\}")


class Speller:
    def __init__(self, files):
        self.words = spellings(files)
        self.prelude = {it.strip() for path in files for names in PRELUDE.findall(today(path) or "") for it in names.split(",")}

    def __call__(self, text):
        text = tight(text)
        paths = [self.path(*m.groups()) for m in PATH.finditer(text)]
        text = TOKEN.sub(lambda m: self.word(m[0]), PATH.sub("\0", text))
        return re.sub("\0", lambda _: paths.pop(0), text)

    def path(self, library, module, name, crate):
        if crate:
            return f"Rattle.{crate}."
        name = name.replace("_", "◌") if re.fullmatch(r"_[^\w]+_", name) else self.word(name)
        return f"Rattle.std.specs.Prelude.{name}" if name in self.prelude else f"{library}{module}.{name}"

    def word(self, token):
        dot, bare = ("." if token.startswith(".") and len(token) > 1 else ""), token.lstrip(".") or token
        return dot + self.words.get(bare, bare)


# ---- one pair

def carried(speller, then, now, old, new):
    """The pair as today's text has it, or what is at fault."""
    if then.count(old) != 1:
        return f"it stands {then.count(old)} times in the landed file", None
    begun = then.index(old)
    number = then[:begun].count("\n")
    then_lines, now_lines = then.split("\n"), now.split("\n")
    at = aligned(then_lines, now_lines).get(number)
    if at is None:
        return "today's file has no such line", None
    line, was = now_lines[at], then_lines[number]
    start = begun - (then.rindex("\n", 0, begun) + 1 if "\n" in then[:begun] else 0)
    whole = was[:start] + new + was[start + len(old):]
    # as it is spelled today, where that is the text of the line
    if speller(was).strip() == line.strip():
        text, other = speller(old), speller(new)
        if line.count(text) == 1 and line.replace(text, other).strip() == speller(whole).strip():
            return shortest(now, line, text, other)
        return shortest(now, line, line.strip(), speller(whole).strip())
    # else token by token: those that the landed line and today's share lead from one to the other
    one, two = TOKEN.findall(tight(was)), TOKEN.findall(line)
    edited = TOKEN.findall(tight(whole))
    to = {}
    for kind, a, b, c, d in difflib.SequenceMatcher(None, [speller.word(it) for it in one], two, autojunk=False).get_opcodes():
        if kind == "equal" or kind == "replace" and b - a == d - c:
            to.update((a + k, c + k) for k in range(b - a))
    made, changed = list(two), []
    for kind, a, b, c, d in difflib.SequenceMatcher(None, one, edited, autojunk=False).get_opcodes():
        if kind == "equal":
            continue
        ends = [to.get(k) for k in range(a, b)] if b > a else [to.get(a, to.get(a - 1, None))]
        if None in ends:
            return f"the line reads otherwise: {line.strip()}", None
        changed.append((min(ends), max(ends) + 1 if b > a else min(ends), "".join(speller.word(it) for it in edited[c:d])))
    for a, b, text in reversed(changed):
        made[a:b] = [text]
    return shortest(now, line, line.strip(), "".join(made).strip())


def shortest(now, line, text, other):
    """The pair, or with the whole line where the text alone stands more than once."""
    if now.count(text) != 1:
        wider = line.strip()
        other, text = wider.replace(text, other), wider
    if now.count(text) != 1:
        return f"it stands {now.count(text)} times: {text}", None
    return None, (text, other)


def imported(speller, then, now, old, new):
    """The pair that adds the names to an import which `new` has and `old` lacks. They are added at its head, since what else it brings in may change."""
    was, will = ([it.strip() for it in re.search(r"\{(.*)\}", line)[1].split(",")] for line in (old, new))
    added = [it.replace("_", "◌") if re.fullmatch(r"_[^\w]+_", it) else speller.word(it) for it in will if it not in was]
    head = "use Rattle.std.specs.Prelude.{"
    if then.count(old) != 1 or set(was) - set(will) or set(added) - speller.prelude or now.count(head) != 1:
        return "an import", None
    return None, (head, head + "".join(f"{it}, " for it in added))


def brought(speller, crate, edit):
    """An edit of the landed commit as it reads today, or what is at fault."""
    lines, then, now = edit.split("\n"), {}, {}
    for at_old, at_new, file, old, new in pairs_of(edit):
        path = f"crates/{crate}/{file}"
        then.setdefault(file, landed(path))
        now.setdefault(file, today(path))
        if now[file] is None:
            return f"there is no {file}", None
        fault, pair = (imported if is_import(old) else carried)(speller, then[file], now[file], old, new)
        if fault:
            return f"{fault}: {old}", None
        lines[at_old], lines[at_new] = f"old: {pair[0]}", f"new: {pair[1]}".rstrip()
        then[file], now[file] = then[file].replace(old, new), now[file].replace(*pair)
    return None, "\n".join(lines)


def main():
    write, crates = "--write" in sys.argv, [it for it in sys.argv[1:] if not it.startswith("--")]
    files = landed_files(r"crates/[^/]*/(specs/.*\.antt|src/.*\.rt)")
    speller = Speller(files)
    made, left, names = 0, 0, collections.Counter()
    for path in landed_files(r"crates/[^/]*/(must-fail|wrong)/[^/]*\.edit"):
        _, crate, _, name = path.split("/")
        if crates and crate not in crates:
            continue
        names[crate, name] += 1
        to, edit = f"crates/{crate}/must-fail/{name}", landed(path)
        fault, text = brought(speller, crate, edit)
        stands = today(to)
        right = stands is not None and applied(stands, lambda file: today(f"crates/{crate}/{file}"))[0] is None
        if fault is None:
            at_fault, _ = applied(text, lambda file: today(f"crates/{crate}/{file}"))
            fault = at_fault
        if fault:
            left += not right
            if not right:
                print(f"{to}: {fault}")
        elif stands != text:
            if right and stands != edit:
                print(f"{to}: stands otherwise, by hand")
                continue
            made += 1
            if write:
                os.makedirs(os.path.dirname(to), exist_ok=True)
                with open(to, "w", encoding="utf-8") as it:
                    it.write(text)
    twice = [f"{crate}/{name}" for (crate, name), times in names.items() if times > 1]
    if twice:
        print("two edits of one name: " + " ".join(twice))
    print(f"{sum(names.values())} edits of the landed commit, {made} to bring over, {left} for a hand")


if __name__ == "__main__":
    main()
