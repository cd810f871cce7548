#!/usr/bin/env python3
"""Turns proofs that walk the places of the code, proofs/F/Proof.antt, into today's Invariants.antt and Answers.antt.

usage: tools/port/answers.py NAMES [CRATE [FUNCTION..]]

NAMES is what `rt names NAMES` wrote at the top of the checkout: each function's goals and steps, old and new. The goals of a proof are matched to
those of the checker by their place in the list. A step's record has the steps before it, so that `c.before.before.loop.j` is `c.loop-j.j`; what
a proof says of a place in a helper of its own becomes a `let` in the answers that use it. Answers that the checker finds alone go.
"""

import collections
import glob
import json
import os
import re
import sys

W = r"[^\s(){}.;,@\"«»\[\]\\:]+"
# a name, or a path of fields behind a name or a closing bracket
TOKEN = re.compile(r"--[^\n]*|\.(?=%s)%s|%s|[\s\S]" % (W, W, W))
SIMPLE = {"search rules", "search needs", "omega arith"}
same = lambda it: it.replace("-", "_")


def unnested(index, fields):
    """Which of the clauses, joined in pairs to the right, the digits at the head name, and how many digits that takes."""
    at = 0
    for used, digit in enumerate(index):
        if digit == "0":
            return fields[at], used + 1
        if digit != "1":
            return None
        at += 1
        if at == len(fields) - 1:
            return fields[at], used + 1
    return None


class Function:
    def __init__(self, crate, path, names):
        self.crate, self.path, self.names = crate, path, names
        self.folder = f"crates/{crate}/proofs/" + path.replace(".", "/")
        self.text = open(self.folder + "/Proof.antt", encoding="utf-8").read()
        self.notes = []
        n = names
        self.steps, self.special, self.callee, self.clauses, self.arm = {}, {}, {}, {}, {}
        for place, clause, arm in zip(n["places"], n["clauses"], n["arms"]):
            old, new = place[2]
            if old:
                self.steps.setdefault(same(old), new)
                if place[4]:
                    self.special.setdefault(same(old), {}).update({a: b for a, b in place[4]})
                if place[3]:
                    self.callee[same(old)] = place[3]
                if clause:
                    self.clauses[same(old)] = clause["fields"]
            if arm:
                for field, step, where in arm[2]:
                    self.arm.setdefault(same(step), {})[tuple(where)] = (arm[0], field)
        self.typed = {}
        for each in n["typed"]:
            for name, step in each:
                self.typed[same(step)] = name
        self.pre = n["pre"]["fields"] if n["pre"] else None
        self.renamed = dict(it for it in n["args"] if isinstance(it, list))

    # ---- paths

    def step_key(self, name):
        name = same(name)
        if name in self.steps:
            return name
        bare = lambda it: re.sub(r"_lem$", "", it).replace("_", "").lower()
        alike = [it for it in self.steps if bare(it) == bare(name)]
        if len(alike) == 1:
            return alike[0]
        for alias, of in (("known_told", "known_told"), ("slice_known", "shared_slice_known"), ("slice_known", "slice_known")):
            m = re.fullmatch(alias + r"(\d*)", name)
            if m and of + m[1] in self.steps:
                return of + m[1]
        return None

    def of_step(self, key, rest):
        """The path of a step: its new name and what follows."""
        rest = [{"type-inv": "type_inv", "inv": "invariant", "pre": "requires"}.get(it, it) for it in rest]
        if key in self.typed and rest[:1] == ["given"]:
            return ["type_inv", self.typed[key]] + rest[1:]
        for n in range(len(rest), 0, -1):
            if key in self.arm and tuple(rest[:n]) in self.arm[key]:
                return list(self.arm[key][tuple(rest[:n])]) + rest[n:]
        if rest[:1] and rest[0] in ("taken", "true", "left", "false", "fact") and re.match(r"if\d|.*_test|.*-test", key):
            special = self.special.get(key, {})
            word = {"taken": "true", "left": "false"}.get(rest[0], rest[0])
            rest[0] = special.get(word, word)
        rest = self.of_record(key, rest)
        return [self.steps[key]] + rest

    def of_record(self, key, rest):
        if rest[:1] == ["ensures"] and key in self.clauses:
            return self.of_clauses(rest, self.clauses[key])
        if rest[:1] == ["new"] and len(rest) > 1 and rest[1].isdigit():
            params, at = self.names["params"].get(self.callee.get(key, ""), []), 1
            while at < len(rest) and rest[at] == "1":
                at += 1
            if at < len(rest) and rest[at] == "0" and at - 1 < len(params):
                rest = ["new", params[at - 1]] + rest[at + 1 :]
            else:
                self.notes.append(f"new.{rest[1]} of {key}")
        return rest

    def of_clauses(self, rest, fields):
        digits = []
        for it in rest[1:]:
            if not it.isdigit():
                break
            digits.append(it)
        found = unnested(digits, fields)
        if found:
            return [rest[0], found[0]] + rest[1 + found[1] :]
        if len(rest) == 1:
            return [rest[0], tuple(fields)]
        return rest

    def along(self, head, kind, tail):
        """The text of head.tail, where head is a variable of that kind."""
        if kind == "place":
            while tail[:1] == ["before"]:
                tail = tail[1:]
            if not tail:
                return head, "place"
            first, rest = tail[0], tail[1:]
            first = {"pre": "requires", "came": "branch", "fits": "ranges", "good": "well_formed", "well-formed": "well_formed", "type-inv": "type_inv"}.get(first, first)
            if first == "requires":
                new = self.of_clauses([first] + rest, self.pre) if self.pre else [first] + rest
                kind = "requires" if new in ([first], [first, tuple(self.pre or ())]) else None
                if kind and self.pre:
                    return head + "." + first, "requires"
                return self.joined(head, new), None
            if first in ("args", "ranges") and rest:
                old = f".{first} .{rest[0]}"
                if old in self.renamed:
                    rest = [self.renamed[old].split(".")[-1]] + rest[1:]
                return self.joined(head, [first] + rest), None
            key = self.step_key(first)
            if key is None:
                if first not in ("args", "ranges", "well_formed", "lifetimes", "type_inv", "told", "branch"):
                    self.notes.append(f"step {first}")
                return self.joined(head, [first] + rest), None
            if not rest:
                return head + "." + self.steps[key], "step:" + key
            if any(where[: len(rest)] == tuple(rest) and len(where) > len(rest) for where in self.arm.get(key, {})):
                return self.joined(head, self.of_step(key, rest)), "part:" + ":".join([key] + rest)
            return self.joined(head, self.of_step(key, rest)), None
        if kind and kind.startswith("step:"):
            key = kind[5:]
            if not tail:
                return head, kind
            new = self.of_step(key, tail)
            if new[0] != self.steps[key]:
                return self.joined("c", new), None
            return self.joined(head, new[1:]), None
        if kind and kind.startswith("part:"):
            key, *rest = kind[5:].split(":")
            return self.joined("c", self.of_step(key, rest + tail)), None
        if kind == "requires":
            new = self.of_clauses(["requires"] + tail, self.pre)
            if len(new) == 1 or isinstance(new[-1], tuple):
                return head, "requires" if not tail else None
            return self.joined(head, new[1:]), None
        return self.joined(head, tail), None

    def joined(self, head, parts):
        if parts and isinstance(parts[-1], tuple):
            base = ".".join([head] + list(parts[:-1]))
            fields = parts[-1]
            out = f"{base}.{fields[-1]}"
            for it in reversed(fields[:-1]):
                out = f"({base}.{it}, {out})"
            return out
        return ".".join([head] + list(parts))


def blocks_of(text):
    """The header of comments, the use lines, and the blocks behind them."""
    lines = text.split("\n")
    head, uses, at = [], [], 0
    while at < len(lines) and lines[at].startswith("--"):
        head.append(lines[at])
        at += 1
    while at < len(lines) and (lines[at].startswith("use ") or not lines[at].strip()):
        if lines[at].strip():
            uses.append(lines[at])
        at += 1
    rest = "\n".join(lines[at:])
    parts, notes = [], ""
    for it in re.split(r"\n(?:[ \t]*\n)+(?=\S)", rest.strip("\n")):
        if all(line.lstrip().startswith("--") for line in it.split("\n")):
            notes += it + "\n"
        elif it.strip():
            parts.append(notes + it)
            notes = ""
    parts = [re.sub(r"(?m)^((?:pub )?%s) :\n\s+(?=tie\.Need)" % W, r"\1 : ", it) for it in parts]
    return head, uses, parts


def split_decl(block):
    """The comments, the signature and the body lines of a declaration."""
    lines = block.split("\n")
    notes = []
    while lines and lines[0].lstrip().startswith("--"):
        notes.append(lines.pop(0))
    return notes, "\n".join(lines)


DECL = re.compile(r"^(abbrev )?(pub )?(%s) : ([\s\S]*?)\n((?:unfolding [^\n]*\n)?)\3((?: %s)*) =([\s\S]*)$" % (W, r"[^\s=:]+"))


class Turner:
    def __init__(self, f):
        self.f = f
        self.helpers = collections.OrderedDict()
        self.places = set()
        self.moved = collections.OrderedDict()

    def run(self):
        f = self.f
        head, uses, parts = blocks_of(f.text)
        spec = re.search(r"\(tie\.spec\b([\s\S]*?)\)\s*$", parts[-1]) or re.search(r"\btie\.spec\b([\s\S]*?)$", parts[-1])
        args = spec[1].split() if spec else []
        loops, needs = f.names["loops"], f.names["needs"]
        if len(args) != 2 * len(loops) + len(needs):
            args = [it for it in args if not it.startswith("slice-aggregate")]
        if len(args) != 2 * len(loops) + len(needs):
            raise ValueError(f"{len(args)} answers for {2 * len(loops) + len(needs)} goals")
        goals = dict(zip(args[2 * len(loops) :], needs))
        own = args[: 2 * len(loops)]
        self.goals = goals
        self.inv = {}
        for name in own:
            m = re.fullmatch(r"(?:invariant|decreases|Inv|μ)-(loop\d*)", name)
            if not m:
                raise ValueError(f"loop of {name}")
            new = dict(it[0] for it in loops)[m[1]]
            kind = "invariant" if name.startswith(("inv", "Inv")) else "decreases"
            at = [it[0][0] for it in loops].index(m[1])
            self.inv[name] = (kind, new, loops[at][1], f.names["changed"][at])
        answers, invariants = [], []
        decls = []
        for part in parts[:-1]:
            decls += self.unsectioned(part)
        # helpers first
        for notes, text, section in decls:
            name = self.name_of(text)
            if name is None:
                raise ValueError("no declaration: " + text[:80])
            if name in goals or name in self.inv or name.startswith("slice-aggregate"):
                continue
            self.helper(name, notes, text, section)
        for notes, text, section in decls:
            name = self.name_of(text)
            if name in self.inv:
                invariants.append(self.invariant(name, notes, text))
            elif name in goals:
                answer = self.answer(name, goals[name], notes, text)
                if answer:
                    answers.append(answer)
        plain = [h for h in self.helpers.values() if h["kind"] == "plain"]
        used_in_inv = [h for h in plain if any(re.search(r"(?<!%s)(?:%s)(?!%s)" % (r"[\w'-]", "|".join(map(re.escape, h["name"].split("|"))), r"[\w'-]"), it) for it in invariants)]
        self.write(head, uses, plain, used_in_inv, invariants, answers)

    def unsectioned(self, part):
        m = re.match(r"((?:--[^\n]*\n)*)module _ ((?:\([^()]*\)|\{[^{}]*\}|\s)*(?:\((?:[^()]|\([^()]*\))*\)|\{[^{}]*\}|\s)*) where\n", part)
        if not m:
            return [(*split_decl(part), None)]
        if not re.match(r"\(%s : (?:tie\.[A-Z]|%s\b)" % (W, "|".join(map(re.escape, self.places)) or "NONE"), m[2].strip()):
            return [(m[1].rstrip("\n").split("\n") if m[1] else [], part[m.start(2) - len("module _ ") :], None)]
        inner = re.sub(r"(?m)^  ", "", part[m.end() :])
        out = []
        for it in re.split(r"\n(?:[ \t]*\n)+(?=\S)", inner):
            notes, text = split_decl(it)
            out.append((notes, text, m[2].strip()))
        return out

    def name_of(self, text):
        if text.startswith("module _ "):
            return "|".join(re.findall(r"(?m)^  (?:abbrev )?(?:pub )?(%s) :" % W, text))
        m = re.match(r"(?:abbrev )?(?:unfoldable )?(?:pub )?(?:record )?(%s) (?:[({][^:]* )?:" % W, text)
        return m[1] if m else None

    def helper(self, name, notes, text, section):
        if text.startswith("module _ "):
            if "tie." in text:
                raise ValueError(f"section {name}: a place inside")
            self.helpers[name] = dict(kind="plain", name=name, notes=notes, text=text, abbrev=False)
            return
        m = DECL.match(text)
        places = "|".join(map(re.escape, self.places)) or "NONE"
        is_place = r"(?:tie\.[A-Z][\w-]*(?: (?:invariant|decreases|Inv|μ)-loop\d*)*|%s)" % places
        if m and m[4].strip() == "Type 0" and re.fullmatch(is_place, m[7].strip()):
            self.places.add(name)
            self.helpers[name] = dict(kind="place", name=name)
            return
        of_place = section and re.match(r"\(%s : %s\)" % (W, is_place), section)
        sig = m[4] if m else ""
        proj = m and re.fullmatch(r"%s → %s" % (is_place, is_place), sig.strip())
        first = m and re.match(r"\((%s) : %s\)" % (W, is_place), sig)
        if m and proj:
            self.helpers[name] = dict(kind="projection", name=name)
            return
        if of_place and m and re.fullmatch(is_place, sig.strip()):
            self.helpers[name] = dict(kind="projection", name=name)
            return
        arrow = m and re.match(r"%s\s*→\s*" % is_place, sig)
        if of_place or first or arrow:
            if not m:
                raise ValueError(f"helper {name}: form")
            self.helpers[name] = dict(kind="let", name=name, notes=notes, match=m, section=section if of_place else None, arrow=arrow.end() if arrow else None, told=False)
            return
        if "tie." in text or any(re.search(r"(?<![\w-])%s(?![\w-])" % re.escape(p), text) for p in self.places):
            raise ValueError(f"helper {name}: a place in another form")
        # plain lemma over variables
        body = text
        if section:
            body = f"module _ {section} where\n" + re.sub(r"(?m)^(?=.)", "  ", text)
        self.helpers[name] = dict(kind="plain", name=name, notes=notes, text=body, abbrev=bool(m and m[1]))

    # ---- text

    def lets(self, text, places):
        """Flattens, following `let v = path in` so that v is known as a place, a step or a requires."""
        used = []
        kinds = {p: "place" for p in places}
        pos, out = 0, []
        # one pass: tokens, with kinds changed as lets are met
        while True:
            m = re.compile(r"(?<![\w'-])let (%s)(?: : tie\.[A-Z][\w-]*(?: (?:invariant|decreases)-loop\d*)*)? = " % W).search(text, pos)
            if not m:
                out.append(self.flat_with(text[pos:], kinds, used))
                break
            end, depth = m.end(), 0
            for t in re.finditer(r"(?<![\w'.-])let(?![\w'-])|(?<![\w'.-])in(?![\w'-])", text[m.end() :]):
                depth += 1 if t[0] == "let" else -1
                if depth < 0:
                    end = m.end() + t.start()
                    break
            bound = text[m.end() : end].strip()
            out.append(self.flat_with(text[pos : m.start()], kinds, used))
            kind = self.kind_of(bound, kinds)
            if kind and kind.startswith("part:"):
                kinds[m[1]] = kind
                pos = end + len("in")
                while pos < len(text) and text[pos] in " \n":
                    pos += 1
                continue
            if kind == "place":
                kinds[m[1]] = "place"
                pos = end + len("in")
                while pos < len(text) and text[pos] in " \n":
                    pos += 1
                continue
            if kind:
                self.binding = True
                got = self.flat_with(bound, kinds, used)
                self.binding = False
                # steps and requires stay bound, under their new path
                out.append(f"let {m[1]} = {got} in")
                kinds[m[1]] = kind
                pos = end + len("in")
                continue
            kinds.pop(m[1], None)
            out.append(f"let {m[1]} = ")
            pos = m.end()
        return "".join(out), used

    def kind_of(self, bound, kinds):
        """place, step:KEY or requires, where the bound term is such a path; else None."""
        if re.fullmatch(r"\(.*\)", bound) and bound.count("(") == bound.count(")") and self.closes(bound):
            return self.kind_of(bound[1:-1].strip(), kinds)
        m = re.fullmatch(r"(\((?:[^()]|\((?:[^()]|\([^()]*\))*\))*\)|%s)((?:\.%s)*)" % (W, W), bound)
        if m:
            tail = [it for it in m[2].split(".") if it]
            if m[1].startswith("("):
                kind = self.kind_of(m[1][1:-1].strip(), kinds)
            else:
                kind = kinds.get(m[1]) or ("place" if self.helpers.get(m[1], {}).get("kind") == "projection" else None)
            if kind == "place":
                return self.f.along("c", "place", tail)[1]
            if kind and not tail:
                return kind
            return None
        m = re.fullmatch(r"(%s) (.*)" % W, bound, re.S)
        if m and self.helpers.get(m[1], {}).get("kind") == "projection" and self.kind_of(m[2].strip(), kinds) == "place":
            return "place"
        return None

    def closes(self, bound):
        depth = 0
        for at, ch in enumerate(bound):
            depth += (ch == "(") - (ch == ")")
            if depth == 0:
                return at == len(bound) - 1
        return False

    def flat_with(self, text, kinds, used):
        f = self.f
        tokens = [m[0] for m in TOKEN.finditer(text)]
        out, at = [], 0
        while at < len(tokens):
            tok = tokens[at]
            if tok.startswith("--") or not re.fullmatch(W, tok):
                # a bracket around a projection: (start c).args
                out.append(tok)
                at += 1
                continue
            helper = self.helpers.get(tok)
            if helper and helper["kind"] in ("projection", "let"):
                nxt = at + 1
                while nxt < len(tokens) and tokens[nxt].isspace():
                    nxt += 1
                end = at + 1
                if nxt < len(tokens) and self.place_at(tokens, nxt, kinds):
                    end = self.argument_end(tokens, nxt)
                wrapped = out and out[-1] == "(" and end < len(tokens) and tokens[end] == ")"
                if wrapped:
                    out.pop()
                    end += 1
                tail = []
                while end < len(tokens) and re.match(r"\.%s$" % W, tokens[end]):
                    tail.append(tokens[end][1:])
                    end += 1
                if helper["kind"] == "projection":
                    out.append(f.along("c", "place", tail)[0])
                else:
                    used.append(tok)
                    out.append(".".join([tok] + tail))
                at = end
                continue
            tail, end = [], at + 1
            while end < len(tokens) and re.match(r"\.%s$" % W, tokens[end]):
                tail.append(tokens[end][1:])
                end += 1
            kind = kinds.get(tok)
            if kind == "requires" and not tail and self.f.pre and not self.binding:
                out.append(self.f.joined(tok, [tuple(self.f.pre)]))
            elif kind == "requires" and not tail and self.binding:
                out.append(tok)
            elif kind == "place" and tail:
                got, k = f.along("c", kind, tail)
                if k == "requires" and self.f.pre and not self.binding:
                    got = self.f.joined(got, [tuple(self.f.pre)])
                out.append(got)
            elif kind:
                out.append(f.along("c" if kind == "place" else tok, kind, tail)[0])
            else:
                out.append(".".join([tok] + tail))
            at = end
        return "".join(out)

    binding = False

    def argument_end(self, tokens, at):
        if tokens[at] == "(":
            depth = 0
            while True:
                depth += (tokens[at] == "(") - (tokens[at] == ")")
                at += 1
                if not depth:
                    break
        else:
            at += 1
        while at < len(tokens) and re.match(r"\.%s$" % W, tokens[at]):
            at += 1
        return at

    def place_at(self, tokens, at, kinds):
        if tokens[at] == "(":
            depth, end = 0, at
            while end < len(tokens):
                depth += (tokens[end] == "(") - (tokens[end] == ")")
                end += 1
                if not depth:
                    break
            inner = "".join(tokens[at + 1 : end - 1]).strip()
            tail = []
            while end < len(tokens) and re.match(r"\.%s$" % W, tokens[end]):
                tail.append(tokens[end][1:])
                end += 1
            return self.kind_of("(" + inner + ")" + "".join("." + t for t in tail), kinds) == "place"
        tail, end = [], at + 1
        while end < len(tokens) and re.match(r"\.%s$" % W, tokens[end]):
            tail.append(tokens[end][1:])
            end += 1
        return self.kind_of(".".join([tokens[at]] + tail), kinds) == "place"

    # ---- parts

    def invariant(self, name, notes, text):
        kind, loop, names, changed = self.inv[name]
        m = DECL.match(text)
        if not m:
            raise ValueError("form of " + name)
        params = re.search(r"(?m)^%s((?: [^\s=]+)*) =" % re.escape(name), text)[1].split()
        body = text[re.search(r"(?m)^%s(?: [^\s=]+)* =" % re.escape(name), text).end() :]
        live = [f"l.initial.{n}" if c else f"l.{n}" for n, c in zip(names, changed)] + [f"l.{n}" for n, c in zip(names, changed) if c]
        if len(params) != len(live):
            raise ValueError(f"{name} has {len(params)} parameters, the loop {len(live)}: {params} {live}")
        by = {p: l for p, l in zip(params, live) if p != "_"}

        def one(t):
            return by.get(t[0], t[0])

        # a name that is not behind a dot, and not bound again
        body = re.sub(r"(?<![^\s(){};,\[\]])(%s)" % W, lambda t: by.get(t[1], t[1]), body)
        body = re.sub(r"\(to_z w64 (l\.[\w.]+)\)", r"\1", body)
        body = re.sub(r"to_z w64 (l\.[\w.]+)", r"\1", body)
        decl = f"abbrev pub {kind}-{loop} : goal.{kind}-{loop}\n{kind}-{loop} l ={body}"
        return "\n".join(notes + [decl])

    def answer(self, name, goal, notes, text):
        new = goal[1]
        others = [it for it in self.goals if it != name and re.search(r"(?<![\w'.-])%s(?![\w'-])" % re.escape(it), text)]
        if others:
            self.f.notes.append(f"{new} cites {', '.join(others)}")
        m = re.match(r"(?:pub )?%s : tie\.Need[^\n]*\n((?:unfolding [^\n]*\n)?)%s((?: [^\s=]+)*) =([\s\S]*)$" % (re.escape(name), re.escape(name)), text)
        if not m:
            raise ValueError(f"form of {name}: {text[:100]}")
        if m[3].strip() in SIMPLE and not m[1]:
            return None
        params = m[2].split()
        var = params[0] if params else None
        body = m[3]
        if var is None:
            raise ValueError(f"{name} has no variable")
        body, used = self.lets(body, [var])
        unfolding = m[1].replace("unfolding", "").split()
        pre, done = [], set()

        def bring(it):
            if it in done:
                return
            done.add(it)
            h = self.helpers[it]
            dm = h["match"]
            sig = dm[4]
            hparams = re.search(r"(?m)^%s((?: [^\s=:]+)*) =" % re.escape(it), dm[0])[1].split()
            hbody = dm[0][re.search(r"(?m)^%s(?: [^\s=:]+)* =" % re.escape(it), dm[0]).end() :]
            if h["section"]:
                var = re.match(r"\((%s) :" % W, h["section"])[1]
            elif h["arrow"]:
                sig = sig[h["arrow"] :]
                svar = var = hparams[0]
                hparams = hparams[1:]
            else:
                first = re.match(r"\((%s) : [^()]*\)\s*(?:→\s*)?" % W, sig)
                sig = sig[first.end() :]
                var, hparams = hparams[0], hparams[1:]
                svar = first[1]
            ty, used_ty = self.lets(sig, [var] if h["section"] else [svar])
            bd, used_bd = self.lets(hbody, [var])
            more = h["section"] and re.sub(r"^\(%s : (?:[^()]|\([^()]*\))*\)\s*" % W, "", h["section"]).strip()
            if more:
                more, _ = self.lets(more, [var])
                extra = re.findall(r"[({](%s)(?: %s)* :" % (W, W), more)
                for sib in (x for x in used_ty + used_bd if self.helpers[x]["section"] == h["section"]):
                    again = r"(?<![\w'.-])%s(?![\w'-])" % re.escape(sib)
                    ty, bd = (re.sub(again, f"({sib} {' '.join(extra)})", x) for x in (ty, bd))
                ty, hparams = f"{more} → {ty}", extra + hparams
            for u in used_ty + used_bd:
                if u != it:
                    bring(u)
            unfolding.extend(u for u in dm[5].replace("unfolding", "").split() if u not in unfolding)
            bd = bd.strip()
            if hparams:
                bd = f"λ {' '.join(hparams)}. {bd}"
            note = h["notes"] if not h["told"] else []
            h["told"] = True
            pre.append("\n".join(["    " + n.strip() for n in note] + [f"    let {it} : {' '.join(ty.split())} = {bd} in"]))

        for u in used:
            bring(u)
        def wide(it):
            it = re.sub(r"to_z-of_z (?!\{)", "to_z-of_z {w = w64} ", it)
            it = re.sub(r"\(to_z w64 (c\.loop[^\s.]*\.\w+)\)", r"\1", it)
            return re.sub(r"to_z w64 (c\.loop[^\s.]*\.\w+)(?![\w.])", r"\1", it)

        body, pre = wide(body), [wide(it) for it in pre]
        if goal[1] in self.f.names["asked"] or goal[0] in self.f.names["asked"]:
            body = self.fields(body, self.f.names["asked"].get(goal[0]) or self.f.names["asked"][goal[1]])
        if pre:
            body = "\n" + "\n".join(pre) + "\n    " + body.strip()
        unfolding = [it for it in unfolding if it not in self.helpers]
        un = f"unfolding {' '.join(unfolding)}\n" if unfolding else ""
        return "\n".join(notes + [f"pub {new} : goal.{new}\n{un}{new} c ={body}"])

    def fields(self, body, fields):
        """A tuple nested to the right as a record of the clauses."""
        text = body.rstrip()
        # the last expression: behind the last top-level ` in`
        at = self.last_in(text)
        lead, term = text[:at], text[at:].strip()
        parts = []
        rest = term
        for it in fields[:-1]:
            two = self.pair(rest)
            if not two:
                self.f.notes.append("asked " + ",".join(fields))
                return body
            parts.append(two[0])
            rest = two[1]
        parts.append(rest)
        record = "record { " + "; ".join(f"{n} = {t.strip()}" for n, t in zip(fields, parts)) + " }"
        return f"{lead} {record}"

    def last_in(self, text):
        depth, at = 0, 0
        for m in re.finditer(r"[()\[\]{}]|(?<![\w'.-])in(?![\w'-])", text):
            if m[0] in "([{":
                depth += 1
            elif m[0] in ")]}":
                depth -= 1
            elif depth == 0:
                at = m.end()
        return at

    def pair(self, term):
        term = term.strip()
        if not (term.startswith("(") and self.closes(term)):
            return None
        inner, depth = term[1:-1], 0
        for at, ch in enumerate(inner):
            depth += (ch in "([{") - (ch in ")]}")
            if ch == "," and depth == 0:
                first, second = inner[:at], inner[at + 1 :].strip().rstrip(",")
                # more than two, side by side
                d = 0
                for ch2 in second:
                    d += (ch2 in "([{") - (ch2 in ")]}")
                    if ch2 == "," and d == 0:
                        return first, f"({second})"
                return first, second
        return None

    def write(self, head, uses, plain, used_in_inv, invariants, answers):
        f = self.f
        here = f"Rattle.{f.crate}.proofs." + f.path
        kept = [u for u in uses if not re.search(r"\.(Tie as tie|Statement\.\{statement\})$", u)]
        if invariants:
            helpers = ["\n".join(h["notes"] + [re.sub(r"(?m)^(  )?(abbrev )?(?=(?:%s) :)" % "|".join(map(re.escape, h["name"].split("|"))), lambda m: (m[1] or "") + (m[2] or "") + "pub ", h["text"])]) for h in used_in_inv]
            text = "\n".join(head[:1] and ["-- The invariants of `%s`." % f.path.replace(".", "::")]) + "\n"
            text += "\n".join(kept + [f"use {here}.Given as goal"]) + "\n\n" + "\n\n".join(helpers + invariants) + "\n"
            open(f.folder + "/Invariants.antt", "w", encoding="utf-8").write(text)
        rest = [h for h in plain if h not in used_in_inv]
        text_of = "\n".join(answers)
        if answers:
            lemmas = []
            for h in rest:
                lemmas.append("\n".join(h["notes"] + [h["text"]]))
            lines = kept + [f"use {here}.Goals as goal"]
            if "{w = w64}" in text_of and not any(re.search(r"[{ ]w64[,}]", it) for it in kept):
                lines.append("use mir.Syntax.{w64}")
            if used_in_inv:
                lines.append(f"use {here}.Invariants.{{{', '.join(n for h in used_in_inv for n in h['name'].split('|'))}}}")
            text = "\n".join(head + lines) + "\n\n" + "\n\n".join(lemmas + answers) + "\n"
            open(f.folder + "/Answers.antt", "w", encoding="utf-8").write(text)
        os.remove(f.folder + "/Proof.antt")
        if not answers and not invariants and not os.listdir(f.folder):
            os.rmdir(f.folder)


def main():
    names = sys.argv[1]
    only = sys.argv[2:]
    done = bad = 0
    for file in sorted(glob.glob(names + "/**/names.json", recursive=True)):
        for key, of in json.load(open(file)).items():
            m = re.fullmatch(r"Rattle-(\w+)-proofs\.(.*)\.Lts", key)
            if not m:
                continue
            crate, path = m.groups()
            if only and (crate != only[0] or only[1:] and path not in only[1:]):
                continue
            if not os.path.exists(f"crates/{crate}/proofs/{path.replace('.', '/')}/Proof.antt"):
                continue
            f = Function(crate, path, of)
            try:
                Turner(f).run()
                done += 1
                if f.notes:
                    print(f"look: {crate} {path}: {', '.join(sorted(set(map(str, f.notes))))}")
            except (ValueError, KeyError, IndexError, TypeError) as e:
                bad += 1
                print(f"left: {crate} {path}: {type(e).__name__} {e}")
    print(f"{done} turned, {bad} left")


if __name__ == "__main__":
    main()
