#!/usr/bin/env python3
"""Respells the repository's own names as the kit spells them. Run at the top of a repository, after port.py, with everything committed.

usage: python3 respell.py [--check] [--words] [--no-edits] [--out FILE]
       python3 respell.py --docs [--check] [--out FILE] [PATH..]    afterwards: names in backticks of README.md and docs/*.md, and names in .ci/*, by FILE and by what is declared now

It turns, in crates/*/specs, crates/*/proofs, the clauses and ghost lines of crates/*/src and the texts of must-fail/*.edit:
  words    definitions, constructors, record fields and variables in camel case, and fields with a dash, into snake case (isNought -> is_nought)
  lemmas   a dash stays between two names of the lemma's own statement, and is else '_' (all-at -> all_at, count-append stays);
           a fact of the statement keeps its capital (told-kept -> Told-Kept); a lemma that would be spelled as a definition that it can see gets '_lem';
           the proof of the function f is f_spec
  types    what TYPES says
It leaves alone: Rust items, exported names, strings, prose of comments (a name in backticks follows), inputs and outputs, what Rattle names (Need-.., goals, places), and the kit's names.
--words: words and types alone, no lemma but one that gives way to a word. --check: writes no file of the repository. --no-edits: leaves must-fail/ alone.
What was renamed goes to FILE (default respelled.txt in the temporary folder): a line 'old -> new' with its kind and where it is declared, sorted; then what was refused.
A name that would meet another one in some file where both are visible is refused, unless OTHER or '_lem' tells it apart. Exit status 1 if one is refused.
It goes by text and proves nothing. A second run changes nothing.
"""
import collections
import difflib
import json
import os
import re
import shutil
import sys
import tempfile

HERE = os.path.dirname(os.path.realpath(__file__))

# Names that would fall together with another, or that no rule reaches: (the file, or * for all, the old name) -> the new one.
OTHER = {
    ("*", "sumBy"): "sum_of_crosses",  # sum_by is a word of the kit's Prelude
}
# A type that is spelled as a function.
TYPES = {
    ("order/proofs/Turned.antt", "tied"): "Tied",
}
# Left as they are.
KEEP = {"entry_IsPlace"}
# What edits say after port.py: {path of the edit: {was: [[file, old, new], ..], now: [..]}}, made once from port.py's own work on each edited file.
EDITS = os.path.join(HERE, "edits_ported.json")

WORD = re.compile(r'[^\s(){}.;,@"«»]+')
TOKEN = re.compile(r'(?P<str>"(?:\\.|[^"\\])*")|(?P<blk>\{-.*?-\})|(?P<com>(?<![^\s(){}.;,@"«»])--[^\n]*)|(?P<word>[^\s(){}.;,@"«»]+)|(?P<ws>\s+)|(?P<del>.)', re.S)
RUST = re.compile(r"""(?P<com>//[^\n]*|/\*.*?\*/)|(?P<str>[bc]?r(#*)".*?"\3|[bc]?"(?:\\.|[^"\\])*"|b?'(?:\\u\{[0-9a-fA-F_]+\}|\\x..|\\.|[^'\\])')|(?P<word>[A-Za-z_][\w']*(?:-[A-Za-z_][\w']*)*)|(?P<ws>\s+)|(?P<del>.)""", re.S)
CAMEL = re.compile(r"[a-z](?:[^\s-]*?[a-z0-9'])?[A-Z][^\s-]*")
MARKS = {"pub", "abbrev", "unfoldable", "pattern", "axiom"}
SIGNS = {"◌+◌": "add", "◌*◌": "mul", "◌-◌": "sub", "◌/◌": "div", "◌%◌": "mod", "◌^◌": "pow", "◌≤◌": "le", "◌<◌": "lt", "◌++◌": "append", "◌∷◌": "cons", "[]": "nil", "◌&&◌": "and", "◌||◌": "or",
         "+": "add", "*": "mul", "-": "sub", "/": "div", "%": "mod", "^": "pow", "≤": "le", "<": "lt", "++": "append", "∷": "cons", "&&": "and", "||": "or", "0": "zero", "1": "one", "≢": "ne", "¬": "not"}
FACT = re.compile(r"^(Is|Has|All|Any|Each|On|If|Same|Contains)(?=[A-Z]|$)")


def is_camel(w):
    """As crossFrom; not not_InTurn, where a fact keeps its capital."""
    return bool(CAMEL.fullmatch(w)) and not re.search(r"_[A-Z]|◌", w)


def snake(w):
    w = re.sub(r"(?<=[a-z0-9'])(?=[A-Z])", "_", w)
    w = re.sub(r"(?<=[A-Z])(?=[A-Z][a-z])", "_", w)
    return w.lower()


def read(p):
    with open(p, encoding="utf-8") as f:
        return f.read()


def below(root, ends):
    for d, ds, fs in os.walk(root):
        ds[:] = sorted(x for x in ds if x not in ("out", ".git"))
        for f in sorted(fs):
            if f.endswith(ends):
                yield os.path.join(d, f)


class Decl:
    __slots__ = ("kind", "name", "text", "owner", "pub", "marks", "line")

    def __init__(self, kind, name, text, owner, marks, line):
        self.kind, self.name, self.text, self.owner, self.marks, self.line = kind, name, text, owner, marks, line


def blanked(t):
    return TOKEN.sub(lambda m: m[0] if m.lastgroup not in ("com", "blk", "str") else re.sub(r"[^\n]", " ", m[0]), t)


SIG = re.compile(r'([^\s(){}.;,@"«»]+(?: (?!:\s)[^\s(){}.;,@"«»]+)*)((?: \{[^{}]*\})*) :(?:\s|$)')


def declared(t):
    """The declarations of an antt file, by its layout."""
    lines = blanked(t).split("\n")
    out, stack, i, n = [], [], 0, len(lines)

    def indent(l):
        return len(l) - len(l.lstrip())

    def end(i, ind):
        j = i + 1
        while j < n and (not lines[j].strip() or indent(lines[j]) > ind):
            j += 1
        return j

    while i < n:
        l = lines[i]
        if not l.strip():
            i += 1
            continue
        ind = indent(l)
        while stack and ind <= stack[-1][0]:
            stack.pop()
        kind, owner = (stack[-1][1], stack[-1][2]) if stack else ("top", None)
        words = l.split()
        k = 0
        while k < len(words) and words[k] in MARKS:
            k += 1
        marks, rest = set(words[:k]), " ".join(words[k:])
        m = re.match(r"(record|data|module) (" + WORD.pattern + r")", rest)
        if m and not re.match(r"record \S+ *=|record \{", rest):
            j = end(i, ind)
            head = "\n".join(lines[i:j]).split(" where")[0]
            if m[1] != "module":
                out.append(Decl(m[1], m[2], head, owner, marks, i + 1))
            stack.append((ind, m[1], m[2] if m[1] != "module" else None))
            i += 1
            continue
        if rest == "where" or rest.startswith("mutual"):
            i += 1
            continue
        m = SIG.match(rest)
        if m and not rest.startswith(("let ", "in ", "use ", "mod ", "infix", "unfolding ", "open ")):
            j = end(i, ind)
            for name in m[1].split():
                out.append(Decl({"record": "field", "data": "con"}.get(kind, "def"), name, "\n".join(lines[i:j]), owner, marks, i + 1))
            i = j
            continue
        j = end(i, ind)
        for at in range(i + 1, j):
            m = SIG.match(re.sub(r"^\s*(pub )?", "", lines[at]))
            if m and " " not in m[1] and not lines[at].lstrip().startswith(("let ", "in ")):
                out.append(Decl("local", m[1], "\n".join(lines[at:end(at, indent(lines[at]))]), owner, set(), at + 1))
        i = j
    return out


USE = re.compile(r"(?m)^[ \t]*(pub )?use ([^\s{;]+?)(?:\.\{([^}]*)\})?(?: as ([^\s;]+))?[ \t]*$")


class File:
    """An antt file: its names, what it takes from others, and what its words become."""

    def __init__(self, top, path):
        self.path, self.rel = path, os.path.relpath(path, top)
        self.text = read(path)
        parts = self.rel[:-5].split(os.sep)
        self.module = ".".join(["Rattle"] + parts)
        self.made = parts[1] == "proofs" and len(parts) > 3
        self.folder = parts[-2] if self.made else None
        self.decls = declared(self.text)
        self.own = collections.defaultdict(list)
        for d in self.decls:
            self.own[d.name].append(d)
        code = blanked(self.text)
        self.uses, self.alias, self.taken, self.passed = [], {}, {}, {}
        for m in USE.finditer(code):
            path, items, alias = m[2], m[3], m[4]
            if items is None:
                self.alias[alias or path.split(".")[-1]] = path
                continue
            for it in items.split(","):
                it = it.split()
                if not it:
                    continue
                bare = it[2] if len(it) == 3 and it[1] == "as" else it[0]
                self.taken[bare] = (path, it[0])
                if m[1]:
                    self.passed[bare] = (path, it[0])
        self.spans = [(m.start(), m.end()) for m in USE.finditer(code)]
        self.tokens = [(m.lastgroup, m[0], m.start()) for m in TOKEN.finditer(self.text)]
        self.bare = collections.Counter()
        self.dotted = collections.Counter()
        for k, w, o in self.tokens:
            if k == "word" and not self.in_use(o):
                (self.dotted if self.text[o - 1 : o] == "." and not self.text[o - 2 : o - 1].isspace() else self.bare)[w] += 1
        for b in self.taken:
            self.bare[b] += 1
        self.map = {}  # a bare word -> its new spelling

    def in_use(self, o):
        return any(a <= o < b for a, b in self.spans)

    def tie_heads(self):
        return {a for a, p in self.alias.items() if p.split(".")[-1] in ("Tie", "Goals", "Needs")}

    def is_made(self, d):
        """The name of an answer or an invariant, which Rattle gives."""
        if not self.made or d.kind != "def":
            return False
        if os.path.basename(self.path) in ("Invariants.antt",):
            return True
        ty = re.split(r" :\s", d.text + " ", maxsplit=1)[-1].strip()
        head = WORD.match(ty.lstrip("("))
        return bool(head) and head[0] in self.tie_heads() and "." in ty[:60]


class Repository:
    def __init__(self, root):
        self.root, self.top = root, os.path.join(root, "crates")
        self.files = [File(self.top, p) for p in below(self.top, ".antt") if re.search(r"/(specs|proofs)/", p)]
        self.by_module = {f.module: f for f in self.files}
        self.rust = {}
        for p in below(self.top, ".rt"):
            self.rust[p] = read(p)
        self.renamed, self.refused, self.notes = {}, [], []
        self.words = {}

    def resolve(self, module, name, seen=()):
        f = self.by_module.get(module)
        if f is None or module in seen:
            return None
        if name in f.own:
            return f
        if name in f.passed:
            return self.resolve(*f.passed[name], seen + (module,))
        return None

    # ---- words
    def find_words(self):
        camel, fields = set(), set()
        theirs = collections.Counter()
        for f in self.files:
            for w in list(f.bare) + list(f.dotted):
                if is_camel(w) and w not in KEEP:
                    camel.add(w)
            for b, (path, name) in f.taken.items():
                if not path.startswith("Rattle.") or path.split(".")[1] not in self.crates():
                    theirs[name] += 1
            for d in f.decls:
                if d.kind in ("field", "con") and "-" in d.name:
                    fields.add(d.name)
        # words that only a ghost line of src has: {lesser as lesserOf}
        for text in self.rust.values():
            for m in re.finditer(r"ghost use [^\s{;]+\.\{([^}]*)\}", text):
                for it in (i.split() for i in m[1].split(",")):
                    if len(it) == 3 and it[1] == "as" and is_camel(it[2]):
                        camel.add(it[2])
        self.words = {w: snake(w) for w in camel if w not in theirs}
        self.words.update({w: re.sub(r"-", "_", snake(w)) for w in fields})
        seen = {w for f in self.files for w in (*f.bare, *f.dotted)}
        self.words.update({w: to for (where, w), to in OTHER.items() if where == "*" and w in seen})
        self.words = {a: b for a, b in self.words.items() if a != b}
        self.fields = fields

    def crates(self):
        if not hasattr(self, "_crates"):
            self._crates = set(os.listdir(self.top))
        return self._crates

    # ---- lemmas
    def names_of(self, f, d):
        """The names that a lemma's statement has (as they will be spelled), and the facts among them."""
        body = d.text
        bound = set()
        for m in re.finditer(r"[({]([^(){}:]*?) :(?=\s)", body):
            bound.update(m[1].split())
        for m in re.finditer(r"λ ([^.]*)\.", body):
            bound.update(re.findall(WORD.pattern, m[1]))
        for m in re.finditer(r"(?:let|;) (" + WORD.pattern + r") =", body):
            bound.add(m[1])
        ty = re.split(r" :\s", body + " ", maxsplit=1)[-1]
        names, facts = set(), {}
        for m in TOKEN.finditer(ty):
            if m.lastgroup != "word" or m[0] in bound or m[0] == d.name:
                continue
            w = m[0]
            dot = ty[m.start() - 1 : m.start()] == "." and not ty[m.start() - 2 : m.start() - 1].isspace()
            if w in SIGNS:
                names.add(SIGNS[w])
            elif re.fullmatch(r"◌\S+|\S+◌", w) and SIGNS.get("◌" + w.strip("◌") + "◌"):
                names.add(SIGNS["◌" + w.strip("◌") + "◌"])
            elif w[0].isupper():
                g = f if w in f.own else self.resolve(*f.taken[w]) if w in f.taken else None
                if g is not None:
                    for it in g.own.get(f.taken[w][1] if w in f.taken and w not in f.own else w, []):
                        if self.is_fact(it):
                            facts[w.lower()] = w
                elif w in f.taken and FACT.match(w):
                    facts[w.lower()] = w
            elif w in f.own or w in f.taken or (dot and w in self.field_names):
                names.add(self.words.get(w, w))
        return names, facts

    @staticmethod
    def is_fact(d):
        """Into Type, of at least one value."""
        if d.kind == "record":
            params = re.findall(r"[({][^(){}:]*? : ([^(){}]*)[)}]", d.text)
            return any(not re.fullmatch(r"\s*Type \S+\s*", p) for p in params)
        if d.kind == "def":
            ty = re.split(r" :\s", re.sub(r"\s+", " ", d.text) + " ", maxsplit=1)[-1].strip()
            if not re.search(r"(^|→ )Type( \d+| ℓ\S*)?$", ty):
                return False
            args = [a.strip() for a in ty.split("→")[:-1]]
            return any(a and not re.fullmatch(r"(\{[^{}]*: Type[^{}]*\}|\([^()]*: Type[^()]*\)|Type \S+)\s*", a) for a in args)
        return False

    def spelled(self, f, d):
        """A lemma's name by the rule."""
        name = d.name
        core = name.rstrip("'")
        primes = name[len(core) :]
        core = "-".join(self.words.get(s) or (snake(s) if is_camel(s) else s) for s in core.split("-"))
        cut = re.split(r"([-_])", core)
        segs, seps = cut[::2], cut[1::2]
        if not all(segs):
            return name
        names, facts = self.names_of(f, d)
        parts, i = [], 0
        while i < len(segs):
            for j in range(len(segs), i, -1):
                c = "_".join(segs[i:j])
                flat = c.replace("_", "").lower()
                if c in names:
                    parts.append((c, True, j))
                    break
                if len(flat) > 2 and flat in facts and not (i == 0 and j == len(segs)):
                    parts.append((facts[flat], True, j))
                    break
            else:
                j = i + 1
                parts.append((segs[i], False, j))
            i = j
        out = parts[0][0]
        for n, ((a, x, at), (b, y, _)) in enumerate(zip(parts, parts[1:])):
            dash = seps[at - 1] == "-" and (x and y or n == 0 and a in facts.values())
            out += ("-" if dash else "_") + b
        return out + primes

    def find_lemmas(self, only_words):
        self.field_names = {d.name for f in self.files for d in f.decls if d.kind == "field"}
        self.field_names |= {snake(w) for w in self.field_names}
        self.lemma = {}  # (file, old) -> new
        for f in self.files:
            for d in f.decls:
                key = (f, d.name)
                other = OTHER.get((f.rel, d.name)) or TYPES.get((f.rel, d.name))
                if other:
                    self.lemma[key] = other
                elif d.kind not in ("def", "local") or d.name in self.words or d.name in KEEP or "◌" in d.name or f.is_made(d):
                    continue
                elif f.made and d.name.endswith("-spec") and snake(d.name[:-5].replace("-", "_")) == f.folder.lstrip("+"):
                    self.lemma[key] = f.folder.lstrip("+") + "_spec"
                elif not only_words and "-" in d.name and re.fullmatch(r"[^\W\d_][\w'-]*", d.name) and key not in self.lemma:
                    self.lemma[key] = self.spelled(f, d)
        # a lemma under a name of the kit's Prelude would hide it
        self.lemma = {k: v + "_lem" if v in self.prelude and (k[0].rel, k[1]) not in OTHER else v for k, v in self.lemma.items()}
        self.lemma = {k: v for k, v in self.lemma.items() if k[1] != v}

    # ---- names that fall together
    def map_files(self):
        for f in self.files:
            m = {w: self.words[w] for w in f.bare if w in self.words}
            for b, (path, name) in f.taken.items():
                g = self.resolve(path, name)
                if g is not None and b == name and (g, name) in self.lemma:
                    m[b] = self.lemma[g, name]
            for w in f.own:
                if (f, w) in self.lemma:
                    m[w] = self.lemma[f, w]
            f.map = m

    def meetings(self):
        for f in self.files:
            by = collections.defaultdict(list)
            for w in f.bare:
                by[f.map.get(w, w)].append(w)
            for new, olds in sorted(by.items()):
                if len(olds) > 1:
                    yield f, new, sorted(olds)

    def home(self, f, w):
        if w in f.own:
            return f, w
        if w in f.taken:
            path, name = f.taken[w]
            g = self.resolve(path, name)
            return (g, name) if g else None
        return None

    def is_lemma(self, f, w):
        return "/proofs/" in "/" + f.rel and all(d.kind in ("def", "local") and not d.marks & {"abbrev", "unfoldable", "pattern"} for d in f.own[w])

    def settle(self):
        for _ in range(12):
            self.map_files()
            moved = {}
            for f, new, olds in self.meetings():
                homes = {w: self.home(f, w) for w in olds}
                lemmas = [w for w in olds if homes[w] and w not in self.words and self.is_lemma(*homes[w])]
                rest = [w for w in olds if w not in lemmas]
                if rest and lemmas and len(rest) == 1:
                    for w in lemmas:
                        g, name = homes[w]
                        was = self.lemma.get((g, name), name)
                        if not was.endswith("_lem"):
                            moved[g, name] = was + "_lem"
                            self.notes.append(f"{g.rel}: {name} -> {was}_lem, since {rest[0]} is or becomes {new} (seen in {f.rel})")
                elif not rest:
                    # two lemmas: one that has the name already keeps it; else the first; the others keep their old names
                    keeps = next((w for w in lemmas if f.map.get(w, w) == w), lemmas[0])
                    for w in lemmas:
                        if w != keeps and homes[w] in self.lemma:
                            moved[homes[w]] = None
                            self.refused.append(f"{homes[w][0].rel}: {w} stays, since the lemma {keeps} is or becomes {new} (seen in {f.rel}): give it another name in OTHER")
            if not moved:
                break
            for key, to in moved.items():
                if to is None or to == key[1]:
                    self.lemma.pop(key, None)
                else:
                    self.lemma[key] = to
        self.map_files()
        # what falls together still stays as it was
        stuck = {}
        for f, new, olds in self.meetings():
            for w in olds:
                if w in self.words:
                    stuck.setdefault(w, f"{f.rel}: {w} stays everywhere, since {', '.join(x for x in olds if x != w)} is or becomes {new} there: give one another name in OTHER")
                elif self.home(f, w) in self.lemma:
                    self.lemma.pop(self.home(f, w))
        for w, why in stuck.items():
            del self.words[w]
            self.refused.append(why)
        self.map_files()
        for f, new, olds in self.meetings():
            self.refused.append(f"{f.rel}: {', '.join(olds)} still fall together as {new}")

    # ---- writing
    def module_of(self, f, path):
        """The repository's file that a dotted path names, from inside f."""
        if path in self.by_module:
            return self.by_module[path]
        head, _, more = path.partition(".")
        if head in f.alias:
            return self.by_module.get(f.alias[head] + ("." + more if more else ""))
        return None

    def new_item(self, path, name):
        g = self.resolve(path, name)
        if g is not None and (g, name) in self.lemma:
            return self.lemma[g, name]
        if g is not None or path.startswith("Rattle.") and path.split(".")[1] in self.crates():
            return self.words.get(name, name)
        return name

    def comment(self, f, text, words):
        def span(m):
            return re.sub(r"[^\s`(){}.;,@\"«»]+", lambda w: words(w[0]), m[0])

        return re.sub(r"`[^`\n]+`", span, text)

    def unique(self):
        """Old names that have one new spelling in the whole repository, for comments."""
        if not hasattr(self, "_unique"):
            to = collections.defaultdict(set)
            for (f, w), new in self.lemma.items():
                to[w].add(new)
            plain = {d.name for f in self.files for d in f.decls if (f, d.name) not in self.lemma}
            self._unique = {w: next(iter(s)) for w, s in to.items() if len(s) == 1 and w not in plain}
            self._unique.update(self.words)
        return self._unique

    def turned(self, f):
        out, t = [], f.text
        for k, w, o in f.tokens:
            if k in ("com", "blk"):
                out.append(self.comment(f, w, lambda x: f.map.get(x) or self.unique().get(x, x)))
            elif k != "word":
                out.append(w)
            elif f.in_use(o):
                out.append(("use", w, o))
            elif t[o - 1 : o] == "." and not t[o - 2 : o - 1].isspace():
                head = re.search(r'([^\s(){};,@"«»]+)\.$', t[max(0, o - 300) : o])
                g = self.module_of(f, head[1]) if head and head[1][:1].isupper() else None
                if g is not None:
                    h = self.resolve(g.module, w)
                    new = self.lemma.get((h, w)) if h else None
                    out.append(new or self.words.get(w, w))
                elif f.made and "-" in w:
                    out.append(w)  # a place that Rattle names, as c.x-is
                else:
                    out.append(self.words.get(w, w))
            else:
                out.append(f.map.get(w, w))
        flat = "".join(x if isinstance(x, str) else x[1] for x in out)
        if not any(not isinstance(x, str) for x in out):
            return flat
        # the use lines: their items turn by the module that they come from
        out2, at = [], 0
        for x in out:
            out2.append(x if isinstance(x, str) else "\0" + x[1] + "\0")
        s = "".join(out2)

        def line(m):
            raw = m[0].replace("\0", "")
            u = USE.match(raw)
            if not u or u[3] is None:
                return raw

            def item(i):
                it = i[0].split()
                if not it:
                    return i[0]
                new = self.new_item(u[2], it[0])
                if len(it) == 3:
                    as_ = f.map.get(it[2], it[2])
                    body = new if new == as_ else f"{new} as {as_}"
                else:
                    body = new
                return re.match(r"\s*", i[0])[0] + body + re.search(r"\s*$", i[0])[0]

            a, b = u.start(3), u.end(3)
            return raw[:a] + re.sub(r"[^,]+", item, raw[a:b]) + raw[b:]

        return re.sub(r"(?m)^[ \t]*(?:pub )?(?:\0?pub\0? )?\0use\0 [^\n{]*(?:\{[^}]*\}[^\n]*)?$", line, s).replace("\0", "")

    def turned_rust(self, p, t):
        def one(m):
            k, w = m.lastgroup, m[0]
            if m["com"]:
                return self.comment(None, w, lambda x: self.unique().get(x, x))
            if m["word"]:
                if w in self.words:
                    return self.words[w]
                if "-" in w:
                    return w
            return w

        t = RUST.sub(one, t)

        def ghost(m):
            def item(i):
                it = i[0].split()
                if not it:
                    return i[0]
                it[0] = self.new_item(m[1], it[0]) if it[0] not in self.words.values() else it[0]
                return re.match(r"\s*", i[0])[0] + " ".join(it) + re.search(r"\s*$", i[0])[0]

            return m[0][: m.start(2) - m.start()] + re.sub(r"[^,]+", item, m[2]) + m[0][m.end(2) - m.start() :]

        return re.sub(r"ghost use ([^\s{;]+)\.\{([^}]*)\}", ghost, t)

    def turned_fragment(self, rel, text):
        """A text of an edit, as the words of its file turn."""
        if rel.endswith(".rt"):
            return self.turned_rust(None, text)
        f = next((f for f in self.files if f.rel == rel), None)
        if f is None:
            return text
        out = []
        for m in TOKEN.finditer(text):
            w = m[0]
            if m.lastgroup != "word":
                out.append(w)
            elif text[m.start() - 1 : m.start()] == "." and m.start() and not text[m.start() - 2 : m.start() - 1].isspace():
                head = re.search(r'([^\s(){};,@"«»]+)\.$', text[: m.start()])
                path = head[1] if head else ""
                new = self.new_item(path, w) if path.startswith("Rattle.") else self.words.get(w, w)
                out.append(new)
            else:
                out.append(f.map.get(w) or self.words.get(w, w))
        return "".join(out)


def edit_pairs(text):
    """The lines of an edit: (kind, value) with kind file, old, new or None."""
    for l in text.split("\n"):
        m = re.match(r"(file|old|new):(?: (.*))?$", l)
        yield (m[1], m[2] or "") if m else (None, l)


def fits(crate, text, texts):
    """Whether each old text stands once in its file, after what the earlier pairs made."""
    held, cur, old, ok = {}, None, None, True
    for k, v in edit_pairs(text):
        if k == "file":
            cur = os.path.join(crate, v.strip())
        elif k == "old":
            old = v
        elif k == "new":
            if cur not in held:
                held[cur] = texts(cur)
            t = held[cur]
            if t is None or t.count(old) != 1:
                return False
            held[cur] = t.replace(old, v)
    return ok


PRELUDE = os.path.join(os.path.dirname(os.path.dirname(os.path.realpath(shutil.which("rt") or sys.exit("respell: no rt on the path")))), "rattle/std/specs/Prelude.antt")


def prelude():
    names = set()
    if os.path.isfile(PRELUDE):
        for m in re.finditer(r"(?:pub )?use [^{]*\{([^}]*)\}", read(PRELUDE)):
            names.update(it.split()[-1] for it in m[1].split(",") if it.split())
    return names


def of_the_kit(r):
    """Words that would become a name of the kit's Prelude, or in a file of Rust a parameter, constant or type there, stay."""
    stay = {}
    for w, new in sorted(r.words.items()):
        if new in r.prelude:
            stay[w] = f"{w} stays, since {new} is a name of the kit's Prelude: give it another name in OTHER"
    for p, t in sorted(r.rust.items()):
        code = re.sub(r'//[^\n]*|b?"(?:\\.|[^"\\])*"', " ", t)
        used = {w for w in re.findall(r"[\w']+", code) if w in r.words}
        own = set(re.findall(r"\b(?:const|static|struct|enum|type)\s+(\w+)", code)) | set(re.findall(r"[(,]\s*(?:mut\s+)?(\w+)\s*:(?!:)", code))
        for w in sorted(used):
            if r.words[w] in own:
                stay[w] = f"{w} stays, since {r.words[w]} is a parameter, constant or type of {os.path.relpath(p, r.top)}, which clauses would read instead: give it another name in OTHER"
            elif re.search(r"\bfn " + re.escape(r.words[w]) + r"\b", code):
                r.notes.append(f"{os.path.relpath(p, r.top)}: {w} is now {r.words[w]}, which a function there is called too: clauses read the imported word (nothing to do)")
    for w, why in stay.items():
        del r.words[w]
        r.refused.append(why)


def docs(root, said, check, paths):
    """Names in pages and in the tools of .ci, by the list of what was renamed; and names that port.py turned, where the snake-case name is declared."""
    r = Repository(root)
    now = collections.defaultdict(set)
    for f in r.files:
        for d in f.decls:
            now[d.name].add(f.rel)
    to = collections.defaultdict(dict)
    for l in read(said).split("\n") if os.path.isfile(said) else []:
        m = re.match(r"(\S+) -> (\S+)\t(\w+)\t[^\t]*\t(.*)$", l)
        if m:
            to[m[1]].update({rel: m[2] for rel in (m[4].split() or ["*"])})
    rust = {w for t in r.rust.values() for w in re.findall(r"\w+", t)}
    left = collections.Counter()

    news = {n for rows in to.values() for n in rows.values()}

    def new(w, line):
        if w[0].isupper():
            return w  # a type, a module or a file
        # a page still has the oldest names, in which port.py's underscores were dashes
        old = w if w in to else w.replace("-", "_") if "-" in w else w
        plain = (snake(w), snake(w).replace("-", "_"))
        if not any(rel in line for rel in to.get(old, ())):
            for c in plain:
                if any(rel in line for rel in now.get(c, ())):
                    return c
        if old in to and w not in news:
            here = {n for rel, n in to[old].items() if rel in line} or set(to[old].values())
            if len(here) == 1 and (w not in now or any(rel in line for rel in to[old])):
                return here.pop()
        if w in now or w in rust:
            return w
        if is_camel(w) or re.fullmatch(r"[a-z][\w']*(-[\w']+)+", w):
            for c in (*plain, plain[1] + "_lem"):
                if c in now and c != w:
                    return c
            left[w] += 1
        return w

    for p in paths or [x for x in ("README.md", "docs", ".ci") if os.path.exists(os.path.join(root, x))]:
        p = os.path.join(root, p)
        for q in [p] if os.path.isfile(p) else sorted(os.path.join(p, x) for x in os.listdir(p) if os.path.isfile(os.path.join(p, x))):
            if os.path.realpath(q) == os.path.realpath(said):
                continue  # the list of what was renamed keeps the old names
            t = read(q)
            out = []
            for line in t.split("\n"):
                if q.endswith(".md"):
                    out.append(re.sub(r"`[^`\n]+`", lambda m: re.sub(r"[A-Za-z_][\w'-]*", lambda w: new(w[0], line), m[0]), line))
                else:
                    out.append(re.sub(r"(?<![\w'-])[a-z]\w*[A-Z]\w*(?![\w'-])", lambda w: new(w[0], line), line))
            out = "\n".join(out)
            if out != t:
                print(f"turned: {os.path.relpath(q, root)}: {sum(a != b for a, b in zip(t.split(chr(10)), out.split(chr(10))))} lines")
                if not check:
                    with open(q, "w", encoding="utf-8") as o:
                        o.write(out)
    if left:
        print("left (declared nowhere now): " + " ".join(f"{w}" for w in sorted(left)))
    return 0


def main(argv):
    check, only_words, no_edits = "--check" in argv, "--words" in argv, "--no-edits" in argv
    said = argv[argv.index("--out") + 1] if "--out" in argv else os.path.join(tempfile.gettempdir(), "respelled.txt")
    root = os.getcwd()
    if not os.path.isdir(os.path.join(root, "crates")):
        raise SystemExit("respell: run it at the top of the repository")
    if "--docs" in argv:
        return docs(root, said, check, [a for n, a in enumerate(argv) if not a.startswith("--") and argv[n - 1] != "--out"])
    r = Repository(root)
    r.prelude = prelude()
    r.find_words()
    of_the_kit(r)
    r.find_lemmas(only_words)
    r.settle()
    after, changed = {}, 0
    for f in r.files:
        after[f.rel] = r.turned(f)
        if after[f.rel] != f.text:
            changed += 1
            if not check:
                with open(f.path, "w", encoding="utf-8") as o:
                    o.write(after[f.rel])
    for p, t in r.rust.items():
        new = r.turned_rust(p, t)
        after[os.path.relpath(p, r.top)] = new
        if new != t:
            changed += 1
            if not check:
                with open(p, "w", encoding="utf-8") as o:
                    o.write(new)
    mended, stood, bad = 0, 0, []
    if not no_edits:
        ported = json.load(open(EDITS, encoding="utf-8")) if os.path.isfile(EDITS) else {}
        for p in below(r.top, ".edit"):
            rel = os.path.relpath(p, root)
            crate = os.path.relpath(p, r.top).split(os.sep)[0]
            t = read(p)
            texts = lambda c: after.get(c)
            ways = [t]
            head = [l for l in t.split("\n") if l.startswith("#")]
            body = [it for it in edit_pairs(t)]

            def turn(pairs):
                out, cur = list(head), None
                for file, old, new in pairs:
                    if file != cur:
                        out.append("file: " + file)
                        cur = file
                    ww = os.path.join(crate, file)
                    out.append(("old: " + r.turned_fragment(ww, old)))
                    out.append(("new: " + r.turned_fragment(ww, new)).rstrip())
                return "\n".join(out) + "\n"

            pairs, cur, old = [], None, None
            for k, v in body:
                if k == "file":
                    cur = v.strip()
                elif k == "old":
                    old = v
                elif k == "new":
                    pairs.append((cur, old, v))
            ways.append(turn(pairs))
            it = ported.get(rel)
            if it and [list(x) for x in pairs] == it["was"]:
                ways.append(turn([tuple(x) for x in it["now"]]))
            bare = lambda w: [(k, v.strip()) for k, v in edit_pairs(w) if k]
            good = next((w for w in reversed(ways) if fits(crate, w, texts)), None)
            if good and bare(good) == bare(t) and fits(crate, t, texts):
                good = t
            if good is None:
                bad.append(rel)
                continue
            mended += not fits(crate, t, texts)
            stood += fits(crate, t, texts)
            if good != t and not check:
                with open(p, "w", encoding="utf-8") as o:
                    o.write(good)
    rows = []
    for w, new in r.words.items():
        kinds = sorted({d.kind for f in r.files for d in f.own.get(w, [])})
        where = sorted({f.rel for f in r.files if w in f.own})
        rows.append((w, new, "word", "+".join(kinds) or "variable", " ".join(where[:3])))
    for (f, w), new in r.lemma.items():
        rows.append((w, new, "lemma", "+".join(sorted({d.kind for d in f.own[w]})), f.rel))
    if not rows and os.path.isfile(said):
        print(f"respell: nothing to rename; {said} stays as it was")
        said = os.devnull
    os.makedirs(os.path.dirname(os.path.abspath(said)), exist_ok=True)
    with open(said, "w", encoding="utf-8") as o:
        o.write("# respell.py: old -> new, kind, where\n")
        for row in sorted(rows):
            o.write(f"{row[0]} -> {row[1]}\t{row[2]}\t{row[3]}\t{row[4]}\n")
        o.write("# told apart\n" + "".join(sorted(set(x + "\n" for x in r.notes))))
        o.write("# refused\n" + "".join(sorted(set(x + "\n" for x in r.refused))))
        o.write("# edits that still do not fit\n" + "".join(x + "\n" for x in bad))
    print(f"respell: {len(r.words)} words, {len(r.lemma)} lemmas and proofs in {changed} files; told apart {len(set(r.notes))}, refused {len(set(r.refused))}; edits: {stood} stood, {mended} mended, {len(bad)} do not fit; {said}")
    for x in sorted(set(r.refused)):
        print("refused: " + x)
    return 1 if r.refused else 0


if __name__ == "__main__":
    raise SystemExit(main(sys.argv[1:]))
