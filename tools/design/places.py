#!/usr/bin/env python3
"""Counts the places in src/ that have a form of the older language, point by point of docs/DESIGN-PASS.md.

    tools/design/places.py           how many places each pattern finds, and how many of them have their reason beside them
    tools/design/places.py --list    the places themselves, those with a reason marked by a star

A pattern finds forms, not faults. What stays has its reason in a comment that begins with `Stays`, above the item or in the three
lines above the place.
"""
import collections
import difflib
import itertools
import pathlib
import re
import sys

ROOT = pathlib.Path(__file__).resolve().parent.parent.parent
SOURCES = sorted(ROOT.glob("crates/*/src/**/*.rt"))

# By point and name, a pattern of lines.
LINES = {
    "1a a code is tested for none": r"\b(number|entry|triangle|k|size|left)\b (==|!=) (0|3)\b",
    "1b a refusal's number is answered bare": r"\b(refused|refusal|nothing|no_corner|no_list|no_text)\(\d+",
    "1d a flag stands beside a value": r"^ +(pub |pub\(crate\) )?(there|fine|ended|refused): (bool|u32),",
    "1e a number says which, or none": r"^ +(pub |pub\(crate\) )?(left|first|code|kind|set|last|number): (u8|u32),",
    "3a loops that count by hand": r"^ *(while|loop)\b",
    "4a conversion by hand": r"\bfn (wide|two|four|signed|bits|low|byte|store|store_four|one_if|decision_from|said_of|told_of|told_by|no_recording|id_of|digit|pair_of)\(",
    "4b comparison by hand": r"\bfn (same|least|lesser|greater|overlaps|touches|is_refused|matches|is_same)\(",
    "6a a flat array of records": r"\[(f64|u32); (12|256|10920|12288|30030)\]",
    "7a a ladder of tests of one value": r"^ +if (letter|v|a|e|k) == [^ ]+ \{",
    "7b a match that picks a block": r"match i / 64",
}

# And of lines in functions with such a result.
ANSWERED = {
    "1b a refusal's number is answered bare": ("u32", r"^ +(return )?([2-7]|1[0-9]|2[0-3]);?$"),
    "1c a place or 0 says that nothing was put": ("usize", r"^ +return (at|0);$|^ +at$"),
}


def functions(text):
    """Of each function its name, its parameters, the clauses and the body behind them, and its line."""
    for head in re.finditer(r"^ *(?:pub(?:\(crate\))? )?(?:extern \"C\" )?fn (\w+)(?:<[^>(]*>)?\(", text, re.M):
        at, depth = head.end(), 1
        while depth:
            depth += {"(": 1, ")": -1}.get(text[at], 0)
            at += 1
        parameters = " ".join(text[head.end() : at - 1].split())
        contract, body = "", ""
        if (opening := re.compile(r"\n *\{\n| \{\n", re.M).search(text, at)) is not None:
            contract, begin = text[at : opening.start()], opening.end()
            end, depth = begin, 1
            while depth and end < len(text):
                depth += {"{": 1, "}": -1}.get(text[end], 0)
                end += 1
            body = text[begin : end - 1]
        yield head.group(1), parameters, contract, body, text.count("\n", 0, head.start(1)) + 1


def tokens(body):
    """A body's words; numbers, texts and the names of types are all alike."""
    body = re.sub(r"//.*", "", body)
    body = re.sub(r'b?"(\\.|[^"])*"|b\'(\\.|[^\'])\'', " TEXT ", body)
    body = re.sub(r"\b(u8|u16|u32|u64|usize|i32|i64|f64)\b", " TYPE ", body)
    body = re.sub(r"\b0[xo][\da-f]+\b|\b\d+(\.\d+)?\b", " NUMBER ", body)
    return re.findall(r"\w+|[^\w\s]", body)


def shape(body):
    """The words with each name of the body's own by the turn in which it comes."""
    names, words = {}, []
    for word in tokens(body):
        if re.fullmatch(r"[a-z_]\w*", word) and word not in ("let", "mut", "if", "else", "while", "for", "in", "return", "match", "as", "true", "false", "self"):
            word = names.setdefault(word, f"_{len(names)}")
        words.append(word)
    return tuple(words)


def reasons(text):
    """The lines of a file that have a reason beside them: those of an item under such a comment, and three lines under one."""
    lines, kept = text.split("\n"), set()
    for at, line in enumerate(lines, 1):
        if not re.match(r"^ *//.*\bStays\b", line):
            continue
        indent, end = len(line) - len(line.lstrip()), at
        while end < len(lines) and lines[end].lstrip().startswith("//"):
            end += 1
        if re.match(r" *(pub|fn|const|static|struct|enum|impl|#\[)", lines[end]) and not re.match(r" *(pub |pub\(crate\) )?\w+: ", lines[end]):
            while end < len(lines) and not re.match(rf"^ {{{indent}}}[}}\]]", lines[end]):
                end += 1
        else:
            end += 3
        kept.update(range(at, end + 2))
    return kept


def places():
    found = collections.defaultdict(list)
    shapes, facts, together = collections.defaultdict(list), collections.defaultdict(list), collections.defaultdict(list)
    for path in SOURCES:
        text = path.read_text(encoding="utf-8")
        name, kept = path.relative_to(ROOT / "crates"), reasons(text)
        for number, line in enumerate(text.split("\n"), 1):
            if line.lstrip().startswith("//"):
                continue
            for point, pattern in LINES.items():
                if re.search(pattern, line):
                    found[point].append(f"{'*' if number in kept else ''}{name}:{number}: {line.strip()}")
        for function, parameters, contract, body, line in functions(text):
            first = text.count("\n", 0, text.index(body)) if body else line
            for point, (result, pattern) in ANSWERED.items():
                if re.match(rf"\s*-> {result}\b", contract):
                    for number, inside in enumerate(body.split("\n"), first + 1):
                        if re.search(pattern, inside):
                            found[point].append(f"{'*' if number in kept else ''}{name}:{number}: {inside.strip()}")
            where = f"{'*' if line in kept else ''}{name}: {function}"
            words = shape(body)
            if len(words) >= 12:
                shapes[words].append(where)
            for clause in re.findall(r"requires \{(.*)\}", contract):
                for fact in re.split(r" × ", clause):
                    facts[fact.strip().strip("()")].append(where)
            parts = [part.strip() for part in re.split(r",(?![^\[(<]*[\])>])", parameters) if part.strip()]
            if len(parts) >= 6:
                found["5b six parameters or more"].append(f"{where}: {len(parts)}")
            kinds = " ".join(parts)
            if re.search(r"\w+: (&(mut )?)?\[[^]]*\] (n|m|k|count|size|length): (usize|u32)\b", kinds):
                found["6b a length or a count beside a slice"].append(f"{where}({parameters})")
    for words, members in shapes.items():
        if len(members) > 1:
            found["2a functions of one shape"].append(", ".join(members))
    seen = [(words, members[0]) for words, members in shapes.items() if len(words) >= 24]
    for (one, first), (other, second) in itertools.combinations(seen, 2):
        alike = difflib.SequenceMatcher(None, one, other, autojunk=False)
        if alike.real_quick_ratio() >= 0.9 and alike.quick_ratio() >= 0.9 and alike.ratio() >= 0.9:
            found["2b pairs of functions that are nearly of one shape"].append(f"{first}, {second}")
    for fact, members in facts.items():
        if len(members) >= 3:
            found["5a a fact that three functions or more require"].append(f"{fact}: {', '.join(members)}")
    proofs = [p for p in ROOT.glob("crates/*/proofs/**/*.antt") if p.name in ("Answers.antt", "Invariants.antt", "Proof.antt")]
    found["8a files of answers and invariants"] = [str(p.relative_to(ROOT / "crates")) for p in sorted(proofs)]
    return found


if __name__ == "__main__":
    for point, members in sorted(places().items()):
        starred = sum(member.startswith("*") for member in members)
        print(f"{len(members):4} {point}" + (f", {starred} with a reason beside" if starred else ""))
        if "--list" in sys.argv[1:]:
            for member in members:
                print(f"       {member}")
