#!/usr/bin/env python3
"""Counts, in the sources of every crate, the places that docs/DESIGN-PASS.md speaks of.

    python3 tools/places.py [-v] [FOLDER]

It finds candidates by their looks; which of them are places is said in docs/DESIGN-PASS.md. -v prints each.
"""
import collections
import pathlib
import re
import sys

LINES = {  # what is counted: the lines of src/ that look so, but for those that look like the second
    "1 enums": (r"^\s*(pub(\(\w+\))? )?enum \w+", None),
    "1 numbers for kinds or refusals": (
        r"(\b(kind|code|axis|which|type_number|type_no|layer)\s*:\s*u(8|16|32|size)\b)|(\bfn \w+\(.*\b(number|kind)\s*:\s*u8)"
        r"|(^\s*(pub )?const (LITERAL|CONSTANT|OVERRIDE|EMIT|OPEN|CLOSE)\b)|(\bentry\(\d+,)|(Refused\(u8\))",
        None),
    "1 flags beside a value": (r"^\s*(pub(\(\w+\))? )?\w+: bool,", None),
    "3 loops": (r"^\s*(for\b.*\bin\b|while\b|loop\b)", r"impl"),
    "3 loops that count or jump": (r"^\s*(while\b|for\b.*(enumerate\(\)|\.\.))", r"impl|lines\(\)"),
    "3 counters": (r"= \w+\.(saturating|wrapping)_add\(1\);|\b(i|n|next|place|type_number)\b \+= 1;", None),
    "4 written impls": (
        r"^\s*impl.*\b(PartialEq|Eq|PartialOrd|Ord|Clone|Copy|Debug|Default|Hash|Display|From<.*>|TryFrom<.*>|Iterator)\b.* for ",
        None),
    "4 conversions and makers by hand": (r"^\s*(pub(\(\w+\))? )?fn (number|code|type_number|numbered|column|new)\(", None),
    "6 arrays of a fixed length": (r": \[[\w<>]+; \w+\]|= \[\w+; \w+\];", r"#\["),
    "6 a length or a part beside": (r"^\s*(pub(\(\w+\))? )?(count|depth|lengths|keys|values|len|at): ", None),
    "7 traits with one method, and what has them": (r"^\s*(pub )?trait \w+|^\s*impl.*\b(Test|Faults)\b", None),
    "7 closures, Fn and dyn": (r"[(,=] *(move )?\|[^|]*\|(?!\|)|\bdyn \w|\b(impl )?Fn(Once|Mut)?\(", None),
}


def files(top, folder, suffix):
    return sorted(p for p in top.glob(f"crates/*/{folder}/**/*{suffix}"))


def functions(text):
    """Each function's head and body."""
    for m in re.finditer(r"^( *)(?:pub(?:\(\w+\))? )?fn (\w+)", text, re.M):
        end = re.compile(r"^" + m[1] + r"\}", re.M).search(text, m.end())
        if end:
            yield m[2], text[m.start():end.end()], text.count("\n", 0, m.start()) + 1


def shape(code):
    """The code with its own names, numbers and texts taken out."""
    code = re.sub(r"//.*", "", code)
    code = re.sub(r"^\s*(ensures|requires).*\n", "", code, flags=re.M)
    code = re.sub(r"\bfn \w+", "fn", code)
    code = re.sub(r'b?"[^"]*"|b?\'[^\']\'|\b\d\w*\b', "0", code)
    code = re.sub(r"\b(?:[iu](?:8|16|32|64|size)|f64|bool|[A-Z]\w*)\b", "T", code)
    code = re.sub(r"\b(?!fn|if|else|let|match|for|while|return|self|pub|in|mut|as|ref|impl|T|0)[a-z]\w*\b", "x", code)
    return re.sub(r"\s+", "", code)


def twins(top):
    seen = collections.defaultdict(list)
    for p in files(top, "src", ".rt"):
        for name, code, line in functions(p.read_text()):
            if code.count("\n") >= 4:
                seen[shape(code)].append(f"{p.relative_to(top)}:{line}: {name}")
    return [x for same in seen.values() if len(same) > 1 for x in same]


def facts(top):
    uses = collections.defaultdict(list)
    for p in files(top, "src", ".rt"):
        for name, code, line in functions(p.read_text()):
            for clause in re.findall(r"^\s*requires.*?\{(.*)\}\s*$", code, re.M):
                for word in set(re.findall(r"\b[A-Z]\w+\b", clause)):
                    uses[(p.parts[-3] if "src" not in p.parts[-3] else p.parts[-4], word)].append(f"{p.relative_to(top)}:{line}: {name} requires {word}")
    return [x for same in uses.values() if len(same) > 2 for x in same]


def together(top):
    uses = collections.defaultdict(list)
    for p in files(top, "src", ".rt"):
        for name, code, line in functions(p.read_text()):
            head = code[code.index("(") + 1:code.index("{")]
            names = re.findall(r"\b(\w+): (&?(?:mut )?\[?\w+)", re.split(r"\) ->|\)\s", head)[0])
            names = [n for n in names if n[0] not in ("f", "rt")]
            for i, a in enumerate(names):
                for b in names[i + 1:]:
                    uses[(p.relative_to(top).parts[1], a, b)].append(f"{p.relative_to(top)}:{line}: {name}({a[0]}, {b[0]})")
    return [x for same in uses.values() if len(same) > 2 for x in same]


def proofs(top):
    answers = [p for p in files(top, "proofs", ".antt") if p.name == "Answers.antt"]
    lemmas = [p for p in files(top, "proofs", ".antt") if p.name not in ("Answers.antt", "Invariants.antt", "Lib.antt")]
    entry = re.compile(r"^pub [^:]* : goal\.", re.M)
    lemma = re.compile(r"^(?:  )?(?:abbrev |unfoldable )?(?:pub )?(?!use|mod|module|record|data|mutual|where)[\w◌-]+ : ", re.M)
    return {
        "8 answers": [f"{p.relative_to(top)}: {m}" for p in answers for m in entry.findall(p.read_text())],
        "8 lemmas": [f"{p.relative_to(top)}: {m}" for p in lemmas for m in lemma.findall(p.read_text())],
    }


def main():
    words = [w for w in sys.argv[1:] if w != "-v"]
    top = pathlib.Path(words[0] if words else ".")
    found = {name: [] for name in LINES}
    for p in files(top, "src", ".rt"):
        for i, line in enumerate(p.read_text().splitlines(), 1):
            for name, (looks, but) in LINES.items():
                if not line.lstrip().startswith("//") and re.search(looks, line) and not (but and re.search(but, line)):
                    found[name].append(f"{p.relative_to(top)}:{i}: {line.strip()}")
    found["2 functions that differ in names, types and numbers alone"] = twins(top)
    found["5 facts required by three functions or more"] = facts(top)
    found["5 parameters together in three functions or more"] = together(top)
    found.update(proofs(top))
    for name in sorted(found):
        print(f"{len(found[name]):4} {name}")
        if "-v" in sys.argv:
            for place in found[name]:
                print(f"       {place}")


main()
