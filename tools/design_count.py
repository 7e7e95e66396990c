#!/usr/bin/env python3
"""Counts, point by point, the places of src/ that docs/DESIGN-PASS.md speaks of.

usage: tools/design_count.py [COMMIT]     of the work tree, or as it stood at COMMIT
With --by-shape the places are found in the other way that the page names: by the shape of whole functions.
"""
import re
import subprocess
import sys
from collections import defaultdict


def sources(commit):
    """Each file of src/ by its path."""
    def run(*words):
        return subprocess.run(["git", *words], check=True, capture_output=True, text=True).stdout
    if commit:
        names = run("ls-tree", "-r", "--name-only", commit, "crates").split()
    else:
        names = run("ls-files", "crates").split() + run("ls-files", "-o", "--exclude-standard", "crates").split()
    names = sorted(n for n in set(names) if "/src/" in n and n.endswith(".rt"))
    found = {}
    for name in names:
        try:
            found[name] = run("show", f"{commit}:{name}") if commit else open(name, encoding="utf-8").read()
        except FileNotFoundError:
            pass
    return found


def bare(text):
    """The text without its comments, the lines staying where they are."""
    return re.sub(r"//[^\n]*", "", text)


# what a line, or a few lines after one another, look like where a place of a point stands
PATTERNS = {
    "1 an enum with a case for none or for an error": r"\benum \w+[^{]*\{[^}]*\b(Unknown|Unreadable|Refused)\b",
    "1 an error or a none handed on by match": r"(Err\((\w+)\)\s*=>\s*(?:return\s+)?Err\(\2\))|(Err\(_\)\s*=>\s*(?:return\s+)?(?:None|Err\())"
        r"|(None\s*=>\s*(?:return\s+)?(?:None|Err\())|((?:Ok|Some)\((\w+)\)\s*=>\s*\6,)",
    "1 a test that chooses between Some or Ok and None or Err": r"\{\s*(?:Some|Ok)\([^;{}]*\)\s*\}\s*else\s*\{\s*(?:None|Err\([^;{}]*\))\s*\}",
    "1 a change that answers a flag": r"fn \w+\(&mut self[^)]*\)\s*->\s*bool",
    "1 a value that stands for none": r"fn invalid\(\)|_ => 0,|unwrap_or\(u64::MAX\)|== 1,|\blabels: 0,",
    "1 a result in a result": r"Result<io::Result",
    "3 a loop that counts, or turns while": r"\bwhile (?!let\b)|\bfor \(?\w+(?:, \w+)?\)? in (?:0|from)\s*\.\.|\.enumerate\(\)",
    "3 a loop that carries the element before": r"\n\s+\w+ = \*next;",
    "4 a wider number by `as`": r"\w+(?:\(\))? as (?:u64|u128)\b",
    "4 a refusal printed by hand": r"let number = \w+\.number\(\);",
    "6 a length beside a buffer": r"\n\s+(?:pub(?:\(crate\))? )?len: usize,",
    "6 an array beside another of the same length": r"(?:: \[[^\]\n]*; \d+\],\s+\w+: \[[^\]\n]*; \d+\],)|(?:: Vec<\w+>,\s+\w+: Vec<\w+>,)",
}


def line_of(text, at):
    return text.count("\n", 0, at) + 1


def by_pattern(files):
    for title, pattern in PATTERNS.items():
        places = []
        for name, text in files.items():
            text = bare(text)
            for m in re.finditer(pattern, text):
                start = m.start() + len(m.group(0)) - len(m.group(0).lstrip())
                places.append(f"{name}:{line_of(text, start)}")
        show(title, places)


CLAUSE = re.compile(r"\b(?:requires|ensures)(?: \w+)? \{ (.*) \}$", re.M)
FUNCTION = re.compile(r"^ *(?:pub(?:\([a-z]+\))? )?fn (\w+)", re.M)


def functions(text):
    """Each function's name, line, head (with its clauses) and body."""
    text = bare(text)
    starts = list(FUNCTION.finditer(text))
    for i, m in enumerate(starts):
        end = starts[i + 1].start() if i + 1 < len(starts) else len(text)
        piece = text[m.start():end]
        indent = re.match(r" *", piece).group(0)
        cut = re.search(r"\n" + indent + r"\{\n|\{\n", piece)
        if cut is None:
            continue
        opening = piece.find("\n" + indent + "{\n")
        at = opening if opening >= 0 else cut.start()
        close = piece.find("\n" + indent + "}", at + 1)
        body = piece[at:close] if close >= 0 else piece[at:]
        yield m.group(1), line_of(text, m.start()), piece[:at], body


def repeated_facts(files):
    """What stands in brackets in the clauses of three or more functions of a crate, the longest part counted once."""
    seen = defaultdict(set)
    for name, text in files.items():
        crate = name.split("/")[1]
        for fn, line, head, _ in functions(text):
            for clause in CLAUSE.findall(head):
                parts = {clause} | set(bracketed(clause))
                for part in parts:
                    if len(part) >= 12:
                        seen[crate, part].add(f"{name}:{line}")
    rows = [(crate, part, places) for (crate, part), places in seen.items() if len(places) >= 3]
    rows = [r for r in rows if not any(r[0] == o[0] and r[1] != o[1] and r[1] in o[1] and r[2] == o[2] for o in rows)]
    show("5 a fact in the clauses of three or more functions", [f"{crate}: {part}  ({len(places)})" for crate, part, places in sorted(rows, key=lambda r: (r[0], r[1]))])


def bracketed(clause):
    depth = []
    for i, c in enumerate(clause):
        if c == "(":
            depth.append(i)
        elif c == ")" and depth:
            yield clause[depth.pop() + 1:i]


TOKEN = re.compile(r"[A-Za-z_]\w*|\d[\d_]*|\S")
WORDS = set("match if else while for in return let mut fn Ok Err Some None true false as impl Self self".split())


def shape(body):
    return " ".join(t if t in WORDS or not (t[0].isalnum() or t[0] == "_") else "x" for t in TOKEN.findall(body))


def twins(files, title, least):
    groups = defaultdict(list)
    for name, text in files.items():
        for fn, line, head, body in functions(text):
            s = shape(body)
            if len(s.split()) >= least:
                groups[s].append(f"{name}:{line} {fn}")
    places = []
    for group in groups.values():
        if len(group) > 1:
            places.append(" = ".join(group))
    show(title, places)


def answers(commit):
    words = ["git", "ls-tree", "-r", "--name-only", commit, "crates"] if commit else ["git", "ls-files", "crates"]
    names = subprocess.run(words, check=True, capture_output=True, text=True).stdout.split()
    show("8 answers and invariants in proofs/", [n for n in names if n.endswith(("Answers.antt", "Invariants.antt"))], brief=True)
    show("8 files of lemmas in proofs/", [n for n in names if "/proofs/" in n and n.endswith(".antt") and not n.endswith(("Answers.antt", "Invariants.antt", "/Lib.antt"))], brief=True)


def show(title, places, brief=False):
    print(f"{title}: {len(places)}")
    if not brief:
        for place in places:
            print(f"    {place}")


def main():
    words = [w for w in sys.argv[1:] if not w.startswith("-")]
    commit = words[0] if words else None
    files = sources(commit)
    if "--by-shape" in sys.argv:
        twins(files, "functions whose bodies have one shape, short ones too", 8)
        return
    by_pattern(files)
    twins(files, "2 functions whose bodies have one shape", 14)
    repeated_facts(files)
    answers(commit)


if __name__ == "__main__":
    main()
