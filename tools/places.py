#!/usr/bin/env python3
"""Lists the places in src/ that the design pass looked at, point by point (docs/DESIGN-PASS.md).

usage: python3 tools/places.py [COMMIT]     the commit's files, or those of the work tree
A line is a place to read, not a fault: the page says what became of each.
"""

import collections
import pathlib
import re
import subprocess
import sys

HERE = pathlib.Path(__file__).resolve().parent.parent
COMMIT = sys.argv[1] if len(sys.argv) > 1 else None


def git(*words):
    return subprocess.run(["git", "-C", str(HERE), *words], capture_output=True, text=True, check=True).stdout


def sources(ending, folder):
    """The path and the text of each file below crates/*/FOLDER."""
    names = git("ls-tree", "-r", "--name-only", COMMIT, "crates") if COMMIT else git("ls-files", "crates")
    for name in names.split("\n"):
        if name.endswith(ending) and f"/{folder}/" in name:
            if COMMIT:
                yield name, git("show", f"{COMMIT}:{name}")
            elif (HERE / name).exists():
                yield name, (HERE / name).read_text()


CODE = {name: re.sub(r"//.*", "", text) for name, text in sources(".rt", "src")}


def functions():
    """The path, the name, the signature, the clauses and the body of each function that has a body."""
    for path, text in CODE.items():
        for m in re.finditer(r"\bfn ([a-z_0-9]+)", text):
            at = m.start()
            clauses = []
            while at < len(text) and text[at] not in "{;":
                at += 1
            signature_end = at
            words = re.split(r"\b(?:requires|ensures)\b", text[m.start():at])
            while at < len(text) and text[at] == "{" and len(words) > 1:
                end = closing(text, at)
                clauses.append(" ".join(text[at + 1:end].split()))
                at = end + 1
                nxt = re.match(r"\s*(?:requires|ensures)\b[^{;]*", text[at:])
                if not nxt:
                    nxt = re.match(r"\s*", text[at:])
                    at += nxt.end()
                    break
                at += nxt.end()
            signature = " ".join(words[0].split())
            if at < len(text) and text[at] == "{":
                yield path, m.group(1), signature, clauses, text[at:closing(text, at) + 1]


def closing(text, at):
    depth = 0
    for i in range(at, len(text)):
        depth += (text[i] == "{") - (text[i] == "}")
        if depth == 0:
            return i
    return len(text) - 1


def shape(body):
    """The body with each name, number and text replaced by its kind."""
    kept = {"let", "mut", "match", "if", "else", "for", "in", "while", "return", "self", "Ok", "Err", "Some", "None", "true", "false"}
    return " ".join(
        t if t in kept or not re.match(r"[\w\"']", t) else "S" if t[0] in "\"'" else "N" if t[0].isdigit() else "I"
        for t in re.findall(r"b?\"[^\"]*\"|b?'[^']*'|\w+|[^\w\s]", body)
    )


def lines(pattern):
    for path, text in CODE.items():
        for n, line in enumerate(text.split("\n"), 1):
            if re.search(pattern, line):
                yield f"{path}:{n}: {line.strip()}"


def show(title, places):
    places = list(places)
    print(f"\n## {title}: {len(places)}")
    for p in places:
        print("  " + p)


ALL = list(functions())
EMPTY = re.compile(r"^\{\s*\}$")

show("1a enums, to be read for the shape of Option or Result", lines(r"^\s*(pub )?enum "))
show("1b flags in a struct or a variant", lines(r"\b\w+: bool\b(?!.*\bfn )(?!.*->)"))
show("1c one Result in another", lines(r"Result<\s*Result<"))
show("1d numbers that stand for a kind or for nothing", lines(r"=> (0x)?[0-9a-f]+,\s*$|(==|!=|>=|<) (65535|16)\b|^\s+16$"))

groups = collections.defaultdict(list)
for path, name, signature, clauses, body in ALL:
    s = shape(body)
    if not EMPTY.match(body) and len(s.split()) >= 9:
        groups[s].append(f"{path}:{name}")
show("2a functions whose bodies have one shape", (" = ".join(g) for g in groups.values() if len(g) > 1))
heads = collections.defaultdict(list)
for path, text in CODE.items():
    for m in re.finditer(r"pub (?:struct|enum) (\w+)", text):
        heads[m.group(1)].append(f"{path}:{m.group(1)}")
show("2b types that have one name in two crates", (" = ".join(g) for g in heads.values() if len(g) > 1))
names = collections.defaultdict(list)
for path, name, signature, clauses, body in ALL:
    if "self" not in signature:
        names[name].append(path)
show("2c functions, not methods, that have one name", (f"{n}: {', '.join(p)}" for n, p in names.items() if len(p) > 1 and n != "new"))

show("3 loops over numbers, or by a counter or a call of next", lines(r"\bwhile\b|\bfor \w+ in \S*\.\.|[a-z] \+= 1;"))

show("4a arithmetic of bytes", lines(r"[*%/] 256\b|[*%/] 65_536\b|/ 16_777_216"))
show("4b functions that compare, number, name or print", (f"{p}:{n}" for p, n, s, c, b in ALL if re.fullmatch(r"same|turn|number|pid|from_pid|flags|message|is_\w+named|is_named|\w+_(name|text)", n)))

pairs = collections.Counter()
where = collections.defaultdict(set)
for path, name, signature, clauses, body in ALL:
    inside = signature[signature.find("(") + 1:]
    given = sorted(set(re.findall(r"(\w+): ([&\w][^,)]*)", inside)))
    for i, a in enumerate(given):
        for b in given[i + 1:]:
            where[f"{a[0]}: {a[1]}; {b[0]}: {b[1]}"].add(f"{path}:{name}")
show("5a parameters that stand together in three functions or more", (f"{k}: {len(v)}" for k, v in where.items() if len(v) > 2))
FACTS = [
    ("a store by its three members", r"S\.Store\.size S\.Store\.sectors S\.Store\.verdict"),
    ("a wire with a store by their members", r"W\.Wire\.tally S\.Store"),
    ("a packet that can be built", r"can_be_built \(parts"),
    ("bytes that fit a body", r"length \w+\.now ≤ 64"),
    ("a hub written out", r"record \{ first ="),
    ("what a store answers to a write", r"VerdictsKept"),
    ("a body by its length and memory", r"take result\.length result\.bytes"),
    ("what was heard, by its parts", r"\(seen self\.old(\.core)?\).*\)\.(state|answer|written|0|1)"),
]
for label, pattern in FACTS:
    show(f"5b {label}, in the clauses of", (f"{p}:{n}" for p, n, s, c, b in ALL if any(re.search(pattern, x) for x in c)))

show("6 memory of a fixed length, and numbers that say how much of it counts", lines(r"^\s*(pub )?(bytes|buffer|memory|command|script|come|place|length|command_length): |&mut \[u8; \d+\]\) -> (usize|Result<usize)"))

arms = []
for path, name, signature, clauses, body in ALL:
    found = re.findall(r"=> (?:return )?(?:Ok\()?(?:self\.)?[a-z_:.]+\(", body)
    if len(found) >= 4:
        arms.append(f"{path}:{name} ({len(found)})")
show("7 matches of which four arms or more call a function; pointers and dyn", arms + list(lines(r"\bdyn\b|: fn\(")))

sizes = collections.Counter()
files = collections.Counter()
for path, text in sources(".antt", "proofs"):
    crate = path.split("/")[1]
    kind = "lemmas" if path.count("/") == 3 else "answers"
    files[crate, kind] += 1
    sizes[crate, kind] += text.count("\n")
show("8 files and lines of proofs", (f"{c} {k}: {files[c, k]} files, {sizes[c, k]} lines" for c, k in sorted(sizes)))
