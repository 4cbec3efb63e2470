#!/usr/bin/env python3
"""Brings the names of this repository's definitions and lemmas to the spelling that Rattle's library has.

usage: python3 tools/spell.py [--check]     at the top of the repository; --check writes nothing and lists the names

Types and facts go from Failed-deliveries to FailedDeliveries; definitions, fields, constructors and lemmas from data-packet to data_packet.
It turns whole words that specs/ and proofs/ of some crate declare or import by another name, in .antt files, in the clauses and ghost items of .rt files and in must-fail edits.
Names that Rattle makes of the code (goals, steps) and the library's names stay, and so do comments, strings and the code itself.
Where two names fall together in one file it says so, and ends with status 1. A second run changes nothing.
"""
import glob
import re
import sys

WORD = re.compile(r'[^\s(){}.;,@"«»⟨⟩]+')
HEAD = r"(?:pub |abbrev pub |abbrev |unfoldable pub |unfoldable |pub data |data |pub record |record |ruleset pub |ruleset |mod |pub mod )"
DECLARED = [re.compile(rf"^\s*{HEAD}+([^\s(){{}}.;,:]+)"), re.compile(r"^\s*([^\s(){}.;,:]+(?: [^\s(){}.;,:]+)*) :")]
FIELD = re.compile(r"^\s+pub ([^\s(){}.;,:]+) :")


def antt():
    return sorted(glob.glob("crates/*/specs/**/*.antt", recursive=True) + glob.glob("crates/*/proofs/**/*.antt", recursive=True))


def turned(name):
    if name[0].isupper():
        return "".join(part[:1].upper() + part[1:] for part in name.split("-"))
    return name.replace("-", "_")


def declared():
    names, fields = set(), set()
    for path in antt():
        for line in open(path, encoding="utf-8"):
            if line.lstrip().startswith(("use ", "pub use ")):
                names.update(word for word in re.findall(r" as ([A-Z][\w-]*)", line) if "-" in word)
            if re.search(r"\bgoal\.", line) or line.lstrip().startswith(("--", "use ")):
                continue
            for form in DECLARED:
                found = form.match(line)
                if found:
                    names.update(word for word in found[1].split() if "-" in word and re.match(r"[A-Za-z]", word))
            found = FIELD.match(line)
            if found and "-" in found[1]:
                fields.add(found[1])
    return names - library(), fields


def library():
    """Names that come from the library, which keep their spelling."""
    names = set()
    for path in antt() + glob.glob("crates/*/src/**/*.rt", recursive=True):
        text = open(path, encoding="utf-8").read()
        for module, items in re.findall(r"use ([\w.+-]+)\.\{([^}]*)\}", text):
            if re.match(r"(Rattle\.(std|core)|borrow|mathlib|lib|Prim|denote)\b", module):
                names.update(WORD.findall(items))
    return names


def words(text, names, fields):
    def one(found):
        word = found[0]
        after_dot = found.start() > 0 and text[found.start() - 1] == "."
        if word not in names or (after_dot and word not in fields):
            return word
        return turned(word)

    return WORD.sub(one, text)


def by_lines(text, names, fields, mark):
    """The text with its words turned, but for what stands behind the mark of a comment."""
    out = []
    for line in text.split("\n"):
        at = 0 if line.startswith(mark) else line.find(" " + mark)
        code, comment = (line, "") if at < 0 else (line[:at], line[at:])
        parts = re.split(r'("(?:[^"\\]|\\.)*")', code)
        out.append("".join(p if p.startswith('"') else words(p, names, fields) for p in parts) + comment)
    return "\n".join(out)


def alone(text):
    """The words of a file that are no part of a module's path, and stand in no comment."""
    return set(WORD.findall(re.sub(r"[\w+-]+\.(?=\S)", " ", re.sub(r"(?m)(^| )--.*$", "", text))))


def main():
    names, fields = declared()
    if "--check" in sys.argv[1:]:
        print("\n".join(sorted(names)))
        return 0
    bad = []
    for path in antt():
        old = open(path, encoding="utf-8").read()
        here = alone(old)
        for word in sorted(names & here):
            if turned(word) in here:
                bad.append(f"{path}: {word} would fall together with {turned(word)}")
        new = by_lines(old, names, fields, "--")
        if new != old:
            open(path, "w", encoding="utf-8").write(new)
    for path in glob.glob("crates/*/src/**/*.rt", recursive=True):
        old = open(path, encoding="utf-8").read()
        new = by_lines(old, names, fields, "//")
        if new != old:
            open(path, "w", encoding="utf-8").write(new)
    for path in glob.glob("crates/*/must-fail/*.edit"):
        old = open(path, encoding="utf-8").read()
        new = "\n".join(words(line, names, fields) if line.startswith(("old:", "new:")) and re.search(r"ensures|requires|ghost", line) else line for line in old.split("\n"))
        if new != old:
            open(path, "w", encoding="utf-8").write(new)
    print("\n".join(bad) or f"{len(names)} names turned")
    return 1 if bad else 0


raise SystemExit(main())
