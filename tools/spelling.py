#!/usr/bin/env python3
"""Brings the repository's own definitions and lemmas to the spelling of today's Rattle.

Run once, at the top, after the toolchain's port.py:

    python3 tools/spelling.py

A word that was written lastTime becomes last_time; a lemma that was written few-if-turning becomes
few_if_turning. Names of types, of modules, of variants, of the library and of goals stay, and so do comments
and the text of programs. It says which new names fall together with one that was there before.
"""
import glob
import re

CAMEL = re.compile(r"(?<![A-Za-z0-9_'.-])[a-z][a-z0-9]*(?:[A-Z][a-z0-9]*)+(?![A-Za-z0-9_'])")
AFTER_DOT = re.compile(r"(?<=\.)[a-z][a-z0-9]*(?:[A-Z][a-z0-9]*)+(?![A-Za-z0-9_'])")
WORD = re.compile(r"[^\s(){}\[\],;.λ⌜⌝«»:]+")
OWN = sorted(line.split(":")[0].split()[0] for line in open("crates.txt") if line.strip() and line[0] != "#")


# half_slope is a function of the code
OTHERWISE = {"halfSlope": "half_slope_of"}


def snake(word):
    return OTHERWISE.get(word) or re.sub(r"([A-Z])", lambda m: "_" + m.group(1).lower(), word)


def plain(word):
    return word.replace("-", "_").replace("′", "'")


def lemma_files():
    return glob.glob("crates/*/specs/*.antt") + glob.glob("crates/*/proofs/*.antt")


def all_files():
    return (
        glob.glob("crates/*/specs/**/*.antt", recursive=True)
        + glob.glob("crates/*/proofs/**/*.antt", recursive=True)
        + glob.glob("crates/*/src/**/*.rt", recursive=True)
        + glob.glob("crates/*/must-fail/*.edit")
    )


def code_and_comment(path, line):
    mark = "--" if path.endswith(".antt") else "//"
    if path.endswith(".antt"):
        found = re.search(r"(^|\s)--(\s|$)", line)
        at = found.start() if found else -1
    else:
        at = line.find(mark)
    return (line, "") if at < 0 else (line[:at], line[at:])


def borrowed():
    """The names that come from outside the repository."""
    names = set()
    for path in all_files():
        for found in re.finditer(r"use (\S+)\.\{([^}]*)\}", open(path).read()):
            parts = found.group(1).split(".")
            if not (parts[0] == "Rattle" and len(parts) > 1 and parts[1] in OWN):
                names.update(n.strip().split(" as ")[0] for n in found.group(2).split(","))
    return names


def dashed(outside):
    """The words with a dash that the files of lemmas declare or bind."""
    names = set()
    for path in lemma_files():
        for line in open(path):
            code, _ = code_and_comment(path, line)
            if re.match(r"\s*use ", code):
                continue
            for word in WORD.findall(code):
                if re.fullmatch(r"[a-z_][a-z0-9_']*(?:-[a-z0-9_']+)+", word) and word not in outside:
                    names.add(word)
    return names


def respelled(path, renamed):
    out = []
    for line in open(path).read().split("\n"):
        code, comment = code_and_comment(path, line)
        pieces = re.split(r'("(?:[^"\\]|\\.)*")', code)
        for k in range(0, len(pieces), 2):
            for pattern in (CAMEL, AFTER_DOT):
                pieces[k] = pattern.sub(lambda m: snake(m.group(0)), pieces[k])
            if not path.endswith(".edit"):
                pieces[k] = WORD.sub(lambda m: renamed.get(m.group(0), m.group(0)), pieces[k])
        out.append("".join(pieces) + comment)
    return "\n".join(out)


def main():
    outside = borrowed()
    renamed = {word: plain(word) for word in dashed(outside)}
    before = set()
    for path in all_files():
        before.update(re.findall(r"[A-Za-z_][A-Za-z0-9_']*", open(path).read()))
    for old, new in sorted(renamed.items()):
        if new in before:
            print(f"falls together: {old} and {new}")
    changed = 0
    for path in all_files():
        old = open(path).read()
        new = respelled(path, renamed)
        if new != old:
            for word in set(CAMEL.findall(old)):
                if snake(word) in before:
                    print(f"falls together: {word} and {snake(word)} ({path})")
            open(path, "w").write(new)
            changed += 1
    print(f"{len(renamed)} words with a dash, {changed} files changed")


if __name__ == "__main__":
    main()
