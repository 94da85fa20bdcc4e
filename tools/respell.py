#!/usr/bin/env python3
"""Brings the repository's own definitions and lemmas to today's spelling: words in snake case, types and facts in camel case.

usage: python3 tools/respell.py [--dry]     at the top, once, right after port.py

It goes by text: a name with dashes is the repository's own if a file of specs/, a lemma file of proofs/ or a ghost item
declares or binds it, and no library is its source. Names that the check makes (goals, calls, places) keep their dashes.
"""
import collections
import glob
import os
import re
import sys

# a name with dashes, or a fact with underscores
TOKEN = re.compile(r"(?<![\w'·◌-])([A-Za-z_][\w']*(?:-[A-Za-z0-9_'][\w']*)+|[A-Z][a-z]+(?:_[a-z]+)+)(?![\w'-])")
USE = re.compile(r"\buse\s+([\w.'·+-]+)\.\{([^}]*)\}")
FOREIGN = ("Rattle.std", "native", "lib.", "mathlib", "borrow", "Prim", "Rattle.core")


def read(path):
    with open(path, encoding="utf-8") as f:
        return f.read()


def is_function_file(path):
    """A file of one function's proof: its names are those of its goals."""
    return re.search(r"/proofs/.*/", path) is not None and os.path.basename(path) in (
        "Answers.antt", "Invariants.antt", "Choices.antt", "Proof.antt")


def strip_comment(line, mark):
    at = line.find(mark)
    return (line, "") if at < 0 else (line[:at], line[at:])


def foreign(text):
    names = set()
    for path, items in USE.findall(text):
        if path.startswith(FOREIGN):
            for item in items.split(","):
                names.update(part.strip() for part in item.split(" as "))
    return names


def respelled(name):
    parts = re.split("[-_]", name) if name[0].isupper() else name.split("-")
    if name[0].isupper():
        return "".join(p[0].upper() + p[1:] for p in parts)
    return "_".join(parts)


def main():
    dry = "--dry" in sys.argv
    antt = sorted(p for p in glob.glob("crates/*/**/*.antt", recursive=True) if "/out/" not in p)
    rt = sorted(p for p in glob.glob("crates/*/**/*.rt", recursive=True) if "/out/" not in p)
    own, words = set(), set()
    for path in antt:
        text = read(path)
        code = "\n".join(strip_comment(l, "--")[0] for l in text.split("\n"))
        words.update(re.findall(r"[A-Za-z_][\w']*", code))
        if not is_function_file(path):
            own.update(set(TOKEN.findall(code)) - foreign(code))
        else:
            # lemmas that stand beside the answers
            for m in re.finditer(r"^\s*(?:pub )?([A-Za-z_][\w']*(?:-[\w']+)+) : (.*)$", code, re.M):
                if not m.group(2).startswith("goal."):
                    own.add(m.group(1))
    for path in rt:
        text = read(path)
        for m in re.finditer(r"ghost use ([\w.'·-]+)\.\{([^}]*)\}", text):
            if not m.group(1).startswith(FOREIGN):
                own.update(TOKEN.findall(m.group(2)))
        own.update(TOKEN.findall(" ".join(re.findall(r"ghost ([\w'-]+)\s*[:=]", text))))
    made = set()
    for path in antt:
        if is_function_file(path):
            text = read(path)
            made.update(re.findall(r"goal\.([\w'-]+)", text))
            made.update(n for n in re.findall(r"\bc(?:\.[\w'-]+)*?\.([\w']+(?:-[\w']+)+)", text))
    clash = sorted(own & made)
    new = {n: respelled(n) for n in own}
    back = collections.defaultdict(set)
    for n, m in new.items():
        back[m].add(n)
    together = {m: sorted(ns) for m, ns in back.items() if len(ns) > 1 or m in words}
    print(f"{len(own)} names")
    print("also made by the check:", ", ".join(clash))
    for m, ns in sorted(together.items()):
        print("fall together:", m, "<-", ", ".join(ns), "(stands already)" if m in words else "")
    if dry:
        return

    def turn(text, keep, answers=False):
        def one(m):
            n = m.group(1)
            # behind a dot of a proof's own file stands what the check made
            if n in keep or n not in new or (answers and n in made and m.string[m.start() - 1] == "."):
                return n
            return new[n]
        return TOKEN.sub(one, text)

    # the library's fact goes by its own name: nothing else may be called All
    for path in antt + rt:
        text = read(path)
        if "AllByRecursion as All" in text:
            mark = "//" if path.endswith(".rt") else "--"
            lines = []
            for line in text.replace("AllByRecursion as All", "AllByRecursion").split("\n"):
                code, comment = strip_comment(line, mark)
                lines.append(re.sub(r"(?<![\w'.-])All(?![\w'-])", "AllByRecursion", code) + comment)
            with open(path, "w", encoding="utf-8") as f:
                f.write("\n".join(lines))
    for path in antt:
        text = read(path)
        keep = foreign("\n".join(strip_comment(l, "--")[0] for l in text.split("\n")))
        out = turn(text, keep, is_function_file(path))
        if out != text:
            with open(path, "w", encoding="utf-8") as f:
                f.write(out)
    for path in rt:
        text = read(path)
        keep = foreign(text)
        pieces = re.split(r'("(?:[^"\\\n]|\\.)*")', text)
        out = "".join(p if i % 2 else turn(p, keep) for i, p in enumerate(pieces))
        if out != text:
            with open(path, "w", encoding="utf-8") as f:
                f.write(out)
    # pages name definitions between back quotes
    for path in sorted(glob.glob("docs/*.md")) + ["README.md"]:
        text = read(path)
        out = re.sub(r"`[^`\n]+`", lambda m: turn(m.group(0), set()), text)
        if out != text:
            with open(path, "w", encoding="utf-8") as f:
                f.write(out)


main()
