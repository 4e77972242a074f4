#!/usr/bin/env python3
"""Brings the repository's own definitions and lemmas to snake case: a dash in a name of specs/ or proofs/ becomes an underscore.

usage: python3 tools/respell_names.py [--dry]      at the top, once, after the kit's port.py

Names of std that a file imports, and names that Rattle makes (goals, steps of a proof), keep their dashes. Strings and comments stay.
"""
import collections
import os
import re
import subprocess
import sys

WORD = r"[A-Za-z][\w'-]*"
TOKEN = re.compile(r"(?<![\w'≢≡-])" + WORD + r"(?![\w≢≡])")
PLAIN = re.compile(r'"(?:[^"\\]|\\.)*"')
# names of std; a local lemma of the same name is std's word with other arguments
STD = {"cond-true", "cond-false", "All-append", "drop-set-lt"}


def files(*ends):
    found = subprocess.run(["git", "ls-files", "-co", "--exclude-standard", "crates"], capture_output=True, text=True, check=True).stdout.split()
    return [f for f in found if f.endswith(ends) and os.path.exists(f)]


def own_names():
    own = set()
    for f in files(".antt"):
        with open(f, encoding="utf-8") as it:
            for line in it:
                head = re.match(r"\s*(?:abbrev |unfoldable |record |data |pub )*(" + WORD + r")\s*(?:\(|\{|:)", line)
                if head and not re.search(r":\s*(goal|rules|given)\.", line):
                    own.add(head.group(1))
                own.update(re.findall(r"\blet (" + WORD + r")\s*[:=]", line))
                for group in re.findall(r"[({](" + WORD + r"(?: " + WORD + r")*) :", line):
                    own.update(group.split())
                for group in re.findall(r"λ ([^.]*)\.", line):
                    own.update(re.findall(WORD, group))
    return {n for n in own if "-" in n} - STD


def kept(text):
    """The names that the file has from std, or that Rattle gives its goals."""
    names = set()
    for group in re.findall(r"use Rattle\.std\.[\w.]+\.\{([^}]*)\}", text):
        names.update(x.strip() for x in group.split(","))
    names.update(re.findall(r"(?m)^\s*(?:abbrev )?(?:pub )?(" + WORD + r") : (?:goal|rules|given)\.", text))
    return names


def turned(line, own, keep, comment):
    at = line.find(comment)
    code, rest = (line, "") if at < 0 else (line[:at], line[at:])
    out, last = [], 0
    spans = [m.span() for m in PLAIN.finditer(code)]
    inside = lambda i: any(a <= i < b for a, b in spans)
    for m in TOKEN.finditer(code):
        n = m.group(0)
        if n in own and n not in keep and not inside(m.start()):
            out += [code[last : m.start()], n.replace("-", "_")]
            last = m.end()
    return "".join(out) + code[last:] + rest


def main():
    own = own_names()
    dry = "--dry" in sys.argv
    falls = collections.Counter(n.replace("-", "_") for n in own)
    print([n for n, k in falls.items() if k > 1])
    for f in files(".antt", ".rt"):
        with open(f, encoding="utf-8") as it:
            text = it.read()
        keep = kept(text)
        comment = "//" if f.endswith(".rt") else "--"
        new = "\n".join(turned(l, own, keep, comment) for l in text.split("\n"))
        if new == text:
            continue
        if dry and f.endswith(("Answers.antt", "Invariants.antt")):
            for a, b in zip(text.split("\n"), new.split("\n")):
                if a != b:
                    for n in re.findall(r"\.(" + WORD + ")", a):
                        if n in own and n not in keep:
                            print(f, n, "|", a.strip()[:150])
        if not dry:
            with open(f, "w", encoding="utf-8") as it:
                it.write(new)
    print(len(own), "names")


main()
