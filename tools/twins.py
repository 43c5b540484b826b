#!/usr/bin/env python3
"""Pairs of functions below crates/*/src that read alike: twins.py [--list]

Two functions are a pair where their bodies have at least four lines and are of one shape: the same lines once names, numbers and texts are
left out. Signatures, clauses and comments do not count. It reads the tree below the folder in which it is run, and writes nothing.
"""
import glob
import re
import sys

KEYWORDS = {"as", "break", "continue", "else", "false", "for", "if", "in", "let", "loop", "match", "mut", "return", "true", "while"}


def shape(line):
    line = re.sub(r'b?"(?:[^"\\]|\\.)*"', "T", line.split("//")[0])
    line = re.sub(r"b?'(?:[^'\\]|\\.)'", "T", line)
    line = re.sub(r"\b[A-Za-z_][A-Za-z_0-9]*\b", lambda m: m.group() if m.group() in KEYWORDS else "N", line)
    return re.sub(r"\s+", " ", re.sub(r"\b\d[\d_a-z]*\b", "N", line)).strip()


def functions(path):
    lines = open(path, encoding="utf-8").read().split("\n")
    at = 0
    while at < len(lines):
        name = re.match(r"( *)(?:pub(?:\(crate\))? )?(?:const )?(?:extern \"C\" )?fn ([a-z_0-9]+)", lines[at])
        if not name:
            at += 1
            continue
        start = at
        while at < len(lines) and lines[at] not in (name.group(1) + "{",) and not lines[at].rstrip().endswith("{"):
            if lines[at].rstrip().endswith(";") or lines[at].rstrip().endswith("}"):
                break
            at += 1
        while at < len(lines) and lines[at].startswith(name.group(1) + "    ") and re.match(r"\s*(requires|ensures|where)\b", lines[at]):
            at += 1
        begin = at + 1
        while at < len(lines) and lines[at] != name.group(1) + "}":
            at += 1
        body = [shape(line) for line in lines[begin:at]]
        yield "%s:%d %s" % (path, start + 1, name.group(2)), tuple(line for line in body if line and line != "{")
        at += 1


def main():
    alike = {}
    for path in sorted(glob.glob("crates/*/src/*.rt")):
        for place, body in functions(path):
            if len(body) >= 4:
                alike.setdefault(body, []).append(place)
    pairs = [places for places in alike.values() if len(places) > 1]
    if "--list" in sys.argv[1:]:
        for places in pairs:
            print("; ".join(places))
    print(sum(len(places) for places in pairs), "functions in", len(pairs), "groups")


main()
