#!/usr/bin/env python3
"""Lists groups of functions in src/ whose bodies and signatures differ only in names, types and numbers, clauses left out.

usage: python3 tools/twins.py [TOKENS]        at the top of the repository; functions of at most TOKENS tokens (24) are left out
"""
import collections
import glob
import re
import sys

FUNCTION = re.compile(
    r'^( *)((?:pub )?(?:extern "C" )?fn (\w+).*?^\1\}|(?:pub )?(?:extern "C" )?fn (\w+)[^\n]*\{[^\n]*\}$)', re.S | re.M
)
CLAUSE = re.compile(r"(requires|ensures)( \w+)? \{[^\n]*\}")
COMMENT = re.compile(r"(?m)^\s*//.*$")
TOKEN = re.compile(r"[A-Za-z_]\w*|\d\w*|[^\s\w]")
KEYWORDS = set("fn pub let mut if else return for in while match true false self Self extern struct impl as ref".split())


def shape(text):
    tokens = TOKEN.findall(COMMENT.sub("", CLAUSE.sub("", text)))
    return [t if t in KEYWORDS or not re.match(r"\w", t) else "0" if t[0].isdigit() else "a" for t in tokens]


def main():
    least = int(sys.argv[1]) if len(sys.argv) > 1 else 24
    groups = collections.defaultdict(list)
    for path in sorted(glob.glob("crates/*/src/**/*.rt", recursive=True)):
        for match in FUNCTION.finditer(open(path, encoding="utf-8").read()):
            tokens = shape(match.group(2))
            if len(tokens) > least:
                groups[" ".join(tokens)].append(f"{path.split('/')[1]}::{match.group(3) or match.group(4)}")
    twins = [names for names in groups.values() if len(names) > 1]
    for names in twins:
        print(len(names), *names)
    print(len(twins), "groups of", sum(map(len, twins)), "functions")


main()
