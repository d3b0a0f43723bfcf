#!/usr/bin/env python3
"""Lists the runs of code that stand more than once, to the letter, in crates/*/src.

usage: tools/alike.py [COMMIT [LINES]]      HEAD and 5 where they are left out

A run has so many lines or more. Blank lines, comments, attributes, imports and lines of punctuation alone are passed over.
"""

import re
import subprocess
import sys

PASSED_OVER = re.compile(r"\s*(//.*|#.*|(ghost |pub )?use .*|[\s(){}\[\];,]*)$")


def git(*words):
    return subprocess.run(["git", *words], check=True, capture_output=True, text=True).stdout


def files(commit):
    for path in git("ls-tree", "-r", "--name-only", commit, "--", "crates").splitlines():
        if re.match(r"crates/\w+/src/.*\.rt$", path):
            lines = git("show", f"{commit}:{path}").splitlines()
            yield path, [(n, " ".join(line.split())) for n, line in enumerate(lines, 1) if not PASSED_OVER.match(line)]


def runs(texts, length):
    """The pairs of runs, each as long as it goes: two places, by file and line's index, and a length."""
    places = {}
    for path, lines in texts.items():
        for i in range(len(lines) - length + 1):
            places.setdefault(tuple(line for _, line in lines[i : i + length]), []).append((path, i))
    pairs = {(a, b) for group in places.values() for k, a in enumerate(group) for b in group[k + 1 :]}
    for a, b in sorted(pairs):
        at = lambda d: ((a[0], a[1] + d), (b[0], b[1] + d))
        if at(-1) not in pairs:
            more = 0
            while at(more + 1) in pairs:
                more += 1
            yield a, b, length + more


def main():
    commit = sys.argv[1] if len(sys.argv) > 1 else "HEAD"
    length = int(sys.argv[2]) if len(sys.argv) > 2 else 5
    texts = dict(files(commit))
    found = list(runs(texts, length))
    for (a, i), (b, j), n in found:
        print(f"{a}:{texts[a][i][0]} {b}:{texts[b][j][0]} {n} lines")
    print(f"{len(found)} pairs, {sum(n for *_, n in found)} lines")


main()
