#!/usr/bin/env python3
"""Asks another awk the rows `expression match` and `printf` of crates/rows, and prints where it answers something else.

    tools/rows_beside_awk.py [AWK ..]      by default `gawk --posix`

docs/DECISIONS.md says where and why this language differs.
"""
import os
import subprocess
import sys

AWK = sys.argv[1:] or ["gawk", "--posix"]
ROWS = os.path.join(os.path.dirname(os.path.abspath(__file__)), "..", "crates", "rows", "data")
LEAST = "-9223372036854775808"


def unescaped(text):
    """The text that a part of a row stands for (crates/rows_cases/src/lib.rt says how rows are written)."""
    out, at, times, start = "", 0, None, 0
    while at < len(text):
        two = text[at : at + 2]
        if two in ("\\n", "\\t", "\\\\"):
            out += {"n": "\n", "t": "\t", "\\": "\\"}[two[1]]
            at += 2
        elif two == "\\x":
            out += chr(int(text[at + 2 : at + 4], 16))
            at += 4
        elif two == "\\{":
            star = text.index("*", at)
            times, start, at = int(text[at + 2 : star]), len(out), star + 1
        elif text[at] == "}" and times is not None:
            out, times = out[:start] + out[start:] * times, None
            at += 1
        else:
            out += text[at]
            at += 1
    return out


def lines_of(kind):
    """The lines of the rows of a kind, with their numbers."""
    with open(os.path.join(ROWS, kind), encoding="utf-8") as file:
        yield from enumerate(file, 1)


def rows(words):
    """The rows that begin with these words: the line's number, the other parts, and the answer."""
    for number, line in lines_of("parts"):
        head, arrow, answer = line.rstrip("\n").rpartition(" =>")
        parts = head.split("\t")
        if arrow and parts[: len(words)] == words:
            yield number, [unescaped(part) for part in parts[len(words) :]], unescaped(answer[1:])


def asked_of(program, **texts):
    """What the awk prints, or None where it fails."""
    done = subprocess.run([*AWK, program], capture_output=True, env={**os.environ, "LC_ALL": "C", **texts})
    return None if done.returncode else done.stdout.decode("latin-1")


def match(pattern, text):
    answer = asked_of('BEGIN { m = match(ENVIRON["T"], ENVIRON["P"]); print m, RLENGTH }', P=pattern, T=text)
    if answer is None:
        return "syntax"
    begin, length = map(int, answer.split())
    return "none" if begin == 0 else f"{begin - 1},{begin - 1 + length}"


def quoted(text):
    return '"' + text.replace("\\", "\\\\").replace('"', '\\"') + '"'


def value(word):
    """A value of a row as awk writes it."""
    if word == "u":
        return "nothing"
    if word[0] == '"':
        return word
    if word[0] == "<":
        return quoted(word[1:-1])
    return "(-9223372036854775807 - 1)" if word == LEAST else f"({word} + 0)"


def printf(form, *values):
    answer = asked_of("BEGIN { printf " + ", ".join([quoted(form), *map(value, values)]) + " }")
    return "a fault" if answer is None else answer


def main():
    count = differ = 0
    for words, call in [(["expression", "match"], match), (["printf"], printf)]:
        for number, parts, wanted in rows(words):
            count += 1
            came = call(*parts)
            if came != wanted:
                differ += 1
                print(f"line {number}: {parts}: wanted {wanted!r}, came {came!r}")
    print(f"{count} rows, {differ} differ")


if __name__ == "__main__":
    main()
