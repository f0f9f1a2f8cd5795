#!/usr/bin/env python3
"""Seeks random extended regular expressions in random texts beside another awk, and beside what their definition gives.

    tools/expressions_beside_awk.py [--rawk PATH] [--awk AWK] [--seed N] [--all] COUNT      by default bin/rawk, `gawk --posix` and 1

Each expression is sought in TEXTS texts, most of which hold one of its matches: by `match` (where the match begins and how long it is), `~`, `gsub`, `sub` and `split`, as a
constant and as the text of a variable. The definition is worked out here: from each place the set of all ends, of which the leftmost place that has one and its greatest end
count. What differs here from the other awk or from the definition is counted; it is printed, as a program of its own, where what came here is not as defined, with `--all` always.
docs/DECISIONS.md says where this language differs; expressions avoid those forms: a `{` that begins no interval, an interval without a first bound, a `-` that begins a
range, a repetition behind an anchor.
"""
import argparse
import os
import random
import re
import string
import subprocess
import sys
from concurrent.futures import ThreadPoolExecutor

TEXTS = 4
BATCH = 20
SECONDS = 10
NO_END = f"no end in {SECONDS} seconds"
BYTES = "aaabbbcc01xA .-_"
ESCAPED = ".*+?()[]{}|^$\\/"
CLASSES = {
    "alpha": string.ascii_letters,
    "digit": string.digits,
    "upper": string.ascii_uppercase,
    "lower": string.ascii_lowercase,
    "alnum": string.ascii_letters + string.digits,
    "punct": string.punctuation,
    "space": " \t\n\r\v\f",
    "blank": " \t",
    "xdigit": string.hexdigits,
    "graph": string.ascii_letters + string.digits + string.punctuation,
    "print": string.ascii_letters + string.digits + string.punctuation + " ",
}
TIMES = [("*", 0, None), ("*", 0, None), ("+", 1, None), ("+", 1, None), ("?", 0, 1), ("?", 0, 1), ("{2}", 2, 2), ("{1,2}", 1, 2), ("{2,}", 2, None), ("{0,2}", 0, 2), ("{3}", 3, 3), ("{0}", 0, 0), ("{1}", 1, 1)]


class Expression:
    """An expression: its text, what makes a text that it matches if no anchor is in the way, and its ends from a place of a text."""

    def __init__(self, text, made, ends):
        self.text, self.made, self.known = text, made, {}
        self.find_ends = ends

    def ends(self, text, place):
        if (text, place) not in self.known:
            self.known[text, place] = frozenset(self.find_ends(text, place))
        return self.known[text, place]

    def ends_of_all(self, text, places):
        return {end for place in places for end in self.ends(text, place)}

    def found(self, text, start, least=0):
        """The leftmost match from a place on that has at least a number of bytes, and there the longest."""
        for place in range(start, len(text) + 1):
            ends = [end for end in self.ends(text, place) if end - place >= least]
            if ends:
                return place, max(ends)
        return None


def byte_of(sought, is_other=False):
    return lambda subject, place: {place + 1} if place < len(subject) and (subject[place] in sought) != is_other else set()


def joined(parts):
    def ends(subject, place):
        places = {place}
        for part in parts:
            places = part.ends_of_all(subject, places)
        return places

    return Expression("".join(part.text for part in parts), lambda: "".join(part.made() for part in parts), ends)


def repeated(part, sign, least, most, chosen):
    def ends(subject, place):
        places = {place}
        for _ in range(least):
            places = part.ends_of_all(subject, places)
        all_of = set(places)
        for _ in range(len(subject) + 1 if most is None else most - least):
            places = part.ends_of_all(subject, places)
            all_of |= places
        return all_of

    return Expression(part.text + sign, lambda: "".join(part.made() for _ in range(chosen(least, least + 2 if most is None else most))), ends)


class Writer:
    """Writes expressions."""

    def __init__(self, seed):
        self.random = random.Random(seed)

    def below(self, count):
        return self.random.randrange(count)

    def byte(self):
        if self.below(6):
            b = self.random.choice(BYTES.replace(".", ""))
            text = b
        elif self.below(4):
            b = self.random.choice(ESCAPED)
            text = "\\" + b
        else:
            text, b = self.random.choice([("\\n", "\n"), ("\\t", "\t"), ("\\101", "A"), ('\\"', '"')])
        return Expression(text, lambda: b, byte_of(b))

    def item(self):
        """An item of a bracket expression, and the bytes that it has."""
        way = self.below(6)
        if way < 3:
            b = self.random.choice("abc01xA _.*+$(|")
            return b, b
        if way == 3:
            return self.random.choice([("a-b", "ab"), ("a-c", "abc"), ("b-c", "bc"), ("0-1", "01")])
        if way == 4:
            name = self.random.choice(list(CLASSES))
            return f"[:{name}:]", CLASSES[name]
        return self.random.choice([("\\\\", "\\"), ("\\]", "]"), ("\\t", "\t"), ("\\/", "/")])

    def bracket(self):
        items = [self.item() for _ in range(1 + self.below(3))]
        items = self.random.choice([[], [], [], [("]", "]")]]) + items + self.random.choice([[], [], [], [("-", "-")]])
        text, held = "".join(text for text, _ in items), "".join(held for _, held in items)
        if self.below(4):
            return Expression(f"[{text}]", lambda: self.random.choice(held), byte_of(held))
        return Expression(f"[^{text}]", lambda: self.random.choice("abcxA01 z\n"), byte_of(held, True))

    def atom(self, depth):
        way = self.below(10)
        if way < 4 or (depth == 0 and way > 6):
            return self.byte()
        if way == 4:
            return Expression(".", lambda: self.random.choice(BYTES), byte_of("", True))
        if way < 7:
            return self.bracket()
        part = self.branches(depth - 1)
        return Expression(f"({part.text})", part.made, part.ends)

    def piece(self, depth):
        if not self.below(12):
            if self.below(2):
                return Expression("^", lambda: "", lambda subject, place: {place} if place == 0 else set())
            return Expression("$", lambda: "", lambda subject, place: {place} if place == len(subject) else set())
        part = self.atom(depth)
        if self.below(2):
            return part
        part = repeated(part, *self.random.choice(TIMES), self.random.randint)
        return part if self.below(10) else repeated(part, *self.random.choice(TIMES[:6]), self.random.randint)

    def branch(self, depth):
        return joined([self.piece(depth) for _ in range(1 + self.below(3) if self.below(15) else 0)])

    def branches(self, depth):
        parts = [self.branch(depth) for _ in range(self.random.choice([1, 1, 1, 2, 2, 3]))]
        return Expression("|".join(part.text for part in parts), lambda: self.random.choice(parts).made(), lambda subject, place: {end for part in parts for end in part.ends(subject, place)})

    def expression(self):
        while True:
            written = self.branches(2)
            if written.text and len(written.text) < 60:
                return written

    def subject(self, expression):
        """A text: random bytes, most often round one that the expression matches."""
        around = lambda: "".join(self.random.choice(BYTES) for _ in range(self.below(5)))
        held = "" if not self.below(5) else expression.made()[:20] + self.random.choice(["", "", expression.made()[:10]])
        subject = around() + held + around() if self.below(3) else held
        if subject and not self.below(4):
            at = self.below(len(subject))
            subject = subject[:at] + subject[at + 1 :]
        return subject


def quoted(text):
    escapes = {"\\": "\\\\", '"': '\\"', "\n": "\\n", "\t": "\\t", "\r": "\\r", "\v": "\\v", "\f": "\\f"}
    return '"' + "".join(escapes.get(c, c) for c in text) + '"'


def asked(expression, subject):
    """What is asked of an expression and a text."""
    lines = [f"s = {quoted(subject)}; r = {quoted(expression.text)}"]
    for e in (f"/{expression.text}/", "r"):
        lines += [
            f'printf "%d %d %d %d;", match(s, {e}), RLENGTH, s ~ {e}, s !~ {e}',
            f't = s; n = gsub({e}, "<&>", t); printf "%d %s;", n, t',
            f't = s; n = sub({e}, "[\\\\&]&", t); printf "%d %s;", n, t',
            f'n = split(s, p, {e}); printf "%d", n; for (i = 1; i <= n; i++) printf "<%s>", p[i]; print ";"',
        ]
    return "; ".join(lines)


def replaced(expression, subject, around):
    """The text with what stands for each match; an empty one counts where it does not stand directly behind another."""
    made, copied, at, behind, count = "", 0, 0, None, 0
    while at <= len(subject) and (match := expression.found(subject, at)):
        begin, end = match
        if begin != end or begin != behind:
            made += subject[copied:begin] + around(subject[begin:end])
            copied = behind = end
            count += 1
        at = end if end > begin else end + 1
    return count, made + subject[copied:]


def parts_of(expression, subject):
    """The parts of a text between the matches that are not empty."""
    parts, at = [], 0
    while match := expression.found(subject, at, 1):
        parts.append(subject[at : match[0]])
        at = match[1]
    return parts + [subject[at:]] if subject else []


def parts_by(text, subject):
    """The parts of a text where the separator is a text of one byte, which is no expression: a space stands for runs of blanks."""
    if text == " ":
        return [part for part in re.split("[ \t\n]+", subject) if part]
    return subject.split(text) if subject else []


def defined(expression, subject):
    """What the definition answers."""
    match = expression.found(subject, 0)
    begin, length = (match[0] + 1, match[1] - match[0]) if match else (0, -1)
    once = subject[: begin - 1] + "[&]" + subject[begin - 1 :] if match else subject
    text = f"{begin} {length} {int(bool(match))} {int(not match)};"
    text += "%d %s;" % replaced(expression, subject, lambda it: f"<{it}>")
    text += f"{int(bool(match))} {once};"
    by_constant = parts_of(expression, subject)
    by_text = parts_by(expression.text, subject) if len(expression.text) == 1 else by_constant
    return "".join(f"{text}{len(parts)}" + "".join(f"<{part}>" for part in parts) + ";\n" for parts in (by_constant, by_text))


def answers(awk, programs):
    """What an awk writes for each, or None and why: it fails, or comes to no end."""
    program = "\n".join(["BEGIN {", *(f'{it}; print "\\002"' for it in programs), "}"])
    try:
        done = subprocess.run([*awk, program], capture_output=True, timeout=SECONDS, env={**os.environ, "LC_ALL": "C"})
    except subprocess.TimeoutExpired:
        return None, NO_END
    parts = done.stdout.decode("latin-1").split("\002\n")
    if done.returncode or len(parts) != len(programs) + 1:
        return None, done.stderr.decode(errors="replace").strip()
    return parts[:-1], ""


def answers_each(awk, programs):
    """What an awk writes for each; where it fails on all, each is asked alone, and why it fails stands in place of an answer."""
    parts, why = answers(awk, programs)
    if parts is not None:
        return parts
    if len(programs) == 1:
        return [why]
    return [part for program in programs for part in answers_each(awk, [program])]


def judged(rawk, awk, seed, count):
    """What was asked of a number of expressions, with the answers here, there and by the definition, where these are not all the same."""
    programs, wanted = [], []
    for number in range(seed, seed + count):
        writer = Writer(number)
        expression = writer.expression()
        for _ in range(TEXTS):
            subject = writer.subject(expression)
            programs.append(asked(expression, subject))
            wanted.append(defined(expression, subject))
    answered = zip(programs, answers_each([rawk], programs), answers_each(awk, programs), wanted)
    return [it for it in answered if not it[1] == it[2] == it[3]]


def main():
    words = argparse.ArgumentParser(description=__doc__.splitlines()[0])
    words.add_argument("--rawk", default=os.path.join(os.path.dirname(os.path.abspath(__file__)), "..", "bin", "rawk"))
    words.add_argument("--awk", default="gawk --posix")
    words.add_argument("--seed", type=int, default=1)
    words.add_argument("--all", action="store_true")
    words.add_argument("count", type=int)
    given = words.parse_args()
    starts = range(given.seed, given.seed + given.count, BATCH)
    judge = lambda start: judged(given.rawk, given.awk.split(), start, min(BATCH, given.seed + given.count - start))
    wrong = beside = endless = 0
    with ThreadPoolExecutor(2) as pool:
        for differences in pool.map(judge, starts):
            for program, ours, theirs, wanted in differences:
                wrong += ours != wanted
                beside += ours != theirs
                endless += theirs == NO_END
                if given.all or ours != wanted:
                    print(f"BEGIN {{ {program} }}\n-- here\n{ours!r}\n-- there\n{theirs!r}\n-- as defined\n{wanted!r}\n", flush=True)
    print(f"{given.count} expressions in {TEXTS} texts each: {wrong} of {given.count * TEXTS} answers here are not as defined; {beside} differ there, of which {endless} came to no end")
    return 1 if wrong else 0


if __name__ == "__main__":
    sys.exit(main())
