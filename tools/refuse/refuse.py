#!/usr/bin/env python3
"""Refuses each growth in turn of a built `rawk`, and each with all that follow it, and looks at what comes of it.

    tools/refuse/refuse.py PROGRAM

A run must answer what it answers with ample memory, or `out of memory` behind a beginning of that output.
A session must write nothing and answer `out of memory`, or give each command the answer that a session with ample memory gives at
the same point with the same sets, breakpoints and watches; or C12 where the answer was lost, of a move that goes forward perhaps on its way; or C11, but not to what
goes back: a command that does not move has then changed nothing, and a move stands at a point on its way, from which the session goes on. A session with a megabyte of commands is refused all memory from its middle on:
each command that goes back must still be carried out, each line that is too long answered C11, and the session come to its end.
The last lines are 'N growths refused' and 'N passed, M failed', of programs and sessions; the status is 1 where one failed.
"""
import os
import subprocess
import sys
import tempfile
import threading
from concurrent.futures import ThreadPoolExecutor

HERE = os.path.dirname(os.path.abspath(__file__))
sys.dont_write_bytecode = True
sys.path.append(os.path.dirname(HERE))

import kit

MARK = b"C1: unknown command\n"  # the answer to a line that no command is; it takes no memory
LOST, REFUSED = b"C12: answer lost\n", b"C11: out of memory\n"
BACK = {"reverse-step", "rs", "reverse-next", "rn", "reverse-continue", "rc", "reverse-finish", "reverse-set"}
ALL = 2**62  # behind the last growth of any process

RUNS = [
    (["{ s += $1 } END { print s }"], b"3\n4\n"),
    (["-v", "x=a\\tlong text, longer than a word", "-vy=1", "-F, *", "{ print x, y, $2 }"], b"a, b\n"),
    (['{ printf "%s|%40d\\n", toupper($1) substr($0, 2, 30), index($0, "b"); x = sprintf("%40s", length) } END { print x, int("7.5") }'], b"a text longer than a word\nb\n"),
    (['/a(b|c)+$/ { n++ } $1 ~ $2 "x*", !/c/ { m += $0 ~ "b{2,9}" } END { for (i = 0; i < 4; i++) k += ("x" i % 2) ~ ("x|" i % 2); print n, m, k }'], b"abcb a\nb abb\nc\n"),
    (['function f(t, k, u, v) { v[k " of this call"] = k; n += split($0 " and a text longer than a word", u, k); for (j in u) t[j] = t[j] u[j] v[k " of this call"]; return length(k) < 3 ? f(t, k "b") + length(u) : length(v) } { n += f(a, $1); split($0, b); x = x b[1] } END { print n, length(a), a[1], x }'], b"a text longer than a word\nb\n"),
    (['{ getline x; n += getline a[$1 " and a text longer than a word"]; getline $3; s = s x $0 ";" } END { for (k in a) s = s k a[k]; print s, n, getline y, getline b[1], length(b), NR }'], b"a text longer than a word\nb\nc d e f g h i j k l m\nd e\nf\n"),
    (["{ print $2, NR } END { print NR }"], b"a b\nc\n"),
    (['BEGIN { x = "a long text, longer than a word"; print x, x; print 1 + 2 }'], b""),
    (["--steps", "6", "{ print }"], b"a\nb\n"),
    (["BEGIN { x = 9223372036854775807; print x; print x + 1 }"], b""),
    (['function f(n, t) { t = t "a text longer than a word"; return n < 1 ? t : f(n - 1, t) } BEGIN { print f(40) }'], b""),
    (['{ s = s $1 ","; t = s; s = s NR "a text longer than a word"; x = x s "y" $2; y = "z" x $1 "z" } END { print s, t, x, y }'], b"a text\nlonger than a word\n"),
    (['function f(t) { t = t "xyz"; return t t "z" } BEGIN { for (i = 0; i < 12; i++) { s = s "xyz"; if (i % 4 == 1) { k = s; k = k "a" "b"; n = i; n = n k } } print f(s), k, n }'], b""),
    (['BEGIN { getline; x = $2; while (getline > 0) { n += NF; s = s $1 } print x, n, s, getline }'], b"a text longer than a word\nb c d\n\ne\n"),
    (['{ $3 = $1 " longer than a word"; NF = 4; $0 = $0 " and more"; n += gsub(/[aeiou]+/, "<&&>") + sub("x*", "\\\\&", $2); $(NF - 1)++; print match($0, "b+"), RSTART, $0 }'], b"a text longer than a word\nb\n"),
    (['{ n[$1, "a text longer than a word"]++; s[$2] = s[$2] $1 ","; k = k ($1 in s) } END { print n["a", "a text longer than a word"], s["b"], (("a", "b") in n), k, length(t[s["b"]]) }'], b"a b\nb text\na b\n"),
    (['function f(k) { return a[k] = a[k - 1] "xyz" } BEGIN { for (i = 0; i < 12; i++) { f(i); n += gsub(/y/, "<&>", a[i]) + sub(/q/, "z", b[a[i]]) } print n, a[3], (12 in a), (a[4] in b); a[12] += "1.5" }'], b""),
    (['{ for (i = 1; i <= NF; i++) n[$i, "a text longer than a word"]++ } END { for (k in n) { s = s k; delete n[k]; n["again " k] } for (k in n) for (j in n) if (k < j) break; else m += length(n); delete n; print length(n), length(s), m }'], b"to be or\nnot to be\n"),
    (['function f(d, k) { for (k in a) for (j in a) { if (d > 0) f(d - 1); if (k == j) return k } } { a[$1 " longer than a word"]; for (NF in a) x = x f(2); for (k in a) if (NR == 2) exit; else delete a } END { for (k in a) print k, x }'], b"a\nb\nc\n"),
    (['function g(t, i, w) { w[i] = "a text longer than a word"; t[i] = w[i] i; if (i == 3) exit; if (i > 1) next; return length(t) } function f(i, w) { g(w, i); s = s w[i]; return g(a, i) } { print f($1) } END { print s, length(a), a[3] }'], b"1\n2\n0\n3\n"),
    (['function f() { if (NR == 2) next; return 1 + g() } function g() { exit 3 } { print f() } END { print NR }'], b"a\nb\n"),
]

SESSIONS = [
    ("BEGIN { x = 1; x = x + 1; print x }", b"", ["step", "step", "print x", "reverse-step", "print x", "reverse-continue", "step", "step", "step", "step"]),
    ("{ n += $1 } END { print n }", b"3\n4\n", ["watch n", "continue", "print $1", "c", "set n=10", "watch $1", "rc", "rc", "c", "unwatch 1", "set NF=-1", "reverse-set", "set n=5", "step", "rs", "reverse-set", "rn", "break 1", "c", "delete 3", "print q", "c", "set n=1", "rc"]),
    ("function sq(n) {\n t = t + 1\n return n * n\n}\nBEGIN {\n s = sq(3)\n s = s + sq(4)\n print s, t\n}", b"", ["next", "break sq", "next", "backtrace", "print n", "set n=5", "finish", "print s", "reverse-continue", "print n", "reverse-set", "watch t", "rc", "reverse-finish", "delete 1", "reverse-finish", "continue", "rc"]),
    ('{ $2 = "a text longer than a word"; NF = 1; n = gsub(/b/, "&, longer than a word"); $3 = n }', b"b c d\n", ["continue", "rs", "rs", "print $0", "set $2=\"q\"", "rs", "rs", "print $0", "watch NF", "continue", "step", "print $3", "rc", "reverse-set", "continue", "rc"]),
    ('{ a[$1]; a["a text longer than a word"] = $1 } END { for (k in a) { x = k; delete a[k]; for (j in a) x = x j } n = length(a); delete a; print x, n }', b"b\nc\n", ["continue", "rs", "rs", "rs", "print x", "rc", "watch x", "continue", "continue", "print k", "rs", "set k=\"another text that is longer\"", "rs", "step", "step", "print x", "continue", "continue", "rc", "reverse-set", "unwatch 1", "rc", "continue", "rc"]),
    ('function f(t, l) { l["a text longer than a word"] = $1; t[$2] = 1; getline t["q"]; return l["a text longer than a word"] } { a[$1] = f(b); getline x }', b"a text longer than a word\nb\nc\nd\n", ["step", "step", "step", "step", "step", "print l", "print t", "print t[\"q\"]", "set l[\"a text longer than a word\"]=\"another text that is longer\"", "set t[\"a key that is longer than a word\"]=1", "print l", "print b", "reverse-set", "print b", "finish", "print a", "print a[\"another text that is longer\"]", "continue", "print b", "rs", "set a[\"k\"]=\"another text that is longer\"", "print a", "rs", "rs", "print b", "rc", "continue"]),
    ('{ x = sprintf("%40s", substr($0, 2)); FS = ":"; printf "%s;%d", x, NR }', b"a text longer than a word\nb:c\n", ["step", "step", "step", "print x", "set OFS=\"a text longer than a word\"", "rs", "print x", "continue", "print x", "print $1", "rc", "continue"]),
    ("{ n += $1 } END { print n }", b"3\n4\n", ["continue", "print n", "rc", "step", "step", "step", "print $1", "rs", "print n", "continue", "rs", "backtrace"]),
    ('BEGIN { x = "a text"; y = x; print y, x }', b"", ["next", "next", "print y", "rn", "continue", "rc", "continue", "rs"]),
    ('{ x = $1; n = getline; y = $1 }', b"a text longer than a word\nb\nc\n", ["continue", "print y", "rs", "rs", "print $0", "rc", "step", "step", "step", "print $3", "set $0=\"another text that is longer\"", "rs", "step", "print $2", "continue", "rc", "continue"]),
    ('{ n[$1]++; x = x n[$1] ("b" in n); a[x, "a text longer than a word"] = x n["c"] }', b"a\nb\na\n", ["continue", "print x", "rs", "rs", "step", "rc", "watch x", "continue", "set x=\"another text that is longer\"", "step", "continue", "print n", "rs", "print x", "rc", "rc", "continue", "reverse-set", "rc", "unwatch 1", "continue", "rc"]),
    ('BEGIN { k = "a text longer than a word"; a[k]++; y = (k in a) a[k]; y = sub(/x/, "y", b[k, y]) / a[y] }', b"", ["step", "step", "step", "print y", "print a[\"k\"]", "rs", "set k=\"another text that is longer\"", "step", "print y", "continue", "rs", "rs", "reverse-set", "continue", "print y", "rc", "continue"]),
    ('function f(i) { for (i in a) for (j in a) if (i j == "a text longer than a word") return i } BEGIN { a["a text longer "]; a["than a word"]; for (k in a) x = f() k; delete a }', b"", ["step", "step", "step", "step", "step", "backtrace", "print i", "rs", "finish", "reverse-finish", "print k", "break f", "continue", "set i=\"another text that is longer\"", "step", "print i", "next", "rc", "rc", "reverse-set", "delete 1", "continue", "rs", "print x", "rc"]),
    ('function f(t, k, u) { u[k] = k; t[k] = u[k] "!"; return split(t[k] " longer than a word", u, / /) } { n = f(a, $1 " text"); m = split($0, b) } END { for (k in b) x = x b[k]; print x, n, m }', b"a text longer than a word\nb c\n", ["step", "step", "step", "step", "backtrace", "print u", "print t", "finish", "continue", "rs", "rs", "print x", "rc", "break f", "continue", "step", "step", "set k=\"another text that is longer\"", "finish", "rs", "print k", "rc", "reverse-set", "delete 1", "continue", "rc", "continue"]),
    ('{ n[$1]++; x = n["a text longer than a word"] n["b"]; delete n[$1] } END { n["b"] = x "!" }', b"a text longer than a word\nb\n", ["watch n[\"a text longer than a word\"]", "watch n[\"b\"]", "continue", "continue", "print n", "rc", "rs", "set n[\"b\"]=\"another text that is longer\"", "watch n[7]", "step", "rc", "rc", "reverse-set", "unwatch 1", "continue", "rc", "continue", "continue"]),
    ('{ x = $1 ~ r; r = $2 }', b"abc b+\nd (e|f)*g\n", ["continue", "rs", "rs", "set $2=\"a text longer than a word\"", "print $0", "set NF=3", "set $0=\"p:q  r\"", "print $2", "set FS=\":\"", "set $0=\"p:q  r\"", "print $2", "rs", "step", "step", "set r=\"[\"", "continue", "print r", "rc", "continue"]),
    ('BEGIN { s = "a text"; t = s; s = s " longer than a word"; s = s "!"; t = t "?"; print s, t }', b"", ["continue", "print s", "rs", "rs", "print t", "rs", "print s", "step", "print s", "set s=\"another text that is longer\"", "watch s", "continue", "print s", "rc", "continue", "rs", "reverse-set", "rc"]),
    ('BEGIN { s = "' + "a" * 300 + '"; s = s "b"; t = s; s = s " longer than a word"; s = s "!"; print length(s), length(t) }', b"", ["watch s", "continue", "continue", "continue", "continue", "rc", "rc", "continue", "rs", "rs", "set s=\"x\"", "step", "print s", "rs", "reverse-set", "continue", "continue", "continue", "rc"]),
    ('function f(n) { return n < 1 ? "a text longer than a word" : f(n - 1) } BEGIN { x = f(30); print x }', b"", ["break f", "continue", "continue", "backtrace", "delete 1", "finish", "rs", "rc", "continue", "rc"]),
]


def library(folder):
    """The library that refuses growths, made by the compiler of the toolchain."""
    path = os.path.join(folder, "refuse.so")
    beside = os.path.dirname(os.path.dirname(os.path.realpath(kit.rt())))
    words = [f"{beside}/toolchain/bin/clang", "-O2", "-shared", "-fPIC", "-nostdlib", "-fuse-ld=lld", "-o", path, os.path.join(HERE, "refuse.c")]
    subprocess.run(words, check=True)
    return path


class Try:
    """A program or a session, of which each growth is refused."""

    def __init__(self, rawk, so, folder):
        self.rawk, self.so, self.folder = rawk, so, folder
        self.refused, self.wrong, self.plain = 0, [], {}

    def call(self, words, stdin, at, to):
        """What the program wrote, its error lines, its status, and whether a growth was refused, of those from one number to another."""
        env = dict(os.environ)
        r, w = os.pipe()
        if at:
            env.update(LD_PRELOAD=self.so, REFUSE_AT=str(at), REFUSE_TO=str(to), REFUSE_TELL=str(w))
        done = subprocess.run([self.rawk, *words], input=stdin, capture_output=True, env=env, pass_fds=(w,), timeout=60)
        os.close(w)
        told = os.read(r, 1)
        os.close(r)
        return done.stdout, done.stderr, done.returncode, bool(told)

    def run(self, words, stdin, more):
        """Tries a run: each growth alone, or with `more` behind it."""
        out, err, status, _ = self.call(words, stdin, 0, 0)
        at = 0
        while True:
            at += 1
            got, told, code, refused = self.call(words, stdin, at, at + more)
            if not refused:
                return
            self.refused += 1
            whole = (got, told, code) == (out, err, status)
            memory = code == 2 and told in (b"rawk: out of memory\n", b"rawk: line 1: out of memory\n") and out.startswith(got)
            if not (whole or memory):
                self.wrong.append(f"{words} growth {at}: {got!r} {told!r} {code}")

    def answers(self, program, stdin, commands, at=0, to=0):
        """The answer to each command, or None where the session did not stand."""
        path = os.path.join(self.folder, "commands")
        with open(path, "w") as file:
            for command in commands:
                file.write(command + "\nmark\n")
        got, told, code, refused = self.call(["--debug", path, program], stdin, at, to)
        return got.split(MARK)[:-1], told, code, refused, got.count(MARK)

    def answer_behind(self, program, stdin, done, command):
        """The answer to a command behind others, with ample memory."""
        key = (program, stdin, tuple(done), command)
        if key not in self.plain:
            self.plain[key] = self.answers(program, stdin, [*done, command])[0][-1]
        return self.plain[key]

    def session(self, program, stdin, commands, more):
        """Tries a session: each growth alone, or with `more` behind it."""
        at = 0
        while True:
            at += 1
            got, told, code, refused, marks = self.answers(program, stdin, commands, at, at + more)
            if not refused:
                return
            self.refused += 1
            if code == 2 and told == b"rawk: out of memory\n" and marks == 0:
                continue  # before the session stood
            if code != 0 or marks != len(commands):
                self.wrong.append(f"{program} growth {at}: {told!r} {code} {marks}")
                continue
            places = {(0, ())}  # where it may stand: a point, and the commands that lead there
            for command, answer in zip(commands, got):
                behind = {it for place in places for it in self.places_behind(program, stdin, place, command, answer, more)}
                if not behind:
                    point, done = min(places)
                    self.wrong.append(f"{program} growth {at} {command} at {point}: {answer!r}, not {self.answer_behind(program, stdin, done, command)!r}")
                    break
                places = behind

    def places_behind(self, program, stdin, place, command, answer, more):
        """Where a session may stand that answers a command so: it was carried out, it changed nothing, or it moved to a point on its way, which is as many steps. That such a move
        also lost its answer takes more than one refusal."""
        point, done = place
        want = self.answer_behind(program, stdin, done, command)
        end = point_of(want, point)
        if answer in (want, LOST):
            yield end, (*done, command)
        if answer == REFUSED and command not in BACK:
            yield place
        elif REFUSED in answer and point <= point_of(answer, point) <= end:
            there = point_of(answer, point)
            yield there, (*done, *["step"] * (there - point))
        if answer == LOST and more and command not in BACK:
            for there in range(point, end):
                yield there, (*done, *["step"] * (there - point))

    def long_session(self):
        """A session over 60,000 points, with memory, then without, and at its end with some again."""
        program, flag = "BEGIN { while (n < 30000) n = n + 1; print n }", os.path.join(self.folder, "flag")
        talk = Talk(self.rawk, program, self.so, flag)
        place = point_of(talk.ask(["continue"])[0], 0) - 100
        talk.ask(["reverse-step"] * 100 + [f"set n={number}" for number in range(2000)])
        taken = talk.ask(["reverse-set"] * 1500, refused=True)
        self.all_done("reverse-set", taken, b"set taken back\n")
        if talk.ask(["print n"]) != [b"n = 499\n"]:
            self.wrong.append("sets are not taken back")
        long = "x" * 70000
        commands = ([long, "step"] + ["reverse-step"] * 6000) * 5 + [long] + ["reverse-next"] * 10000
        answers = talk.ask(commands, refused=True)
        if len(answers) != len(commands):
            self.wrong.append(f"a long session has ended: {len(answers)} answers")
            return
        for command, answer in zip(commands, answers):
            if command == long and answer != REFUSED:
                self.wrong.append(f"a long line: {answer[:80]!r}")
            elif command in BACK:
                place -= 1
                self.all_done(command, [answer], b"point %d, " % place)
            elif command == "step":
                place += not REFUSED in answer
        back, shown = talk.ask(["reverse-step", "print n"])
        code = talk.end()
        with_memory = Talk(self.rawk, program, self.so, flag)
        last = point_of(with_memory.ask(["continue"])[0], 0)
        want = with_memory.ask(["reverse-step"] * (last - place + 1) + ["print n"])[-2:]
        if [back, shown] != want or code != 0 or with_memory.end() != 0:
            self.wrong.append(f"a long session: {code}, {back!r} {shown!r}, not {want!r}")

    def all_done(self, command, answers, begun):
        """Each answer begins so, or is lost."""
        for answer in answers:
            if answer != LOST and not answer.startswith(begun):
                self.wrong.append(f"{command}: {answer!r}, not {begun!r}")


class Talk:
    """A session that is asked in parts; all growths of a part may be refused."""

    def __init__(self, rawk, program, so, flag):
        with open(flag, "wb") as file:
            file.write(b"\0")
        self.flag = flag
        env = dict(os.environ, LD_PRELOAD=so, REFUSE_FLAG=flag)
        self.process = subprocess.Popen([rawk, "--debug", "-", program, "/dev/null"], stdin=subprocess.PIPE, stdout=subprocess.PIPE, env=env, bufsize=0)

    def ask(self, commands, refused=False):
        """The answers to these commands."""
        with open(self.flag, "r+b") as file:
            file.write(b"\1" if refused else b"\0")
        lines = "".join(f"{command}\nmark\n" for command in commands).encode()
        writer = threading.Thread(target=self.send, args=(lines,))
        writer.start()
        got, counted, marks = bytearray(), 0, 0
        while marks < len(commands):
            part = self.process.stdout.read(1 << 20)
            if not part:
                break
            got += part
            while (at := got.find(MARK, counted)) >= 0:
                counted, marks = at + len(MARK), marks + 1
        writer.join()
        return bytes(got).split(MARK)[:-1]

    def send(self, lines):
        try:
            while lines:
                lines = lines[self.process.stdin.write(lines):]
        except BrokenPipeError:
            pass

    def end(self):
        self.process.stdin.close()
        return self.process.wait(60)


def point_of(answer, point):
    """The number on the place line of a move's answer; the point before for another answer."""
    for line in answer.decode("latin-1").splitlines():
        if line.startswith("point "):
            point = int(line[6:].split(",")[0])
    return point


def tried(rawk, so, call):
    """A call of a `Try`, done."""
    with tempfile.TemporaryDirectory() as folder:
        done = Try(rawk, so, folder)
        call(done)
        return done


def calls_of(runs, sessions):
    """A call of a `Try` for each run and each session, alone and with all behind it."""
    for more in (0, ALL):
        for words, stdin in runs:
            yield lambda it, words=words, stdin=stdin, more=more: it.run(words, stdin, more)
        for program, stdin, commands in sessions:
            yield lambda it, program=program, stdin=stdin, commands=commands, more=more: it.session(program, stdin, commands, more)


def main(words):
    rawk = os.path.abspath(words[0])
    calls = [*calls_of(RUNS, SESSIONS), Try.long_session]
    with tempfile.TemporaryDirectory() as folder, ThreadPoolExecutor(os.cpu_count()) as lanes:
        so = library(folder)
        done = list(lanes.map(lambda call: tried(rawk, so, call), calls))
    for it in done:
        for what in it.wrong:
            print("wrong:", what)
    failed = sum(bool(it.wrong) for it in done)
    print(f"{sum(it.refused for it in done)} growths refused")
    print(f"{len(done) - failed} passed, {failed} failed")
    return 1 if failed else 0


if __name__ == "__main__":
    sys.exit(main(sys.argv[1:]))
