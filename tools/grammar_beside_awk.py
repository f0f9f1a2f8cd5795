#!/usr/bin/env python3
"""Holds the trees of crates/rows, in its file of texts, against the code that mawk makes of the same texts.

Each tree is written back as a text in which every operation has its parentheses; both texts must be the same code to mawk. It
prints the rows where they are not, and those that are refused here by the grammar or by mawk alone. docs/DECISIONS.md says why.
"""
import os
import re
import subprocess

from rows_beside_awk import lines_of, unescaped

WORD = re.compile(r"[^ ()]*")
BINARY = {"+", "-", "*", "/", "%", "^", "<", "<=", "==", "!=", ">", ">=", "~", "!~", "&&", "||", "in"}
ASSIGNMENTS = {"=", "+=", "-=", "*=", "/=", "%=", "^="}


def node(text, at):
    """A part of a tree as a tuple with its head, or a leaf as ('leaf', its text)."""
    if text[at] == '"':
        end = re.compile(r'"(?=[ )]|$)').search(text, at + 1).start()
        inner = text[at + 1 : end].replace("\\", "\\\\").replace('"', '\\"').replace("\t", "\\t")
        return ("leaf", f'"{inner}"'), end + 1
    if text[at] == "/":
        end = re.compile(r"/(?=[ )]|$)").search(text, at + 1).end()
        return ("leaf", text[at:end]), end
    if text[at] != "(":
        word = WORD.match(text, at).group()
        return ("leaf", word), at + len(word)
    head = WORD.match(text, at + 1)
    parts, at = [head.group()], head.end()
    while text[at] != ")":
        part, at = node(text, at + 1)
        parts.append(part)
    return tuple(parts), at + 1


def place(tree):
    if tree[0] != "$":
        return expr(tree)
    return f"${tree[1][1]}" if tree[1][0] == "leaf" else f"$({expr(tree[1])})"


def exprs(trees):
    return ", ".join(map(expr, trees))


def expr(tree):
    """An expression with its parentheses."""
    head, *parts = tree
    if head == "leaf":
        return parts[0]
    if head == "at":
        return f"{parts[0][1]}[{exprs(parts[1:])}]"
    if head == "$":
        return f"({place(tree)})"
    if head == "after":
        return f"({place(parts[0])}{parts[1][1]})"
    if head in ("++", "--"):
        return f"({head}{place(parts[0])})"
    if head in ASSIGNMENTS:
        return f"({place(parts[0])} {head} {expr(parts[1])})"
    if head == "group":
        return f"({expr(parts[0])})"
    if head == "list":
        return f"({exprs(parts)})"
    if head == "join":
        return f"({expr(parts[0])} {expr(parts[1])})"
    if head == "?:":
        return "({} ? {} : {})".format(*map(expr, parts))
    if head in BINARY and len(parts) == 2:
        return f"({expr(parts[0])} {head} {expr(parts[1])})"
    if head in ("+", "-", "!"):
        return f"({head} {expr(parts[0])})"
    if head == "call":
        return f"{parts[0][1]}({exprs(parts[1:])})"
    if head == "getline":
        return f"(getline {place(parts[0])})" if parts else "(getline)"
    if head in ("sub", "gsub") and len(parts) == 3:
        return f"{head}({exprs(parts[:2])}, {place(parts[2])})"
    return f"{head}({exprs(parts)})" if parts else f"({head})"


def simple(tree):
    """A simple statement with no end; one that is missing is nothing."""
    head, *parts = tree
    if tree == ("",):
        return ""
    if head in ("print", "printf"):
        return f"{head}({exprs(parts)})" if parts else head
    if head == "delete":
        return f"delete {expr(parts[0])}"
    return expr(tree)


def stmt(tree):
    """A statement with its end, whose bodies are in braces."""
    head, *parts = tree
    if head == "empty":
        return ";"
    if head == "block":
        return "{ " + " ".join(map(stmt, parts)) + " }"
    if head == "if":
        last = f" else {{ {stmt(parts[2])} }}" if len(parts) > 2 else ""
        return f"if ({expr(parts[0])}) {{ {stmt(parts[1])} }}{last}"
    if head == "while":
        return f"while ({expr(parts[0])}) {{ {stmt(parts[1])} }}"
    if head == "do":
        return f"do {{ {stmt(parts[0])} }} while ({expr(parts[1])});"
    if head == "for":
        test = "" if parts[1] == ("",) else expr(parts[1])
        return f"for ({simple(parts[0])}; {test}; {simple(parts[2])}) {{ {stmt(parts[3])} }}"
    if head == "for-in":
        return f"for ({expr(parts[0])} in {expr(parts[1])}) {{ {stmt(parts[2])} }}"
    if head in ("next", "break", "continue"):
        return head + ";"
    if head in ("exit", "return"):
        return f"{head} {exprs(parts)};"
    return simple(tree) + ";"


def item(tree):
    """An item on lines of its own."""
    head, *parts = tree
    if head == "function":
        name, parameters, *body = parts
        return f"function {name[1]}({exprs(parameters[1:])}) {{ {' '.join(map(stmt, body))} }}"
    if head == "when":
        pattern = exprs(parts[0][1:]) if parts[0][0] == "range" else expr(parts[0])
        return pattern + ("".join(" " + stmt(part) for part in parts[1:]))
    return ("" if head == "always" else head + " ") + "{ " + " ".join(map(stmt, parts)) + " }"


def text_of(answer):
    """A program's tree as a text."""
    items, at = [], 0
    while at < len(answer):
        tree, at = node(answer, at)
        items.append(item(tree))
        at += 1
    return "\n".join(items)


def code_of(text):
    """The code that mawk makes of a text, or None where it refuses it. Functions that are called are defined."""
    for name in sorted(set(re.findall(r"\b([fgh])\(", text))):
        if not re.search(rf"function\s+{name}\b", text):
            text += f"\nfunction {name}(p, q) {{ }}"
    words = ["mawk", "-W", "dump", "-f", "/dev/stdin"]
    done = subprocess.run(words, input=text.encode("latin-1") + b"\n", capture_output=True, env={**os.environ, "LC_ALL": "C"})
    return None if done.returncode or b"rror" in done.stderr else re.sub(rb"0x[0-9a-f]+", b"", done.stdout)


def main():
    counts = {"same code": 0, "other code": 0, "refused by mawk alone": 0, "refused by both": 0, "refused here alone": 0}
    for number, line in lines_of("texts"):
        head, arrow, answer = line.rstrip("\n").rpartition(" =>")
        if not arrow or line.startswith("#") or "\t" in head or "\\{" in line:
            continue  # (a row with parts asks for something else than a tree)
        text, answer = unescaped(head), unescaped(answer[1:])
        theirs = code_of(text)
        if re.fullmatch(r"P[46] at line \d+", answer):
            continue  # numbers with fractions, and what the language leaves out
        if re.fullmatch(r"P\d+ at line \d+", answer):
            kind = "refused by both" if theirs is None else "refused here alone"
        elif theirs is None:
            kind = "refused by mawk alone"
        else:
            kind = "same code" if theirs == code_of(text_of(answer)) else "other code"
        counts[kind] += 1
        if kind not in ("same code", "refused by both"):
            print(f"line {number}: {kind}: {line.rstrip()}")
            if kind == "other code":
                print(f"    {text_of(answer)!r}")
    print(", ".join(f"{count} {kind}" for kind, count in counts.items()))


main()
