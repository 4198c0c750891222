"""Reads files of cases, whose form README.md beside this file says."""

import os
import re

import layout

HERE = os.path.dirname(os.path.realpath(__file__))
TOP = os.path.dirname(HERE)


class Broken(Exception):
    """A file of cases that is not in the form that README.md says."""


class Case:
    def __init__(self, name, base=None):
        self.name = name
        self.line = {**base.line} if base else {}  # words, then, status, out, why
        self.lets = {**base.lets} if base else {}
        self.given = {**base.given} if base else {}
        self.wanted = {**base.wanted} if base else {}
        self.lacking = {**base.lacking} if base else {}
        self.changes = []  # a file's name, what stands in it, and what is to stand there
        self.quotes = []

    def text(self, text):
        """Returns the text with each hole filled: `${NAME}`, and `${N*|TEXT|}`, in which `#n` counts from 0."""

        def fill(hole):
            if hole[1]:
                return "".join(hole[2].replace("#n", str(it)) for it in range(int(hole[1])))
            name = hole[3] or hole[4]
            if name not in self.lets:
                raise Broken(f"{self.name}: no `let {name}`")
            whole = self.text(self.lets[name])
            # A hole that has a line of its own takes the line away where it is filled with nothing.
            return whole + "\n" if whole and hole[3] else whole

        return re.sub(r"\$\{(\d+)\*\|(.*?)\|\}|(?m:^\$\{(\w+)\}\n)|\$\{(\w+)\}", fill, text, flags=re.S)

    def bytes(self, kind, value):
        """Returns the bytes that a value of this kind is."""
        if kind == "text":
            return self.text(value).encode()
        if kind == "lines":
            return (self.text(value) + "\n").encode() if value else b""
        if kind == "p4":
            return layout.laid(self.text(value)).encode()
        if kind == "hex":
            return b"".join(bytes_of(it) for it in self.text(value).split())
        if kind == "copy":
            with open(os.path.join(TOP, value), "rb") as it:
                return it.read()
        if kind == "same":
            return self.bytes(*self.given[value])
        if kind == "any":
            return b""
        raise Broken(f"{self.name}: no kind `{kind}`")

    def files(self, of):
        return {self.text(name): self.bytes(*it) for name, it in of.items() if it[0] not in ("none", "folder")}

    def folders(self):
        return [self.text(name) for name, it in self.given.items() if it[0] == "folder"]

    def inputs(self):
        """Returns the files that are given, changed as the case says."""
        files = self.files(self.given)
        for name, old, new in self.changes:
            if new is None or old.encode() not in files[name]:
                raise Broken(f"{self.name}: {name} has no such text to change")
            files[name] = files[name].replace(old.encode(), self.text(new).encode(), 1)
        return files


def bytes_of(item):
    """Returns the bytes of `HEX` or `HEX*N`."""
    digits, _, times = item.partition("*")
    return bytes.fromhex(digits) * int(times or 1)


def items_of(path):
    """Returns the lines of a file of cases as pairs of key and value, and the number of each pair's line."""
    with open(path, encoding="utf-8", newline="") as it:
        lines = it.read().split("\n")
    at = 0
    while at < len(lines):
        line, number = lines[at], at + 1
        at += 1
        if not line or line.startswith("#"):
            continue
        if line.startswith("== "):
            yield "==", line[3:].strip(), number
            continue
        key, colon, value = line.partition(":")
        if not colon or line[0] in " |":
            raise Broken(f"{path}:{number}: no line of a case: {line[:60]}")
        block = []
        while not value and at < len(lines) and lines[at].startswith("|"):
            # Behind the bar and one blank stands the line itself.
            block.append(lines[at][2:] if lines[at].startswith("| ") else lines[at][1:])
            at += 1
        yield key, "\n".join(block) if block else value[1:] if value.startswith(" ") else value, number


def cases_of(path):
    """Returns the cases of a file."""
    named = os.path.relpath(path, HERE).removesuffix(".cases")
    cases, base, case, names = [], Case("base"), None, set()
    for key, value, number in items_of(path):
        first, _, rest = key.partition(" ")
        if key == "==":
            if value in ("base", "base +"):
                case = base = Case("base", base if value == "base +" else None)
                continue
            if value in names:
                raise Broken(f"{path}:{number}: two cases are named {value}")
            names.add(value)
            case = Case(f"{named}: {value}", base)
            cases.append(case)
        elif case is None:
            raise Broken(f"{path}:{number}: a case begins with `== NAME`")
        elif key in ("words", "then", "status", "out", "why"):
            case.line[key] = value
        elif first == "let" and rest:
            case.lets[rest] = value
        elif first in ("give", "want") and " " in rest:
            kind, _, name = rest.partition(" ")
            (case.given if first == "give" else case.wanted)[name] = (kind, value)
        elif first == "lack" and rest:
            case.lacking[rest] = value.split()
        elif first == "change" and rest:
            case.changes.append([rest, value, None])
        elif first == "to" and case.changes and case.changes[-1][0] == rest:
            case.changes[-1][2] = value
        elif first == "quote" and rest:
            case.quotes.append((rest, value))
        else:
            raise Broken(f"{path}:{number}: no such key: {key}")
    for case in cases:
        for it in ("words", "status", "out", "why"):
            if it not in case.line:
                raise Broken(f"{case.name}: no `{it}`")
    return cases


def files_below(folder):
    return sorted(os.path.join(at, it) for at, _, names in os.walk(folder) for it in names)
