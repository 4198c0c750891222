"""The layout of P4 texts, as docs/P4.md has it: from a text in any layout, the text as the program writes it.

It is written from the rules alone, with a stack of brackets where the program keeps counts, so that rows that are worked
by hand can be written in whatever lines are easiest to read."""
import re

TOKEN = re.compile(
    r"#include *<[a-z0-9.]+>|[A-Za-z_][A-Za-z_0-9]*|[0-9][A-Za-z_0-9]*|\"[^\"\n]*\""
    r"|\|\+\||\|-\||&&&|&&|\|\||==|!=|<=|>=|<<|>>|\+\+|\.\.|[{}()\[\]<>;:,.=+\-*/%&|^~!?@#]|\s+|//[^\n]*|/\*.*?\*/",
    re.DOTALL)
LEVELS = 12
# Marks that might be read as one with a mark right behind them.
JOINED = set("|+-&=!<>./*")


def tokens_of(text):
    place, out = 0, []
    while place < len(text):
        found = TOKEN.match(text, place)
        if not found:
            raise ValueError(f"no token at {text[place:place + 20]!r}")
        place = found.end()
        token = found.group()
        if not token.isspace() and not token.startswith(("//", "/*")):
            out.append(token)
    return out


def is_word(token):
    return re.match(r"[A-Za-z_0-9]", token) is not None


def laid(text):
    """The text, laid out. In a text whose `>>` closes two types a blank has to stand between them."""
    out, stack, last = [], [], None  # last: the last token and what it is
    for token in tokens_of(text):
        kind = token
        if token.startswith("#include"):
            kind = "include"
        elif token == "<" and last and last[0] in ("bit", "register"):
            kind = "type<"
        elif token == ">" and stack and stack[-1] == "type<":
            kind = "type>"
        elif token in "{}" and "(" in stack:
            kind = "list" + token
        elif token in ("!", "~") or (token == "-" and last and last[1] == "("):
            kind = "prefix"
        elif token == ":":
            kind = "slice:" if stack and stack[-1] == "[" else "operator:" if "(" in stack else ":"
        if kind in (")", "]", "}", "type>", "list}"):
            stack.pop()
        depth = stack.count("{")
        out.append(gap(last, token, kind, depth))
        out.append(token)
        if kind in ("(", "[", "{", "type<", "list{"):
            stack.append(kind)
        last = token, kind
    return "".join(out) + "\n"


def gap(last, token, kind, depth):
    if last is None:
        return ""
    line = "\n" + "    " * min(depth, LEVELS)
    before, behind = last
    if kind == "}":
        return " " if behind == "{" else line
    if behind == "include":
        return "\n" if kind == "include" else "\n\n"
    if behind == "}" and token == "else":
        return " "
    if behind in ("{", "}", ";"):
        return line if depth else "\n\n"
    close = (kind in (";", ",", ")", "]", "[", ".", ":", "slice:", "type<", "type>")
             or behind in ("(", "[", ".", "slice:", "type<", "prefix")
             or (kind == "(" and (behind == "type>" or is_word(before) and before not in ("if", "else", "bit", "register"))))
    one = is_word(before) and is_word(token) or before[0] in JOINED and token[0] in JOINED
    return "" if close and not one else " "
