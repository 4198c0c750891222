"""Properties of Indus: how they are read, and what they do at a hop.

It is written from docs/INDUS.md alone. It takes properties that keep the rules: it refuses none, and says nothing of others."""

import re

TOKEN = re.compile(r"//[^\n]*|/\*.*?\*/|\s+|([A-Za-z_]\w*|\d\w*|&&|\|\||[=!<>]=|<<|>>|\S)", re.S)
# The operators of two sides, the loosest first. Those of one row group to the left.
LEVELS = ["||", "&&", "== !=", "< <= > >= in", "|", "^", "&", "<< >>", "+ -", "*"]
LEVELS = [it.split() for it in LEVELS]
TRUTHS = {"||", "&&", "==", "!=", "<", "<=", ">", ">=", "in"}
TRUTH = 1  # the width of a truth value


def number_of(text):
    """Returns the width that is written, or None, and the number."""
    text = text.replace("_", "")
    width, mark, digits = text.partition("w")
    if not mark:
        width, digits = None, text
    base = {"0x": 16, "0b": 2}.get(digits[:2].lower())
    return width and int(width), int(digits[2:], base) if base else int(digits)


class Declared:
    """A variable: its kind, the width of what it holds, its size where it is a list or an array, the widths of its keys, its
    first value, and its path in the packet."""

    def __init__(self, kind, name, width, size=None, keys=None, first=0, path=None, holds="one"):
        self.kind, self.name, self.width, self.size, self.keys = kind, name, width, size, keys
        self.first, self.path, self.holds = first, path, holds


class Property:
    """A property that is read from its text: its edition, its variables, and its blocks init, tele and checker."""

    def __init__(self, text):
        self.words = [it[1] for it in TOKEN.finditer(text) if it[1]]
        self.edition, self.reports = 1, 0
        if self.words[:1] == ["edition"]:
            self.edition = number_of(self.words[1])[1]
            del self.words[:3]
        self.variables = {}
        while self.words[0] != "{":
            it = self.declaration()
            self.variables[it.name] = it
        self.init, self.tele, self.checker = self.block(), self.block(), self.block()

    def of(self, kind):
        return [it for it in self.variables.values() if it.kind == kind]

    # ---- tokens

    def take(self, *wanted):
        """Takes the next word, which is one of the wanted ones where there are any."""
        word = self.words.pop(0)
        assert not wanted or word in wanted, f"{word} stands where {wanted} is wanted"
        return word

    def takes(self, word):
        if self.words[0] == word:
            self.words.pop(0)
            return True
        return False

    def close(self):
        """Takes `>`, which may be the first half of `>>`."""
        if self.words[0] == ">>":
            self.words[0] = ">"
        else:
            self.take(">")

    def each(self, read):
        """Reads one or more, with commas between."""
        found = [read()]
        while self.takes(","):
            found.append(read())
        return found

    # ---- declarations

    def width(self):
        if self.take("bit", "bool") == "bool":
            return TRUTH
        self.take("<")
        width = number_of(self.take())[1]
        self.close()
        return width

    def keys(self):
        if self.takes("("):
            keys = self.each(self.width)
            self.take(")")
            return keys
        return [self.width()]

    def size(self):
        if not self.takes("["):
            return None
        size = number_of(self.take())[1]
        self.take("]")
        return size

    def declaration(self):
        kind = self.take("tele", "sensor", "header", "control")
        holds = self.words[0] if self.words[0] in ("set", "dict") else "one"
        if holds == "one":
            width, keys = self.width(), None
        else:
            self.take()
            self.take("<")
            keys = self.keys()
            width = TRUTH
            if holds == "dict":
                self.take(",")
                width = self.width()
            self.close()
        size = self.size()
        it = Declared(kind, self.take(), width, size, keys, holds=holds)
        if kind == "sensor" and self.takes("="):
            it.first = self.value(self.take())[2]
        if kind == "header":
            self.take("=")
            it.path = self.take()
            while self.words[0] != ";":
                it.path += self.take()
        self.take(";")
        return it

    # ---- statements

    def block(self):
        self.take("{")
        body = []
        while not self.takes("}"):
            body.append(self.statement())
        return body

    def statement(self):
        if self.words[0] == "if":
            return self.choice()
        if self.takes("for"):
            self.take("(")
            items = self.each(self.take)
            self.take("in")
            lists = self.each(self.take)
            self.take(")")
            return "for", items, lists, self.block()
        if self.takes("reject"):
            self.take(";")
            return ("reject",)
        if self.takes("report"):
            self.take("(")
            number = self.reports
            self.reports += 1
            values = [] if self.words[0] == ")" else self.each(self.expression)
            self.take(")")
            self.take(";")
            return "report", number, values
        name = self.take()
        if self.takes("."):
            self.take("push")
            self.take("(")
            value = self.expression()
            self.take(")")
            self.take(";")
            return "push", name, value
        index = None
        if self.takes("["):
            index = self.expression()
            self.take("]")
        self.take("=")
        value = self.expression()
        self.take(";")
        return "set", name, index, value

    def choice(self):
        self.take("if")
        self.take("(")
        test = self.expression()
        self.take(")")
        then, other = self.block(), []
        if self.takes("else"):
            other = [self.choice()] if self.words[0] == "if" else self.block()
        return "if", test, then, other

    # ---- expressions: a number, ("name", ..), ("at", ..), ("length", ..), ("cast", ..), ("!", ..), ("~", ..), or an operator

    def value(self, word):
        if word in ("true", "false"):
            return "number", TRUTH, int(word == "true")
        return "number", *number_of(word)

    def expression(self, level=0):
        if level == len(LEVELS):
            return self.unary()
        left = self.expression(level + 1)
        while self.words[0] in LEVELS[level]:
            operator = self.take()
            right = self.take() if operator == "in" else self.expression(level + 1)
            left = operator, left, right
        return left

    def unary(self):
        if self.words[0] in ("!", "~"):
            return self.take(), self.unary()
        if self.words[:2] == ["(", "bit"]:
            self.take("(")
            width = self.width()
            self.take(")")
            return "cast", width, self.unary()
        return self.primary()

    def primary(self):
        if self.takes("("):
            parts = self.each(self.expression)
            self.take(")")
            return parts[0] if len(parts) == 1 else ("key", parts)
        word = self.take()
        if word in ("true", "false") or word[0].isdigit():
            return self.value(word)
        if word == "length":
            self.take("(")
            name = self.take()
            self.take(")")
            return "length", name
        if self.takes("["):
            parts = self.each(self.expression)
            self.take("]")
            return "at", word, parts
        return "name", word


class Hop:
    """What stands in sight at a hop: what travels, what the switch keeps, what its control variables hold (a number, or numbers
    by keys), what the header variables read, and the language's own names."""

    def __init__(self, property, tele, sensors, control, headers, own):
        self.property, self.tele, self.sensors, self.control = property, tele, sensors, control
        self.headers, self.own, self.items = headers, own, {}
        self.rejected, self.reports = False, []

    # ---- expressions

    def width_of(self, it):
        """Returns the width of an expression, or None where it takes that of its place."""
        kind = it[0]
        if kind in ("number", "cast"):
            return it[1]
        if kind == "length":
            return 8
        if kind in ("name", "at"):
            name = it[1]
            if name in self.items:
                return self.items[name][0]
            if name in self.own:
                return self.own[name][0]
            return self.property.variables[name].width
        if kind == "!" or kind in TRUTHS:
            return TRUTH
        if kind == "~":
            return self.width_of(it[1])
        return self.width_of(it[1]) or self.width_of(it[2])

    def value_of(self, it, place=None):
        """Returns the number that an expression is, in a place of this width."""
        kind = it[0]
        if kind == "number":
            return it[2]
        if kind == "cast":
            return self.value_of(it[2]) % 2 ** it[1]
        if kind == "length":
            return len(self.tele[it[1]])
        if kind == "name":
            return self.named(it[1])
        if kind == "at":
            return self.looked_up(*it[1:])
        if kind == "!":
            return 1 - self.value_of(it[1])
        if kind == "~":
            width = self.width_of(it[1]) or place
            return 2**width - 1 - self.value_of(it[1], width)
        if kind == "in":
            return self.is_in(*it[1:])
        return self.operated(*it, place)

    def named(self, name):
        if name in self.items:
            return self.items[name][1]
        if name in self.own:
            return self.own[name][1]
        kind = self.property.variables[name].kind
        if kind == "sensor":
            return self.sensors[name][0]
        return {"tele": self.tele, "header": self.headers, "control": self.control}[kind][name]

    def key(self, parts, widths):
        return tuple(self.value_of(*it) for it in zip(parts, widths))

    def looked_up(self, name, parts):
        """Returns a value of a dict, or a cell. A key that is missing and an index out of range give 0."""
        it = self.property.variables[name]
        if it.kind == "control":
            return self.control[name].get(self.key(parts, it.keys), 0)
        index = self.value_of(parts[0], 128)
        return self.sensors[name][index] if index < it.size else 0

    def is_in(self, left, name):
        it = self.property.variables[name]
        if it.kind == "tele":
            return int(self.value_of(left, it.width) in self.tele[name])
        parts = left[1] if left[0] == "key" else [left]
        return int(self.key(parts, it.keys) in self.control[name])

    def operated(self, kind, left, right, place):
        width = self.width_of(left) or self.width_of(right) or place
        a, b = self.value_of(left, width), self.value_of(right, width)
        if kind in TRUTHS:
            return int(
                {
                    "||": a or b,
                    "&&": a and b,
                    "==": a == b,
                    "!=": a != b,
                    "<": a < b,
                    "<=": a <= b,
                    ">": a > b,
                    ">=": a >= b,
                }[kind]
            )
        if kind in ("<<", ">>"):
            if b >= width:
                return 0
            return (a << b) % 2**width if kind == "<<" else a >> b
        return {"+": a + b, "-": a - b, "*": a * b, "&": a & b, "|": a | b, "^": a ^ b}[kind] % 2**width

    # ---- statements

    def run(self, block):
        for kind, *parts in block:
            getattr(self, f"do_{kind}")(*parts)

    def do_set(self, name, index, value):
        it = self.property.variables[name]
        number = self.value_of(value, it.width)
        if it.kind == "tele":
            self.tele[name] = number
            return
        at = 0 if index is None else self.value_of(index, 128)
        if at < (it.size or 1):
            self.sensors[name][at] = number

    def do_push(self, name, value):
        it = self.property.variables[name]
        number = self.value_of(value, it.width)
        if len(self.tele[name]) < it.size:
            self.tele[name].append(number)

    def do_if(self, test, then, other):
        self.run(then if self.value_of(test) else other)

    def do_for(self, names, lists, body):
        before = self.items
        widths = [self.property.variables[it].width for it in lists]
        for values in zip(*(list(self.tele[it]) for it in lists)):
            self.items = {**before, **dict(zip(names, zip(widths, values)))}
            self.run(body)
        self.items = before

    def do_reject(self):
        self.rejected = True

    def do_report(self, number, values):
        self.reports.append((number, [self.value_of(it) for it in values]))


def tele_at_first(property):
    """Returns what a packet carries when it enters the network."""
    return {it.name: 0 if it.size is None else [] for it in property.of("tele")}


def sensors_at_first(property):
    """Returns what a switch keeps before any packet."""
    return {it.name: [it.first] * (it.size or 1) for it in property.of("sensor")}


def contents_of(property, given):
    """Returns what control variables hold, by the contents of a switch in the form of docs/FORMATS.md."""
    held = {}
    for it in property.of("control"):
        value = given.get(it.name)
        key = lambda of: tuple(int(part) for part in (of if len(it.keys) > 1 else [of]))
        if it.holds == "one":
            held[it.name] = int(value or 0)
        elif it.holds == "set":
            held[it.name] = {key(of): 1 for of in value or []}
        else:
            held[it.name] = {key(of): int(to) for of, to in value or []}
    return held


def tele_bytes(property, tele):
    """Returns the bytes that stand in front of a frame on a link."""
    bits = f"{0x49 if property.edition == 2 else 0x48:08b}"
    for it in property.of("tele"):
        if it.size is None:
            bits += f"{tele[it.name]:0{it.width}b}"
            continue
        items = tele[it.name] + [0] * (it.size - len(tele[it.name]))
        bits += f"{len(tele[it.name]):08b}" + "".join(f"{one:0{it.width}b}" for one in items)
    bits += "0" * (-len(bits) % 8)
    return int(bits, 2).to_bytes(len(bits) // 8, "big")
