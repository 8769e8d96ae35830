"""The text form of a job: one record a line; an indented line goes on with the one above."""

import re

from . import Wrong, floats
from .records import GIVEN, IDENTITY, OBSERVATION, OMITTED, PRIOR, Factor, Raw, Superseding, Variable, only, shapes

SYMBOL = re.compile(r"([^0-9])([0-9]{1,10})")
WHOLE = re.compile(r"[0-9]{1,10}")
WORDS = re.compile(r"[;|]|[^\s;|]+")
CALLED = {PRIOR: "prior", OBSERVATION: "observation"}


class Word(str):
    """A word of the text that knows its line."""
    line = 0


def split(text):
    """The words of each record. Comments and empty lines are left out."""
    records = []
    for line, content in enumerate(text.split("\n"), 1):
        content = content.split("#", 1)[0]
        words = list(map(Word, WORDS.findall(content)))
        for word in words:
            word.line = line
        if words and records and content[0].isspace():
            records[-1] += words
        elif words:
            records.append(words)
    return records


def edges(widths):
    """Columns of A at which the block of another key begins; a bar may stand there."""
    return {sum(widths[:count]) for count in range(1, len(widths))}


class Parser:
    """Turns the words of one record after the other into records."""

    def __init__(self, name):
        self.name, self.sizes, self.symbols = name, [], {}

    def fail(self, words, expected, found=None):
        """The last of the words is wrong or, with found, there are too many or too few."""
        word = words[-1] if words else self.head
        raise Wrong(f"{self.name}:{word.line}: expected {expected}, found {repr(str(word)) if found is None else found}")

    def sections(self, words, names):
        """The words before any of the names, under '', and those after each name that is there."""
        found = {"": []}
        for word in words:
            if word in found:
                self.fail([word], f"only one section {word}")
            if word in names:
                found[str(word)] = []
            else:
                found[list(found)[-1]].append(word)
        return found

    def whole(self, words, what, limit):
        if len(words) != 1 or not WHOLE.fullmatch(words[0]) or int(words[0]) > limit:
            self.fail(words, f"{what} from 0 to {limit}", None if len(words) == 1 else f"{len(words)} words")
        return int(words[0])

    def numbers(self, words, count, what):
        if len(words) != count:
            self.fail(words, f"{count} numbers for {what}", len(words))
        return [self.number(word) for word in words]

    def number(self, word):
        try:
            return floats.parse(word)
        except ValueError as expected:
            self.fail([word], expected)

    def matrix(self, words, rows, columns, what, bars):
        """Written row by row, answered column by column."""
        if words[:1] == ["diag"] and rows == columns:
            entries = self.numbers(words[1:], rows, f"the diagonal of {what}")
            return [entries[i] if i == j else 0 for j in range(columns) for i in range(rows)]
        lines = [[]] if words else []
        for word in words:
            if word == ";":
                lines.append([])
            elif word != "|":
                lines[-1].append(word)
            elif len(lines[-1]) not in bars:
                self.fail([word], "a bar only between the columns of two keys")
        if len(lines) != (rows if columns else 0):
            self.fail(words, f"{rows} rows of {columns} numbers for {what}", f"{len(lines)} (rows are set apart by ;)")
        table = [self.numbers(line, columns, f"row {i + 1} of {what}") for i, line in enumerate(lines)]
        return [row[j] for j in range(columns) for row in table]

    def key(self, word):
        symbol = SYMBOL.fullmatch(word)
        number = int(word) if WHOLE.fullmatch(word) else 256
        key = self.symbols.get((symbol[1], int(symbol[2])), 256) if symbol else number
        if key >= min(256, len(self.sizes)):
            self.fail([word], "the name or number of a variable given above")
        return key

    def letter(self, word):
        if re.fullmatch("0x[0-9a-fA-F]{1,8}", word):
            return int(word, 16)
        if len(word) != 1 or word in "0123456789;|":
            self.fail([word], "a letter, or its code as 0x and up to 8 hexadecimal digits")
        return ord(word)

    def variable(self, words):
        if len(words) != 3:
            self.fail(words, "a letter, an index and a size", f"{len(words)} words")
        code = self.letter(words[0])
        index, size = self.whole(words[1:2], "an index", 2**32 - 1), self.whole(words[2:], "a size", 255)
        if code < 0x110000:
            self.symbols.setdefault((chr(code), index), len(self.sizes))
        self.sizes.append(size)
        return Variable(code, index, size)

    def prior(self, words):
        found = self.sections(words, ("mean", "variance"))
        if len(found[""]) != 1:
            self.fail(found[""], "one key", f"{len(found[''])} words")
        if found.get("variance") == ["identity"]:
            self.fail(found["variance"], "the numbers of a prior's variance (the word identity is for observations)")
        return self.factor(PRIOR, found, 0, GIVEN)

    def observation(self, words):
        found = self.sections(words, ("rows", "A", "mean", "variance"))
        if len(found[""]) > 255:
            self.fail(found[""], "at most 255 keys", len(found[""]))
        flag = OMITTED if "variance" not in found else IDENTITY if found["variance"] == ["identity"] else GIVEN
        return self.factor(OBSERVATION, found, self.whole(found.get("rows", []), "a section rows", 255), flag)

    def factor(self, kind, found, rows, flag):
        keys = [self.key(word) for word in found[""]]
        widths = [self.sizes[key] for key in keys]
        parts = shapes(kind, rows, flag, sum(widths))
        return Factor(kind, keys, rows, flag, {
            name: self.matrix(found.get(name, []), *shape, name, edges(widths) if name == "A" else ())
            for name, shape in parts.items()})

    def supersede(self, words):
        number = self.whole(words[:1], "the number of a factor", 255)
        if words[1:2] not in (["prior"], ["observation"]):
            self.fail(words[:2], "prior or observation after the number", None if words[1:] else "nothing")
        return Superseding(number, self.record(words[1:]))

    def bytes(self, words):
        for word in words:
            if not re.fullmatch("[0-9a-fA-F]{2}", word):
                self.fail([word], "bytes of two hexadecimal digits each")
        return Raw(bytes(int(word, 16) for word in words))

    def record(self, words):
        self.head = words[0]
        if self.head not in ("variable", "prior", "observation", "supersede", "bytes"):
            self.fail(words[:1], "variable, prior, observation, supersede or bytes")
        return getattr(self, self.head)(words[1:])


def parse(text, name):
    parser = Parser(name)
    return [parser.record(words) for words in split(text)]


def letter(code):
    return chr(code) if code < 0x110000 and chr(code).isalpha() else f"0x{code:X}"


def names(records):
    """What to call each key: its symbol where that leads back to it, else its number."""
    found = []
    for code, index, _ in only(Variable, records):
        symbol = f"{letter(code)}{index}"
        found.append(symbol if len(letter(code)) == 1 and symbol not in found else str(len(found)))
    return found


def matrix(entries, rows, columns, bars):
    """The words of a matrix as a person writes it, from its columns."""
    table = [entries[i::rows] for i in range(rows if columns else 0)]
    if rows == columns > 1 and not any(bits for i, row in enumerate(table) for j, bits in enumerate(row) if i != j):
        return ["diag", *(floats.show(row[i]) for i, row in enumerate(table))]
    words = []
    for row in table:
        words += [";"] if words else []
        for j, bits in enumerate(row):
            words += ["|", floats.show(bits)] if j and j in bars else [floats.show(bits)]
    return words


def factor_words(factor, sizes, called):
    kind, keys, rows, flag, parts = factor
    widths = [sizes[key] for key in keys]
    words = [CALLED[kind], *(called[key] for key in keys), *(["rows", str(rows)] if kind == OBSERVATION else [])]
    for name, shape in shapes(kind, rows, flag, sum(widths)).items():
        words += [name, *matrix(parts[name], *shape, edges(widths) if name == "A" else ())]
    return words + (["variance", "identity"] if flag == IDENTITY else [])


def show(records):
    """A line for each record."""
    called, sizes, lines = names(records), [record.size for record in only(Variable, records)], []
    for record in records:
        match record:
            case Variable(code, index, size):
                lines.append(f"variable {letter(code)} {index} {size}")
            case Raw(data):
                lines.append("bytes " + data.hex(" ").upper())
            case Superseding(number, factor):
                lines.append(" ".join(["supersede", str(number), *factor_words(factor, sizes, called)]))
            case _:
                lines.append(" ".join(factor_words(record, sizes, called)))
    return lines
