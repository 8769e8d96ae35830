"""What the programs `strips` and `ordered` print, read for a person."""

import csv
import io
import math
import re

from . import Wrong, floats, ordered
from .records import Variable, decode, only
from .text import names, show

MARGINAL = re.compile(r"[0-9]{1,2}( [0-9A-F]{16})+")
REFUSAL = re.compile(r"refused ([0-9]{1,2}) ([0-3]) ([0-9]{1,9})\n?")
STAGES = (("reading the job", "record {}, counted from 0"),
          ("forward pass", "the step of key {}; the keys cleared there are below it"),
          ("backward pass", "the step of key {}; the keys cleared there are above it"),
          ("marginals", "key {}"))
LENT = {1: "the step of key {}; the keys cleared there come before it in the order",
        2: "the step of key {}; the keys cleared there come after it in the order"}
NOWHERE = (14, 21)  # refusals of the whole run: their place says nothing
MEANINGS = {
    1: "the letter of a variable is no Unicode scalar value",
    2: "the size of a variable is outside 1 to 6",
    3: "the keys of an observation don't rise strictly",
    4: "an observation has more than 4 keys, or rows outside 1 to 6",
    6: "a number given, or computed from those given, isn't finite",
    7: "a variance isn't positive definite, or hardly: a pivot is refused",
    8: "the mark is unknown, or neither PR nor OB within SU; the flag is above 2; or the record is cut short",
    10: "the name of the variable is taken",
    11: "the record names a key that no record above it registers",
    12: "more than 32 variables, a total size above 32, or more than 64 factors, superseded ones included",
    13: "the factors, superseded ones included, take more than the 2,048 numbers of the factor store",
    14: "the messages take more than the 3,072 numbers of the message store",
    15: "keys cleared at this step aren't determined, or hardly: a pivot of their block is refused",
    16: "the factors don't determine this key, or hardly: a pivot of its information is refused",
    17: "a message or a marginal isn't finite",
    19: "the factor to be superseded isn't there, or has been superseded already",
    20: "a variance isn't symmetric: an entry differs from the one across the diagonal",
    21: "the order names a key twice or not at all, or one that isn't registered",
}


def parse(text, name, first=1):
    """For each key a pair of mean and covariance. The text begins at the line first."""
    marginals = []
    for key, content in enumerate(text.removesuffix("\n").split("\n") if text else []):
        words = content.split(" ")
        size = math.isqrt(len(words) - 1)
        if not MARGINAL.fullmatch(content) or size + size * size != len(words) - 1 or int(words[0]) != key:
            raise Wrong(f"{name}:{first + key}: expected key {key} and s + s*s numbers of 16 hexadecimal digits,"
                        " or one line 'refused NUMBER STAGE PLACE'")
        values = [floats.to_value(int(word, 16)) for word in words[1:]]
        marginals.append((values[:size], values[size:]))
    return marginals


def table(marginals, called, parts, number, ratio):
    """A row for each part of each key: mean, standard deviation, correlations up to itself."""
    most = max((len(mean) for mean, _ in marginals), default=0)
    rows = [["key", "name", "part", "mean", "sd", *(f"corr{j}" for j in range(most))]]
    for key, (mean, covariance) in enumerate(marginals):
        size = len(mean)
        deviations = [math.sqrt(v) if v >= 0 else math.nan for v in covariance[::size + 1]]
        for i in range(size):
            scales = [deviations[i] * deviations[j] or math.nan for j in range(i + 1)]
            ratios = [ratio((covariance[j * size + i] if j < i else scale) / scale) for j, scale in enumerate(scales)]
            part = parts[i] if i < len(parts) else str(i)
            rows.append([str(key), called[key], part, number(mean[i]), number(deviations[i]), *ratios, *[""] * (most - i - 1)])
    return rows


def explain(number, stage, place, job, figure):
    """Rows that say what a refusal means and which record it comes from. There is a figure where an order was lent."""
    where = STAGES[stage][1] if figure is None else LENT.get(stage, STAGES[stage][1])
    rows = [["refused", str(number), MEANINGS.get(number, "not a number that a job can reach")],
            ["stage", str(stage), STAGES[stage][0]],
            ["place", str(place), "says nothing here" if number in NOWHERE else where.format(place)]]
    if number == 14 and figure is not None:
        rows.append(["figure", str(figure), "the numbers that the messages take under this order"])
    if job is None or number in NOWHERE:
        return rows
    records = decode(job)
    lines = [at for at, record in enumerate(records) if not stage or isinstance(record, Variable)]
    if place >= len(lines):
        raise Wrong(f"expected an output of this job, found {'key' if stage else 'record'} {place}, which it hasn't")
    return rows + [["line", str(lines[place] + 1), show(records)[lines[place]][:150]]]


def aligned(rows):
    """Columns two blanks apart; names and words to the left, numbers to the right."""
    widths = [max(len(row[at]) for row in rows if at < len(row)) for at in range(max(map(len, rows)))]
    left = (0, 1, 2) if rows[0][0] == "refused" else (1, 2)
    pad = lambda at, word: word.ljust(widths[at]) if at in left else word.rjust(widths[at])
    return "".join("  ".join(pad(at, word) for at, word in enumerate(row)).rstrip() + "\n" for row in rows)


def comma_separated(rows):
    file = io.StringIO()
    csv.writer(file, lineterminator="\n").writerows(rows)
    return file.getvalue()


def read(text, name, job, parts, as_csv):
    """The output as a table; with a job it must have the job's keys. One that was cut is told. Figure and plan are passed over."""
    figure, answer, *_ = ordered.split(text, name)
    refusal, form = REFUSAL.fullmatch(answer), comma_separated if as_csv else aligned
    marginals = None if refusal else parse(answer, name, 1 if figure is None else 2)
    if text and not text.endswith("\n"):
        raise Wrong(f"{name}: expected a line feed at the end, so not all was written")
    if refusal:
        return form(explain(*map(int, refusal.groups()), job, figure))
    called = [str(key) for key in range(len(marginals))]
    if job is not None:
        variables, called = only(Variable, decode(job)), names(decode(job))
        expected, found = [record.size for record in variables], [len(mean) for mean, _ in marginals]
        if expected != found:
            raise Wrong(f"{name}: expected keys of sizes {expected} as in the job, found {found}")
    digits = (repr, repr) if as_csv else ("{:.6g}".format, "{:+.3f}".format)
    return form(table(marginals, called, parts, *digits))
