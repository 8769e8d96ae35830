"""Orders of the keys, and what the program `ordered` reads and prints."""

import re
from collections import namedtuple

from . import Wrong

Output = namedtuple("Output", "figure answer plan line")  # the plan begins at this line
NUMBER = re.compile(r"[0-9]{1,10}")
FIGURE = re.compile(r"figure ([0-9]{1,9})\n?")
PLAN = ("forward", "backward", "key")
MOST = 2**16 - 1  # what the two bytes of a count hold


def parse(words, names, label, as_given=False):
    """The keys of an order: each key once, unless it is to go in as given."""
    rising = list(range(len(names)))
    if words in ("rising", "falling"):
        return rising if words == "rising" else rising[::-1]
    listed = [word.strip() for word in words.split(",")] if words.strip() else []
    order = [key(word, names, label, 256 if as_given else len(names)) for word in listed]
    wrong = [f"{names[one]} stands {order.count(one)} times" for one in rising if order.count(one) > 1]
    missing = " ".join(names[one] for one in rising if one not in order)
    wrong += [f"{missing} left out"] if missing else []
    if wrong and not as_given:
        raise Wrong(f"{label}: expected each of the {len(names)} keys once: {', '.join(wrong)}")
    return order


def key(word, names, label, limit):
    if word in names:
        return names.index(word)
    if NUMBER.fullmatch(word) and int(word) < limit:
        return int(word)
    known = ([" ".join(names)] if names else []) + ([f"a number from 0 to {limit - 1}"] if limit else [])
    raise Wrong(f"{label}: expected {' or '.join(known) or 'an empty order, since there are no keys'}, found {word!r}")


def case(order, job):
    """What `ordered` reads for one job: the order and the job, each behind the count of its bytes, lower byte first."""
    if max(order, default=0) > 255:
        raise Wrong(f"expected at most 256 variables, found {len(order)}")
    for what, part in (("order", order), ("job", job)):
        if len(part) > MOST:
            raise Wrong(f"expected at most {MOST} bytes for the {what}, found {len(part)}")
    return b"".join(len(part).to_bytes(2, "little") + bytes(part) for part in (order, job))


def split(text, name):
    """The parts of what `ordered` prints. Any other text is an answer or a plan alone, without a figure."""
    lines = text.splitlines(keepends=True)
    head = FIGURE.fullmatch(lines[0]) if lines else None
    if not head:
        return Output(None, text, text, 1)
    for line, content in enumerate(lines[1:], 2):
        if content.startswith("figure"):
            raise Wrong(f"{name}:{line}: expected the output for one job, found another line 'figure'")
    first = next((at for at, line in enumerate(lines) if line.split(" ")[0] in PLAN), len(lines))
    answer, plan = lines[1:first], lines[first:]
    refused = len(set(answer)) == 1 and answer[0].startswith("refused")
    if refused and not plan:  # the refusal stands in the plan's place
        answer, plan, first = answer[:1], answer[:1], 1
    keys = sum(line.startswith("key ") for line in plan)
    if not refused and keys != len(answer):
        raise Wrong(f"{name}: expected the plan of {len(answer)} keys after the answer, found {keys}, so not all was written")
    if int(head[1]) and not answer:
        raise Wrong(f"{name}: expected an answer after the figure, so not all was written")
    return Output(int(head[1]), "".join(answer), "".join(plan), first + 1)


def told(output):
    """What the head of a drawing says of the run."""
    if output.figure is None:
        return []
    refused = [f"the run is {output.answer.strip()}"] if output.answer.startswith("refused") else []
    return [f"the messages take {output.figure} numbers of the message store", *refused]
