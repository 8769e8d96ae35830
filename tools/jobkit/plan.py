"""The plan program's text as a drawing: a lane a key, a row an exposure, a box a message."""

import re
from textwrap import wrap
from xml.sax.saxutils import escape

from . import Wrong

PASSES = ("forward", "backward")
MESSAGE, KEY = ("step", "content", "kept", "cleared"), ("forward", "backward", "originals", "leaves", "last")
FIELDS = {"forward": MESSAGE, "backward": MESSAGE, "key": KEY}
LINE = {kind: re.compile(f"{kind} ([0-9]+) " + " ".join(f"{field}((?: m?[0-9]{{1,3}})*)" for field in fields))
        for kind, fields in FIELDS.items()}
LEFT, LANE, BOX, ROW, COLUMN, ARC, LETTERS = 164, 128, 114, 17, 96, 30, 17  # pixels; letters in a box
COLOUR = {"forward": "#1d5fa6", "backward": "#b3541e", "direct": "#2e7d3a", "plain": "#444", "missing": "#c00",
          "superseded": "#999"}
ALONG = {"forward": ("keys rising", "along the order"), "backward": ("keys falling", "order reversed")}
TINT = {"forward": "#e3eefa", "backward": "#fbeadd"}
HEAD = """<svg xmlns="http://www.w3.org/2000/svg" viewBox="0 0 {0} {1}" width="{0}" height="{1}" xml:space="preserve">
<style>text{{font:10px 'DejaVu Sans Mono',Menlo,Consolas,monospace;fill:#222}}.b{{font-weight:bold}}</style>
<marker id="arrow" viewBox="0 0 8 8" refX="8" refY="4" markerWidth="8" markerHeight="8" orient="auto"
 markerUnits="userSpaceOnUse"><path d="M0 0L8 4L0 8z" fill="#444"/></marker><rect width="100%" height="100%" fill="#fff"/>
"""
NOTE = ("F2 is message 2 of the forward pass, B2 of the backward pass; the box stands in the lane of its step's key. "
        "A dot is a key that the exposure touches (drawn with --job).")
LENT = " Lanes stand in the order lent: forward goes from left to right, backward from right to left."
STRUCK = " A row struck through is a superseded exposure; it must stand behind no key."
UNNAMED = " Without --job an exposure that the plan doesn't name counts as superseded."


def parse(text, name, first=1):
    """The lines of each kind as lists by field. In a content, message j of the pass is -1 - j. The text begins at the line first."""
    plan = {kind: [] for kind in FIELDS}
    for line, content in enumerate(text.splitlines(), first):
        kind = content.split(" ")[0]
        if kind == "refused":
            raise Wrong(f"{name}:{line}: expected a plan, found {content!r}; tools/job read tells what it means")
        if kind not in FIELDS:
            raise Wrong(f"{name}:{line}: expected forward, backward or key, found {kind!r}")
        found, number = LINE[kind].fullmatch(content.rstrip()), len(plan[kind])
        if not found or int(found[1]) != number:
            raise Wrong(f"{name}:{line}: expected {kind} {number} {' .. '.join(FIELDS[kind])} ..")
        slots = [[-1 - int(word[1:]) if word[0] == "m" else int(word) for word in part.split()]
                 for part in found.groups()[1:]]
        plan[kind].append(dict(zip(FIELDS[kind], slots)))
    check(plan, name)
    return plan


def check(plan, name):
    """Each number must lead to a key or to a message that is there; a content only to earlier messages."""
    for kind in PASSES:
        for number, (step, content, kept, cleared) in enumerate(map(dict.values, plan[kind])):
            if len(step) != 1 or max(step + kept + cleared) >= len(plan["key"]) or min(content, default=0) < -number:
                raise Wrong(f"{name}: {kind} {number} names a key or a message that isn't there")
        for number, key in enumerate(plan["key"]):
            if max(key[kind], default=-1) >= len(plan[kind]):
                raise Wrong(f"{name}: key {number} names a message that isn't there")


def check_order(plan, order, label):
    """What a plan shows of its order: at a step only keys that came before can be cleared, the step's key is kept unless
    just the key before it is cleared, and a key gathers messages of steps up to its own."""
    for kind in PASSES:
        along = order if kind == "forward" else order[::-1]
        for number, (step, _, kept, cleared) in enumerate(map(dict.values, plan[kind])):
            here, before = along[step[0]], along[:step[0]]
            wrong = [f"clears key {key}, which comes later" for key in cleared if key not in [*before, here]]
            wrong += [f"clears key {here}"] if here in cleared else []
            wrong += [f"keeps key {key}, which comes later" for key in kept if key not in [*before, here]]
            wrong += [f"doesn't keep key {here}"] if here not in kept and cleared != before[-1:] else []
            if wrong:
                raise Wrong(f"{label} can't be the order of this plan: {kind} {number} at the step of key {here} {wrong[0]}")
        for key, gathered in enumerate(plan["key"]):
            late = [number for number in gathered[kind] if plan[kind][number]["step"][0] > along.index(key)]
            if late:
                raise Wrong(f"{label} can't be the order of this plan: key {key} gathers {kind} {late[0]}, whose step comes later")


def inner(message):
    return [-1 - slot for slot in message["content"] if slot < 0]


def under(messages, number):
    """The message itself and all messages under it."""
    return [number] + [one for below in inner(messages[number]) for one in under(messages, below)]


def routes(plan, key):
    """Pairs of an original behind the key and how it comes there: a gathered message or 'direct'."""
    gathered = plan["key"][key]
    found = [(slot, (kind, top)) for kind in PASSES for top in gathered[kind]
             for one in under(plan[kind], top) for slot in plan[kind][one]["content"] if slot >= 0]
    return found + [(slot, ("direct", "")) for slot in gathered["originals"]]


def verdict(plan, key, total, superseded):
    """Whether each live original stands behind the key once and no other does, and the leaves listed say the same."""
    behind, wrong = sorted(slot for slot, _ in routes(plan, key)), []
    for slot in range(total):
        times, old = behind.count(slot), slot in superseded
        if times != (0 if old else 1):
            wrong.append(f"{slot} stands there {times} times" + " though superseded" * old)
    wrong += ["the leaves listed are others"] if behind != sorted(plan["key"][key]["leaves"]) else []
    live = f"{total - len(superseded)} live" if superseded else total
    return "WRONG: " + ", ".join(wrong) if wrong else f"{live} exposures, each once"


def mark(kind, number):
    return f"{kind[0].upper()}{number}"


class Drawing:
    """Grows downwards: y is where the next part begins. superseded: number to that of the factor in its place.
    Lanes stand in the order; told has lines for the head."""

    def __init__(self, plan, names, factors, superseded, key, order=None, told=()):
        self.plan, self.names, self.factors, self.key = plan, names, factors, key
        self.order, self.lent, self.told = order or list(range(len(names))), order is not None, told
        seen = [slot for kind in FIELDS for one in plan[kind] for slot in one.get("content", one.get("leaves"))]
        self.total = max([len(factors) - 1, *seen]) + 1
        self.superseded = superseded if factors else dict.fromkeys(set(range(self.total)).difference(seen))
        self.route = {} if key is None else dict(routes(plan, key))
        self.end, self.y, self.parts = LEFT + LANE * len(names), 20, []

    def add(self, tag, words="", **attributes):
        listed = "".join(f' {name.strip("_").replace("_", "-")}="{value}"' for name, value in attributes.items())
        self.parts.append(f"<{tag}{listed}>{escape(words)}</{tag}>")

    def text(self, x, y, words, bold=False, colour="#222", **attributes):
        self.add("text", words, x=x, y=y, class_="b" if bold else "", style=f"fill:{colour}", **attributes)

    def path(self, d, colour="#444", end="url(#arrow)"):
        self.add("path", d=d, fill="none", stroke=colour, stroke_width=1.5, marker_end=end)

    def lane(self, key):
        return LEFT + LANE * self.order.index(key) + LANE // 2

    def step_key(self, kind, number):
        step = self.plan[kind][number]["step"][0]
        return self.order[step if kind == "forward" else len(self.order) - 1 - step]

    def step_lane(self, kind, number):
        return self.lane(self.step_key(kind, number))

    def gathered(self, kind):
        return [] if self.key is None else self.plan["key"][self.key][kind]

    def lines(self, kind, number):
        """What stands in the box of a message."""
        step, content, kept, cleared = self.plan[kind][number].values()
        content = [mark(kind, -1 - slot) if slot < 0 else slot for slot in content]
        lists = [f"{word} " + (" ".join(map(str, listed)) or "none")
                 for word, listed in (("clears", cleared), ("keeps", kept), ("takes", content))]
        return [f"{mark(kind, number)}  step {step[0]}"] + [f"at key {self.step_key(kind, number)}"] * self.lent + [
            line for words in lists for line in wrap(words, LETTERS, subsequent_indent="  ")]

    def box(self, kind, number, top, height):
        """A gathered message has a thick frame; one that isn't behind the chosen key is grey."""
        behind = [one for outer in self.gathered(kind) for one in under(self.plan[kind], outer)]
        used, left = self.key is None or number in behind, self.step_lane(kind, number) - BOX // 2
        self.add("rect", x=left, y=top, width=BOX, height=height, rx=4, fill=TINT[kind] if used else "#f2f2f2",
                 stroke=COLOUR[kind] if used else "#aaa", stroke_width=3 if number in self.gathered(kind) else 1)
        for at, line in enumerate(self.lines(kind, number)):
            self.text(left + 6, top + 14 + 13 * at, line, at == 0)

    def band(self, kind):
        """The messages of a pass, with arcs to the message that takes each and arrows to the chosen key."""
        messages, out = self.plan[kind], -1 if kind == "forward" else 1
        top = self.y + 24
        bottom = top + 8 + 13 * max((len(self.lines(kind, number)) for number in range(len(messages))), default=1)
        away, near = (top, bottom) if out < 0 else (bottom, top)
        self.text(10, top + 14, f"{kind} pass", True, COLOUR[kind])
        self.text(10, top + 28, ALONG[kind][self.lent])
        for number, message in enumerate(messages):
            self.box(kind, number, top, bottom - top)
            for one in inner(message):
                start, end = self.step_lane(kind, one) - 8 * out, self.step_lane(kind, number) + 8 * out
                self.path(f"M{start} {away}Q{(start + end) // 2} {away + out * ARC} {end} {away}")
        for start in [self.step_lane(kind, number) for number in self.gathered(kind)]:
            turn = f"V{near - out * 10}H{self.lane(self.key)}V{near - out * 23}"
            self.path(f"M{start} {near}{turn}", COLOUR[kind])
        self.y = bottom + 24

    def keys(self):
        for key, name in enumerate(self.names):
            self.add("rect", x=self.lane(key) - 45, y=self.y, width=90, height=20, rx=10, stroke="#222",
                     fill="#ffe08a" if key == self.key else "#fff")
            self.text(self.lane(key), self.y + 14, f"key {key}" + f"  {name}" * (name != str(key)), True, text_anchor="middle")
        self.y += 20

    def exposure(self, slot):
        """The messages that take it in each pass, and how it comes to the chosen key."""
        if slot in self.superseded:
            return self.struck(slot)
        way, top = self.route.get(slot, ("plain" if self.key is None else "missing", ""))
        self.row(slot, COLOUR[way], "#222")
        for at, kind in enumerate(PASSES):
            self.text(self.end + 10 + at * COLUMN, self.y + 12, " ".join(self.takers(kind, slot)) or "-")
        words = {"plain": "", "direct": way, "missing": way}.get(way, f"through {mark(way, top)}")
        self.text(self.end + 10 + 2 * COLUMN, self.y + 12, words, True, COLOUR[way])
        self.y += ROW

    def row(self, slot, colour, ink):
        self.add("rect", x=0, y=self.y, width=self.end + 3 * COLUMN, height=ROW, fill_opacity=0.05 * (slot % 2))
        self.text(26, self.y + 12, str(slot), True, ink, text_anchor="end")
        if slot < len(self.factors):
            self.dots(self.factors[slot], colour, ink)

    def takers(self, kind, slot):
        return [mark(kind, number) for number, one in enumerate(self.plan[kind]) if slot in one["content"]]

    def struck(self, slot):
        """The row of a superseded exposure: what took its place and, in red, where it is taken all the same."""
        grey, red = COLOUR["superseded"], COLOUR["missing"]
        new, taken = self.superseded[slot], [one for kind in PASSES for one in self.takers(kind, slot)]
        self.row(slot, grey, grey)
        self.path(f"M8 {self.y + 8}H{self.end - 8}", COLOUR["plain"], "none")
        words = "superseded" + (f" by {new}" if new else "") + (f", in {' '.join(taken)}" if taken else "")
        self.text(self.end + 10, self.y + 12, words, False, red if taken else "#222")
        if slot in self.route:
            self.text(self.end + 10 + 2 * COLUMN, self.y + 12, "WRONG", True, red)
        self.y += ROW

    def dots(self, factor, colour, ink):
        kind = "prior" if factor.kind == b"PR" else f"observation, {factor.rows} row" + "s" * (factor.rows != 1)
        self.text(36, self.y + 12, kind + ("" if factor.keys else ", no key"), False, ink)
        lanes = sorted(map(self.lane, factor.keys))
        if lanes:
            self.path(f"M{lanes[0]} {self.y + 8}H{lanes[-1]}", colour, "none")
        for key in factor.keys:
            self.add("circle", cx=self.lane(key), cy=self.y + 8, r=4.5, fill=colour)

    def exposures(self):
        for at, words in enumerate(("forward in", "backward in", "" if self.key is None else f"to key {self.key}")):
            self.text(self.end + 10 + at * COLUMN, self.y - 6, words, True)
        self.y += 8
        for slot in range(self.total):
            self.exposure(slot)
        self.y += 8

    def paragraph(self, key):
        """What a key gathers, and whether each live exposure stands behind it once."""
        one, found = self.plan["key"][key], verdict(self.plan, key, self.total, self.superseded)
        parts = [mark(kind, number) for kind in PASSES for number in one[kind]]
        parts += ["exposures " + " ".join(map(str, one["originals"]))] if one["originals"] else []
        words = f"{', '.join(parts) or 'nothing'}; clears last {' '.join(map(str, one['last'])) or 'none'}; behind it {found}"
        self.text(10, self.y, f"key {key} gathers", True)
        for line in wrap(words, (self.end + 3 * COLUMN - LEFT) // 7):
            self.text(LEFT, self.y, line, key == self.key, COLOUR["missing"] if "WRONG" in found else "#222")
            self.y += 14

    def head(self, width):
        """Counts, and a note on how to read the drawing."""
        forward, backward = (len(self.plan[kind]) for kind in PASSES)
        old = f" ({len(self.superseded)} superseded)" if self.superseded else ""
        self.text(10, self.y, f"{len(self.names)} keys, {self.total} exposures{old}, {forward} forward and {backward} backward messages", True)
        for line in self.told:
            self.y += 15
            self.text(10, self.y, line, True)
        note = NOTE + LENT * self.lent + ("" if self.key is None else f" Key {self.key} gathers the thick frames; grey isn't behind it.")
        note += STRUCK + (UNNAMED if not self.factors else "") if self.superseded else ""
        for line in wrap(note, int(width / 6.2)):
            self.y += 15
            self.text(10, self.y, line)

    def draw(self):
        count, width = len(self.names), self.end + 3 * COLUMN
        self.head(width)
        top, back = self.y + 8, len(self.parts)
        self.y = top
        for part in (lambda: self.band("forward"), self.keys, self.exposures, self.keys, lambda: self.band("backward")):
            part()
        front, self.parts = self.parts[back:], self.parts[:back]
        for key in self.order:
            self.add("rect", x=self.lane(key) - LANE // 2, y=top, width=LANE - 2, height=self.y - top - 2,
                     fill="#fff3c4" if key == self.key else "#f7f7f7")
        self.parts += front
        self.y += 14
        for key in range(count):
            self.paragraph(key)
        return HEAD.format(width, self.y) + "\n".join(self.parts) + "\n</svg>\n"
