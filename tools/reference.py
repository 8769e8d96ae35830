"""A small model of `strips` in Python, for the tests of tools/job only.

It shares no code with the tool. `run(job)` answers what `strips` should print, the plan's
text and the message store needed; `run(job, order)` the same under an order of the keys.
It is a check of the examples, not of the product.
"""

import math
import struct
from itertools import combinations

KEYS, ROWS, SIZE, TOTAL, FACTORS, FACTOR_STORE, MESSAGE_STORE = 4, 6, 6, 32, 64, 2048, 3072
FLAGS = (0.25, None, 1.0)  # what the flag of an observation puts on the diagonal of its variance; None: the variance follows


class Refused(Exception):
    pass


def refuse(condition, number, *place):
    if condition:
        raise Refused(number, *place)


def finite(*lists):
    return all(math.isfinite(value) for values in lists for value in values)


# Arithmetic: matrices are lists of rows, each operation rounded once.

def total(terms):
    value = 0.0
    for term in terms:
        value += term
    return value


def times(a, b):
    return [[total(a[i][k] * b[k][j] for k in range(len(b))) for j in range(len(b[0]) if b else 0)] for i in range(len(a))]


def transposed(a):
    return [list(column) for column in zip(*a)]


def cholesky(a):
    """The lower factor, or None where a pivot is refused."""
    size = len(a)
    low = [[0.0] * size for _ in range(size)]
    for j in range(size):
        for i in range(j, size):
            value = a[i][j]
            for k in range(j):
                value -= low[i][k] * low[j][k]
            if i == j and not (0 < value < math.inf and 2.0**-40 * a[j][j] < value):
                return None
            low[i][j] = math.sqrt(value) if i == j else value / low[j][j]
    return low


def lower_solve(low, b):
    x = []
    for i, value in enumerate(b):
        for j in range(i):
            value -= low[i][j] * x[j]
        x.append(value / low[i][i])
    return x


def solve(low, b):
    x = lower_solve(low, b)
    for i in reversed(range(len(x))):
        for j in range(i + 1, len(x)):
            x[i] -= low[j][i] * x[j]
        x[i] /= low[i][i]
    return x


def inverse(low):
    size = len(low)
    return transposed([solve(low, [float(i == j) for i in range(size)]) for j in range(size)])


# Reading: a factor is (keys, rows, A, xi, W), rows None for a prior. The numbers of the live ones rise.

class Job:
    def __init__(self, data):
        self.data, self.at, self.record = data, 0, 0
        self.names, self.sizes, self.factors, self.live, self.stored = [], [], [], [], 0
        while self.at < len(data):
            self.read(b"VA", b"PR", b"OB", b"SU")
            self.record += 1

    def read(self, *marks):
        mark = self.take(2)
        refuse(mark not in marks, 8)
        {b"VA": self.variable, b"PR": self.prior, b"OB": self.observation, b"SU": self.superseding}[mark]()

    def take(self, count):
        refuse(len(self.data) - self.at < count, 8)
        self.at += count
        return self.data[self.at - count:self.at]

    def matrix(self, rows, columns):
        values = struct.unpack(f"<{rows * columns}d", self.take(8 * rows * columns))
        return [list(values[i::rows]) for i in range(rows)] if columns else [[] for _ in range(rows)]

    def variable(self):
        letter, index, size = struct.unpack("<IIB", self.take(9))
        refuse(letter > 0x10FFFF or 0xD800 <= letter < 0xE000, 1)
        refuse(not 1 <= size <= SIZE, 2)
        refuse((letter, index) in self.names, 10)
        refuse(sum(self.sizes) + size > TOTAL, 12)
        self.names.append((letter, index))
        self.sizes.append(size)

    def prior(self):
        key = self.take(1)[0]
        refuse(key >= len(self.sizes), 11)
        size = self.sizes[key]
        mean, variance = self.matrix(size, 1), self.matrix(size, size)
        self.register((key,), None, [], mean, variance)

    def observation(self):
        count, rows, flag = self.take(3)
        refuse(flag >= len(FLAGS), 8)
        refuse(count > KEYS or not 1 <= rows <= ROWS, 4)
        keys = tuple(self.take(count))
        refuse(any(a >= b for a, b in zip(keys, keys[1:])), 3)
        refuse(any(key >= len(self.sizes) for key in keys), 11)
        a, mean = self.matrix(rows, sum(self.sizes[key] for key in keys)), self.matrix(rows, 1)
        x = FLAGS[flag]
        made = [[x if i == j else 0.0 for j in range(rows)] for i in range(rows)]
        self.register(keys, rows, a, mean, self.matrix(rows, rows) if x is None else made)

    def superseding(self):
        number = self.take(1)[0]
        refuse(number not in self.live, 19)
        self.read(b"PR", b"OB")
        self.live.remove(number)

    def register(self, keys, rows, a, mean, variance):
        need = sum(map(len, a)) + len(mean) + len(mean) ** 2
        refuse(len(self.factors) >= FACTORS, 12)
        refuse(self.stored + need > FACTOR_STORE, 13)
        refuse(not finite(*a, *mean, *variance), 6)
        refuse(variance != transposed(variance), 20)
        low = cholesky(variance)
        refuse(low is None, 7)
        xi, w = solve(low, [value for value, in mean]), inverse(low)
        refuse(not finite(xi, *w), 6)
        self.stored += need
        self.live.append(len(self.factors))
        self.factors.append((keys, rows, a, xi, w))


# Schedule: a slot is ('', original) or ('m', message). Originals are given by their keys, a superseded one by None.

def live(originals):
    return [i for i, keys in enumerate(originals) if keys is not None]


def full_pass(originals, order):
    """Messages of a pass: (step, content, kept, cleared)."""
    slots, active, messages = [("", i) for i in live(originals)], set(), []
    touches = lambda slot: set(messages[slot[1]][2] if slot[0] else originals[slot[1]])
    for step, key in enumerate(order):
        active.add(key)
        coupled = {other for slot in slots if touches(slot) - active for other in touches(slot)}
        cleared = active - coupled - {key}
        if not cleared:
            continue
        active -= cleared
        content, place = [], 0
        while place < len(slots):
            if touches(slots[place]) & cleared:
                content.append(slots[place])
                slots[place] = slots[-1]
                slots.pop()
            else:
                place += 1
        kept = {other for slot in content for other in touches(slot)} & active
        messages.append((step, content, sorted(kept), sorted(cleared)))
        slots.append(("m", len(messages) - 1))
    return messages


def leaves(messages, number):
    found, stack = [], [number]
    while stack:
        content = messages[stack.pop()][1]
        found += [i for kind, i in content if not kind]
        stack += [i for kind, i in content if kind]
    return found


def gather(originals, passes, place, count):
    """Messages of each pass, uncovered originals and leaves of the key at this place of the order."""
    tops = []
    for messages, last in zip(passes, (place, count - 1 - place)):
        early = [j for j, message in enumerate(messages) if message[0] <= last]
        inner = {i for j in early for kind, i in messages[j][1] if kind}
        tops.append([j for j in early if j not in inner])
    covered = [leaf for messages, top in zip(passes, tops) for j in top for leaf in leaves(messages, j)]
    rest = [i for i in live(originals) if i not in covered]
    return *tops, rest, covered + rest


# Elimination.

def eliminate(factors, kept, cleared, sizes):
    """(rows, A, xi, W); refusals 15 and 17."""
    def places(keys):
        starts, at = {}, 0
        for key in keys:
            starts[key] = range(at, at + sizes[key])
            at += sizes[key]
        return starts, at
    (keep, d), (clear, u) = places(kept), places(cleared)
    y = sum(rows if rows is not None else sizes[keys[0]] * (keys[0] in keep) for keys, rows, *_ in factors)
    z, r = y <= d, y if y <= d else d
    a = [[0.0 if z else float(i == j) for j in range(d)] for i in range(r)]
    xi, w = [0.0] * r, [[0.0] * r for _ in range(r)]
    s, c, t = [[0.0] * u for _ in range(u)], [0.0] * u, [[0.0] * r for _ in range(u)]

    def put(target, down, across, block):
        for i, row in zip(down, block):
            for j, value in zip(across, row):
                target[i][j] += value

    def add(target, at, values):
        for i, value in zip(at, values):
            target[i] += value
    row = 0
    for keys, rows, fa, fxi, fw in factors:
        prior = rows is None
        here = range(row, row + len(fxi))
        if prior and keys[0] in clear:
            put(s, clear[keys[0]], clear[keys[0]], fw)
            add(c, clear[keys[0]], fxi)
            continue
        if prior:
            fa = [[float(i == j) for j in range(len(fxi))] for i in range(len(fxi))]
        column, blocks = 0, {}
        for key in keys:
            blocks[key] = [line[column:column + sizes[key]] for line in fa]
            column += sizes[key]
        inside = [key for key in keys if key in clear]
        outside = [key for key in keys if key in keep]
        project = {key: times(transposed(blocks[key]), fw) for key in keys}
        product = lambda one, two: times(project[one], blocks[two])
        vector = lambda key: [total(x * v for x, v in zip(line, fxi)) for line in transposed(blocks[key])]
        for key in inside:
            put(s, clear[key], clear[key], product(key, key))
            add(c, clear[key], vector(key))
        for low, high in combinations(inside, 2):
            put(s, clear[high], clear[low], transposed(product(low, high)) if z else product(high, low))
        if z:
            for key in outside:
                put(a, here, keep[key], blocks[key])
            for i, value in zip(here, fxi):
                xi[i] = value
            for i, line in zip(here, fw):
                w[i][row:row + len(line)] = line
            for key in inside:
                put(t, clear[key], here, project[key])
            row += len(fxi)
            continue
        for key in outside:
            put(w, keep[key], keep[key], fw if prior else product(key, key))
            add(xi, keep[key], fxi if prior else vector(key))
            for other in inside:
                put(t, clear[other], keep[key], product(other, key))
        for low, high in combinations(outside, 2):
            put(w, keep[high], keep[low], product(high, low))
    low = cholesky(s)
    refuse(low is None, 15)
    if not z:
        for i in range(r):
            for j in range(i + 1, r):
                w[i][j] = w[j][i]
    h = lower_solve(low, c)
    g = [lower_solve(low, column) for column in transposed(t)] if u else [[] for _ in range(r)]
    for i in range(r):
        xi[i] -= total(x * v for x, v in zip(g[i], h))
        for j in range(r):
            w[i][j] -= total(x * v for x, v in zip(g[i], g[j]))
    refuse(not finite(*a, xi, *w), 17)
    return r, a, xi, w


def at(place, work, *arguments):
    """Work whose refusals get a stage and a key."""
    try:
        return work(*arguments)
    except Refused as refused:
        raise Refused(refused.args[0], *place)


def marginal(factors, key, sizes):
    others = sorted({other for keys, *_ in factors for other in keys} - {key})
    _, a, xi, w = eliminate(factors, [key], others, sizes)
    info = times(transposed(a), times(w, a)) if a else [[0.0] * sizes[key] for _ in range(sizes[key])]
    vector = [total(x * v for x, v in zip(column, xi)) for column in transposed(a)] if a else [0.0] * sizes[key]
    low = cholesky(info)
    refuse(low is None, 16)
    mean, covariance = solve(low, vector), inverse(low)
    refuse(not finite(mean, *covariance), 17)
    return mean, covariance


def plan_text(originals, passes, order):
    join = lambda *words: " ".join(str(word) for word in words)
    lines = []
    for name, messages in zip(("forward", "backward"), passes):
        for j, (step, content, kept, cleared) in enumerate(messages):
            slots = [f"{kind}{i}" for kind, i in content]
            lines.append(join(name, j, "step", step, "content", *slots, "kept", *kept, "cleared", *cleared))
    for key in sorted(order):
        forward, backward, rest, below = gather(originals, passes, order.index(key), len(order))
        touched = {other for messages, top in zip(passes, (forward, backward)) for j in top for other in messages[j][2]}
        touched |= {other for i in rest for other in originals[i]}
        lines.append(join("key", key, "forward", *forward, "backward", *backward, "originals", *rest,
                          "leaves", *below, "last", *sorted(touched - {key})))
    return "".join(line + "\n" for line in lines)


def need(originals, factors, messages, sizes):
    """Rows of each message and the numbers they take."""
    rows, figure = [], 0
    for _, content, kept, _ in messages:
        d = sum(sizes[key] for key in kept)
        y = sum(rows[i] if kind else factors[i][1] if factors[i][1] is not None
                else sizes[factors[i][0][0]] * (factors[i][0][0] in kept) for kind, i in content)
        rows.append(min(y, d))
        figure += rows[-1] * d + rows[-1] + rows[-1] ** 2
    return figure


def smooth(job, order):
    """(marginals, plan's text, numbers of the message store). In a pass the key of a refusal is that of the step."""
    sizes, count = job.sizes, len(job.sizes)
    if sorted(order) != list(range(count)):
        return (21, 1, 0), "", 0
    originals = [factor[0] if number in job.live else None for number, factor in enumerate(job.factors)]
    passes = [full_pass(originals, along) for along in (order, order[::-1])]
    figure = sum(need(originals, job.factors, messages, sizes) for messages in passes)
    text = plan_text(originals, passes, order)
    made = [[], []]
    pick = lambda side, slot: made[side][slot[1]] if slot[0] else job.factors[slot[1]]
    try:
        refuse(figure > MESSAGE_STORE, 14, 1, 0)
        for side, messages in enumerate(passes):
            for step, content, kept, cleared in messages:
                key = order[count - 1 - step if side else step]
                message = at((side + 1, key), eliminate, [pick(side, slot) for slot in content], kept, cleared, sizes)
                made[side].append((tuple(kept), *message))
        marginals = []
        for key in range(count):
            forward, backward, rest, _ = gather(originals, passes, order.index(key), count)
            factors = [made[0][j] for j in forward] + [made[1][j] for j in backward] + [job.factors[i] for i in rest]
            marginals.append(at((3, key), marginal, factors, key, sizes))
    except Refused as refused:
        return refused.args, text, figure
    return marginals, text, figure


def run(data, order=None):
    """What strips prints, the plan's text, the numbers of the message store. Without an order the keys rise."""
    job = Job.__new__(Job)
    try:
        job.__init__(data)
    except Refused as refused:
        return f"refused {refused.args[0]} 0 {job.record}\n", "", 0
    answer, text, figure = smooth(job, list(range(len(job.sizes)) if order is None else order))
    if isinstance(answer, tuple):
        return "refused {} {} {}\n".format(*answer), text, figure
    digits = lambda value: f"{struct.unpack('<Q', struct.pack('<d', value))[0]:016X}"
    lines = [" ".join([str(key), *map(digits, mean), *(digits(v) for column in transposed(cov) for v in column)])
             for key, (mean, cov) in enumerate(answer)]
    return "".join(line + "\n" for line in lines), text, figure


def ordered(order, data):
    """What the program ordered prints for one case: a refusal by reading or of the order stands in place of the plan too."""
    answer, text, figure = run(data, order)
    unplanned = answer.startswith("refused ") and (answer.split()[1] == "21" or answer.split()[2] == "0")
    return f"figure {figure}\n{answer}{answer if unplanned else text}"
