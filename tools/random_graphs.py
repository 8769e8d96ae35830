#!/usr/bin/env python3
"""Prints crates/schedule/proofs/Random.antt: random graphs with the plans that the original's schedule gives them.

The functions below transcribe the schedule of the original's src/solver.rs line by line (`full_pass` without its
arithmetic, `alive_messages`, `mark_leaves`, the gathering in `Smoother::run`), with lists in place of `Vec` and with the
order of the leaves, which the original only marks, as document 01 lays it down. They follow the Rust's loops and arrays, not
the definitions that the file tests.

Usage, at the top of the repository:
    tools/random_graphs.py > crates/schedule/proofs/Random.antt
The seed is fixed, so the file comes out the same each time. Standard library only.
"""
import random

GRAPHS = 12
SEED = 20491


def keys_of(slot, factors, messages):
    kind, index = slot
    return factors[index] if kind == "original" else messages[index]["kept"]


def full_pass(n_keys, factors, live, order):
    messages = []
    is_active = [False] * n_keys
    coupled_at = [None] * n_keys
    cleared_at = [None] * n_keys
    seen_at = [None] * n_keys
    active = [("original", i) for i in live]
    active_keys = []
    for step, key in enumerate(order):
        is_active[key] = True
        active_keys.append(key)
        for slot in active:
            f_keys = keys_of(slot, factors, messages)
            if any(not is_active[k] for k in f_keys):
                for k in f_keys:
                    coupled_at[k] = step
        cleared_keys = []
        retained = []
        for k in active_keys:
            if k == key or coupled_at[k] == step:
                retained.append(k)
            else:
                cleared_at[k] = step
                is_active[k] = False
                cleared_keys.append(k)
        active_keys = retained
        if not cleared_keys:
            continue
        cleared_slots = []
        i = 0
        while i < len(active):
            if any(cleared_at[k] == step for k in keys_of(active[i], factors, messages)):
                cleared_slots.append(active[i])
                last = active.pop()
                if i < len(active):
                    active[i] = last
            else:
                i += 1
        kept_keys = []
        for slot in cleared_slots:
            for k in keys_of(slot, factors, messages):
                if is_active[k] and seen_at[k] != step:
                    seen_at[k] = step
                    kept_keys.append(k)
        kept_keys.sort()
        cleared_keys.sort()
        messages.append({"step": step, "content": cleared_slots, "kept": kept_keys, "cleared": cleared_keys})
        active.append(("closed", len(messages) - 1))
    return messages


def alive_messages(messages, n_steps):
    early = [j for j, message in enumerate(messages) if message["step"] <= n_steps]
    consumed = {c for j in early for kind, c in messages[j]["content"] if kind == "closed"}
    return [j for j in early if j not in consumed]


def mark_leaves(messages, root, covered):
    stack = [root]
    while stack:
        j = stack.pop()
        for kind, i in messages[j]["content"]:
            if kind == "original":
                assert i not in covered, "counted twice"
                covered.append(i)
            else:
                stack.append(i)


def gather(n, factors, live, forward, backward, place, key):
    covered = []
    fw = alive_messages(forward, place)
    bw = alive_messages(backward, n - 1 - place)
    for i in fw:
        mark_leaves(forward, i, covered)
    for i in bw:
        mark_leaves(backward, i, covered)
    originals = [i for i in live if i not in covered]
    gathered = [forward[i]["kept"] for i in fw] + [backward[i]["kept"] for i in bw] + [factors[i] for i in originals]
    rem_keys = sorted({k for keys in gathered for k in keys if k != key})
    return fw, bw, originals, covered + originals, rem_keys


def written(values):
    return "(" + "".join(f"{value} ∷ " for value in values) + "[])" if values else "[]"


def content(slots):
    return written([f"{kind} {index}" for kind, index in slots])


def listed(rows, pad):
    return "".join(f"\n{pad}{row} ∷" for row in rows) + (f"\n{pad}[]" if rows else " []")


def message_row(m):
    return f"sent {m['step']} {content(m['content'])} {written(m['kept'])} {written(m['cleared'])}"


def gathered_row(parts):
    return "got " + " ".join(written(part) for part in parts)


def graph(rng, number):
    n = rng.randint(2, 8)
    count = rng.randint(2, 11)
    factors = [sorted(rng.sample(range(n), rng.choice([0, 1, 1, 2, 2, 3]) % (n + 1))) for _ in range(count)]
    live = [i for i in range(count) if number % 3 != 2 or rng.random() < 0.8]
    order = list(range(n))
    if number % 2:
        rng.shuffle(order)
    return n, factors, live, order


HEADER = """-- {graphs} random graphs with their plans, made by tools/random_graphs.py: a transcription of the schedule in the original's
-- src/solver.rs into Python, run with a fixed seed. Half of the orders are shuffled, and in a third of the graphs some originals
-- are left out. The definitions compute to the same plans.
-- Assumes nothing.
use mathlib.Core.Path.{{◌≡◌, refl}}
use mathlib.Core.List.{{List, [], ◌∷◌}}
use Prim.Native.Nat.{{ℕ}}
use lib.ListN.{{get_or}}
use Rattle.schedule.specs.Pass.{{Slot, original, closed, ClosedFactor}}
use Rattle.schedule.specs.Gather.{{Gathered}}
use Rattle.schedule.specs.Plan.{{plan}}

-- a message by its step, content, kept and cleared keys
abbrev sent : (step : ℕ) (content : List Slot) (kept cleared : List ℕ) → ClosedFactor
sent step content kept cleared = record {{ step = step; content = content; kept = kept; cleared = cleared }}

-- what a key gathers: forward and backward messages, uncovered originals, all leaves, the keys cleared last
abbrev got : (forward backward originals leaves last : List ℕ) → Gathered
got forward backward originals leaves last = record {{ forward = forward; backward = backward; originals = originals; leaves = leaves; last = last }}
"""


def main():
    rng = random.Random(SEED)
    print(HEADER.format(graphs=GRAPHS), end="")
    for number in range(GRAPHS):
        n, factors, live, order = graph(rng, number)
        forward = full_pass(n, factors, live, order)
        backward = full_pass(n, factors, live, order[::-1])
        at_key = [gather(n, factors, live, forward, backward, order.index(k), k) for k in range(n)]
        name = f"keys{number}"
        print(f"\n{name} : ℕ → List ℕ")
        print(f"{name} i = get_or {written([written(f) for f in factors])} i []")
        print(f"\nplan{number} : plan {n} {name} {written(live)} {written(order)} ≡ record {{")
        print(f"  forward ={listed([message_row(m) for m in forward], '      ')};")
        print(f"  backward ={listed([message_row(m) for m in backward], '      ')};")
        print(f"  at_key ={listed([gathered_row(g) for g in at_key], '      ')};")
        print("}")
        print(f"unfolding plan {name}")
        print(f"plan{number} = refl")


if __name__ == "__main__":
    main()
