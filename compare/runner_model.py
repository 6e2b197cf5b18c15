#!/usr/bin/env python3
"""A model of document 01's call runner, written from the document: reads calls from standard input, prints their lines.

Rows are lists and row keys are triples (parent, kind, spill number), where the program has bytes and BLAKE2b. Python's integers do not wrap.
crates/call_runner*/stdout are made by it:  python3 compare/runner_model.py < crates/call_runner/stdin"""
import sys

LEAST, MOST = -2**63, 2**63 - 1
TABLE, STAGED, DELETED = 2, 1, 2          # how many records each list takes
table, staged, deleted = {}, {}, []       # row key -> the row's numbers; keys
BOX, TX = "box", "tx"

class Refused(Exception):
    pass

class Parent:
    def __init__(self):
        self.head, self.spills = {BOX: [], TX: []}, {BOX: 0, TX: 0}
        self.nanos, self.tokens = 0, []   # tokens: [id, amount], the newest last

parents = [Parent(), Parent()]

def in_order(numbers):
    """No -2^63, and absolute values that never fall."""
    return LEAST not in numbers and all(abs(a) <= abs(b) for a, b in zip(numbers, numbers[1:]))

def stage(key, row):
    if key not in staged and len(staged) == STAGED:
        raise Refused(16)
    staged[key] = row

def row_of(key):
    if key not in staged and key not in table:
        raise Refused(12)
    return list(staged.get(key) or table[key])

def append(p, kind, n):
    who = parents[p]
    if n < 0:
        raise Refused(17)
    if len(who.head[kind]) == 512:
        stage((p, kind, who.spills[kind]), who.head[kind])
        who.head[kind] = []
        who.spills[kind] += 1
    who.head[kind].append(n)

def pop(p, kind):
    who = parents[p]
    if not who.head[kind]:
        if who.spills[kind] == 0:
            raise Refused(19)
        key = (p, kind, who.spills[kind] - 1)
        row = row_of(key)
        if key not in deleted:
            if len(deleted) == DELETED:
                raise Refused(21)
            deleted.append(key)
        staged.pop(key, None)
        who.head[kind] = row
        who.spills[kind] -= 1
    return who.head[kind].pop()

def flip(p, n, spending):
    """Spend (or unspend): negates the first copy of the wanted sign, in the head, else in the newest spill that has one."""
    who = parents[p]
    if n == LEAST:
        raise Refused(9)
    target, seen = abs(n), False
    wanted = (lambda x: abs(x) == target and x >= 0) if spending else (lambda x: abs(x) == target and x <= 0)
    def search(numbers):
        nonlocal seen
        seen = seen or target in map(abs, numbers)
        return next((i for i, x in enumerate(numbers) if wanted(x)), None)
    def checked(s):
        row = row_of((p, BOX, s))
        if len(row) != 512 or not in_order(row):
            raise Refused(13)
        return row
    if not in_order(who.head[BOX]):
        raise Refused(10)
    at = search(who.head[BOX])
    if at is not None:
        who.head[BOX][at] = -who.head[BOX][at]
        return
    low, high = 0, who.spills[BOX]
    while low < high:
        middle = low + (high - low) // 2
        if abs(checked(middle)[0]) <= target:
            low = middle + 1
        else:
            high = middle
    for s in range(low - 1, -1, -1):
        row = checked(s)
        if abs(row[-1]) < target:
            break
        at = search(row)
        if at is not None:
            row[at] = -row[at]
            stage((p, BOX, s), row)
            return
        if abs(row[0]) < target:
            break
    raise Refused(14 if seen else 15)

def flush():
    keep = [k for k in staged if k not in deleted]
    if len([k for k in keep if k not in table]) > TABLE - len(table):
        raise Refused(22)
    for key in keep:
        table[key] = staged[key]
    for key in deleted:
        table.pop(key, None)
    staged.clear()
    deleted.clear()

def change(p, nanos, token, amount, adding):
    who = parents[p]
    def moved(a, b):
        c = a + b if adding else a - b
        if not LEAST <= c <= MOST:
            raise Refused(23)
        return c
    total = moved(who.nanos, nanos)
    held = next((t for t in who.tokens if t[0] == token), None)
    if held:
        left = moved(held[1], amount)
        held[1] = left
        if not adding and left <= 0:
            who.tokens.remove(held)
    elif adding:
        if len(who.tokens) == 128:
            raise Refused(24)
        who.tokens.append([token, amount])
    who.nanos = total if adding else max(total, 0)

SIZE = {1: 10, 2: 10, 3: 10, 4: 10, 5: 2, 6: 2, 7: 1, 8: 19, 9: 19}

def run(data, out):
    at = ordinal = 0
    while at < len(data):
        ordinal += 1
        kind = data[at]
        body = data[at + 1:at + SIZE.get(kind, 1)]
        if kind not in SIZE or (body and body[0] > 1) or len(body) != SIZE[kind] - 1:
            out.append(f"{ordinal} 31")
            break
        at += SIZE[kind]
        p = body[0] if body else 0
        number = lambda i: int.from_bytes(body[i:i + 8], "big", signed=True)
        said = ""
        try:
            if kind in (1, 2):
                append(p, BOX if kind == 1 else TX, number(1))
            elif kind in (3, 4):
                flip(p, number(1), kind == 3)
            elif kind in (5, 6):
                said = f" {pop(p, BOX if kind == 5 else TX)}"
            elif kind == 7:
                flush()
            else:
                change(p, number(1), body[9], number(10), kind == 8)
            code = 0
        except Refused as refused:
            code = refused.args[0]
        out.append(f"{ordinal} {code}{said}")
    for p, who in enumerate(parents):
        out.append(f"p {p} {len(who.head[BOX])} {who.spills[BOX]} {len(who.head[TX])} {who.spills[TX]} {who.nanos} {len(who.tokens)}")

if __name__ == "__main__":
    lines = []
    run(sys.stdin.buffer.read(), lines)
    sys.stdout.write("\n".join(lines) + "\n")
