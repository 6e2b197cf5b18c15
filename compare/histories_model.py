#!/usr/bin/env python3
"""Every short history of document 02 (U10), found by trying every list of at most five calls on a plain ledger and a plain list of entries.

  histories_model.py          one history on a line, its calls by name: crates/history_printer/stdout
  histories_model.py --hex    the bytes, in hex"""
import itertools
import sys

NAMES = ["append 1", "append 2", "spend 1", "spend 2", "undo", "flush"]


def legal(calls):
    """Whether the list keeps the history rules, the flush at each change included, and every call of it is accepted."""
    entries, standing, phase = [], [], "clean"
    for call in calls:
        if call == 5:
            phase = "clean"
        elif call == 4:
            if phase == "calls" or not standing:
                return False
            kind, number = standing.pop()
            if kind == "append":
                entries.pop()
            else:
                entries[entries.index(-number)] = number
            phase = "undos"
        else:
            if phase == "undos":
                return False
            number = call % 2 + 1
            if call < 2:
                if any(abs(e) > number for e in entries) or -number in entries:
                    return False
                entries.append(number)
                standing.append(("append", number))
            else:
                if number not in entries:
                    return False
                entries[entries.index(number)] = -number
                standing.append(("spend", number))
            phase = "calls"
    return True


histories = [calls for n in range(6) for calls in itertools.product(range(6), repeat=n) if legal(calls)]
if sys.argv[1:] == ["--hex"]:
    print(bytes(b for calls in histories for b in [len(calls)] + [c + 1 for c in calls]).hex())
else:
    for calls in histories:
        print(", ".join(NAMES[c] for c in calls) or "no call")
