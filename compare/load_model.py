#!/usr/bin/env python3
"""A model of document 02's repeatable load (U11), written from the document: prints the bytes of so many calls from a state.

    python3 compare/load_model.py STATE CALLS > crates/load_writer/stdout

crates/load_writer/stdout and crates/call_runner_load/stdin are made by it (8,000 calls from state 1), and so are the loads of sample/vectors.txt:

    python3 compare/load_model.py STATE CALLS BOXES TXS     goes on from these counts, and prints the bytes in hexadecimal, how many, and the generator after them"""
import sys

BITS = 2**64


def draw(state):
    state ^= state << 13 & BITS - 1
    state ^= state >> 7
    return state ^ state << 17 & BITS - 1


def load(state, calls, boxes=0, txs=0):
    out = b''
    for _ in range(calls):
        state = draw(state)
        pick = state % 8
        if pick < 4 or (pick < 6 and boxes == 0):
            out += bytes([1, 0]) + boxes.to_bytes(8, 'big')
            boxes += 1
        elif pick < 6:
            out += bytes([3, 0]) + (state // 8 % boxes).to_bytes(8, 'big')
        elif pick == 6:
            out += bytes([2, 0]) + txs.to_bytes(8, 'big')
            txs += 1
        else:
            out += bytes([7])
    return out, state, boxes, txs


if __name__ == '__main__':
    made = load(*map(int, sys.argv[1:]))
    if len(sys.argv) == 3:
        sys.stdout.buffer.write(made[0])
    else:
        print(made[0].hex(), len(made[0]), *made[1:])
