#!/usr/bin/env python3
"""Writes a model of the greatest sizes, or of a part of each, that the check accepts.

    bench/model.py [PART]       PART 1 (the default) is full size, 4 is a quarter of each size

The rows are what a lane of that size would have: counters, flags and arrays, sums, products and
comparisons, conditionals, elements of arrays of arrays, guards, assignments, chains of 8 targets,
sequences, ifs, selects, whiles and ports of each direction.
"""
import sys

BOOL, NAT, INT, INTERVAL, ARRAY, VARIABLE, PORT = 0, 1, 2, 3, 4, 8, 9
LITERAL, READ, NOT, AND, PLUS, TIMES, LESS = 10, 11, 12, 15, 17, 19, 24
CONDITIONAL, PAIR, PLACE, ELEMENT = 26, 27, 28, 29
NULL, ON, ASSIGN, FURTHER, ANY, WHILE, IF, SEQUENCE, SELECT, TO = 32, 33, 34, 35, 36, 37, 38, 39, 40, 41
SYNCHRONISE, SEND, RECEIVE, STATE = 43, 44, 45, 48


class Rows:
    def __init__(self):
        self.code = []
        self.arg = []

    def __len__(self):
        return len(self.code)

    # the number of the new row
    def add(self, kind, tail, arg):
        self.code.append(kind + 64 * tail)
        self.arg.append(arg)
        return len(self.code) - 1


def types(rows, end):
    """bool, nat, int, 0..3, 0..255, 4 of 0..255, 4 of 4 of 0..255, then more intervals and arrays."""
    rows.add(BOOL, 0, 0)
    rows.add(NAT, 0, 0)
    rows.add(INT, 0, 0)
    rows.add(INTERVAL, 3, 0)
    byte = rows.add(INTERVAL, 255, 0)
    row = rows.add(ARRAY, 4, byte)
    rows.add(ARRAY, 4, row)
    while len(rows) < end:
        n = len(rows)
        interval = rows.add(INTERVAL, 2 * n, -n)
        if len(rows) < end:
            rows.add(ARRAY, 4, interval)


def variables(rows, end):
    """Groups of eight; the first five of a group are x, y, b, a and m of `expressions`."""
    group = [2, 4, 0, 5, 6, 2, 4, 1]
    out = []
    while len(rows) < end:
        out.append(rows.add(VARIABLE, 0, group[len(out) % 8]))
    return [out[i:i + 8] for i in range(0, len(out) - 7, 8)]


def ports(rows, end):
    """In turn: carries nothing, receives int, sends int, either way int."""
    out = []
    while len(rows) < end:
        way = len(out) % 4
        out.append(rows.add(PORT, way, 0 if way == 0 else 2))
    return [out[i:i + 4] for i in range(0, len(out) - 3, 4)]


def expressions(rows, end, groups):
    bool_, int_, quarter, byte, row, grid = 0, 2, 3, 4, 5, 6
    blocks = []
    while len(rows) + 26 <= end:
        n = len(blocks)
        x, y, b, a, m = groups[n % len(groups)][:5]
        e = {}
        e["x"] = rows.add(PLACE, int_, x)
        read_x = rows.add(READ, int_, e["x"])
        rows.add(LITERAL, int_, n)
        e["sum"] = rows.add(PLUS, int_, read_x)
        rows.add(LITERAL, int_, 300)
        less = rows.add(LESS, bool_, e["sum"])
        e["b"] = rows.add(PLACE, bool_, b)
        read_b = rows.add(READ, bool_, e["b"])
        rows.add(NOT, bool_, read_b)
        e["guard"] = rows.add(AND, bool_, less)
        e["y"] = rows.add(PLACE, byte, y)
        rows.add(READ, int_, e["y"])
        rows.add(TIMES, int_, read_x)
        rows.add(PAIR, 0, e["sum"])
        e["int"] = rows.add(CONDITIONAL, int_, e["guard"])
        array = rows.add(PLACE, row, a)
        rows.add(LITERAL, quarter, n % 4)
        e["a"] = rows.add(ELEMENT, byte, array)
        e["byte"] = rows.add(READ, byte, e["a"])
        lines = rows.add(PLACE, grid, m)
        rows.add(LITERAL, quarter, n % 4)
        line = rows.add(ELEMENT, row, lines)
        rows.add(LITERAL, quarter, (n + 1) % 4)
        e["m"] = rows.add(ELEMENT, byte, line)
        rows.add(READ, int_, e["m"])
        e["test"] = rows.add(LESS, bool_, e["int"])
        blocks.append(e)
    while len(rows) < end:
        rows.add(LITERAL, int_, len(rows))
    return blocks


def statements(rows, end, blocks, port_groups, states):
    tops = []
    while len(rows) + 23 <= end:
        n = len(tops)
        # four blocks in a row, which are about different variables
        start = 3 * n % (len(blocks) - 3)
        near = blocks[start:start + 4]
        here = near[0]
        plain, receiving, sending, either = port_groups[n % len(port_groups)]
        on = rows.add(ON, 0, here["guard"])
        rows.add(ASSIGN, here["x"], here["int"])
        for other in near[1:]:
            rows.add(FURTHER, other["x"], other["int"])
        for other in near[:2]:
            rows.add(FURTHER, other["y"], other["byte"])
        rows.add(FURTHER, near[2]["a"], near[2]["byte"])
        chain = rows.add(FURTHER, near[3]["m"], near[3]["byte"])
        guarded = rows.add(SEQUENCE, on, chain)
        choose = rows.add(ANY, 0, here["b"])
        repeat = rows.add(WHILE, here["guard"], choose)
        body = rows.add(SEQUENCE, guarded, repeat)
        send = rows.add(SEND, [sending, either][n % 2], here["int"])
        receive = rows.add(RECEIVE, [receiving, either][n % 2], here["x"])
        branch = rows.add(IF, here["guard"], send)
        meet = rows.add(SYNCHRONISE, 0, plain)
        pick = rows.add(SELECT, branch, meet)
        work = rows.add(SEQUENCE, body, pick)
        set_ = rows.add(ASSIGN, here["b"], here["test"])
        jump = rows.add(TO, 0, n % states)
        after = rows.add(SEQUENCE, set_, jump)
        tops.append(rows.add(SEQUENCE, work, after))
    while len(rows) < end:
        rows.add(NULL, 0, 0)
    return tops


def model(part):
    sizes = [n // part for n in (64, 256, 32, 2048, 1024, 128)]
    rows, end = Rows(), 0
    end += sizes[0]
    types(rows, end)
    end += sizes[1]
    groups = variables(rows, end)
    end += sizes[2]
    port_groups = ports(rows, end)
    end += sizes[3]
    blocks = expressions(rows, end, groups)
    end += sizes[4]
    tops = statements(rows, end, blocks, port_groups, sizes[5])
    for n in range(sizes[5]):
        rows.add(STATE, 0, tops[n % len(tops)])
    return sizes, rows


def main():
    part = int(sys.argv[1]) if len(sys.argv) > 1 else 1
    if part not in (1, 2, 4):
        sys.exit("PART is 1, 2 or 4")
    sizes, rows = model(part)
    print("# a model to measure the check with: sizes, codes, args")
    print(*sizes)
    for words in (rows.code, rows.arg):
        for i in range(0, len(words), 16):
            print(*words[i:i + 16])


main()
