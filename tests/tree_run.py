#!/usr/bin/env python3
"""What crates/tree_run must print, worked out on plain Python tuples from 01's words and the AVL rule: no memory, no places.

tree_run.py         prints it
tree_run.py check   compares it with crates/tree_run/stdout"""
import os, sys

VOIDS, ROUNDS = 2000, 10000
# a leaf is (key, end); a node is (height, least key, greatest end, least end, left, right)


def height(t):
    return 0 if len(t) == 2 else t[0]


def least_key(t):
    return t[0] if len(t) == 2 else t[1]


def top(t):
    return t[1] if len(t) == 2 else t[2]


def low(t):
    return t[1] if len(t) == 2 else t[3]


def join(x, y):
    return (max(height(x), height(y)) + 1, least_key(x), max(top(x), top(y)), min(low(x), low(y)), x, y)


def balance(x, y):
    if height(x) >= height(y) + 2:
        a, b = x[4], x[5]
        if height(b) <= height(a):
            return join(a, join(b, y))
        return join(join(a, b[4]), join(b[5], y))
    if height(y) >= height(x) + 2:
        a, b = y[4], y[5]
        if height(a) <= height(b):
            return join(join(x, a), b)
        return join(join(x, a[4]), join(a[5], b))
    return join(x, y)


def insert(t, k, e):
    if len(t) == 2:
        return join(t, (k, e)) if t[0] <= k else join((k, e), t)
    x, y = t[4], t[5]
    return balance(x, insert(y, k, e)) if least_key(y) <= k else balance(insert(x, k, e), y)


def remove(t, k):
    x, y = t[4], t[5]
    if least_key(y) <= k:
        return x if len(y) == 2 else balance(x, remove(y, k))
    return y if len(x) == 2 else balance(remove(x, k), y)


def set_end(t, k, e):
    if len(t) == 2:
        return (t[0], e)
    x, y = t[4], t[5]
    return join(x, set_end(y, k, e)) if least_key(y) <= k else join(set_end(x, k, e), y)


def search(t, r, f):
    """01's A + B + C: the leaf where it ends, or none, and the visits."""
    visits, marked = 1, None
    while len(t) != 2:
        x, y = t[4], t[5]
        if least_key(y) // 1024 <= r:
            visits += 2
            if top(x) >= f:
                marked = x
            t = y
        else:
            visits += 1
            t = x
    if t[0] // 1024 <= r and f <= t[1]:
        return t, visits
    if marked is None:
        return None, visits
    t = marked
    while len(t) != 2:
        visits += 1
        if top(t[5]) >= f:
            t = t[5]
        else:
            visits += 1
            t = t[4]
    return t, visits


def mix(d, v):
    return (d % 2**32 * 33 + v % 2**32) % 2**32


def moment(i):
    return i % 65536 * 40503 % 65536


def key(i):
    return moment(i) * 1024 + 1023 - i % 64


def end(i):
    return moment(i) + 1 + i % 65536 * 7919 % 5000


def look(t):
    digest = 0
    for i in range(ROUNDS):
        r = moment(i * 3 + 1)
        leaf, visits = search(t, r, r + i % 900)
        digest = mix(mix(digest, visits), leaf[0] if leaf else 0)
    return digest


def run():
    t = (key(0), end(0))
    for i in range(1, VOIDS):
        t = insert(t, key(i), end(i))
    said = [look(t)]
    for i in range(ROUNDS):
        t = set_end(insert(remove(t, key(i * 5)), key(i * 7 + 3), end(i * 7 + 3)), key(i * 11), end(i * 11))
    return "".join("%d\n" % v for v in said + [look(t), low(t)])


if __name__ == "__main__":
    if sys.argv[1:] == ["check"]:
        here = os.path.dirname(os.path.abspath(__file__))
        with open(os.path.join(here, "..", "crates", "tree_run", "stdout")) as f:
            if f.read() != run():
                sys.exit("crates/tree_run/stdout is not what tests/tree_run.py works out")
    else:
        sys.stdout.write(run())
