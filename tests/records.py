#!/usr/bin/env python3
# Holds the table of docs/RECORDS.md and the bytes of crates/session/stdin to the orders of tests/session/orders.
# The bytes are those of tools/orders. Run: records.py check
import importlib.machinery, importlib.util, os, re, sys

ROOT = os.path.join(os.path.dirname(os.path.abspath(__file__)), "..")


def tool(name):
    """A program of tools/, as a module."""
    sys.dont_write_bytecode = True
    loader = importlib.machinery.SourceFileLoader(name, os.path.join(ROOT, "tools", name))
    module = importlib.util.module_from_spec(importlib.util.spec_from_loader(name, loader))
    loader.exec_module(module)
    return module


def rows():
    """The table of docs/RECORDS.md: each order with its bytes."""
    with open(os.path.join(ROOT, "docs", "RECORDS.md")) as f:
        return re.findall(r"^\| `(O[LBCS] [^`]*)` \| `([0-9A-F ]+)` \|", f.read(), re.M)


def check():
    wrong = []
    orders = tool("orders")
    session = [line for _, line in orders.lines(os.path.join(ROOT, "tests", "session", "orders"))]
    with open(os.path.join(ROOT, "crates", "session", "stdin"), "rb") as f:
        if f.read() != b"".join(orders.encode(o) for o in session):
            wrong.append("crates/session/stdin is not the bytes of tests/session/orders")
    for order, text in rows():
        if bytes.fromhex(text) != orders.encode(order):
            wrong.append("docs/RECORDS.md: %s should be %s" % (order, orders.encode(order).hex(" ").upper()))
    if [o for o, _ in rows()] != session:
        wrong.append("docs/RECORDS.md does not have 01's session, order by order")
    return wrong


if __name__ == "__main__":
    if sys.argv[1:] != ["check"]:
        sys.exit("records.py check")
    found = check()
    print("\n".join(found), end="\n" if found else "")
    sys.exit(bool(found))
