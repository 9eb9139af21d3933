"""store.py STORE COUNT ROOM LINES: whether a store is that of log 7 with the first COUNT of these lines."""
import sys

import figures
import rules

name, count, room, lines = sys.argv[1:]
with open(lines, "rb") as file:
    entries = file.read().split(b"\n")[: int(count)]
with open(name, "rb") as file:
    fault = rules.store_fault(file.read(), rules.Log(figures.LOG, entries), int(count), int(room))
if fault:
    sys.exit(fault)
