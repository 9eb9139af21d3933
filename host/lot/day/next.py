"""next.py LINES FILE: T of a log 7 of these lines, with the file as the entry behind them."""
import sys

import figures
import rules

with open(sys.argv[1], "rb") as lines, open(sys.argv[2], "rb") as last:
    print(rules.Log(figures.LOG, lines.read().split(b"\n")[:-1] + [last.read()]).T[-1].hex())
