"""verdict.py TALLY: whether the day has seen all that it must, and the last line."""
import sys
from collections import Counter, defaultdict

COMMANDS = """init grow append count digest audit compare-stores prove prove-growth hold show advance verify compare dispute
draw root absent present verify-absent verify-present seal seal-close seal-check""".split()
LAST = 26  # the highest number of a refusal

statuses, refusals, ends, ran = defaultdict(set), set(), Counter(), 0
with open(sys.argv[1], encoding="utf-8", errors="surrogateescape") as file:
    for what, *rest in (line.split() for line in file):
        if what == "ran":
            ran += 1
            statuses[rest[0]].add(int(rest[1]))
        elif what == "refused":
            refusals.add(int(rest[0]))
        else:
            ends[rest[0]] += 1

lacks = [f"{name} with status {status}" for name in COMMANDS for status in (0, 2) if status not in statuses[name]]
lacks += [f"compare-stores with status {status}" for status in (1, 3) if status not in statuses["compare-stores"]]
lacks += [f"status {status}" for status in range(4) if not any(status in seen for seen in statuses.values())]
lacks += [f"status {status} of {name}" for name in COMMANDS for status in sorted(statuses[name] - {0, 1, 2, 3})]
lacks += [f"refusal {number}" for number in range(1, LAST + 1) if number not in refusals]
lacks += [f"ends in the middle of {name}" for name, least in (("append", 40), ("advance", 40), ("seal", 20), ("grow", 20)) if ends[name] < least]
if lacks:
    sys.exit("the day should not have or has not seen: " + ", ".join(lacks))
cut = " + ".join(str(ends[name]) for name in ("append", "advance", "seal", "grow"))
print(f"the day is as it should be: {ran} commands, {len(COMMANDS)} subcommands, statuses 0 to 3, refusals 1 to {LAST}, {cut} ends in the middle")
