"""ends.py append LINES PRINTED STORE ROOM NEXT: after an append was ended in the middle. Prints the store's count and
the T that NEXT, a file, must get as the entry behind it; or says what was lost and ends with status 1.
ends.py seal LOG SEALED: after seals were ended in the middle and the log was closed. SEALED has a line for each:
`must FILE` if it was answered, `may FILE` if not. Prints the number of entries."""
import sys

import figures
import rules


def read(name):
    with open(name, "rb") as file:
        return file.read()


def append(lines, printed, store, room, following):
    entries, data = read(lines).split(b"\n")[:-1], read(store)
    log = rules.Log(figures.LOG, entries)
    answers = read(printed).decode().split("\n")[:-1]
    for j, answer in enumerate(answers, 1):
        if answer != f"{j} {log.T[j].hex()} {lines}:{j}":
            sys.exit(f"line {j} of the answers is {answer}")
    count = sum(state == 1 for state in data[16 + 64 :: 65])
    if count not in (len(answers), len(answers) + 1):
        sys.exit(f"{len(answers)} lots were answered and {count} are in the log")
    fault = rules.store_fault(data, log, count, int(room))
    if fault:
        sys.exit(fault)
    then = rules.Log(figures.LOG, entries[:count] + [read(following)])
    print(count, then.T[-1].hex())


def seal(log, sealed):
    entries = rules.van_entries(read(log))
    if entries.pop() != (1, b""):
        sys.exit("the last entry does not close the log")
    at = 0
    for word, name in (line.split() for line in read(sealed).decode().splitlines()):
        if at < len(entries) and entries[at] == (2, read(name)):
            at += 1
        elif word == "must":
            sys.exit(f"{name} was answered and is not entry {at}")
    if at != len(entries):
        sys.exit(f"entry {at} is none that was sealed")
    print(at + 1)


{"append": append, "seal": seal}[sys.argv[1]](*sys.argv[2:])
