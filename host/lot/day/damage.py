"""damage.py FOLDER: damages what figures.py wrote there, one place after the other, and writes beside it the
line that each damaged file must be answered with, by the checkers of rules.py.

Lists, fields between tabs, a case a line:
    members.list   I N DIGEST ENTRY PROOF LINE           for verify and draw
    growths.list   HELD N DIGEST PROOF AFTER LINE        for advance; AFTER is the held file afterwards
    helds.list     HELD LINE                             for every command that reads a held file
    stores.list    STORE LINE                            for audit
    tries.list     COMMAND ROOT KEY PROOF LINE           for verify-absent and verify-present
    vans.list      LOG LINE                              for seal-check
"""
import os
import sys

import figures
import rules

made = 0


def get(name):
    with open(name, "rb") as file:
        return file.read()


def put(data):
    """Keeps a damaged file under a new name, and gives the name."""
    global made
    made += 1
    figures.put(f"damaged.{made}", data)
    return f"damaged.{made}"


def write(name, cases):
    figures.put(name, "".join("\t".join(map(str, case)) + "\n" for case in cases).encode())


def turned(data, *places):
    """One bit of each of these bytes is the other way round."""
    data = bytearray(data)
    for at in places:
        data[at] ^= 1 << at % 8
    return bytes(data)


def row_places(data, begin=0):
    """A byte in each 32-byte row, another one from row to row."""
    return [at + (at // 32 * 7) % 32 for at in range(begin, len(data), 32)]


def other_lengths(data):
    return [data[:-1], data[:-32], data[32:], b"", data + b"\x00", data + bytes(32), data + data]


def members(log, entries):
    cases = []
    for i, n in [(5, 12), (1, 12), (12, 12), (7, 11), (8, 12), (4, 10), (3, 8), (1, 1)]:
        proof = get(f"proof.{i}.{n}")
        places = row_places(proof)
        changed = [turned(proof, at) for at in places] + other_lengths(proof)
        changed += [turned(proof, a, b) for a, b in zip(places, places[1:])]
        asked = [(i, n, log.T[n], f"entry.{i}", bad) for bad in changed]
        asked += [(i, n, turned(log.T[n], 9), f"entry.{i}", proof), (i, n, log.T[n - 1], f"entry.{i}", proof)]
        asked += [(i, n, log.T[n], f"entry.{i % 12 + 1}", proof), (i, n, log.T[n], put(bytes(4097)), proof)]
        asked += [(j, m, log.T[n], f"entry.{i}", proof) for j, m in [(0, n), (n + 1, n), (i, 2**32), (2**64 - 1, 2**64 - 1)]]
        for j, m, digest, entry, bad in asked:
            line = rules.check_member(j, m, digest, get(entry), bad)
            cases.append((j, m, digest.hex(), entry, put(bad), line))
    write("members.list", cases)


def growths(log, _):
    asked = []
    for i, n in [(0, 12), (7, 12), (5, 12), (3, 8), (6, 11), (11, 12), (0, 1), (7, 8), (1, 12), (5, 6)]:
        held, proof, digest = get(f"held.{i}"), get(f"growth.{i}.{n}"), log.T[n]
        changed = [turned(proof, at) for at in row_places(proof)] + other_lengths(proof)
        asked += [(held, n, digest, bad) for bad in changed]
        # a held file has no check sum: its digest shows at once, a row when a hop comes to it
        if i:
            asked += [(turned(held, at), n, digest, proof) for at in row_places(held, 21)]
        asked += [(held, n, turned(digest, 31), proof), (held, 2**32, digest, proof), (held, 2**64 - 1, digest, proof)]
        asked += [(held, n + 1, digest, proof), (rules.Log(8).held(0), n, digest, get(f"growth.0.{n}"))]
    asked += [(get("held.12"), 11, log.T[11], b""), (get("held.12"), 12, log.T[12], b""), (get("held.12"), 12, log.T[11], b"")]
    cases = []
    for held, n, digest, proof in asked:
        line, after = rules.check_growth(held, n, digest, proof)
        cases.append((put(held), n, digest.hex(), put(proof), put(after), line))
    write("growths.list", cases)


def helds(_, __):
    held, new = get("held.12"), get("held.0")
    changed = [held[:0], held[:1], held[:52], new[:52]]
    changed += [turned(held, at) for at in range(5)] + [held[:3] + b"\x00\x00" + held[5:], b"\x00" * 53, b"\x00" * 52]
    changed += [held[:13] + count + held[21:] for count in (rules.number(2**32), b"\xff" * 8, b"\x01" + bytes(7))]
    changed += [held[:53], held[:-1], held[:-32], held + b"\x00", held + bytes(32), turned(held, 20), turned(new, 20), new + b"\n"]
    changed += [turned(new, 12), turned(new, 5), turned(new, 21), turned(new, 52), new[:21] + bytes(32)]
    write("helds.list", [(put(bad), rules.refused(rules.read_held(bad)[0])) for bad in changed])


def stores(_, entries):
    store = get("store.12") + (bytes(64) + b"\xff") * 4
    cases = []
    for j in range(1, len(entries) + 1):
        at = 16 + 65 * (j - 1)
        cases += [(put(turned(store, at + 3 * j % 32)), f"wrong {j}"), (put(turned(store, at + 32 + 5 * j % 32)), f"wrong {j}")]
    states = [16 + 65 * r + 64 for r in range(16)]
    changed = [turned(store, at) for at in range(5)] + [store[:0], store[:1], store[:15]]
    # any other state, an open record before a closed one, a closed one behind an open one
    changed += [store[:at] + state + store[at + 1 :] for at in states for state in (b"\x00", b"\x02", b"\xfe")]
    changed += [store[:at] + b"\xff" + store[at + 1 :] for at in states[:11]]
    changed += [store[:at] + b"\x01" + store[at + 1 :] for at in states[13:]]
    cases += [(put(bad), rules.refused(1)) for bad in changed]
    # another log's number: the first T is another; and cut off, the whole records are the log
    cases += [(put(turned(store, at)), "wrong 1") for at in (8, 15)]
    cases += [(put(store[: 16 + 65 * 5 + more]), "sound 5") for more in (0, 1, 64)] + [(put(store[:16]), "sound 0")]
    write("stores.list", cases)


def tries(_, __):
    handles = sorted(rules.handle(key.encode()) for key in figures.LISTED)
    root = rules.node(handles)
    asked = []
    for at, key in enumerate(figures.LISTED + figures.OTHERS):
        absent, proof = at >= len(figures.LISTED), get(f"trie.{at}")
        asked.append((absent, root, key, proof))
        if 0 < at < len(figures.LISTED) - 1:
            continue
        places = row_places(proof)[:: 1 if absent else 17] + [len(proof) - 1]
        asked += [(absent, root, key, bad) for bad in [turned(proof, p) for p in places] + other_lengths(proof)]
        asked += [(not absent, root, key, proof), (absent, turned(root, 31), key, proof), (absent, root, key + "y", proof)]
        asked += [(absent, root, key, proof + bytes(8192 - len(proof))), (absent, root, "z" * 4097, proof)]
    # what the format says of roots that no list has
    asked += [(True, bytes(32), "A", b""), (True, rules.sha(b"\x05", bytes(64)), "A", bytes(32)), (True, root, "A", bytes(8224))]
    cases = []
    for absent, under, key, proof in asked:
        line = rules.check_trie(absent, under, key.encode(), proof)
        cases.append(("verify-absent" if absent else "verify-present", under.hex(), key, put(proof), line))
    write("tries.list", cases)


def vans(_, __):
    van, ends, cases = rules.Van(bytes(range(1, 33))), [0], []
    for kind, data in [(2, b"door opened"), (2**32 - 1, b""), (1, b"day")]:
        van.seal(kind, data)
        ends.append(len(van.log))
    for at in range(len(van.log)):
        entry = max(k for k in range(3) if ends[k] <= at)
        wrong = rules.refused(24, f" at entry {entry}")
        cases.append((put(turned(van.log, at)), wrong))
        cases.append((put(van.log[:at]), rules.refused(25) if at in ends else wrong))
    cases += [(put(van.log), "accepted: 3 entries, closed")]
    write("vans.list", cases)


def main(folder):
    os.chdir(folder)
    entries = get("lots.txt").split(b"\n")[:-1]
    log = rules.Log(figures.LOG, entries)
    for damage in (members, growths, helds, stores, tries, vans):
        damage(log, entries)


main(sys.argv[1])
