"""figures.py LOTS FOLDER: writes what the day's commands must answer and leave, as files, into FOLDER.

The files are those that the program should make of the sample lots; figures.sh has the digests and lengths,
to be sourced by the script.
"""
import os
import shlex
import sys

import rules

LOG = 7


def main(lots, folder):
    with open(lots, "rb") as file:
        entries = file.read().split(b"\n")[:-1]
    os.makedirs(folder, exist_ok=True)
    os.chdir(folder)
    lines = array("meaning", rules.MEANINGS)
    lines += house(entries) + dictionary() + van()
    put("figures.sh", "".join(line + "\n" for line in lines).encode())


def put(name, data):
    with open(name, "wb") as file:
        file.write(data)


def array(name, values, kind="-a"):
    """An array for the shell, from a mapping."""
    pairs = " ".join(f"[{key}]={shlex.quote(str(value))}" for key, value in values.items())
    return [f"declare -g {kind} {name}=({pairs})"]


def house(entries):
    """Entries, stores, proofs and held files of the day's log, at every length."""
    # T goes on with the same lots once more, for a store that has grown
    log = rules.Log(LOG, entries + entries)
    hops = {}
    for n in range(len(entries) + 1):
        put(f"store.{n}", log.store(n))
        put(f"held.{n}", log.held(n))
        for i in range(n + 1):
            put(f"growth.{i}.{n}", log.growth(i, n))
            hops[f"{i}.{n}"] = len(rules.path(i, n))
            if i:
                put(f"proof.{i}.{n}", log.membership(i, n))
    for j, entry in enumerate(entries, 1):
        put(f"entry.{j}", entry)
    put("lots.txt", b"".join(entry + b"\n" for entry in entries))
    rows = {n: " ".join(map(str, rules.rows_of(n))) or "none" for n in range(len(entries) + 1)}
    return (
        array("T", {j: digest.hex() for j, digest in enumerate(log.T)})
        + array("rows", rows)
        + array("hops", hops, "-A")
        + [f"last={len(entries)}"]
    )


LISTED = ["AR-30972", "KC-22817", "NG-80431", "AL-1190", "GI-77205", "MV-40018", "SH-6634", "CB-15002", "BA-90377"]
OTHERS = ["SU-28140", "AR-30973", "no such lot", "ar-30972", "x" * 4096]


def dictionary():
    """A list of withdrawn lots, its handles, root and proofs; presence for its keys, absence for others."""
    handles = sorted(rules.handle(key.encode()) for key in LISTED)
    put("keys.txt", "".join(key + "\n" for key in LISTED).encode())
    put("handles.txt", "".join(h.hex() + "\n" for h in handles).encode())
    for at, key in enumerate(LISTED + OTHERS):
        put(f"trie.{at}", rules.trie_proof(handles, rules.handle(key.encode())))
    thousand = sorted(rules.handle(b"%d" % at) for at in range(1001))
    put("1001.txt", "".join(h.hex() + "\n" for h in thousand).encode())
    put("1000.txt", "".join(h.hex() + "\n" for h in thousand[:1000]).encode())
    return (
        array("listed", dict(enumerate(LISTED)))
        + array("others", {at: key for at, key in enumerate(OTHERS, len(LISTED))})
        + [f"root={rules.node(handles).hex()}", f"root_1000={rules.node(thousand[:1000]).hex()}"]
        + [f"empty_root={bytes(32).hex()}", f"two_empty={rules.sha(b'%c' % 5, bytes(64)).hex()}"]
    )


SEALED = [(2, b"door opened"), (2**32 - 1, b""), (0, bytes(range(256)) * 16), (7, b"\n\x00\xff"), (1, b"day")]


def van():
    """A van's log and key after each entry; the last entry closes."""
    van = rules.Van(bytes(range(1, 33)))
    put("key.0", van.key)
    put("van.0", b"")
    for at, (kind, data) in enumerate(SEALED, 1):
        put(f"data.{at}", data)
        van.seal(kind, data)
        put(f"van.{at}", van.log)
        put(f"key.{at}", van.key)
    return array("kinds", {at: kind for at, (kind, _) in enumerate(SEALED, 1)}) + [f"entries={len(SEALED)}"]


if __name__ == "__main__":
    main(*sys.argv[1:])
