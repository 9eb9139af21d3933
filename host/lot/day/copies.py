"""copies.py LOTS: makes pairs of stores in this folder, and writes what `lot compare-stores` owes for each pair, by the
rule of rules.py.

pairs.list has a pair a line, fields between tabs: STORE1 STORE2 STATUS ANSWER ASIDE. ASIDE is what stands behind
`lot compare-stores: ` on standard error; it is empty if nothing does. `large` is a store of 1,300 lots, `lot 1` and on.
"""
import random
import sys

import figures
import rules

ZEROS, ONES, COUNTED = bytes(64), b"\xff" * 64, bytes(range(64))
FILLINGS = [ZEROS, ONES, COUNTED, b"\x01" * 64]
HEADER, RECORD = 16, 65

names, cases = {}, {}


def named(data):
    """The name of a store's file, which is made when it is first asked for."""
    if data not in names:
        names[data] = f"store.{len(names)}"
        figures.put(names[data], data)
    return names[data]


def ordered(first, second):
    """A pair in this order alone; gives the answer."""
    pair = named(first), named(second)
    cases[pair] = rules.check_copies(*zip(pair, (first, second)))
    return cases[pair][1]


def both(first, second):
    """A pair, in both orders."""
    ordered(first, second)
    ordered(second, first)


def room(*fillings):
    """Open records with these bytes."""
    return b"".join(filling + b"\xff" for filling in fillings)


def place(element, byte=0):
    """Where a byte of an element stands in a store; its byte 64 is the state."""
    return HEADER + RECORD * (element - 1) + byte


def changed(data, *places, by=None):
    """One bit of each of these bytes is the other way round, or the byte is this one."""
    data = bytearray(data)
    for at in places:
        data[at] = data[at] ^ 1 << at % 8 if by is None else by
    return bytes(data)


def lengths(log):
    for i in range(7):
        for j in range(7):
            both(log.store(i), log.store(j) + room(*FILLINGS[: j % 4]))


def every_byte(log):
    """Each byte of each element, against a store of the same length and a longer one; the place counts and no rule."""
    store, longer = log.store(4), log.store(6) + room(ONES)
    for element in range(1, 5):
        for byte in range(64):
            other = changed(store, place(element, byte))
            told = {ordered(other, store), ordered(longer, other)}
            assert told == {f"differ {element} {byte}"}, told


def several(log):
    """More than one difference: the first of the first element is told, however long the stores are."""
    store = log.store(5)
    for spots in [
        [(2, 3), (2, 40)], [(2, 31), (2, 32)], [(1, 0), (1, 63)], [(2, 63), (3, 0)], [(1, 5), (2, 4)], [(5, 62), (5, 63)],
        [(1, 63), (5, 0)], [(4, 0), (5, 0)], [(3, 20), (3, 21), (4, 0), (5, 9)], [(1, 33), (2, 33), (3, 33), (4, 33), (5, 33)],
    ]:
        for other in (store, log.store(7), log.store(4), log.store(1) + room(ZEROS), log.store(0)):
            both(changed(store, *(place(*spot) for spot in spots)), other)
    # in the one here, in the other there
    both(changed(store, place(2, 9)), changed(store, place(3, 1)))
    both(changed(store, place(4, 50)), changed(log.store(8), place(4, 49)))
    # the same bytes in another order, and elements that no log has
    swapped = bytearray(store)
    swapped[place(2) : place(3)], swapped[place(4) : place(5)] = store[place(4) : place(5)], store[place(2) : place(3)]
    both(bytes(swapped), store)
    header = store[:HEADER]
    made = [header + b"".join(filling + b"\x01" for filling in (ZEROS, ONES, COUNTED)[:count]) for count in range(4)]
    for one in made + [header + (ONES + b"\x01") * 3, header + (ZEROS + b"\x01") * 3]:
        for other in made:
            both(one, other + room(COUNTED))


def states(log):
    """Every state at some record, and the remarkable ones at each; the other store has as many elements, or more."""
    store, others = log.store(3) + room(ZEROS, log.d[5] + log.T[5]), [log.store(3), log.store(5)]
    for element in range(1, 6):
        for state in (0, 1, 2, 127, 128, 254, 255):
            for other in others:
                both(changed(store, place(element, 64), by=state), other)
    for state in range(256):
        element = 2 + state % 3
        ordered(changed(store, place(element, 64), by=state), store)


def headers(log):
    """Each byte of the header: damage up to the log number, another log from there; and the same in both."""
    store = log.store(2) + room(ONES)
    for at in range(HEADER):
        other = changed(store, at)
        both(other, store)
        ordered(other, other + room(ZEROS))
        both(other, log.store(3))
        ordered(other, changed(log.store(2), place(1, 7)))
    both(store[:3] + b"\x00\x02" + store[5:], store)
    both(store[:3] + b"\x01\x00" + store[5:], store)


def log_numbers(log, entries):
    numbers = [0, 7, 8, 255, 256, 7 << 56, 2**32 - 1, 2**32, 2**63, 2**64 - 1]
    logs = [rules.Log(value, entries[:3]) for value in numbers]
    for one, other in zip(logs, logs[1:] + logs[:1]):
        both(one.store(2), other.store(2) + room(COUNTED))
        both(one.store(2), one.store(3))
    for other in logs[2:4]:
        for count in range(4):
            both(log.store(2), other.store(count))
        # damage is told first, in whichever it is, and by its name
        for broken in (other.store(2)[:15], changed(other.store(2), place(2, 64)), changed(other.store(3), 0)):
            both(broken, log.store(2))
            both(broken, changed(log.store(2), 4))


def cuts(log):
    """A store that ends anywhere, and bytes behind the last whole record."""
    store = log.store(2)
    for size in range(len(store) + 1):
        ordered(store[:size], log.store(3))
        if size % 65 in (0, 1, 15, 16, 17):
            ordered(store + room(ZEROS), store[:size])
    for filling in FILLINGS:
        for size in (1, 2, 31, 32, 33, 63, 64):
            both(store + filling[:size], store)
            ordered(store + room(ONES) + filling[:size], log.store(3))


def rooms(log):
    """What stands in open records does not count; nor what an append left there that was ended before the state."""
    store, following = log.store(5), log.d[6] + log.T[6]
    for filling in FILLINGS + [following, log.d[5] + log.T[5], log.d[1] + log.T[1]]:
        both(store + room(filling), store)
        both(store + room(filling, filling, ZEROS), store + room(ONES))
        both(store + room(filling), log.store(6))
        both(store + room(filling), log.store(4) + room(filling))
        both(log.store(0) + room(filling), log.store(0))
    for size in range(65):
        left = store + room(following[:size] + ONES[size:], ONES)
        ordered(left, store + room(ONES, ONES))
        if size % 8 == 0:
            ordered(log.store(6), left)


def damages(log):
    """Damage anywhere is told before a difference, a length or another damage, with all the names that it has."""
    store, differs = log.store(4) + room(ZEROS, ONES), changed(log.store(4), place(1, 0))
    broken = [b"", b"LOT", store[:15], changed(store, 0), changed(store, 7), changed(store, place(1, 64)), changed(store, place(4, 64))]
    broken += [changed(store, place(6, 64)), changed(store, place(6, 64), by=1), changed(store, place(2, 64), by=255)]
    for bad in broken:
        for other in (store, differs, log.store(0), bad):
            both(bad, other)
    for bad, worse in zip(broken, broken[1:]):
        both(bad, worse)


def large(log):
    """Over 32 KiB and over 64: the edges of every 4 KiB, of many counts, and the last element."""
    count = len(log.T) - 1
    store = log.store(count)
    both(store, store + room(ZEROS))
    both(store + room(*[COUNTED] * count), store)
    for edge in range(4096, len(store), 4096):
        ordered(changed(store, edge - 1), store)
        ordered(store + room(ONES), changed(store, edge))
    for element in (1, 2, 63, 64, 252, 253, 503, 504, 505, 512, 513, 1000, 1008, 1009, 1024, 1025, count - 1, count):
        ordered(changed(store, place(element, 63)), store)
        ordered(store + room(ZEROS), changed(store, place(element, 0)))
        ordered(store, log.store(element - 1))
        ordered(log.store(element) + room(ONES), store)
        ordered(changed(store, place(1, 32), place(element, 64)), store)
    for byte in (0, 31, 32, 62, 63):
        both(changed(store, place(count, byte)), store)
    both(changed(store, place(count, 63)), log.store(count - 1))
    both(changed(store, 15), store)
    both(changed(store + room(ZEROS), place(count + 1, 64)), log.store(1))


def larger():
    """Over a megabyte that no log has: the bytes alone are compared."""
    count = 20000
    store = bytearray(random.Random(7).randbytes(RECORD * count))
    store[64::RECORD] = b"\x01" * count
    store = rules.Log(figures.LOG).store(0) + bytes(store)
    both(store, store + room(ZEROS))
    both(changed(store, place(count, 63)), store)
    both(store[:-RECORD], store)
    both(changed(store, place(1, 0), place(count, 64)), store)


def main(lots):
    with open(lots, "rb") as file:
        entries = file.read().split(b"\n")[:-1]
    log = rules.Log(figures.LOG, entries)
    for make in (lengths, every_byte, several, states, headers, cuts, rooms, damages):
        make(log)
    log_numbers(log, entries)
    lots = rules.Log(figures.LOG, (b"lot %d" % j for j in range(1, 1301)))
    large(lots)
    figures.put("large", lots.store(1300) + room(*[ZEROS] * 10))
    larger()
    lines = ("\t".join(map(str, (*pair, *owed))) for pair, owed in cases.items())
    figures.put("pairs.list", "".join(line + "\n" for line in lines).encode())


main(sys.argv[1])
