"""Collisions of the stand-in, the XOR of a message's 32-byte blocks, the last filled with zeros; and whether two messages
are one. craft.py entries A B | proof FROM TO | entry-messages ENTRY ENTRY A B | element-messages J PROOF PROOF A B"""
import sys


def read(name):
    with open(name, "rb") as file:
        return file.read()


def write(name, data):
    with open(name, "wb") as file:
        file.write(data)


def xor(one, other):
    return bytes(a ^ b for a, b in zip(one, other))


def stand_in(message):
    digest = bytes(32)
    for at in range(0, len(message), 32):
        digest = xor(digest, message[at:at + 32].ljust(32, b"\0"))
    return digest


def entries(first, second):
    """Two blocks of the message exchanged: it begins with the mark 00, so the entry's blocks end one byte early."""
    blocks = [b"A lot of articaine, block number", b"Another lot of it, block number."]
    write(first, bytes(31) + blocks[0] + blocks[1])
    write(second, bytes(31) + blocks[1] + blocks[0])


def proof(old, new):
    """The links of a component stand 32 bytes apart: the same change in two of them keeps the XOR."""
    d, one, other = (read(old)[at:at + 32] for at in (0, 32, 64))
    change = bytes(range(1, 33))
    write(new, d + xor(one, change) + xor(other, change))


def must_be(expected, names):
    found = [read(name) for name in names]
    assert found == expected, "the messages are not those of the rules"
    assert found[0] != found[1], "the messages are the same"
    assert stand_in(found[0]) == stand_in(found[1]), "the messages have two hashes"


def main(words):
    if words[0] == "entries":
        entries(*words[1:])
    elif words[0] == "proof":
        proof(*words[1:])
    elif words[0] == "entry-messages":
        must_be([b"\x00" + read(name) for name in words[1:3]], words[3:])
    elif words[0] == "element-messages":
        mark = b"\x01" + int(words[1]).to_bytes(8, "big")
        must_be([mark + read(name) for name in words[2:4]], words[4:])
    else:
        sys.exit(__doc__)


main(sys.argv[1:])
