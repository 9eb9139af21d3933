"""size.py LIST KEY: how many bytes the proof of absence has for this key and this list of keys."""
import sys

import rules

with open(sys.argv[1], "rb") as file:
    handles = sorted(rules.handle(key) for key in file.read().split(b"\n")[:-1])
print(len(rules.trie_proof(handles, rules.handle(sys.argv[2].encode()))))
