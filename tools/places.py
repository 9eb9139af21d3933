#!/usr/bin/env python3
"""places: the places in src/ at which docs/DESIGN-PASS.md looks, point by point.

    tools/places.py            how many there are of each kind
    tools/places.py KIND..     the places of these kinds, a line each

A kind is found by its text alone, so that a later run finds what was written since; which of the places keep an older form, and why, the page says."""
import collections
import glob
import os
import re
import sys

os.chdir(os.path.join(os.path.dirname(os.path.abspath(__file__)), '..'))
KEYWORDS = set('as break const continue else enum extern false fn for if impl in let loop match mod move mut pub ref return self Self '
               'struct trait true type unsafe use where while bool u8 u16 u32 u64 usize'.split())


def code(path):
    """The lines of a file, without comments."""
    return [re.sub(r'//.*', '', line.rstrip('\n')) for line in open(path, encoding='utf-8')]


FILES = {path: code(path) for path in sorted(glob.glob('crates/*/src/*.rt'))}


def lines(pattern):
    """The lines in which the pattern stands."""
    found = re.compile(pattern)
    return ['%s:%d: %s' % (path, n, line.strip()) for path, text in FILES.items() for n, line in enumerate(text, 1) if found.search(line)]


class Function:
    """A function: where it stands, its name, parameters, clauses and body."""

    def __init__(self, path, start, text):
        self.path, self.start = path, start
        self.name = re.search(r'\bfn (\w+)', text).group(1)
        head, self.body = self.split(text)
        depth, end = 0, 0
        begin = head.index('(')
        for end in range(begin, len(head)):
            depth += {'(': 1, ')': -1}.get(head[end], 0)
            if depth == 0:
                break
        self.parameters = [part.strip() for part in re.split(r',(?![^<\[(]*[>\])])', head[begin + 1:end]) if part.strip()]
        self.result = re.sub(r'\s+', ' ', re.split(r'\n\s*(?:requires|ensures)', head[end + 1:])[0]).strip()
        self.clauses = re.findall(r'(requires|ensures)\*? ?(\w*) ?\{ (.*) \}', text)

    @staticmethod
    def split(text):
        """What stands before the body, and the body."""
        cut = re.search(r'(?m)^\s*\{$|\{\s*$', re.sub(r'(requires|ensures)[^\n]*', lambda m: ' ' * len(m.group(0)), text))
        return (text[:cut.start()], text[cut.start():]) if cut else (text, '')

    def __str__(self):
        return '%s:%d: %s' % (self.path, self.start, self.name)


def functions():
    found = []
    for path, text in FILES.items():
        n = 0
        while n < len(text):
            begun = re.match(r'(\s*)(pub(\(\w+\))? )?(const )?(extern "C" )?fn \w+', text[n])
            if not begun:
                n += 1
                continue
            end = n
            while text[end].rstrip() != begun.group(1) + '}' and not text[end].rstrip().endswith(';') and not (end == n and text[end].rstrip().endswith('}')):
                end += 1
            found.append(Function(path, n + 1, '\n'.join(text[n:end + 1])))
            n = end + 1
    return found


def shape(body):
    """The body with each name, number and text replaced by one."""
    words = re.findall(r'b?"(?:[^"\\]|\\.)*"|\w+|[^\w\s]', body)
    return tuple(word if word in KEYWORDS or not re.match(r'\w|b?"', word) else 'n' if re.match(r'\d', word) else 's' if '"' in word else 'x' for word in words)


def twins():
    """Functions whose bodies differ in names and constants alone, of 12 words or more."""
    groups = collections.defaultdict(list)
    for function in functions():
        words = shape(function.body)
        if len(words) >= 12:
            groups[words].append(function)
    return ['; '.join(map(str, group)) for group in groups.values() if len(group) > 1]


def namesakes():
    """Functions of one name in two crates or more."""
    groups = collections.defaultdict(list)
    for function in functions():
        if function.name != 'main' and not function.name.startswith('lot_'):
            groups[function.name].append(function)
    return ['; '.join(map(str, group)) for group in groups.values() if len({f.path.split('/')[1] for f in group}) > 1]


def facts():
    """A fact that stands in the requires of three functions or more, each parameter by its type."""
    groups = collections.defaultdict(list)
    for function in functions():
        types = dict(p.replace('mut ', '', 1).split(': ', 1) for p in function.parameters if ': ' in p)
        for kind, _, clause in function.clauses:
            if kind == 'requires':
                for fact in re.split(r' × ', clause):
                    fact = re.sub(r'[()]', '', fact)
                    groups[re.sub(r'\b(\w+)\b', lambda m: '‹%s›' % types[m.group(1)] if m.group(1) in types else m.group(1), fact)].append(function)
    return ['%d × %s: %s' % (len(group), fact, '; '.join(map(str, group))) for fact, group in groups.items() if len(group) > 2]


def together():
    """Two neighbouring parameters that go together in three functions or more."""
    groups = collections.defaultdict(list)
    for function in functions():
        for one, other in zip(function.parameters, function.parameters[1:]):
            groups[one + ', ' + other].append(function)
    return ['%d × %s: %s' % (len(group), pair, '; '.join(map(str, group))) for pair, group in groups.items() if len(group) > 2]


def lengths():
    """A buffer with a length or a place beside it, as parameters or as fields."""
    buffer, number = r'\w+: &(mut )?\[', r'(k|len|size|n|fill|count): (usize|u64)$'
    found = []
    for function in functions():
        if any(re.match(buffer, p) for p in function.parameters) and any(re.match(number, p) for p in function.parameters):
            found.append(str(function))
    for path, text in FILES.items():
        for m in re.finditer(r'struct (\w+)[^{;]*\{([^}]*)\}', '\n'.join(text)):
            if re.search(r': \[u8; ', m.group(2)) and re.search(r'\b(len|size|fill|count): ', m.group(2)):
                found.append('%s: struct %s' % (path, m.group(1)))
    return found


def switches():
    """A parameter that is a bool, and a loop over steps told by a number."""
    return ['%s: %s' % (f, p) for f in functions() for p in f.parameters if p.endswith(': bool')]


KINDS = [
    ('1-types', 'enums and structs of the repository', lambda: lines(r'^\s*(pub(\(\w+\))? )?(enum|struct) \w+')),
    ('1-numbers', 'numbers for refusals and kinds: fields, values beside a refusal, numbers in an arm', lambda: lines(r'\b(number|which): (u64|\d+)|=> (say\()?\d+\b|\bsay\(\d|kind: u|present: bool|good: ')),
    ('2-twins', 'groups of functions whose bodies differ in names and constants alone', twins),
    ('2-namesakes', 'groups of functions of one name in several crates', namesakes),
    ('3-loops', 'loops that are no for', lambda: lines(r'\b(while|loop)\b')),
    ('3-indices', 'for loops over an index that a slice is read by', lambda: lines(r'\bfor (i|k|n|r|l|c|b|j|at) in ')),
    ('4-equal', 'equality by a call of the repository', lambda: lines(r'\b(lists::same|same_digest|row_is|seal_is|is_zero|agree|is_accepted)\(')),
    ('4-convert', 'numbers converted by `as`', lambda: lines(r'\bas (u8|u16|u32|u64|usize)\b')),
    ('4-print', 'functions that print a text, a number or a digest', lambda: lines(r'\bfn (say\w*|text|number|end_with|bytes|line|report|refused|broke|verdict|answer|clashed)\(rt')),
    ('5-facts', 'facts in the requires of three functions or more', facts),
    ('5-together', 'neighbouring parameters that go together in three functions or more', together),
    ('6-lengths', 'a buffer with a length beside it', lengths),
    ('7-switches', 'a step or a kind chosen by a bool', switches),
    ('8-answers', 'files of answers', lambda: sorted(glob.glob('crates/*/proofs/**/Answers.antt', recursive=True))),
]
asked = sys.argv[1:]
for kind, what, find in KINDS:
    if not asked:
        print('%-12s %4d  %s' % (kind, len(find()), what))
    elif kind in asked:
        print('\n'.join(find()))
