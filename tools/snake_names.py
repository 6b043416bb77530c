#!/usr/bin/env python3
"""Respells this repository's own definitions and lemmas: words in snake case. Run once, at the top, after the kit's port.py.

What specs/ and proofs/ declare as 'fooBar', and the few variables named so, becomes 'foo_bar'. Types, facts and modules keep
their capital, a name with a dash keeps its dash, and what Rust declares keeps its spelling. A lemma whose name would fall
together with its function's gets '_lem' first. With --check it writes nothing, and prints the files in which a new name stands
already."""
import glob
import re
import sys

LETTERS = r"[\w'₀-₉-]*"
TOKEN = re.compile(r'[A-Za-zͰ-Ͽ_]' + LETTERS)
DECLARED = re.compile(r'^\s*(?:(?:unfoldable|abbrev|pub)\s+)*([a-z]' + LETTERS + r') :(?: |$)', re.M)
CAMEL = re.compile(r'[a-z0-9][A-Z]')
# lemmas that stand beside a definition of the same words
BESIDE = {'allowed_of', 'counted_of', 'header_read', 'source_in', 'version_of'}
# the lemmas on get_or, of which the kit's script turned one to the words of another library
LOOKUPS = {'get_d_part': 'get_or-part', 'getD-put-below': 'get_or-put-below', 'getD-put-above': 'get_or-put-above', 'getD-put-tab': 'get_or-put-tab',
           'getD-put-in': 'get_or-put-in', 'getD-tab': 'get_or-tab', 'getD-grid': 'get_or-grid'}
VARIABLES = ['failedP', 'cNone', 'colMean', 'colStd', 'convergedP', 'outcomeP', 'outcomeL', 'outcomeW', 'limitP', 'loopL', 'maxXnu', 'yMean', 'fitR', 'lastC',
             'moreC', 'countsFrom', 'convergedA', 'limitA', 'refusedA', 'fitIntercept', 'useReciprocal', 'refusedSaid']
SOURCES = ['crates/**/*.antt', 'crates/**/*.rt']


def snake(name):
    return re.sub(r'(?<=[a-zA-Z0-9])([A-Z])', lambda m: '_' + m.group(1).lower(), name)


def paths(places):
    return sorted(path for place in places for path in glob.glob(place, recursive=True))


def names():
    new = {name: name + '_lem' for name in BESIDE}
    new.update((name, snake(name)) for name in VARIABLES)
    for path in paths(['crates/*/specs/**/*.antt', 'crates/*/proofs/**/*.antt']):
        for name in DECLARED.findall(open(path).read()):
            if CAMEL.search(name):
                new[name] = snake(name)
    new.update(LOOKUPS)
    return new


def main():
    new, check = names(), '--check' in sys.argv
    for path in paths(SOURCES):
        text = open(path).read()
        have = set(TOKEN.findall(text))
        for old in sorted(have & set(new)):
            if new[old] in have and new[old] not in new:
                print(f'{path}: {old} and {new[old]}')
        turned = TOKEN.sub(lambda m: new.get(m.group(), m.group()), text)
        if not check and turned != text:
            open(path, 'w').write(turned)


main()
