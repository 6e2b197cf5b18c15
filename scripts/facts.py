#!/usr/bin/env python3
"""Prints by which fact the prover refused each must-fail edit that the last gate tried, from target/gate.log.

    scripts/facts.py          how many edits were refused by what, and every edit whose line shows no fact
    scripts/facts.py --all    a line for each edit: the crate, the edit, what, and the first error
    scripts/facts.py LOG..    the same from other logs of `rt ci`

An edit of a crate that had not changed is not tried again and has no line. What: `differ`, two types or values that differ; `bound`, a bound that fails at the
values that are shown; `search`, a proof that a search no longer finds; `other`, another error in a proof; `unfit`, a proof file that does not fit the code,
which shows nothing."""
import collections
import re
import sys

EDIT = re.compile(r'rt: must-fail (\S+)\.edit: refused, as it must be: (.*)')
KINDS = [
    ('bound', re.compile(r'`omega`: the goal does not follow')),
    ('differ', re.compile(r'two types|but this has type|expected type|two sides|two terms|not equal|differ')),
    ('search', re.compile(r'`search`|found no|no occurrence|expected answers')),
    ('unfit', re.compile(r'that can be named from here|it has no file|has no such name')),
]


def main():
    logs = [word for word in sys.argv[1:] if not word.startswith('--')] or ['target/gate.log']
    found = collections.Counter()
    for path in logs:
        try:
            log = open(path, encoding='utf-8', errors='replace')
        except OSError:
            sys.exit(f'facts: no {path}; run `make test` first')
        with log:
            for edit in map(EDIT.search, log):
                if not edit:
                    continue
                kind = next((name for name, pattern in KINDS if pattern.search(edit[2])), 'other')
                found[kind] += 1
                if '--all' in sys.argv or kind in ('unfit', 'other'):
                    print(f'{edit[1]}: {kind}: {edit[2][:160]}')
    print(f'{sum(found.values())} edits: ' + ', '.join(f'{count} {kind}' for kind, count in found.most_common()))


main()
