#!/usr/bin/env python3
"""respell.py: gives the repository's own definitions and lemmas the spelling of today's Rattle.

Run once, at the top, after the kit's port.py. tools/respell.txt has a line for each
name: the old one and the new one. A name is turned wherever it stands as a whole
word in the sources, definitions and proofs; in prose one with a hyphen stays, and
the word needs, which was the library's for the rules of a search.
A name that would meet a function's or another definition's ends in _lem.
"""
import glob
import os
import re

here = os.path.dirname(os.path.abspath(__file__))
os.chdir(os.path.dirname(here))

with open(os.path.join(here, 'respell.txt'), encoding='utf-8') as lines:
    names = dict(line.split() for line in lines)

WORD = re.compile(r'[^\s(){}\[\],;.⌜⌝"`\']+\'*')
# A word of this file that Rattle made: what a step of a proof by hand shows of a call.
MADE = re.compile(r'\.([a-z0-9-]+)(?=\.(?:ensures|result|given|is)\b)')


def turned(text, prose, by_hand):
    """The text with its names turned."""
    made = {found.start(1) for found in MADE.finditer(text)} if by_hand else set()

    def turn(word):
        name = word.group()
        if word.start() in made or (prose and ('-' in name or name == 'needs')):
            return name
        return names.get(name, name)

    return WORD.sub(turn, text)


def respell(path):
    """Turns one file."""
    with open(path, encoding='utf-8') as opened:
        old = opened.read()
    mark = '//' if path.endswith('.rt') else '--'
    by_hand = path.endswith('/Proof.antt')
    new = []
    for line in old.split('\n'):
        at = 0 if line.lstrip().startswith(mark) else line.find(f' {mark} ')
        at = len(line) if at < 0 else at
        line = turned(line[:at], False, by_hand) + turned(line[at:], True, by_hand)
        if re.match(r'\s*(?:ghost |pub |unfoldable pub )*use ', line):
            line = re.sub(r'(\S+) as \1(?=[,}])', r'\1', line)
        new.append(line)
    new = '\n'.join(new)
    if new != old:
        with open(path, 'w', encoding='utf-8') as opened:
            opened.write(new)
        return True
    return False


paths = [path for ending in ('rt', 'antt') for path in glob.glob(f'crates/*/**/*.{ending}', recursive=True)
         if '/out/' not in path]
print('respell:', sum(respell(path) for path in sorted(paths)), 'files of', len(paths))
