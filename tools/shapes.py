#!/usr/bin/env python3
"""Lists pairs of functions or structs of src/ that are much alike: places to look for twins.

usage: python3 tools/shapes.py [FOLDER]      FOLDER holds the crates; 'crates' if left out

Each is read without comments, as a row of words and signs. Two are alike if, of the longer row, at least three parts in
four stand in the other in the same order. Those under five lines are passed over. It is a place to look, no verdict.
"""
import difflib
import glob
import re
import sys

LEAST_LINES = 5
ALIKE = 0.75


def items(text):
    """The functions and structs of a file, each from its first line to its closing brace."""
    lines = text.split('\n')
    for start, line in enumerate(lines):
        head = re.match(r'^( *)(?:pub(?:\([a-z]+\))? )?(?:fn|struct) (\w+)', line)
        opened = head and next((n for n, l in enumerate(lines[start:], start) if l.endswith((';', '{', '{}'))), None)
        if opened is None or not lines[opened].endswith('{'):
            continue
        closing = head.group(1) + '}'
        yield head.group(2), lines[start:lines.index(closing, opened) + 1]


def read_items(folder):
    for path in sorted(glob.glob(folder + '/*/src/**/*.rt', recursive=True)):
        with open(path, encoding='utf-8') as file:
            for name, lines in items(file.read()):
                if len(lines) >= LEAST_LINES:
                    words = re.findall(r'\w+|[^\w\s]', '\n'.join(line.split('//')[0] for line in lines))
                    yield f'{path}: {name}', words


def main():
    found = list(read_items(sys.argv[1] if len(sys.argv) > 1 else 'crates'))
    for k, (place, words) in enumerate(found):
        for other, others in found[k + 1:]:
            same = sum(b.size for b in difflib.SequenceMatcher(None, words, others, autojunk=False).get_matching_blocks())
            if same >= ALIKE * max(len(words), len(others)):
                print(f'{place}; {other}')


if __name__ == '__main__':
    main()
