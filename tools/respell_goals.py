#!/usr/bin/env python3
"""Brings answers to the names that Rattle gives its goals and steps: a name of the source keeps its underscores.

Run once, at the top, after respell.py. It turns answers, invariants and choices alone.
"""
import glob
import re

# words of Rattle's own in such names
OWN = """overflow_add overflow_sub overflow_mul overflow_shl overflow_shr overflow_cast overflow_step nonzero_div
nonzero_rem from_residual deref_mut index_mut slice_bounds offset_bounds in_ok in_err in_default invariant_of type_inv""".split()


def identifiers():
    found = set(OWN)
    for path in glob.glob('crates/*/src/**/*.rt', recursive=True):
        with open(path, encoding='utf-8') as file:
            found.update(re.findall(r'\b[a-z][a-z0-9]*(?:_[a-z0-9]+)+\b', file.read()))
    return {tuple(name.split('_')) for name in found}


def joined(parts, known, longest):
    out = []
    while parts:
        for n in range(min(longest, len(parts)), 1, -1):
            if tuple(parts[:n]) in known:
                break
        else:
            n = 1
        out.append('_'.join(parts[:n]))
        parts = parts[n:]
    return '-'.join(out)


def respell(path, known, longest):
    with open(path, encoding='utf-8') as file:
        text = file.read()
    lines = []
    for line in text.split('\n'):
        if not re.match(r'use Rattle\.std\b', line):
            line = re.sub(r"[A-Za-z0-9_]+(?:-[A-Za-z0-9_]+)+", lambda m: joined(m[0].split('-'), known, longest), line)
        lines.append(line)
    new = '\n'.join(lines)
    if new != text:
        with open(path, 'w', encoding='utf-8') as file:
            file.write(new)
    return new != text


if __name__ == '__main__':
    known = identifiers()
    longest = max(map(len, known))
    paths = [p for name in ('Answers', 'Invariants', 'Choices')
             for p in glob.glob(f'crates/*/proofs/**/{name}.antt', recursive=True)]
    print(sum(respell(path, known, longest) for path in sorted(paths)), 'files respelled')
