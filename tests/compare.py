#!/usr/bin/env python3
"""Compares what the gate's worked scripts write with what the second evaluator says that they should.

usage: tests/compare.py

The gate compares crates/worked_scripts/stdout with what the program writes, so this needs no program: each script of
crates/worked_scripts/data/scripts is run by tests/reference.py, and has to give the lines that stand in that file. Words
that name no run, and scripts that are refused as the program can't run them yet, or by the grammar, are passed over; the
table of scripts in the grammar's form has expectations of its own.
"""
import os
import re
import sys

from reference.evaluation import run

HERE = os.path.join(os.path.dirname(os.path.abspath(__file__)), '..', 'crates', 'worked_scripts')
PASSED_OVER = re.compile(r'! (usage:|REFUSED line \d+: (Form|Token|WideNumber|TooDeep|TooLong|Bytes)$)')


def rows(text):
    """Each script with the words that run it."""
    found = []
    for line in text.split('\n')[:-1]:
        if line.startswith('$'):
            found.append([line[1:].split(), []])
        elif found:
            found[-1][1].append(line + '\n')
    return [(words, ''.join(lines)) for words, lines in found]


def answers(text, count):
    """What each script wrote: its lines up to that of the status."""
    lines, found, at = text.split('\n'), [], 0
    while len(found) < count and at < len(lines):
        end = at
        while not re.fullmatch(r'status \d+', lines[end]):
            end += 1
        found.append(lines[at:end + 1])
        at = end + 1
    return found


def main():
    with open(os.path.join(HERE, 'data', 'scripts'), encoding='utf-8', newline='') as file:
        scripts = rows(file.read())
    with open(os.path.join(HERE, 'stdout'), encoding='utf-8', newline='') as file:
        wanted = answers(file.read(), len(scripts))
    compared = passed = wrong = 0
    for (words, script), lines in zip(scripts, wanted):
        if any(PASSED_OVER.match(line) for line in lines) or words[:1] != ['sim']:
            passed += 1
            continue
        workers = int(words[2]) if words[1] == '-p' else 0
        out, err, status = run(workers, script)
        given = '\n'.join(out + (['! ' + err] if err else []) + ['status %d' % status]).split('\n')
        compared += 1
        if given != lines:
            wrong += 1
            print('$ ' + ' '.join(words) + '\n' + script + 'the program:\n  ' + '\n  '.join(lines) + '\nthe reference:\n  ' + '\n  '.join(given))
    print('%d scripts compared, %d passed over, %d differ' % (compared, passed, wrong))
    return 1 if wrong or not compared else 0


if __name__ == '__main__':
    sys.exit(main())
