#!/usr/bin/env python3
"""Runs a script by the second evaluator.

usage: tests/run_reference.py WORKERS FILE

It writes what `jd sim -p WORKERS FILE` should write to standard output, then the line of standard error behind `! `, and
the status. WORKERS is 0 or 1. A call on a worker is run at once, which no script can tell from a later moment as long as
tasks share nothing. It reads scripts that the grammar spells; where it meets another one it says `not a script`.
"""
import sys

from reference.evaluation import run



def main():
    workers, name = int(sys.argv[1]), sys.argv[2]
    with open(name, encoding='utf-8', newline='') as file:
        out, err, status = run(workers, file.read())
    for line in out:
        print(line)
    if err:
        print('! ' + err)
    print('status', status)


if __name__ == '__main__':
    main()
