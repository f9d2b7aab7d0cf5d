#!/usr/bin/env python3
"""Tries that `why.py` names the fault that the built program names, on malformed texts and at the limits of each number, and
none where it answers.

    tools/why_agrees.py PROGRAM CASES
"""
import argparse
import multiprocessing
import subprocess
import sys

import fuzz
import records
import why

SEED = 34


def edges():
    """Words and texts on both sides of each limit."""
    for past in 0, 1:
        yield ['1', '1'], f'0,take,a,{255 + past}\n'
        yield ['1', '1'], f'0,take,a,{"0" * (19 + past)}1\n'
        yield ['1', '1'], f'0,take,{"a" * (16 + past)},0\n'
        yield ['1', '1'], f'0,giveat,{2**32 - 1 + past},0\n'
        yield ['1', '1'], f'0,giveat,0,{255 + past}\n'
        yield ['1', '1'], f',reserve,511,{1 + past}\n'
        yield ['1', '1'], f',reserve,0,{2**32 - 1 + past}\n'
        yield ['1', '1'], ',reserve,0,8\n' + f',reserve,{8 - past},8\n'
        yield ['4', '1'], ''.join(f',reserve,{frame},1\n' for frame in range(1024 + past))
        yield ['1', '4'], f'{3 + past},take,a,0\n'
        yield ['1', '4'], f',round,,\n0,move,a,{3 + past}\n'
        yield [str(4096 + past), '1'], ''
        yield ['1', str(64 + past)], ''
        yield ['2', '1', str(1024 + past)], ''
        yield ['2', '1', str(513 - past)], ''
        for child, tree, core in ((1, 0, 0), (0, 1, 0), (0, 0, 1)):
            yield [], (f'llfree,1,1,1,\nchild,0,{512 + child * past},0,{"0" * 128}\n'
                       f'tree,0,{512 + tree * past},0,\ncore,0,0,{512 + core * past},\n')


def named_by(program, words, data):
    """The fault that the program names, or None; the words of a trace are sizes, of an image none."""
    command = ['run', *words] if words else ['report']
    done = subprocess.run([program, *command], input=data, capture_output=True, check=False)
    return done.stderr.decode() if done.returncode else None


def disagreement(case):
    """How the two differ on a case, or None; 'left out' where the case is about the command line alone."""
    program, place = case
    if not isinstance(place, int):
        return difference(program, place[0], place[1].encode(), 'edge')
    words, data = fuzz.a_case(SEED, place)
    if words[:1] in (['run'], ['image']) and records.is_sizes(words[1:]):
        words = words[1:]
    elif words in (['rebuild'], ['report']):
        words = []
    else:
        return 'left out'
    return difference(program, words, data, f'case {place}')


def difference(program, words, data, name):
    """The fault of each of the two on a text, where they differ."""
    refused, named = why.refusal_of(words, data), named_by(program, words, data)
    wanted = None if refused is None else f'llfree: {refused.fault}\n'
    if wanted == named and (refused is None or refused.sentence().isprintable()):
        return None
    return f'{name} {words}: {wanted!r}, and the program says {named!r}'


def main():
    parser = argparse.ArgumentParser(description=__doc__.split('\n', maxsplit=1)[0])
    parser.add_argument('program', metavar='PROGRAM')
    parser.add_argument('cases', metavar='CASES', type=int)
    given = parser.parse_args()
    program, cases = given.program, given.cases
    with multiprocessing.Pool() as pool:
        found = pool.map(disagreement, [(program, place) for place in [*edges(), *range(cases)]], chunksize=50)
    wrong = [text for text in found if text not in (None, 'left out')]
    print('\n'.join(wrong[:10] + [f'{found.count(None)} agree, {len(wrong)} differ']))
    return 1 if wrong or not found.count(None) else 0


if __name__ == '__main__':
    sys.exit(main())
