#!/usr/bin/env python3
"""Says why `llfree` refuses a trace or an image: the record, its line, the rule that is broken, what stands there.

    tools/why.py CHILDREN CORES [FRAMES] [TRACE] [--json]
    tools/why.py [IMAGE] [--json]

Where no file is named it reads standard input. It answers in one sentence, with status 1 where something is refused and
0 where nothing is, and 2 where it is called wrongly or can read nothing. With --json it answers with an object, whose
fields are null where nothing is refused. The rules are those of docs/FORMATS.md, in tools/records.py.
"""
import json
import sys

import files
import records

USAGE = 'usage: why.py CHILDREN CORES [FRAMES] [TRACE] [--json] | why.py [IMAGE] [--json]'


def refusal_of(words, data):
    """What the program refuses of a trace with these sizes, or of an image with none; None where it takes it."""
    try:
        if words:
            _, cores, frames = records.sizes_of(words)
            records.expect_length(data)
            records.ranges_of(records.trace_of(data, cores), frames)
        else:
            records.expect_length(data)
            records.image_of(data)
    except records.Refused as refused:
        return refused
    return None


def arguments():
    """The sizes of a trace, or none; the file, or None; and whether an object is wanted. None: another call."""
    words = [word for word in sys.argv[1:] if word != '--json']
    name = words.pop() if words and not (words[-1].isascii() and words[-1].isdigit()) else None
    is_call = (not words or records.is_sizes(words)) and (files.is_stream(name) or not name.startswith('-'))
    return (words, name, '--json' in sys.argv[1:]) if is_call else None


def main():
    called = arguments()
    if called is None:
        print(USAGE, file=sys.stderr)
        return 2
    words, name, is_object = called
    refusals = []

    def answer():
        refused = refusal_of(words, files.read(name))
        refusals.extend([refused] if refused else [])
        if is_object:
            fields = (refused.fault, refused.line, refused.why) if refused else (None, None, None)
            return json.dumps(dict(zip(('fault', 'line', 'why'), fields))) + '\n'
        return (refused.sentence() if refused else f'nothing is wrong with this {"trace" if words else "image"}') + '\n'

    return files.answer('why', answer, None, status=2) or int(bool(refusals))


if __name__ == '__main__':
    sys.exit(main())
