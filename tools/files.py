"""Files of the scripts beside the program: a text is read whole, and what is made of it is written once all is made."""
import argparse
import sys

import records

# a row of answers is longer than one of the trace
MOST_ANSWER_BYTES = 4 * records.MOST_BYTES


class Fault(Exception):
    """Why nothing is written, in one sentence."""


def parser(doc):
    """The arguments that each script has; its own come before them."""
    made = argparse.ArgumentParser(description=doc.split('\n', maxsplit=1)[0])
    made.add_argument('-o', '--output', metavar='FILE', help='where the result goes, in place of standard output')
    return made


def is_stream(name):
    return name in (None, '-')


def read(name, most=records.MOST_BYTES):
    """The bytes of a file, or of standard input where no file is named; one more than most where there are more."""
    try:
        if not is_stream(name):
            with open(name, 'rb') as file:
                return file.read(most + 1)
        if sys.stdin is None:
            raise Fault('standard input is closed')
        return sys.stdin.buffer.read(most + 1)
    except OSError as error:
        raise Fault(f'{"standard input" if is_stream(name) else name}: {error.strerror}') from None


def parsed(name, rule, most=records.MOST_BYTES):
    """What a rule of tools/records.py makes of a file; where it refuses the text, the fault names the file."""
    data = read(name, most)
    try:
        records.expect_length(data, most)
        return rule(data)
    except records.Refused as refused:
        raise Fault(('' if is_stream(name) else f'{name}: ') + refused.sentence()) from None


def write(name, data):
    try:
        if not is_stream(name):
            with open(name, 'wb') as file:
                file.write(data)
        elif sys.stdout is None:
            raise Fault('standard output is closed')
        else:
            sys.stdout.buffer.write(data)
            sys.stdout.buffer.flush()
    except BrokenPipeError:
        sys.stdout = None
        raise Fault('nobody reads the output any more') from None
    except OSError as error:
        raise Fault(f'{"standard output" if is_stream(name) else name}: {error.strerror}') from None


def answer(script, make, output, status=1):
    """Writes the text or the bytes that make makes. A fault is one sentence on standard error, with this status."""
    try:
        made = make()
        write(output, made if isinstance(made, bytes) else made.encode())
    except (Fault, records.Refused) as fault:
        why = fault.sentence() if isinstance(fault, records.Refused) else fault
        print(f'{script}: {why}', file=sys.stderr)
        return status
    return 0
