#!/usr/bin/env python3
"""Prints a report as `/proc/buddyinfo` has it: of each tree, and of all, the free blocks of orders 0 to 9 that lie in
no greater free block.

    llfree image CHILDREN CORES < TRACE | llfree report | tools/buddyinfo.py
    tools/buddyinfo.py REPORT -o FILE

With --json a line is an object.
"""
import json
import re
import sys

import files

ORDERS = 10
ROW = re.compile(r'(?:tree,\d{1,20}|all,)(?:,\d{1,20}){12}')


def alone(blocks):
    """Of the numbers of free blocks of each order, those that lie in no greater one: it has two of the order below."""
    return [here - 2 * above for here, above in zip(blocks, blocks[1:] + [0])]


def named(row):
    """The name of a row, and its blocks that lie in no greater one."""
    fields = row.split(',')
    name = 'all' if fields[0] == 'all' else f'tree {fields[1]}'
    return name, alone([int(field) for field in fields[-ORDERS:]])


def columns(name, counts):
    return f'{name:>9}' + ''.join(f' {count:6}' for count in counts) + '\n'


def rows_of(data):
    """The rows of a report."""
    rows = data.decode('ascii', 'replace').splitlines()
    for place, row in enumerate(rows, 1):
        if not ROW.fullmatch(row):
            raise files.Fault(f'record {place} is none of a report, which is tree,T,HELD,FREE,B0,..,B9 or '
                              'all,,HELD,FREE,B0,..,B9')
    if not rows:
        raise files.Fault('a report has a row for each tree, and here is none')
    found = [named(row) for row in rows]
    for place, (_, counts) in enumerate(found, 1):
        if min(counts) < 0:
            raise files.Fault(f'record {place} is none of a report: a free block has two of the order below')
    return found


def main():
    parser = files.parser(__doc__)
    parser.add_argument('report', metavar='REPORT', nargs='?', help='the report, else standard input')
    parser.add_argument('--json', action='store_true', help='an object a line')
    given = parser.parse_args()

    def made():
        rows = rows_of(files.read(given.report))
        if given.json:
            return ''.join(json.dumps({'name': name, 'blocks': counts}) + '\n' for name, counts in rows)
        return ''.join(columns(*row) for row in [('order', range(ORDERS)), *rows])

    return files.answer('buddyinfo', made, given.output)


if __name__ == '__main__':
    sys.exit(main())
