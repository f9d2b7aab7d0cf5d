#!/usr/bin/env python3
"""Writes llfree.3, the page for `man` of the library for C, from the comments of its header: one text for both. Or the
pages by which `man` finds it under the name of each call, into a folder.

    man/pages.py < include/llfree.h > man/llfree.3
    man/pages.py FOLDER < include/llfree.h
"""
import pathlib
import re
import sys

HEAD = r""".\" Made by man/pages.py from include/llfree.h: change that.
.TH LLFREE 3 "" Furrowanon "LLFree for C"
.nh
.SH NAME
llfree \- page frames, taken and given by frame and order
.SH SYNOPSIS
.nf
.B #include <llfree.h>
.fi
"""
TAIL = r""".SH SEE ALSO
.BR llfree (1)
.PP
llfree_text.h says what a status means (llfree_status_text), llfree_tsan.h tells ThreadSanitizer and valgrind who has which
frame, llfree_pool.h lends cores to threads that come and go, llfree_runs.h takes runs of huge frames into structs,
llfree_heap.h says how much heap an opening needs, llfree_blocks.h counts free blocks of each order, llfree_compat.h has the
names of llfree\-c; docs/C.md says how all of it is built and installed.
"""
ITEM = re.compile(r' {1,4}(\d+\.|-) +(.*)')
FUNCTION = re.compile(r'\b(llfree_\w+)\(')
TYPE = re.compile(r'^(?:typedef struct|enum) (llfree_\w+) \{')


def blocks_of(header):
    """The parts of a header between blank lines, each as the lines of its comment and its declaration."""
    for block in re.split(r'\n\s*\n', header):
        match = re.match(r'\s*/\*(.*?)\*/', block, re.DOTALL)
        comment, rest = (match[1], block[match.end():]) if match else ('', block)
        # what a compiler is told, and of a function that is written out all but what a caller sees, is left out
        code = re.sub(r'LLFREE_NODISCARD\n| LLFREE_STATUS_TYPE\b', '', rest.strip('\n'))
        code = re.sub(r'\n\{.*', ';', code, flags=re.DOTALL)
        is_code = 'llfree_' in code or code.startswith('#define LLFREE_') and 'NODISCARD' not in code
        if not code.startswith('#if ') and not code.startswith('#ifdef '):
            yield lines_of(comment), code if is_code else ''


def lines_of(comment):
    """The lines of a comment, without the stars before them."""
    return [re.sub(r'^ \*', '', line).rstrip() for line in comment.splitlines()]


def escaped(text):
    """A line that groff prints as it is."""
    text = text.replace('\\', r'\e').replace('-', r'\-')
    return r'\&' + text if text[:1] in ('.', "'") else text


def paragraphs(lines):
    """A comment: paragraphs, and items that begin with a number or a dash."""
    shape = 'start'
    for line in lines:
        item = ITEM.match(line)
        if not line.strip():
            shape = 'start'
        elif item:
            yield '.IP ' + (r'\(bu' if item[1] == '-' else item[1]) + ' 4'
            yield escaped(item[2])
            shape = 'item'
        else:
            if shape == 'start' or shape == 'item' and not line.startswith('   '):
                yield '.PP'
                shape = 'text'
            yield escaped(line.strip())


def code_of(code):
    """A declaration as it stands in the header."""
    yield '.PP'
    yield '.nf'
    for line in code.splitlines():
        yield r'\fB' + escaped(line) + r'\fR'
    yield '.fi'


def name_of(code):
    """What a declaration is called: a function, a type or a value."""
    for pattern in (TYPE, FUNCTION, re.compile(r'^#define (\w+)')):
        match = pattern.search(code)
        if match:
            return match[1]
    return None


def page(header):
    blocks = list(blocks_of(header))
    yield HEAD.rstrip('\n')
    for _, code in blocks:
        if FUNCTION.search(code):
            yield from code_of(code)
    about, _ = blocks[0]
    yield '.SH DESCRIPTION'
    yield from paragraphs(about)
    yield '.SH CALLS AND TYPES'
    for comment, code in blocks[1:]:
        if code and name_of(code):
            yield '.SS ' + name_of(code)
            yield from code_of(code)
        yield from paragraphs(comment)
    yield TAIL.rstrip('\n')


def calls(header):
    """The names of the calls."""
    return {name for _, code in blocks_of(header) if FUNCTION.search(code) and (name := name_of(code))}


def main():
    header = sys.stdin.read()
    rows, names = list(page(header)), calls(header)
    if not any(row.startswith('.SS') for row in rows) or not names:
        print('pages: standard input is no header of the library', file=sys.stderr)
        return 1
    if len(sys.argv) == 1:
        print('\n'.join(rows))
    for name in names if len(sys.argv) > 1 else ():
        (pathlib.Path(sys.argv[1]) / f'{name}.3').write_text('.so man3/llfree.3\n', encoding='utf-8')
    return 0


if __name__ == '__main__':
    sys.exit(main())
