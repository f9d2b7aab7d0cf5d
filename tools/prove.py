#!/usr/bin/env python3
"""Proves crates for make, each from a copy of its text over the proved crates below it, by the step of `rt ci` itself
that proves and judges a crate. What a crate was made from stands beside it as sums of contents, and is compared before
it is taken again. Texts and libraries lie below .git, since rt refuses sources that no crate reads.

    tools/prove.py look [GOAL..]    before make begins: looks what has changed, and writes build/crates.mk
    tools/prove.py crate NAME       proves and judges a crate; of a program, compiles it
    tools/prove.py place NAME FILE  puts a crate's program in its place, or compiles an archive of it
    tools/prove.py take             counts what `rt ci` has left; the caller knows that it read what stands here
"""
import contextlib
import fcntl
import hashlib
import json
import os
import re
import shutil
import signal
import subprocess
import sys
import time
import types

TOP = os.path.dirname(os.path.dirname(os.path.realpath(__file__)))
PARTS = ('src', 'specs', 'proofs')
GOALS = {'library': ['llfree_c'], 'kernel': ['llfree_c'], 'examples': ['llfree_c'], 'bench': ['llfree_bench'],
         'install': ['llfree', 'llfree_c']}
# rattle calls the clang of a folder, which calls that of the kit with these flags; no archive jumps by a table
BRANCHES = '-mllvm -min-jump-table-entries=1000000'
KERNEL = f'{BRANCHES} -mgeneral-regs-only -mllvm -force-attribute=noredzone -fno-function-sections -fno-data-sections'
ARCHIVES = {'libllfree_c.a': BRANCHES, 'libllfree_kernel.a': KERNEL,
            'libllfree_linux.a': f'{KERNEL} -mllvm -force-attribute=fn_ret_thunk_extern'}
HELD = {}


def text_of(path):
    with contextlib.suppress(OSError), open(path, encoding='utf-8') as file:
        return file.read()
    return ''


def write(path, text):
    """Whole, or not at all."""
    with open(f'{path}.{os.getpid()}', 'w', encoding='utf-8') as file:
        file.write(text)
    os.replace(f'{path}.{os.getpid()}', path)


def sum_of(path):
    with open(path, 'rb') as file:
        return hashlib.sha256(file.read()).hexdigest()


def files_in(*folders):
    for at, below, names in (it for folder in folders for it in os.walk(folder)):
        below.sort()
        yield from (f'{at}/{it}' for it in sorted(names + [it for it in below if os.path.islink(f'{at}/{it}')]))


def copy(folder, new, by=shutil.copy2):
    for it in filter(lambda it: os.path.isdir(f'{folder}/{it}'), PARTS):
        shutil.copytree(f'{folder}/{it}', f'{new}/{it}', symlinks=True, copy_function=by)


def lock(name, how=fcntl.LOCK_EX):
    """Returns whether it is held, against other builds in this clone and until this process ends."""
    HELD[name] = open(f'{ROOM}/{name}.lock', 'w', encoding='utf-8')  # pylint: disable=consider-using-with
    with contextlib.suppress(BlockingIOError):
        return fcntl.flock(HELD[name], how) is None
    return False


# where git keeps this clone, which is elsewhere for a tree of several
git = os.path.join(TOP, text_of(f'{TOP}/.git').partition('gitdir: ')[2].strip() or '.git')
ROOM = f'{git if os.path.isdir(git) else f"{TOP}/build"}/proved'


class Build:
    """Of the crates of crates.txt, by the kit on the PATH."""

    def __init__(self):
        rt = shutil.which('rt') or sys.exit('rt of the Rattle kit is not on the PATH: README.md says which kit it is')
        self.kit = os.path.dirname(os.path.dirname(os.path.realpath(rt)))
        kit = text_of(f'{self.kit}/KIT-ID').strip()
        if f'logic {kit.rpartition("logic ")[2]}' not in text_of('README.md'):
            sys.exit(f'the kit on the PATH, {kit}, is none of those that README.md names')
        rows = [it.partition('#')[0].strip() for it in text_of('crates.txt').splitlines()]
        self.line = {re.match(r'\w+', it)[0]: it for it in rows if it}
        self.uses = {it: [u for u in row.partition(':')[2].split() if u in self.line] for it, row in self.line.items()}
        self.allowed = text_of('HANDLES')
        # how the files of the kit look that are read, and by which script
        names = sorted({'std', *(it for row in rows for it in row.partition(':')[2].split())} - {*self.line})
        read = [f'{self.kit}/{it}' for it in ('bin', 'c', 'toolchain', 'logic_built', 'rattle/logic', 'rattle/antt')]
        for name in names:
            read += [f'{self.kit}/rlibs/{name}.rlib']
            names += sorted({*re.findall(r'(?m)^dep (\w+)$', text_of(f'{read[-1]}/format'))} - {*names})
        looks = [(it, at.st_size, at.st_ino, at.st_ctime_ns) for it in files_in(*read) for at in [os.stat(it)]]
        self.recipe = hashlib.sha256(repr((kit, looks, sum_of(__file__))).encode()).hexdigest()
        if not os.access('.', os.W_OK):
            sys.exit('this clone cannot be written to: copy it to a folder of yours')
        os.makedirs(ROOM, exist_ok=True)
        os.makedirs('build', exist_ok=True)

    def below(self, *names):
        """These crates and all that they stand on, the lowest first."""
        return list(dict.fromkeys(it for name in names for it in [*self.below(*self.uses[name]), name]))

    def key(self, name, folder):
        """What a crate is made from, where its text lies in this folder."""
        says = [f'{it} {text_of(f"{ROOM}/{it}/says")}' for it in self.uses[name]]
        sums = [f'{it[len(folder):]} {sum_of(it)}' for it in files_in(*(f'{folder}/{part}' for part in PARTS))]
        return '\n'.join([self.recipe, self.line[name], self.allowed, *says, *sums, ''])

    def is_kept(self, name):
        return text_of(f'{ROOM}/{name}/key') == self.key(name, f'{TOP}/crates/{name}')

    def look(self, *goals):
        read = ('build/', '.git/', *(f'crates/{it}/{part}/' for it in self.line for part in ('out', *PARTS)))
        for path in (it[2:] for it in files_in('.')):
            if f'{path}/'.startswith('crates/') and (os.path.islink(path) or not os.path.isfile(path)):
                sys.exit(f'{path} is a link, or no file: put the file or folder itself there')
            if path.endswith(('.rt', '.antt')) and not path.startswith(read):
                sys.exit(f'no check reads {path}: it belongs to a crate of crates.txt')
        names = [it for goal in goals for it in GOALS.get(goal, [goal])]
        needed = self.below(*(names if {*names} <= {*self.line} else self.line))
        lines = {it: 1 + sum(text_of(path).count('\n') for path in files_in(f'crates/{it}/src')) for it in needed}
        # of each crate, the lines of the longest chain of crates from it up
        chain = {}
        for name in reversed(needed):
            chain[name] = lines[name] + max((chain[it] for it in needed if name in self.uses[it]), default=0)
        rows, stale = [f'.PHONY: {it} {it}.proved' for it in needed], []
        for name in needed:
            made = [name] if os.path.exists(f'crates/{name}/src/main.rt') else []
            made += ARCHIVES if 'staticlib' in self.line[name].partition(':')[0] else []
            rows += [f'{name}: {f"build/{made[0]}" if made else f"{name}.proved"}']
            rows += [f'build/{it}: {name}.proved ; @tools/prove.py place {name} $@' for it in made]
            if not self.is_kept(name) or {*stale} & {*self.uses[name]}:
                stale += [name]
                below = sorted(self.below(name)[:-1], key=lambda it: -chain[it])
                rows += [f'{name}.proved: {" ".join(f"{it}.proved" for it in below)} ; @tools/prove.py crate {name}']
        free = int(re.search(r'MemAvailable: *(\d+)', text_of('/proc/meminfo'))[1])
        jobs = max(1, min(int(os.environ.get('RT_JOBS') or 4), os.cpu_count(), free // 2_000_000))
        # two crates at once keep all processors busy; more only take turns
        write('build/crates.mk', '\n'.join([f'slots := {(jobs + 1) // 2}', *rows, '']))
        write(f'{ROOM}/began', json.dumps([time.time(), {it: lines[it] for it in stale}, chain, jobs]))
        if stale:
            goals = f'{" ".join(goals)}: proves and judges at most {len(stale)} of {len(needed)} crates'
            print(f'{goals}; not tested: .ci/run', file=sys.stderr)

    def crate(self, name):
        begin, lines, chain, jobs = json.loads(text_of(f'{ROOM}/began'))
        below, stage, log = self.below(name)[:-1], f'{ROOM}/{name}.new', f'{TOP}/build/{name}.log'
        new, proved = f'{stage}/crates/{name}', []

        def left():
            """The crates that this build has not come to."""
            keys = {it: f'{ROOM}/{it}/key' for it in lines}
            return [it for it in lines if not os.path.exists(keys[it]) or os.path.getmtime(keys[it]) < begin]

        for it in [*below, name]:
            lock(it, fcntl.LOCK_EX if it == name else fcntl.LOCK_SH)
        if self.is_kept(name):
            return os.utime(f'{ROOM}/{name}/key')
        # as many crates as memory has room for, whatever make was told
        while not any(lock(f'slot {it}', fcntl.LOCK_EX | fcntl.LOCK_NB) for it in range((jobs + 1) // 2)):
            time.sleep(0.2)
        # a repository of this crate and those below it
        shutil.rmtree(stage, ignore_errors=True)
        os.makedirs(f'{stage}/.git')
        copy(f'crates/{name}', new)
        for it in below:
            copy(f'{ROOM}/{it}', f'{stage}/crates/{it}', os.link)
        write(f'{stage}/HANDLES', self.allowed)
        write(f'{stage}/crates.txt', ''.join(f'{self.line[it]}\n' for it in [*below, name]))
        key = self.key(name, new)
        # the crate with the longest chain above it goes first, and the others have what it leaves
        os.nice(0 if all(chain[it] <= chain.get(name, 0) for it in left()) else 5)
        rt = types.ModuleType('rt')
        rt.__file__ = f'{self.kit}/bin/rt'
        exec(compile(text_of(rt.__file__), rt.__file__, 'exec'), rt.__dict__)  # pylint: disable=exec-used

        class Crate(rt.Crate):
            """What an archive is compiled from stays, and programs are compiled by LLVM alone."""

            def prove(self, command):
                write(f'{new}/words', json.dumps([it.replace(f'{stage}/crates/', f'{ROOM}/') for it in command]))
                return super().prove([*command, *['-o', 'out/checked'] * self.is_static])

            def compile_by(self, backend, words, to):
                return 0 if backend == 'rattle' else super().compile_by(backend, words, to)

        def alone(tasks):
            """Of what rt ci would do the proof of this crate, over the libraries that are proved."""
            for it in below:
                os.makedirs(f'{stage}/crates/{it}/out')
                os.symlink(f'{ROOM}/{it}/out/rlib', f'{stage}/crates/{it}/out/rlib')
            proved.append(tasks[name, 'proof'][3](dict.fromkeys(((it, 'proof') for it in below), True), jobs))
            sys.exit()

        # what rt keeps of other runs stands on other copies of the libraries; kits have two names for the step
        rt.Crate, rt.in_lanes, rt.STORE = Crate, alone, f'{stage}/HANDLES/none'
        step = next(filter(rt.__dict__.get, ('ci_over', 'ci_from_nothing')), '') or sys.exit('rt has no known step')
        os.chdir(stage)
        with open(log, 'w', encoding='utf-8') as out, contextlib.redirect_stdout(out), contextlib.redirect_stderr(out):
            with contextlib.suppress(SystemExit):
                rt.__dict__[step](f'{stage}/.git', *[True] * (step == 'ci_over'))
        if not any(proved):
            said = text_of(log).replace(f'{stage}/crates/', '').splitlines()
            why = [it for it in said if re.match(r'rt: (?!\S+ NOT PROVED|note)', it)] or ['rt: it is not proved']
            sys.exit('\n'.join([*said[-12:], f'{name} is refused: {why[-1][4:]}; the log is build/{name}.log']))
        self.keep(name, new, key)
        rest, took = left(), time.time() - begin
        done, ahead = sum(lines[it] for it in lines if it not in rest), sum(lines[it] for it in rest)
        more = f', about {1 + int(ahead * took / 60 / max(1, done))} min left' if rest else ''
        print(f'{name} is proved ({len(lines) - len(rest)} of {len(lines)}) after {took:.0f} s{more}', file=sys.stderr)

    def keep(self, name, new, key):
        """Puts what was judged in its place. Of a library that says what it said before, the old one is left, so that
        nothing above it is built again."""
        folder, is_own = f'{ROOM}/{name}', re.compile(r'/(format|checked\.\w+|(Answers|Invariants|Proof)\.antt)$')
        says = [self.recipe, self.line[name], *(text_of(f'{ROOM}/{it}/says') for it in self.uses[name])]
        says += [f'{it[len(new):]} {sum_of(it)}' for it in files_in(f'{new}/out/rlib') if not is_own.search(it)]
        says = hashlib.sha256('\n'.join(says).encode()).hexdigest()
        if text_of(f'{folder}/says') == says and os.path.isdir(f'{folder}/out/rlib'):
            shutil.rmtree(f'{new}/out')
            os.rename(f'{folder}/out', f'{new}/out')
        write(f'{new}/says', says)
        shutil.rmtree(folder, ignore_errors=True)
        os.rename(new, folder)
        shutil.rmtree(f'{ROOM}/{name}.new')
        write(f'{folder}/key', key)

    def place(self, name, path):
        folder, file = f'{ROOM}/{name}', os.path.basename(path)
        made, tools = f'{folder}/out/{file}', f'{ROOM}/{file}.toolchain'
        for it in self.below(name):
            lock(it, fcntl.LOCK_SH)
        lock(f'{file} placed')
        if not os.path.exists(made):
            shutil.rmtree(tools, ignore_errors=True)
            shutil.copytree(f'{self.kit}/toolchain', tools, copy_function=os.symlink)
            write(f'{tools}/bin/clang', f'#!/bin/sh\nexec "{self.kit}/toolchain/bin/clang" "$@" {ARCHIVES[file]}\n')
            os.chmod(f'{tools}/bin/clang', 0o755)
            words = [f'{self.kit}/bin/rattle', 'build', *json.loads(text_of(f'{folder}/words'))[1:]]
            for it in ('--logic-built', '--jobs'):
                del words[words.index(it):words.index(it) + 2]
            words += ['--crate-checked', 'out/checked', '--toolchain', tools, '--backend', 'llvm', '-o', f'{made}.part']
            ran = subprocess.run(words, cwd=folder, stdin=subprocess.DEVNULL, capture_output=True, check=False)
            if ran.returncode:
                sys.exit(f'{(ran.stdout + ran.stderr).decode(errors="replace")}{file} is refused: it is not compiled')
            os.replace(f'{made}.part', made)
        if not os.path.exists(path) or sum_of(path) != sum_of(made):
            shutil.copy2(made, f'{path}.new')
            os.replace(f'{path}.new', path)

    def take(self):
        for name in self.below(*self.line):
            out, new = f'crates/{name}/out', f'{ROOM}/{name}.new/crates/{name}'
            for made in (it for it in (f'rlib/{name}.rlib', 'checked') if os.path.isdir(f'{out}/{it}') and lock(name)):
                shutil.rmtree(f'{ROOM}/{name}.new', ignore_errors=True)
                copy(f'crates/{name}', new)
                shutil.copytree(f'{out}/{made}', f'{new}/out/{made}')
                write(f'{new}/words', text_of(f'{out}/words').replace(f'{TOP}/crates/', f'{ROOM}/'))
                self.keep(name, new, self.key(name, new))


if __name__ == '__main__':
    os.chdir(TOP)
    signal.signal(signal.SIGINT, signal.SIG_DFL)
    getattr(Build(), sys.argv[1])(*sys.argv[2:])
