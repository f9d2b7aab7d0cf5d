#!/usr/bin/env python3
"""The kit's rt, but one check tries many mutants of a crate. A check reads all that a crate stands on before it proves
anything, so a check for each mutant was most of the gate.

    tools/mutants.py ci                 as `rt ci`
    tools/mutants.py must-fail NAME..   as `rt must-fail NAME..`

Together are mutants of different functions, each of nothing but bodies. The proof of a function sees no other's body,
so a goal of one is refused whatever stands in the others. A mutant is refused where a goal of its own function is: left
open, or not met by the answer that stands for it. Where its function calls one that is not proved, the prover does not
come to it: the next check tries it again. Each mutant that was not refused so is tried alone, by rt, which judges then.

A crate is proved once for both: its library holds what its proof checked, and the mutants are tried over that.
"""
import contextlib
import functools
import inspect
import json
import os
import re
import shutil
import sys
import tempfile
import types

# what is called of rt, and what stands in place of its own: of the kits' rt one has a function for all mutants of a
# crate, the other makes a task of each
FORMS = {'must_fail': 'crate edit flags kept', 'read_edit': 'edit folder', 'checked': 'crate texts flags kept',
         'unread': 'line changed'}
ALL, TASKS = ({'must_fail_all': 'crate edits flags'},
              {'add_edits': 'tasks crate edits first waits is_well kept start in_ci', 'linked': 'folder to',
               'seeded': 'crate flags start', 'edits_of': 'crate'})
HEAD = re.compile(r'( *)(?:pub(?:\(.*?\))? )?(?:unsafe )?(?:extern "C" )?fn (\w+)')
CLAUSE = re.compile(r' *(requires|ensures|ghost)\b')
GOAL = re.compile(r'note: (?:\./)?(src/\S+?):(\d+):\d+: (?:it is not proved that|`search` found no proof)')
ANSWER = re.compile(r'(?:\./)?proofs/(\S+)/\w+\.antt:\d+:\d+: error: `[^`]+`: ')
LEFT_OUT = re.compile(r'fn \S*?(\w+): no proof: it calls ')
# what a proof file says that names a thing which the edit took away
NAMES = re.compile(r'has no field|is not in scope|has no `|was not admitted')


def load():
    """The kit's rt, as a module."""
    rt = types.ModuleType('rt')
    rt.__file__ = os.path.realpath(shutil.which('rt') or sys.exit('rt of the Rattle kit is not on the PATH'))
    with open(rt.__file__, encoding='utf-8') as file:
        exec(compile(file.read(), rt.__file__, 'exec'), rt.__dict__)  # pylint: disable=exec-used
    return rt


def lines_of(path):
    try:
        with open(path, encoding='utf-8', errors='replace') as file:
            return file.read().split('\n')
    except OSError:
        return []


def function_at(lines, at):
    """First line, last line and name of the function in whose body line `at` stands, with what heads the function."""
    for start in range(at, -1, -1):
        head = HEAD.match(lines[start])
        if head:
            rest, first = range(start, len(lines)), start
            opens = next((it for it in rest if lines[it] == head[1] + '{'
                          or lines[it].endswith(' {') and not CLAUSE.match(lines[it])), at)
            last = next((it for it in rest if lines[it].startswith(head[1] + '}')), 0)
            while first and re.search('[^{}]$', lines[first - 1]):
                first -= 1
            return (first, last, head[2]) if opens < at < last else None
    return None


def functions_of(edit, folder):
    """The functions of whose bodies a mutant changes a line each; none where it changes anything else."""
    found, path, lines = set(), '', []
    for word, _, text in (it.partition(': ') for it in lines_of(edit)):
        if word == 'file':
            path, lines = text.strip(), lines_of(f'{folder}/{text.strip()}')
        elif word == 'new' and re.search(r'\bfn\b', text):
            return set()
        elif word == 'old':
            places = [at for at, it in enumerate(lines) if text in it]
            function = function_at(lines, places[0]) if len(places) == 1 and path.startswith('src/') else None
            if not function:
                return set()
            found.add((path, *function))
    return found


def refusal(said, functions, folder):
    """The first line that tells of a goal of these functions that is left open; else of an answer that does not fit."""
    answers = []
    for path, first, last, name in functions:
        is_one = sum(1 for it in map(HEAD.match, lines_of(f'{folder}/{path}')) if it and it[2] == name) == 1
        proofs = re.compile(rf'{re.escape(re.sub("^src/|(/mod)?.rt$", "", path))}/(\w+/)?{name}')
        for line in said:
            goal, answer = GOAL.match(line), ANSWER.match(line)
            if goal and goal[1] == path and first < int(goal[2]) <= last + 1:
                return line
            if answer and is_one and proofs.fullmatch(answer[1]) and not NAMES.search(line):
                answers.append(line)
    return ''.join(answers[:1])


def try_together(rt, crate, edits, check):
    """Tries by one check the first of these mutants, and each that goes with those before it. Returns of each that was
    tried the line that refuses it: none if the prover did not come to it, an empty one if it was not refused. And
    whether the prover came to any."""
    taken, texts, tried = set(), {}, {}
    with tempfile.TemporaryDirectory(prefix='rt-text-') as room:
        for part in filter(lambda it: os.path.isdir(f'{crate.folder}/{it}'), ('src', 'specs', 'proofs')):
            shutil.copytree(f'{crate.folder}/{part}', f'{room}/{part}')
        for edit, functions in edits.items():
            changed = rt.read_edit(edit, room)[0] if not functions & taken else None
            for path, text in (changed or {}).items():
                with open(f'{room}/{path}', 'w', encoding='utf-8') as file:
                    file.write(text)
            if changed:
                texts.update(changed)
                taken |= functions
                tried[edit] = functions
    ran = check(texts)
    said = ran.stdout.rstrip('\n').split('\n')
    is_read = not rt.rtlib.STALE.search(ran.stdout) and not any(rt.unread(it, texts) for it in said)
    if ran.returncode != 1 or not said[-1].startswith('logic=not-proved') or not is_read:
        return dict.fromkeys(tried, ''), not ran.returncode
    left_out = {it[1] for it in map(LEFT_OUT.match, said) if it}
    return {edit: refusal(said, functions, crate.folder) or (None if left_out & {it[3] for it in functions} else '')
            for edit, functions in tried.items()}, True


def refused_together(rt, crate, edits, check):
    """What is said of those of these mutants that are refused together."""
    groups, refused, checks = [edits], {}, 0
    while any(groups):
        group = groups.pop()
        told, is_judged = try_together(rt, crate, group, check)
        checks += 1
        refused.update((it, line) for it, line in told.items() if line)
        groups.append({it: group[it] for it in group if it not in told})
        if is_judged:
            # those that the prover did not come to go by themselves: nothing else that they call is changed then
            groups.append({it: group[it] for it in told if told[it] is None and any(told.values())})
        elif len(told) > 1:
            # two may call each other, which the language refuses before any proof
            names = [*told]
            groups += [{it: group[it] for it in half} for half in (names[len(names) // 2:], names[:len(names) // 2])]
        groups = [it for it in groups if it]
    count = sum(1 for line in refused.values() if line.startswith('note: '))
    rt.say(f'{crate.name}: {checks} checks refused {len(refused)} of {len(edits)} mutants, {count} at an open goal; '
           'each other is tried alone')
    return {it: f'must-fail {crate.name}/{os.path.basename(it)}: refused, as it must be: {line[:160]}'
            for it, line in refused.items()}


def may_be_together(rt, crate, edits):
    """Those of these mutants that one check may try beside others, each with its functions."""
    good = [it for it in edits if not rt.read_edit(it, crate.folder)[1]]
    return {it: functions for it in good for functions in [functions_of(it, crate.folder)] if functions}


def must_fail_all(rt, crate, edits, flags):
    """In place of rt's function of this name. As there each check goes over what those before it proved, in a folder of
    this run; and all is tried again from nothing where the crate itself is not proved over that folder."""
    if len(edits) < 2:
        return [rt.must_fail(crate, it, flags) for it in edits]
    with tempfile.TemporaryDirectory(prefix='rt-edits-') as kept:
        found = may_be_together(rt, crate, edits)
        refused = refused_together(rt, crate, found, lambda texts: rt.checked(crate, texts, flags, kept))
        tried = {it: (True, said) for it, said in refused.items()}
        tried.update((it, rt.must_fail(crate, it, flags, kept)) for it in edits if it not in tried)
        is_sound = not rt.checked(crate, {}, flags, kept).returncode
    return [tried[it] if is_sound and tried[it][0] else rt.must_fail(crate, it, flags) for it in edits]


def keeping_what_is_checked(rt):
    """rt's crate, but a library with mutants is built with all that its proof checked, not with its statements alone.
    Of an archive and its proof that stays too from which make compiles it."""
    class Crate(rt.Crate):
        def build_rlib(self, flags, anew):
            self.cuts_libraries = self.cuts_libraries and not (anew and rt.edits_of(self)[0])
            status = super().build_rlib(flags, anew)
            if anew:
                # as of one with statements: no other command counts it as its own
                with contextlib.suppress(FileNotFoundError):
                    os.remove(f'{self.folder}/out/rlib/stamp')
            return status

        def prove(self, *commands):
            if not self.is_static or len(commands) > 1:
                return super().prove(*commands)
            with open(f'{self.folder}/out/words', 'w', encoding='utf-8') as file:
                json.dump(commands[0], file)
            return super().prove([*commands[0], '-o', 'out/checked'])

    return Crate


def lay_checked(library, to):
    """Lays what a library holds of its proof where a check looks for what earlier checks proved. Of one that holds
    none, nothing: the check then begins from nothing."""
    with contextlib.suppress(OSError, ValueError, IndexError):
        build = [it.split()[1].replace('/', '_') for it in lines_of(f'{library}/format') if it.startswith('rattle-build ')]
        os.makedirs(f'{to}/{build[0]}')
        with open(f'{library}/toolchain/checked.a', 'rb') as file:
            held = file.read()
        for name, at, size in map(json.loads, filter(None, lines_of(f'{library}/toolchain/checked.json'))):
            if '/' not in name:
                with open(f'{to}/{build[0]}/{name}.oantt', 'wb') as file:
                    file.write(held[at:at + size])


def add_edits(rt, own, tasks, crate, edits, first, waits, is_well, kept, *rest, **named):
    """Around rt's function of this name, whose tasks try each mutant over a copy of what a check of the crate proved.
    That check begins with what the crate's proof did, where there is one. One task more tries many by one check over
    such a copy, and each of the others takes its answer, if it has one."""
    proof = (crate.name, 'proof')
    if proof in tasks and not rest and not named:
        first, named = [*first, proof], {'start': f'{crate.folder}/out/checked_before'}
    given_back = own(tasks, crate, edits, first, waits, is_well, kept, *rest, **named)
    if proof in tasks and (crate.name, 'seed') in tasks:
        after, lines, memory, seed = tasks[crate.name, 'seed']

        def seed_of_proof(given, jobs):
            lay_checked(crate.rlib, named['start'])
            try:
                return seed(given, jobs)
            finally:
                shutil.rmtree(named['start'], ignore_errors=True)

        tasks[crate.name, 'seed'] = after, lines, memory, seed_of_proof
    found, key = may_be_together(rt, crate, edits), (crate.name, 'edits', 'together')
    if len(found) < 2 or (crate.name, 'seed') not in tasks:
        return given_back

    def together(given, _jobs):
        room = given[crate.name, 'seed']
        left = {it: functions for it, functions in found.items() if edits.index(it) not in given_back[1]()}
        if not room or not is_well(given, len(left)):
            return {}

        def check(texts):
            with tempfile.TemporaryDirectory(prefix='together-', dir=room) as over:
                rt.linked(f'{room}/seed', f'{over}/seed')
                return rt.checked(crate, texts, ['--jobs', '1'], f'{over}/seed')

        return {it: (rt.REFUSED, said) for it, said in refused_together(rt, crate, left, check).items()}

    # a task stands behind those that it waits for
    mine = {it: tasks.pop(it) for it in [*tasks] if it[0] == crate.name and it[1] in ('edits', 'sound', 'again')}
    tasks[key] = (*mine[crate.name, 'edits', 0][:3], together)
    for it, (after, lines, memory, call) in mine.items():
        if it[1] == 'edits':
            edit = edits[it[2]]
            tasks[it] = ([*after, key], lines, memory,
                         lambda given, jobs, edit=edit, call=call: given[key].get(edit) or call(given, jobs))
        else:
            tasks[it] = (after, lines, memory, call)
    return given_back


if __name__ == '__main__':
    unknown = [it for it in sys.argv[2:] if not os.path.isdir(f'crates/{it}')]
    if not os.path.isfile('crates.txt') or unknown:
        sys.exit(' '.join(['call this at the top of the repository, with names of crates:', *unknown]))
    kit = load()

    def has(forms):
        """Whether the kit's rt has functions of these forms."""
        return all(' '.join(inspect.signature(kit.__dict__.get(it, load)).parameters) == forms[it] for it in forms)

    # another kit's rt, of another form, tries them its own way
    if has({**FORMS, **ALL}):
        kit.must_fail_all = functools.partial(must_fail_all, kit)
    elif has({**FORMS, **TASKS}):
        kit.add_edits = functools.partial(add_edits, kit, kit.add_edits)
        kit.Crate = keeping_what_is_checked(kit)
    sys.exit(kit.main(sys.argv[1:]))
