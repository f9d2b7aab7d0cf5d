#!/usr/bin/env python3
"""Writes docs/believe/, what has to be believed: for each kind of promise just the definitions that it rests
on, in the sentences that stand above them, the promise that needs the fewest first; those on which several pages
rest stand once, on a page of their own.

Run it at the top of the repository. With `--check` it writes nothing, and says which page is another than it would
write; its last line counts the pages. It ends with status 1 where one differs, a definition has no sentence, a contract
that is named here is missing, or a page of docs/ links to a part that is not there; with `--strict` also where two
definitions of the specs have one name.
"""
import re
import sys
import textwrap
from collections import defaultdict

sys.dont_write_bytecode = True

from spec_files import TOP, Definition, Specs, contract, expect_words, leave, said_of  # noqa: E402

MOST_FIELDS = 12
# the page of what more than one page rests on
COMMON = "common"
# Each page: its file, its title, and its promises. A promise is a line and the contracts that carry it, as
# docs/PROOFS.md names them: a function, `Type::function`, `trait Name` or `struct Name`.
PAGES = [
    ("program", "The program", [
        ("what a run writes, and what it refuses", ["run_over", "run_program", "read_all"]),
        ("what a run on one core answers", ["run_one"]),
        ("what a trace says", ["parse_trace", "every_trace_reads_back"]),
        ("what an image says, rebuilt and reported", ["image_of", "image_text", "rebuild", "report"]),
    ]),
    ("one-thread", "The allocator for one thread", [
        ("a take answers a free block, and is refused only where there is none", ["PlainAllocator::take"]),
        ("a give, a block that is kept, a split", [
            "PlainAllocator::give", "PlainAllocator::keep", "PlainAllocator::split"]),
        ("opening and closing", ["PlainAllocator::open", "PlainAllocator::close"]),
    ]),
    ("tree", "Takes and gives in a tree", [
        ("a take", ["take_small", "take_wide", "take_huge", "take_in_tree"]),
        ("a give", ["give_low"]),
    ]),
    ("allocator", "The allocator that threads share", [
        ("a take, and why it is refused", ["Allocator::take"]),
        ("a give, a block that is kept or recalled, a split, a join", [
            "Allocator::give", "Allocator::keep", "Allocator::recall", "Allocator::split", "Allocator::join"]),
        ("opening and closing", ["Allocator::open", "Allocator::open_with", "Allocator::close"]),
        ("what survived", ["Allocator::open_at", "Survivors::adopt"]),
        ("the bounds on moves", ["bounds_are_these"]),
        ("one core of all, and the cores again", ["Allocator::gather", "Allocator::scatter"]),
        ("what a search of all trees may miss", ["searches_miss_what_is_withheld"]),
        ("a core with single frames at hand", ["CachedCore::take", "CachedCore::give"]),
    ]),
    ("zones", "Zones", [
        ("a take, and why it is refused", ["Zones::take"]),
        ("a give, a split, a block that is kept or recalled", [
            "Zones::give", "Zones::split", "Zones::keep", "Zones::recall"]),
        ("blocks of two zones share no frame", ["blocks_lie_in_zones"]),
        ("opening and closing", ["Zones::open", "Zones::close"]),
        ("what survived", ["Zones::open_at", "Zones::adopt"]),
        ("how much is free", [
            "Zones::free_frames", "Zones::free_huge", "Zones::free_frames_of", "Zones::free_huge_of"]),
        ("a home that is set", ["Zones::set_home"]),
    ]),
    ("c", "The library for C", [
        ("one thread: a take, a give, a split", [
            "llfree_plain_take", "llfree_plain_give", "llfree_plain_split", "llfree_plain_is_held"]),
        ("one thread: opening and closing", [
            "llfree_plain_open", "llfree_plain_reopen", "llfree_plain_close_image"]),
        ("several threads: a take, a give, a split", ["llfree_take", "llfree_give", "llfree_split", "llfree_split_to",
            "llfree_order_at"]),
        ("several threads: blocks in structs", [
            "llfree_take_block", "llfree_give_block", "llfree_split_block"]),
        ("several threads: a take of just this block", ["llfree_take_at", "llfree_take_block_at"]),
        ("several threads: looks at a block, and runs of huge frames", [
            "llfree_is_free", "llfree_take_run", "llfree_give_run"]),
        ("several threads: single frames that rest with a core", [
            "llfree_take_frame", "llfree_give_frame", "llfree_drain"]),
        ("several threads: single frames that rest with a core, by number", [
            "llfree_take_number", "llfree_give_number"]),
        ("several threads: several single frames at once", ["llfree_take_frames", "llfree_give_frames"]),
        ("several threads: openings", [
            "llfree_open", "llfree_open_zones", "llfree_open_unchecked", "llfree_open_zones_unchecked"]),
        ("several threads: openings at an image", ["llfree_reopen", "llfree_reopen_zones"]),
        ("several threads: the image that the last handle leaves", ["llfree_close_image"]),
        ("the image of words after a kill", ["llfree_words", "llfree_image_of_words"]),
        ("how much is free", [
            "llfree_free_frames", "llfree_free_huge", "llfree_free_frames_of", "llfree_free_huge_of"]),
        ("several threads: zones, and homes that are set", ["llfree_zones", "llfree_home", "llfree_set_home"]),
        ("what no take answers and no stop leaves", [
            "wrong_takes_are_not_told", "wrong_takes_of_one_block_are_not_told", "wrong_answers_are_not_given",
            "wrong_images_are_not_left"]),
    ]),
    ("threads", "Threads", [
        ("what words and views that agree say of blocks and counters", ["every_fit_is_safe"]),
        ("what the counters say at the end", ["every_closing_adds_up"]),
        ("whatever happens, words and views agree", ["every_run_fits", "every_run_from_an_opening_fits"]),
        ("whatever stops, known blocks are held", ["every_stop_is_survived", "every_reopening_is_survived"]),
        ("who wins where an exchange is lost, and what pays for it", ["every_loss_has_a_winner", "every_loss_is_paid"]),
        ("what a seat that rests withholds", ["every_fit_withholds_little"]),
        ("what a move is", ["trait Moves"]),
        ("a table is opened and closed, and who owns a block", [
            "open_table", "open_table_with", "open_table_at", "GroundSeat::part",
            "close_table", "struct Block"]),
    ]),
]


def wrapped(text, first, then):
    return textwrap.fill(text, 118, initial_indent=first, subsequent_indent=then,
                         break_long_words=False, break_on_hyphens=False)


def roots_of(specs, names, missing):
    """The words that these contracts speak of."""
    words = []
    for name in names:
        found = contract(name)
        if not found:
            missing.append(name)
            continue
        clauses, scope, arguments = found
        for clause in clauses:
            words += specs.words(clause, scope, arguments)
    return words


def lines_of(definitions):
    return sum(len(d.text) for d in definitions)


def told(d):
    """The lines of one definition, a record with its fields; those that say it themselves share a line."""
    out = [wrapped(f"`{d.name}`: {d.sentence}", "- ", "  ")]
    fields = d.fields()
    if len(fields) <= MOST_FIELDS:
        out += [wrapped(f"`{name}`: {sentence}", "  - ", "    ") for name, sentence, _ in fields if sentence]
        plain = "; ".join(f"`{name}`: `{kind}`" for name, sentence, kind in fields if not sentence)
        out += [wrapped(plain, "  - ", "    ")] if plain else []
    return out


class Page:
    """A page of some promises, smallest first: of each its line, its contracts, all that it rests on, what of this
    no promise before it needs, and the words of the code and of libraries."""

    def __init__(self, specs, name, title, promises, missing):
        self.name, self.title = name, title
        self.promises, self.known, self.others = [], [], []
        needed = [(line, contracts, *specs.closure(roots_of(specs, contracts, missing)))
                  for line, contracts in promises]
        for line, contracts, seen, beside in sorted(needed, key=lambda one: len(one[2])):
            new = [d for d in seen if d not in self.known]
            self.known += new
            self.others += [word for word in beside if word not in self.others]
            self.promises.append((line, contracts, seen, new))


def shared_by(lists):
    """What stands in more than one of the lists."""
    found = []
    for i, words in enumerate(lists):
        found += [word for word in words if word not in found and any(word in later for later in lists[i + 1:])]
    return found


def text_of(specs, page, shared, shared_others):
    """The text of a page: what it rests on, in an order in which every definition stands behind those that it uses;
    of those that another page needs too the names alone."""
    rows, parts = [], []
    for line, contracts, seen, new in page.promises:
        names = ", ".join(f"`{name}`" for name in contracts)
        rows.append(f"| {line} | {names} | {len(seen)} | {len(new)} |")
        parts += part(specs, line, new, shared)
    elsewhere = [d for d in page.known if d in shared]
    head = (f"{len(page.known)} definitions, in {lines_of(page.known)} lines of `specs/`, each behind those that it"
            " uses. Whoever believes that they say what is meant, and the checker, has the promises below."
            f" {len(elsewhere)} of them stand on [a page of their own]({COMMON}.md). Written by `tools/definitions.py`.")
    out = [f"# What to believe: {page.title[0].lower() + page.title[1:]}", "", wrapped(head, "", ""), "",
           "| Promise | Contracts | Definitions | not needed before |", "|---|---|---|---|", *rows, ""]
    return "\n".join(out + parts + other_words([word for word in page.others if word not in shared_others]))


def common_text(specs, shared, shared_others):
    """The page of what several pages rest on."""
    head = (f"{len(shared)} definitions, in {lines_of(shared)} lines of `specs/`, on which more than one of the pages"
            " beside this one rest, each behind those that it uses. Each page names those that it needs. The page is"
            " written by `tools/definitions.py`.")
    out = ["# What to believe: what several pages rest on", "", wrapped(head, "", ""), ""]
    return "\n".join(out + modules_of(specs, shared, "##") + [""] + other_words(shared_others))


def modules_of(specs, definitions, level):
    """The definitions, module by module, below headings of this level."""
    out = []
    for module in specs.in_order():
        here = [d for d in module.definitions if d in definitions]
        if here:
            path = f"../../crates/{module.crate}/specs/{module.name}.antt"
            out.append(f"{level} [{module.crate}: {module.name}]({path})")
            for d in here:
                out += told(d)
    return out


def part(specs, line, definitions, shared):
    """The definitions that a promise brings."""
    if not definitions:
        return []
    out = [f"## {line[0].upper() + line[1:]}", ""]
    named = [d.name for module in specs.in_order() for d in module.definitions if d in definitions and d in shared]
    if named:
        out += [wrapped(f"[{COMMON}.md]({COMMON}.md): " + ", ".join(f"`{name}`" for name in named), "", ""), ""]
    return out + modules_of(specs, [d for d in definitions if d not in shared], "###") + [""]


def other_words(others):
    """Types and constants of the code, and words of libraries."""
    out, code = [], sorted({(crate, name) for kind, crate, name in others if kind == "code"})
    if code:
        out += ["## Types and constants of the code", ""]
    for crate, name in code:
        said, path = said_of(crate, name)
        link = f"[`{name}`](../../{path})" if path else f"`{name}`"
        out.append(wrapped(f"{link}, {crate}: {said}" if said else f"{link}, {crate}", "- ", "  "))
    library = defaultdict(set)
    for kind, crate, name in others:
        if kind == "library" and name[:1].isalpha():
            library[crate].add(name)
    if library:
        out += [""] * bool(code) + ["## Words of libraries", ""]
    for crate in sorted(library):
        names = ", ".join(f"`{name}`" for name in sorted(library[crate], key=str.lower))
        out.append(wrapped(f"`{crate}`: {names}", "- ", "  "))
    return out + [""]


def twice(specs):
    """The names that stand for two definitions."""
    places = defaultdict(list)
    for d in specs.found.values():
        places[d.name].append(f"{d.crate}/specs/{d.module}")
    return [f"{name}: {', '.join(where)}" for name, where in sorted(places.items()) if len(where) > 1]


def anchor(heading):
    """What a link to a heading ends with."""
    return re.sub(r"[^a-z0-9 -]", "", heading.lower()).replace(" ", "-")


def dead_links(docs, texts):
    """The links of the pages in docs/ into docs/believe/ that lead nowhere."""
    dead = []
    for source in sorted(docs.glob("*.md")):
        for name, _, part_of in re.findall(r"\(believe/([a-z-]+)\.md(#([a-z0-9-]+))?\)", source.read_text()):
            heads = re.findall(r"^#+ (.*)$", texts.get(docs / "believe" / f"{name}.md", ""), re.M)
            if not heads or (part_of and part_of not in map(anchor, heads)):
                dead.append(f"{source.name}: {name}.md#{part_of}")
    return dead


def main(words):
    expect_words(words, {"--check", "--strict"}, __doc__)
    specs, missing = Specs(), []
    docs = TOP / "docs"
    pages = [Page(specs, *page, missing) for page in PAGES]
    shared = shared_by([page.known for page in pages])
    shared_others = shared_by([page.others for page in pages])
    texts = {docs / "believe" / f"{page.name}.md": text_of(specs, page, shared, shared_others) for page in pages}
    texts[docs / "believe" / f"{COMMON}.md"] = common_text(specs, shared, shared_others)
    bare = [f"{d.crate}/specs/{d.module}: {d.name}" for d in specs.found.values() if not d.sentence]
    double = twice(specs)
    dead = dead_links(docs, texts)
    for kind, lines in [("no sentence", bare), ("no contract", missing), ("no part of a page", dead),
                        ("two definitions", double)]:
        for line in lines:
            print(f"{kind}: {line}", file=sys.stderr)
    wrong = len(bare) + len(missing) + len(dead) + (len(double) if "--strict" in words else 0)
    return leave(texts, docs / "believe", "--check" in words, wrong)


if __name__ == "__main__":
    sys.exit(main(sys.argv[1:]))
