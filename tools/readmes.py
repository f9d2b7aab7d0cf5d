#!/usr/bin/env python3
"""Looks at the pages that are written by hand. It tells

- which files of `src/` and `specs/` their crate's README.md does not name, which it names and are not there, and where the
  first sentence of `src/lib.rt` (or `src/main.rt`) is not that of the README;
- which links and which paths of this repository that a page names lead nowhere;
- which sizes in the README at the top are not those that it counts: lines that are not empty, to 2 percent, and mutants,
  exactly;
- which of the pages in LONGEST are too long, or have lines past 120 columns outside of tables and quotes.

Run it at the top of the repository. Its last line counts the pages without a fault and the faults; it ends with status 1
where there is one. A file is named in backticks by its path from the crate, with or without its ending. The folder
`src/tests/` names `src/tests.rt` and all that lies in the folder. A path from `src/` or `specs/` is enough where it has its
ending, or stands on one line behind a path that begins so. The roots of a crate need no name.
"""
import pathlib
import re
import sys

TOP = pathlib.Path(__file__).resolve().parent.parent
ROOTS = {"src/lib.rt", "src/main.rt", "specs/Lib.antt"}
MOST_COLUMNS = 120
# the most lines of a page; a crate's README has at most MOST_README
LONGEST = {"docs/PROOFS.md": 150, "docs/ARCHITECTURE.md": 150, "docs/DECISIONS.md": 400}
MOST_README = 45
# folders of what scripts and builds make
MADE = {"out", "build", "believe", "contracts"}
PATH = re.compile(r"(?<![\w/.-])((?:tools|bench|examples|crates|docs|include|man|completions|\.ci)/[\w./*<>-]*\w)")
LINK = re.compile(r"\]\(([^)\s]+)\)")


def names_in(text):
    """What the README names, as paths from the crate."""
    names = set()
    for line in text.splitlines():
        room = ""
        for span in re.findall(r"`([^`\s]+)`", line):
            match = re.match(r"(src|specs)/", span)
            if match:
                room = match.group(1)
                if span != f"{room}/":  # that alone says where the names behind it lie
                    names.add(span)
            elif span.endswith((".rt", ".antt")):
                names.add(f"{'src' if span.endswith('.rt') else 'specs'}/{span}")
            elif room:
                names.add(f"{room}/{span}")
    return names


def is_named(path, names):
    bare = path.with_suffix("")
    folders = {f"{folder.as_posix()}/" for folder in [bare, *path.parents]}
    return bool({path.as_posix(), bare.as_posix(), *folders} & names)


def first_sentence(text):
    """Up to the first full stop that ends a word."""
    return re.split(r"(?<=\.)\s", " ".join(text.split()), maxsplit=1)[0]


def heads(crate):
    """The first sentence of the crate's source, and that of its README."""
    root = next((crate / "src" / name for name in ("lib.rt", "main.rt") if (crate / "src" / name).exists()), None)
    lines = root.read_text().splitlines() if root else []
    source = " ".join(line[3:] for line in lines if line.startswith("//!"))
    readme = crate / "README.md"
    parts = readme.read_text().split("\n\n") if readme.exists() else []
    return first_sentence(source), first_sentence(parts[1] if len(parts) > 1 else "")


def lines_of(paths):
    """The lines that are not empty."""
    return sum(bool(line.strip()) for path in paths for line in path.read_text().splitlines())


def sizes():
    """What the README says of sizes, and what they are, where the two differ."""
    crates = TOP / "crates"
    counted = {
        "lines of code": lines_of(crates.glob("*/src/**/*.rt")),
        "of definitions": lines_of(crates.glob("*/specs/**/*.antt")),
        "of proofs": lines_of(crates.glob("*/proofs/**/*.antt")),
        "mutants": len(list(crates.glob("*/must-fail/*.edit"))),
    }
    text = (TOP / "README.md").read_text()
    wrong = []
    for what, number in counted.items():
        said = re.search(rf"([\d,]+) {what}", text)
        value = int(said.group(1).replace(",", "")) if said else 0
        if abs(value - number) > (0 if what == "mutants" else number / 50):
            wrong.append(f"{value} {what}, and there are {number}")
    return wrong


def pages():
    """The pages that are written by hand."""
    found = [path.relative_to(TOP) for folder in ("", "docs", "crates", "examples", "bench")
             for path in (TOP / folder).glob("*.md" if folder in ("", "docs") else "**/*.md")]
    return sorted(path.as_posix() for path in found if not MADE & set(path.parts))


def anchors(path):
    """What links to the headings of a page end with."""
    heads = re.findall(r"^#+ (.*)$", path.read_text(), re.M)
    return {re.sub(r"[^a-z0-9_ -]", "", head.lower()).replace(" ", "-") for head in heads}


def dead(name):
    """The links and the paths of a page that lead nowhere."""
    text, folder, found = (TOP / name).read_text(), (TOP / name).parent, []
    for link in LINK.findall(text):
        if re.match(r"\w+:", link):
            continue
        path, _, part = link.partition("#")
        there = folder / path if path else TOP / name
        if not there.exists():
            found.append(link)
        elif part and part not in anchors(there):
            found.append(link)
    for path in dict.fromkeys(PATH.findall(re.sub(r"\]\([^)]*\)", "]", text))):
        near = [TOP / path, TOP / f"{path}.rt", folder / path]
        stands_for = "*" in path or ".." in path or "NAME" in path or MADE & set(path.split("/"))
        if not stands_for and not any(one.exists() for one in near):
            found.append(path)
    return found


def too_long(name):
    """Where a page is longer or wider than it may be."""
    lines = (TOP / name).read_text().splitlines()
    most = LONGEST.get(name, MOST_README if name.startswith("crates/") else None)
    found = [f"{len(lines)} lines, of at most {most}"] if most and len(lines) > most else []
    quote = False
    for number, line in enumerate(lines, 1):
        quote = quote != line.startswith("```")
        if name in LONGEST and not quote and not line.startswith("|") and len(line) > MOST_COLUMNS:
            found.append(f"line {number} is longer than {MOST_COLUMNS} columns")
    return found


def unnamed(crate):
    """The files of a crate that its README does not name, those that it names and that are not there, and a first
    sentence that is not that of the source."""
    readme = crate / "README.md"
    text = readme.read_text() if readme.exists() else ""
    names = names_in(text)
    files = [*crate.glob("src/**/*.rt"), *crate.glob("specs/**/*.antt")]
    paths = sorted(file.relative_to(crate) for file in files)
    found = [f"does not name {path.as_posix()}" for path in paths
             if path.as_posix() not in ROOTS and not is_named(path, names)]
    for span in dict.fromkeys(re.findall(r"`((?:src|specs|proofs)/[\w/]+(?:\.rt|\.antt)?)`", text)):
        if not any((crate / f"{span.rstrip('/')}{ending}").exists() for ending in ("", ".rt", ".antt")):
            found.append(f"names {span}, which is not there")
    source, said = heads(crate)
    return found + [f"begins with {said!r}, and the source with {source!r}"] * (source != said)


def main():
    faults = {name: [f"leads nowhere: {link}" for link in dead(name)] + too_long(name) for name in pages()}
    for crate in sorted((TOP / "crates").iterdir()):
        faults.setdefault(f"crates/{crate.name}/README.md", []).extend(unnamed(crate))
    faults["README.md"] += [f"says {line}" for line in sizes()]
    for name, lines in faults.items():
        for line in lines:
            print(f"{name}: {line}", file=sys.stderr)
    failed = sum(map(len, faults.values()))
    print(f"{sum(not lines for lines in faults.values())} passed, {failed} failed")
    return 1 if failed else 0


sys.exit(main())
