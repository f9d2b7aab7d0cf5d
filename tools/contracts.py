#!/usr/bin/env python3
"""Writes docs/contracts/: for each library crate its public calls as they stand in `src/`, signatures and clauses, and
below them the sentence of each definition that these name. It also fills in what docs/PROOFS.md and docs/ARCHITECTURE.md
quote: the blocks that begin with "text quoted: NAME ..".

Run it at the top of the repository. With `--check` it writes nothing, and says which page is another than it would
write; its last line counts the pages, and it ends with status 1 where one differs, or a name that is quoted is unknown.
"""
import re
import sys
import textwrap
from collections import defaultdict

sys.dont_write_bytecode = True

from spec_files import TOP, Definition, Specs, balanced, crates, expect_words, leave, scope_of  # noqa: E402

CALL = re.compile(r'^( *)(pub )?(?:extern "C" )?(?:const )?(?:unsafe )?fn (\w+)')
BLOCK = re.compile(r"^(impl\b|(?:pub )?trait\b)(.*)$")
CLAUSE = re.compile(r"\b(?:requires|ensures)(?:\s+\w+)?\s*(?={)")
GHOST = re.compile(r"(?:^    // .*\n)*^    (?:pub )?ghost \w+: {", re.M)
QUOTED = re.compile(r"^(```text quoted: (.*)\n)(?:.*\n)*?(```)$", re.M)
HEAD = "Quoted from `src/` by `tools/contracts.py`"


def wrapped(text, first, then):
    return textwrap.fill(text, 118, initial_indent=first, subsequent_indent=then,
                         break_long_words=False, break_on_hyphens=False)


class Call:
    """A public function: of which type, in which file, its lines up to the body, and its clauses."""

    def __init__(self, of, name, path, lines):
        self.of, self.name, self.path, self.lines = of, name, path, lines
        text = "\n".join(line for line in lines if not line.strip().startswith("//"))
        self.arguments = set(re.findall(r"(\w+): ", CLAUSE.split(text)[0]))
        self.clauses = [text[m.end() + 1:balanced(text, m.end())] for m in CLAUSE.finditer(text)]


class Exports:
    """What a crate hands out: names, whole modules, and names of other crates."""

    def __init__(self, crate):
        text = (TOP / "crates" / crate / "src" / "lib.rt").read_text()
        own = {crate, *re.findall(r"^(?:pub )?mod (\w+);", text, re.M)}
        self.modules = set(re.findall(r"^pub mod (\w+);", text, re.M))
        self.names, self.others = set(), defaultdict(list)
        for path, names in re.findall(r"^pub use ([\w:]+?)(?:::\{([^}]*)\}|::\w+)?;", text, re.M):
            last = re.search(rf"^pub use {re.escape(path)}::(\w+);", text, re.M)
            found = [name.strip() for name in names.split(",") if name.strip()] or [last.group(1)] * bool(last)
            if path.split("::")[0] in own:
                self.names.update(found)
            else:
                self.others[path.split("::")[0]] += found


def type_of(head):
    """The type or the trait of a block's first line; an `impl` of a trait hands out no calls of its own."""
    words = re.sub(r"<[^<>]*(?:<[^<>]*>)?[^<>]*>", "", head).replace("{", " ").split()
    return None if "for" in words else words[0].rstrip(":") if words else None


def above(lines, at):
    """The lines of `///` right above a line, past attributes and other comments."""
    found = []
    for line in reversed(lines[:at]):
        bare = line.strip()
        if bare.startswith("///"):
            found.insert(0, line)
        elif not bare.startswith(("#[", "//")):
            break
    return found


def head_of(lines, at):
    """The lines of a function from its name to the last of its clauses."""
    found = []
    for line in lines[at:]:
        bare = line.strip()
        clauses = any(CLAUSE.search(one) for one in found)
        if bare in ("{", "{}"):
            return found
        if not clauses and not CLAUSE.search(line) and bare.endswith((" {", " {}")):
            return [*found, line[:line.rindex(" {")]]
        found.append(line)
        text = "\n".join(found)
        if bare.endswith(";") and text.count("{") == text.count("}"):
            return [*found[:-1], line.rstrip()[:-1]]
    return found


def calls_of(crate, exports):
    """The public calls of a crate, in the order of its files."""
    folder = TOP / "crates" / crate / "src"
    for path in sorted(folder.rglob("*.rt")):
        where = path.relative_to(folder)
        if "tests" in where.as_posix():
            continue
        open_module = where.with_suffix("").parts[0] in exports.modules
        lines, of, is_trait = path.read_text().splitlines(), None, False
        for at, line in enumerate(lines):
            block = BLOCK.match(line)
            if block:
                of, is_trait = type_of(block.group(2)), "trait" in block.group(1)
            elif line == "}":
                of, is_trait = None, False
            call = CALL.match(line)
            if not call:
                continue
            inner, public, name = len(call.group(1)) == 4, call.group(2) or is_trait, call.group(3)
            told = of in exports.names if inner else name in exports.names or open_module or 'extern "C"' in line
            if public and told and len(call.group(1)) <= 4:
                text = textwrap.dedent("\n".join(above(lines, at) + head_of(lines, at)))
                yield Call(of if inner else None, name, path, text.split("\n"))


def ghosts_of(crate, names):
    """What each value of a public type keeps true, and each type of a public trait: the name, the file, the lines."""
    for path in sorted((TOP / "crates" / crate / "src").rglob("*.rt")):
        text = path.read_text()
        for match in re.finditer(r"^pub (?:struct|trait) (\w+)[^{;]*{", text, re.M):
            body = text[match.end() - 1:balanced(text, match.end() - 1)]
            found = [body[m.start():balanced(body, m.end() - 1) + 1] for m in GHOST.finditer(body)]
            if match.group(1) in names and found:
                yield match.group(1), path, textwrap.dedent("\n".join(found)).split("\n")


def doc_of(crate, name):
    """What stands above a public type."""
    for path in sorted((TOP / "crates" / crate / "src").rglob("*.rt")):
        lines = path.read_text().splitlines()
        for at, line in enumerate(lines):
            if re.match(rf"pub (?:struct|enum|trait) {name}\b", line):
                return " ".join(one.strip()[3:].strip() for one in above(lines, at))
    return ""


def words_of(specs, calls, told):
    """The sentence of each definition that the calls name, but of those that were told before."""
    found = []
    for call in calls:
        scope = scope_of(call.path.read_text())
        for clause in call.clauses:
            for word in specs.words(clause, scope, call.arguments):
                if isinstance(word, Definition) and word not in found and word not in told:
                    found.append(word)
    told += found
    return [wrapped(f"[`{d.name}`](../../crates/{d.crate}/specs/{d.module}.antt): {d.sentence}", "- ", "  ")
            for d in sorted(found, key=lambda d: d.name.lower())]


def section(specs, crate, title, calls, ghosts, told):
    """One type with its calls, or all functions that are no type's."""
    out = [f"## {title}", ""]
    said = doc_of(crate, title.strip("`"))
    out += [wrapped(said, "", ""), ""] if said else []
    by_file = defaultdict(list)
    for path, lines in ghosts:
        by_file[path].append(lines)
    for call in calls:
        by_file[call.path].append(call.lines)
    for path, texts in by_file.items():
        link = path.relative_to(TOP).as_posix()
        out += [f"[{link.split('/', 2)[2]}](../../{link})", "", "```rust"]
        out += "\n\n".join("\n".join(lines) for lines in texts).split("\n") + ["```", ""]
    words = words_of(specs, calls, told)
    return out + words + [""] * bool(words)


def page(specs, crate):
    """The page of a crate, how many calls it has, and how many clauses these have."""
    exports = Exports(crate)
    calls, told = list(calls_of(crate, exports)), []
    ghosts = defaultdict(list)
    for name, path, lines in ghosts_of(crate, exports.names):
        ghosts[name].append((path, lines))
    types = list(dict.fromkeys([call.of for call in calls if call.of] + list(ghosts)))
    clauses = sum(len(call.clauses) for call in calls)
    head = f"{HEAD}: {len(calls)} calls, {clauses} clauses. A definition is told at the first call that names it."
    free = [call for call in calls if not call.of]
    titles = ["Functions"] * bool(free) + types
    links = ", ".join(f"[{title}](#{title.lower()})" for title in titles)
    out = [f"# Contracts: {crate}", "", wrapped(f"{head} {links}.", "", ""), ""]
    if free:
        out += section(specs, crate, "Functions", free, [], told)
    for name in types:
        out += section(specs, crate, f"`{name}`", [c for c in calls if c.of == name], ghosts[name], told)
    if exports.others:
        out += ["## Named here too", ""]
        out += [wrapped(f"of [{other}]({other}.md): " + ", ".join(f"`{name}`" for name in names), "- ", "  ")
                for other, names in exports.others.items()] + [""]
    return "\n".join(out), len(calls), clauses


def libraries():
    """The library crates that are no tests."""
    return [crate for crate in crates()
            if (TOP / "crates" / crate / "src" / "lib.rt").exists() and not crate.endswith("_tests")]


def equations(definition):
    """The lines of a definition, without those that say its type where equations follow."""
    first = next((at for at, line in enumerate(definition.text) if line.startswith(f"{definition.name} ")), 0)
    return definition.text[first:]


def quoted(specs, pages, names, unknown):
    """The text of what is named, `CRATE/MODULE.DEFINITION` or `CRATE::[TYPE::]FUNCTION`; of a definition by equations
    just these."""
    texts = []
    for name in names.split():
        if "::" in name:
            crate, _, item = name.partition("::")
            found = [call for call in calls_of(crate, Exports(crate))
                     if (f"{call.of}::{call.name}" if call.of else call.name) == item] if crate in pages else []
            lines = [line for line in found[0].lines if not line.startswith("///")] if found else []
        else:
            crate, _, rest = name.partition("/")
            found = specs.found.get((crate, *rest.rsplit(".", 1))) if "." in rest else None
            lines = equations(found) if found else []
        if not lines:
            unknown.append(name)
        texts += lines
    return "\n".join(texts) + "\n"


def with_quotes(specs, pages, text, unknown):
    return QUOTED.sub(lambda m: m.group(1) + quoted(specs, pages, m.group(2), unknown) + m.group(3), text)


def main(words):
    expect_words(words, {"--check"}, __doc__)
    specs, docs, unknown = Specs(), TOP / "docs", []
    pages, rows = {}, []
    for crate in libraries():
        text, calls, clauses = page(specs, crate)
        pages[crate] = text
        rows.append(f"| [{crate}]({crate}.md) | {calls} | {clauses} |")
    index = "\n".join(["# Contracts", "", wrapped(f"{HEAD}, a page for each library crate. ../PROOFS.md says which of"
                       " them carry the theorems, ../believe/ what each theorem rests on.", "", ""), "",
                       "| Crate | Public calls | Clauses |", "|---|---|---|", *rows, ""])
    texts = {docs / "contracts" / f"{crate}.md": text for crate, text in pages.items()}
    texts[docs / "contracts" / "README.md"] = index
    for name in ("PROOFS.md", "ARCHITECTURE.md"):
        if (docs / name).exists():
            texts[docs / name] = with_quotes(specs, pages, (docs / name).read_text(), unknown)
    for name in unknown:
        print(f"quoted, and unknown: {name}", file=sys.stderr)
    return leave(texts, docs / "contracts", "--check" in words, len(unknown))


if __name__ == "__main__":
    sys.exit(main(sys.argv[1:]))
