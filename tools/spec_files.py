"""Reads the definitions of `specs/` and the contracts of `src/`, as far as the tools need them."""
import pathlib
import re
import sys

TOP = pathlib.Path(__file__).resolve().parent.parent
DEFINITION = re.compile(r"^(abbrev pub|unfoldable pub|pub record|pub data) (\S+)")
FIELD = re.compile(r"^  (?:pub )?([A-Za-z_]\w*) : ?(.*)$")
NAME = re.compile(r"(?<![\w'.])[A-Za-z_][\w'-]*")
USE = re.compile(r"(?:ghost |pub )?use ([\w.]+?)(?:\.\{([^}]*)\}| as (\w+))?(?:;|\n|$)")
CLAUSE = re.compile(r"(?:\b(?:requires|ensures)(?:\s+\w+)?|\bghost \w+:|\bghost \w+ =)\s*$")


class Definition:
    """A definition of a spec file, with the sentence above it."""

    def __init__(self, crate, module, kind, name, sentence):
        self.crate, self.module, self.kind, self.name = crate, module, kind, name
        self.sentence = sentence
        self.text = []
        self.uses = []

    def key(self):
        return (self.crate, self.module, self.name)

    def fields(self):
        """The fields of a record or the forms of a `data`: name, sentence and type of each."""
        if self.kind not in ("pub record", "pub data"):
            return []
        found, comment = [], []
        for line in self.text:
            match = FIELD.match(line)
            if line.startswith("  --"):
                comment.append(line[4:].strip())
            elif match:
                found.append([match.group(1), " ".join(comment), match.group(2)])
                comment = []
            elif found and line.startswith("   "):
                found[-1][2] = f"{found[-1][2]} {line.strip()}".strip()
        return found

    def spoken(self):
        """The text without comments and without the names of fields."""
        lines = [re.sub(r"\s*--.*", "", line) for line in self.text]
        if self.kind in ("pub record", "pub data"):
            lines = [FIELD.sub(r"    \2", line) for line in lines]
        return "\n".join(lines)

    def bound(self):
        """The names that stand for arguments here."""
        text = self.spoken()
        names = set()
        for group in re.findall(r"[({]([\w' ]+) :", text) + re.findall(r"λ ([^.]*)\.", text):
            names.update(NAME.findall(group))
        for left in re.findall(rf"^{re.escape(self.name)}((?: [^=\n]*)?)=", text, re.M):
            names.update(NAME.findall(left))
        return names


class Module:
    """A spec file: the comment at its head, its definitions, and which module each name is from."""

    def __init__(self, crate, name):
        self.crate, self.name = crate, name
        self.head = ""
        self.definitions = []
        self.scope = {}


def crates():
    """The crates in the order of crates.txt, lowest first."""
    for line in (TOP / "crates.txt").read_text().splitlines():
        line = line.split("#")[0].strip()
        if line:
            yield line.split(":")[0].split()[0]


def scope_of(text):
    """Which module each imported name is from."""
    scope = {}
    text = re.sub(r"(?:--|//).*", "", text)
    for module, names, alias in USE.findall(text):
        for name in names.split(","):
            parts = name.split(" as ")
            if parts[0].strip():
                scope[parts[-1].strip()] = (module, parts[0].strip())
        if alias:
            scope[alias] = (module, "")
    return scope


def read_module(crate, path):
    """The module of a spec file."""
    specs = TOP / "crates" / crate / "specs"
    module = Module(crate, path.relative_to(specs).with_suffix("").as_posix())
    text = path.read_text()
    module.scope = scope_of(text)
    comment, begun, current = [], False, None
    for line in text.splitlines():
        if line.startswith("--"):
            comment.append(line[2:].strip())
            current = None
            continue
        match = DEFINITION.match(line)
        if match:
            kind, name = match.groups()
            current = Definition(crate, module.name, kind, name, " ".join(comment))
            module.definitions.append(current)
        elif re.match(r"(pub \S+ :|pub mod|use )", line):
            current = None
        if current and line.strip():
            current.text.append(line)
        if not begun and line.startswith(("use ", "pub ", "abbrev ", "unfoldable ")):
            module.head, begun = " ".join(comment) if line.startswith("use ") else "", True
        comment = []
    return module


class Specs:
    """All spec files of the repository."""

    def __init__(self):
        self.modules = {}
        for crate in crates():
            folder = TOP / "crates" / crate / "specs"
            for path in sorted(folder.rglob("*.antt")):
                if path.name != "Lib.antt":
                    module = read_module(crate, path)
                    self.modules[crate, module.name] = module
        self.passed_on = {}
        for crate in crates():
            lib = TOP / "crates" / crate / "specs" / "Lib.antt"
            text = lib.read_text() if lib.exists() else ""
            for other, name in re.findall(r"^pub use Rattle\.(\w+)\.specs\.(\w+)$", text, re.M):
                self.passed_on[crate, name] = other
        self.found = {d.key(): d for m in self.modules.values() for d in m.definitions}
        self.forms = {}
        for d in self.found.values():
            if d.kind == "pub data":
                for name, _, _ in d.fields():
                    self.forms[d.crate, d.module, name] = d
        for m in self.modules.values():
            for d in m.definitions:
                own = {e.name: (f"Rattle.{m.crate}.specs.{m.name.replace('/', '.')}", e.name)
                       for e in m.definitions}
                own.update({name: (f"Rattle.{c}.specs.{n.replace('/', '.')}", name)
                            for c, n, name in self.forms if (c, n) == (m.crate, m.name)})
                scope = {**m.scope, **own}
                bound = {name for name in d.bound() if not self.is_form(scope.get(name))}
                d.uses = self.words(d.spoken(), scope, bound | {d.name})

    def is_form(self, origin):
        """A form of a `data`, which stands for no argument where it is matched."""
        if not origin or origin[0].split(".")[0] != "Rattle":
            return False
        parts = origin[0].split(".")
        crate = self.passed_on.get((parts[1], (parts[3:] or [""])[0]), parts[1])
        return (crate, "/".join(parts[3:]), origin[1]) in self.forms

    def words(self, text, scope, bound):
        """What the names of a text are, each once, in the order of the text: definitions, types of
        the code as (crate, name), and words of other libraries as (module, name)."""
        found = []
        for match in NAME.finditer(text):
            name = match.group(0)
            if name in bound or name not in scope:
                continue
            if re.match(r"\s*=(?!\S)", text[match.end():]) and text[match.start() - 1] != "\n":
                continue
            word = self.word(*scope[name])
            if word and word not in found:
                found.append(word)
        return found

    def word(self, module, name):
        parts = module.split(".")
        if parts[0] != "Rattle" or len(parts) < 3:
            return ("library", parts[0], name)
        crate, place = parts[1], parts[3:]
        if place:
            crate = self.passed_on.get((crate, place[0]), crate)
        if place[:1] == ["declared"]:
            what = name if place[-1] == "TheConstants" else place[2] if len(place) > 2 else name
            return ("code", crate, what)
        key = (crate, "/".join(place), name)
        if key in self.found:
            return self.found[key]
        if key in self.forms:
            return self.forms[key]
        if (crate, "/".join(place)) in self.modules:
            return None
        return ("library", crate, name)

    def in_order(self):
        """The modules, each behind those that it uses."""
        done, order = set(), []

        def visit(key):
            if key in done or key not in self.modules:
                return
            done.add(key)
            for d in self.modules[key].definitions:
                for word in d.uses:
                    if isinstance(word, Definition):
                        visit((word.crate, word.module))
            order.append(self.modules[key])

        for key in self.modules:
            visit(key)
        return order

    def closure(self, words):
        """The definitions that these words rest on, and the words of the code and of libraries."""
        seen, others, waiting = [], [], list(words)
        while waiting:
            word = waiting.pop()
            if not isinstance(word, Definition):
                if word not in others:
                    others.append(word)
            elif word not in seen:
                seen.append(word)
                waiting += word.uses
        return seen, others


def sources(crate):
    """The source files of a crate that are no tests."""
    for path in sorted((TOP / "crates" / crate / "src").rglob("*.rt")):
        if "tests" not in path.relative_to(TOP).as_posix():
            yield re.sub(r"^\s*//.*$", "", path.read_text(), flags=re.M)


def balanced(text, start):
    """Where the brace that opens at `start` closes."""
    depth = 0
    for i in range(start, len(text)):
        depth += {"{": 1, "}": -1}.get(text[i], 0)
        if depth == 0:
            return i
    return len(text) - 1


def clauses_of(text):
    """The clauses of a function, up to its body."""
    found, at = [], 0
    while True:
        match = re.compile(r"[{;]").search(text, at)
        if not match or match.group(0) == ";":
            return found
        if not CLAUSE.search(text[:match.start()]):
            return found
        end = balanced(text, match.start())
        found.append(text[match.start() + 1:end])
        at = end + 1


def contract(name):
    """The clauses of `NAME`, `TYPE::NAME`, `trait NAME` or `struct NAME`, as it stands in the lowest crate
    that has it, with the scope of its file and the names of its arguments. None where there is no such
    item."""
    kind, _, item = name.rpartition(" ")
    of, _, item = item.rpartition("::")
    pattern = rf"^{' +' if of else ''}pub (?:const |extern \"C\" )?{kind or 'fn'} {item}\b"
    for crate in crates():
        for text in sources(crate):
            for match in re.finditer(pattern, text, re.M):
                if of and not is_inside(text[:match.start()], of):
                    continue
                read = item_clauses if kind else function_clauses
                clauses, arguments = read(text[match.start():])
                return clauses, scope_of(text), arguments
    return None


def is_inside(before, name):
    """The text ends inside an `impl` of this type."""
    heads = re.findall(r"^(?:impl|trait|pub trait)\b[^{\n]*|^\}", before, re.M)
    return bool(heads) and bool(re.search(rf"\b{name}\b", heads[-1]))


def function_clauses(text):
    head = re.split(r"\b(?:requires|ensures)\b", text)[0]
    return clauses_of(text), set(re.findall(r"(\w+): ", head))


def item_clauses(text):
    start = text.index("{")
    body = text[start:balanced(text, start) + 1]
    clause = r"(?:\b(?:requires|ensures)(?: \w+)?|\bghost \w+:) (?={)"
    return [body[m.end():balanced(body, m.end())] for m in re.finditer(clause, body)], set()


def said_of(crate, name):
    """The first sentence above a type or a constant of the code, and its file."""
    paths = [path for c in [crate, *crates()] for path in sorted((TOP / "crates" / c / "src").rglob("*.rt"))]
    for path in paths:
        lines = path.read_text().splitlines()
        for i, line in enumerate(lines):
            match = re.match(rf"\s*pub (struct|enum|trait|const) {name}\b", line)
            if not match:
                continue
            above = []
            for before in reversed(lines[:i]):
                if before.strip().startswith("///"):
                    above.insert(0, before.strip()[3:].strip())
                elif not before.strip().startswith("#["):
                    break
            said = re.split(r"(?<=\.) ", " ".join(above))[0].rstrip(".")
            if match.group(1) == "const" and "=" in line:
                said = f"{said} ({line.split('=')[1].strip(' ;')})".strip()
            return said, path.relative_to(TOP).as_posix()
    return "", ""


def expect_words(words, known, doc):
    """Ends a script that was called with a word which it does not know, with what it is for."""
    if {*words} - known:
        sys.exit(f"{doc.strip()}\n\nIts words: {' '.join(sorted(known))}")


def leave(texts, folder, check, wrong=0):
    """Writes pages, or with `check` compares them with what stands there; pages of the folder that are none of these
    fail too, and so does what the caller found wrong. Says which differ, and last how many do not; the status to
    end with."""
    folder.mkdir(exist_ok=True)
    differ = [path for path, text in texts.items() if not path.exists() or path.read_text() != text]
    others = [path for path in sorted(folder.glob("*.md")) if path not in texts]
    if not check:
        for path in others:
            path.unlink()
        for path in differ:
            path.write_text(texts[path])
        print(f"{len(texts)} pages, {len(differ)} written anew")
        return 1 if wrong else 0
    for path in [*differ, *others]:
        print(f"not what the script writes: {path.relative_to(TOP)}", file=sys.stderr)
    failed = len(differ) + len(others) + wrong
    print(f"{len(texts) - len(differ)} passed, {failed} failed")
    return 1 if failed else 0
