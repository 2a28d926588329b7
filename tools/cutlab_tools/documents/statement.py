"""docs/statement/make [--check]: writes docs/STATEMENT.md and docs/STATEMENT_COMMANDS.md, every definition that the program's
theorem cites, word for word, in the order of docs/statement/run.md and commands.md. These are prose with lines of these kinds:

    {{theorem FILE FUNCTION}}      the contract of a function, with which the closure begins
    {{needs MODULE:NAME..}}        what the page is for: of a module that it needs a part of, no more is printed there
    {{definitions MODULE..}}       those of the closure that stand in these specs, as crate/File, and on no earlier page
    {{types FILE..}}               the types and constants of the closure that stand in these sources, as crate/file
    {{cited}}                      what is cited of the standard library and of other crates
    {{counts}}                     how many definitions and lines the page has, and all pages

With --check it writes nothing, and fails where a page isn't that. It fails where the theorem cites a definition of a folder
specs/inside: these say how a crate keeps its values, and are for its own clauses and proofs."""
import re
from typing import Any, Container, Iterable, Iterator, Mapping, Optional

from ..repository import Repository
from . import NotMade

PAGES = {"docs/STATEMENT.md": "docs/statement/run.md", "docs/STATEMENT_COMMANDS.md": "docs/statement/commands.md"}
TOKEN = re.compile(r"[^\s(){}\[\],;λ]+")
NAME = re.compile(r"^\s*(?:(?:abbrev|unfoldable|pub|record|data)\s+)+([^\s:({]+)")
FIELD = re.compile(r"^\s+pub \S+ :")
USE = re.compile(r"use ([\w.]+?)(?:\.\{(.*)\})?(?: as (\w+))?$")
ITEM = r"((?:^ *///[^\n]*\n|^ *#\[[^\n]*\n)*)^ *(?:pub(?:\(crate\))? )?(?:struct|enum|trait|const) %s\b.*?(?:^}|;)\n"
CONTRACT = r"((?:^ *///[^\n]*\n)*)^ *pub fn %s\b.*?\n(?= *{\n)"
CLAUSE = re.compile(r"(?:ensures|requires)[^{]*\{(.*?)\}\s*(?=ensures|requires|$)", re.S)
Cited = tuple[str, str]  # a module, and a name of it
Placed = tuple[str, int | str]  # a module and a paragraph of it, or a source and a type of it


def without_comments(text: str) -> str:
    return re.sub(r'"[^"]*"', "", re.sub(r"^\s*(?:--|//).*", "", text, flags=re.M))


def ghost_uses(text: str) -> Iterator[str]:
    """The lines by which a source takes names for its contracts."""
    return (it[1] for it in re.finditer(r"^\s*ghost (use .*?);*\s*$", text, re.M))


def module_of(word: str) -> str:
    """The module of specs that the skeleton names as crate/File."""
    crate, _, file = word.partition("/")
    return f"Rattle.{crate}.specs.{file.replace('/', '.')}"


class Uses:
    """The names that a file takes from others: each with its module and its name there."""

    def __init__(self, lines: Iterable[str]) -> None:
        self.names, self.modules = dict[str, Cited](), dict[str, str]()
        for line in lines:
            found = USE.match(line)
            if not found:
                raise NotMade(f"can't read: {line}")
            module, names, alias = found.groups()
            for own, other in re.findall(r"([^\s,]+)(?: as ([^\s,]+))?", names or ""):
                self.names[other or own] = module, own
            if alias:
                self.modules[alias] = module

    def of(self, token: str) -> Cited | None:
        """What a token of this file's text stands for, if it is another file's."""
        head, _, rest = token.partition(".")
        found = self.names.get(token) or self.names.get(head)
        is_of_module = not found and head in self.modules and rest
        return (self.modules[head], rest.split(".")[0]) if is_of_module else found


class Spec:
    """A file of definitions: its paragraphs, each with the names that it defines."""

    def __init__(self, module: str, path: str, text: str) -> None:
        self.module, self.path = module, path
        self.uses = Uses(line for line in text.split("\n") if line.startswith("use "))
        self.paragraphs, self.place = list[str](), dict[str, int]()
        for paragraph in re.split(r"\n\s*\n", text):
            lines = [line for line in paragraph.split("\n") if not line.startswith(("use ", "pub use "))]
            lines = [line for line in lines if not line.strip().startswith("-- ----")]
            names = [found[1] for found in map(NAME.match, lines) if found and not FIELD.match(found.string)]
            if any(re.match(r"\s*(?:pub )?data ", line) for line in lines):
                names += [found[1] for found in (re.match(r"\s+(\w+) *:", line) for line in lines) if found]
            for name in names:
                self.place.setdefault(name, len(self.paragraphs))
            self.paragraphs += ["\n".join(lines).strip("\n")] if names else []


class Closure:
    """What contracts cite, and what that cites in turn."""

    def __init__(self, repository: Repository) -> None:
        self.repository, self.specs = repository, dict[str, Optional[Spec]]()
        self.found, self.types = dict[tuple[str, int], str](), dict[tuple[str, str], str]()
        self.outside: dict[str, set[str]] = {}

    def spec(self, module: str) -> Spec | None:
        if module not in self.specs:
            found = re.match(r"Rattle\.(\w+)\.specs\.(.+)$", module)
            path = found and f"crates/{found[1]}/specs/{found[2].replace('.', '/')}.antt"
            is_there = path and self.repository.has(path)
            self.specs[module] = Spec(module, path, self.repository.read(path)) if path and is_there else None
        return self.specs[module]

    def visit(self, cited: Cited) -> None:
        """Adds a definition or a type, and all that it cites."""
        module, name = cited
        declared = re.match(r"Rattle\.(\w+)\.specs\.declared\.([\w.]+)$", module)
        if declared and self.repository.paths(f"crates/{declared[1]}"):
            *above, last = (it for it in declared[2].split(".") if it != "TheVariants")
            path = f"crates/{declared[1]}/src/{'/'.join(above or [last])}.rt"
            return self.visit_type(path, name if last == "TheConstants" else last)
        spec = self.spec(module)
        if spec is None:
            self.outside.setdefault(module, set()).add(name)
        elif name in spec.place:
            self.visit_paragraph(spec, spec.place[name])
        elif used := spec.uses.of(name):
            self.visit(used)
        else:
            raise NotMade(f"{module} has no {name}")

    def visit_paragraph(self, spec: Spec, place: int) -> None:
        if (spec.module, place) not in self.found:
            self.found[spec.module, place] = spec.paragraphs[place]
            self.follow(spec.uses, spec.paragraphs[place], spec)

    def visit_type(self, path: str, name: str) -> None:
        if (path, name) in self.types:
            return
        text = self.repository.read(path)
        found = re.search(ITEM % name, text, re.M | re.S)
        if not found:
            raise NotMade(f"{path} has no {name}")
        item = self.types[path, name] = re.sub(r"^ *#\[[^\n]*\n", "", found[0], flags=re.M).rstrip("\n")
        for own, cited in Uses(ghost_uses(text)).names.items():
            if re.search(rf"(?<![\w.]){re.escape(own)}(?!\w)", without_comments(item)):
                self.visit(cited)

    def follow(self, uses: Uses, text: str, spec: Spec | None = None) -> None:
        for token in TOKEN.findall(without_comments(text)):
            head = token.split(".")[0]
            if used := uses.of(token):
                self.visit(used)
            elif spec and head in spec.place:
                self.visit_paragraph(spec, spec.place[head])

    def counts(self, keys: Container[Any]) -> tuple[int, int]:
        """How many of these definitions there are, and how many lines they have without comments."""
        texts = [text for key, text in self.found.items() if key in keys]
        lines = [line.strip() for text in texts for line in text.split("\n")]
        return len(texts), sum(bool(line) and not line.startswith("--") for line in lines)


class Page:
    """A page that is made of its skeleton, line by line. What a line of it says in braces is a method with words."""

    def __init__(self, repository: Repository, closure: Closure, earlier: set[Placed]) -> None:
        self.repository, self.closure, self.earlier = repository, closure, earlier
        self.needed, self.placed = Closure(repository), set[Placed]()

    def theorem(self, path: str, function: str) -> list[str]:
        """A function's signature and clauses, as they are written, with its documentation: the closure has what they cite."""
        text = self.repository.read(path)
        found = re.search(CONTRACT % function, text, re.M | re.S)
        if not found:
            raise NotMade(f"{path} has no public {function}")
        for clause in CLAUSE.findall(found[0].rstrip("\n")):
            self.closure.follow(Uses(ghost_uses(text)), clause)
        return ["```rust", found[0].rstrip("\n"), "```"]

    def needs(self, *words: str) -> list[str]:
        for module, name in (word.split(":") for word in words):
            self.needed.visit((module_of(module), name))
        return []

    def definitions(self, *words: str) -> list[str]:
        lines, found = [], {it: self.closure.found[it] for it in sorted(self.closure.found)}
        for word, module in zip(words, map(module_of, words)):
            if not (spec := self.closure.spec(module)):
                raise NotMade(f"the skeleton names {word}, and there is no such file")
            lines += self.block(module, spec.path, "text", found, self.needed.found)
        return lines

    def types(self, *words: str) -> list[str]:
        paths = ("crates/{}/src/{}.rt".format(*word.split("/", 1)) for word in words)
        texts, needed = self.closure.types, self.needed.types
        return [line for path in paths for line in self.block(path, path, "rust", texts, needed)]

    def block(self, home: str, path: str, language: str, texts: Mapping[Any, str], needed: Container[Any]) -> list[str]:
        """What the page needs of a file, or else all of it that no earlier page has."""
        every = [it for it in texts if it[0] == home]
        keys = [it for it in every if it in needed] or [it for it in every if it not in self.earlier]
        if not keys:
            raise NotMade(f"the skeleton names {path}, of which nothing is cited")
        self.placed.update(keys)
        return [f"`{path[len('crates/'):]}`", "", f"```{language}", "\n\n".join(texts[it] for it in keys), "```", ""]

    def cited(self) -> list[str]:
        names = {module: ", ".join(f"`{it}`" for it in sorted(its)) for module, its in self.closure.outside.items()}
        return [f"- `{module}`: {names[module]}" for module in sorted(names)]

    def counts(self) -> list[str]:
        (count, lines), (all_count, all_lines) = self.closure.counts(self.placed), self.closure.counts(
            self.closure.found
        )
        types = sum(key in self.placed for key in self.closure.types)
        return [
            f"On this page are {count} definitions of {lines} lines without comments, and {types} types and constants of the program.",
            f"On both are {all_count} definitions of {all_lines} lines, and {len(self.closure.types)} types and constants.",
        ]

    def text(self, skeleton: str) -> str:
        made = list[str]()
        for line in skeleton.rstrip("\n").split("\n"):
            kind, *words = line.strip("{}").split() if line.startswith("{{") else [""]
            made += getattr(self, kind)(*words) if kind else [line]
        return re.sub(r"\n{3,}", "\n\n", "\n".join(made)).rstrip("\n") + "\n"


def made(repository: Repository) -> dict[str, str]:
    closure, earlier, texts = Closure(repository), set[Placed](), dict[str, str]()
    for place, skeleton in PAGES.items():
        page = Page(repository, closure, earlier)
        texts[place] = page.text(repository.read(skeleton))
        earlier |= page.placed
    left = {home for home, _ in {*closure.found, *closure.types} - earlier}
    if inside := sorted(home for home, _ in closure.found if ".specs.inside." in home):
        raise NotMade("the theorem cites what is inside of a crate: " + ", ".join(inside))
    if left:
        raise NotMade("no page has a place for " + ", ".join(sorted(left)))
    return texts
