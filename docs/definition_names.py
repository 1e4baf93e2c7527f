"""What each definition names, by the `use` lines of its file: for docs/list-definitions.

An `Item` is a definition of crates/*/specs, or a type or a trait of crates/*/src that a definition or a clause speaks of.
`Names.cited_by` gives the items that one names itself, and `Names.cited_in_clause` those that a clause names. Both stop with
`Unknown` at a name for which no line accounts. What comes with the toolchain is not followed: `Names.kit_of` has its names.
"""
import dataclasses
import functools
import pathlib
import re

# What needs no `use` line, in definitions and in code.
BUILT_IN = set("→ × : = | _ . , ; ↦ in as elim let record where Type Prop ⊥ tt Unit absurd unfolding ¬ cc rw simp search grind omega hlevel".split())
CASES_OF_THE_KIT = set("true false zero suc pos negsuc refl tt inl inr ∷".split())
RUST_PRELUDE = set("Option Result Vec Box String Some None Ok Err Drop Sync Send Sized Copy Clone Fn".split())
RUST_NUMBERS = set("bool char str u8 u16 u32 u64 u128 usize i8 i16 i32 i64 i128 isize".split())


class Unknown(Exception):
    """A name, or a place, that cannot be found."""


@dataclasses.dataclass(frozen=True)
class Item:
    """A definition, or a type or a trait of the code; its lines are those without comments."""

    path: pathlib.Path
    name: str
    said: str = dataclasses.field(compare=False)
    lines: tuple = dataclasses.field(compare=False)
    sort: str = dataclasses.field(compare=False)


@dataclasses.dataclass(frozen=True)
class Module:
    """What a dotted path leads to: a file of definitions, a type of the code, or something of the toolchain (neither)."""

    sheet: object = None
    type: Item = None


# ---- tokens

TOKEN = re.compile(r'"(?:\\.|[^"\\])*"|\[\]|[(){}\[\];,]|[^\s(){}\[\];,"]+')
CLOSING = {"(": ")", "{": "}", "[": "]"}


@dataclasses.dataclass
class Group:
    """What stands between two brackets."""

    bracket: str
    parts: list


def tree_of(text):
    """The tokens of a text, those between two brackets as one group."""
    opened = [Group("", [])]
    for token in TOKEN.findall(text):
        if token in CLOSING:
            opened.append(Group(token, []))
        elif token in CLOSING.values():
            group = opened.pop()
            if CLOSING.get(group.bracket) != token:
                raise Unknown(f"brackets do not match in: {text[:80]}")
            opened[-1].parts.append(group)
        else:
            opened[-1].parts.append(token)
    if len(opened) != 1:
        raise Unknown(f"brackets do not match in: {text[:80]}")
    return opened[0].parts


def split_at(parts, token):
    """The runs of parts between those that are this token."""
    runs = [[]]
    for part in parts:
        if part == token:
            runs.append([])
        else:
            runs[-1].append(part)
    return runs


def block_at(text, start):
    """A piece of a text from a place to the end of the first braces behind it, or to a `;` before them."""
    place = re.compile(r"[{;]").search(text, start).start()
    depth = 0
    for end in range(place, len(text)):
        depth += (text[end] == "{") - (text[end] == "}")
        if depth == 0:
            return text[start : end + 1]
    raise Unknown(f"braces do not match behind: {text[start:start + 80]}")


# ---- files

HEAD = re.compile(r"(?:abbrev pub|unfoldable pub|pub record|pub data|abbrev|unfoldable|record|data|pub) (\S+)|(\S+)(?= : )")
USE = re.compile(r"use ([\w.]+?)(?:\.\{([^}]*)\})?(?: as (\w+))?;?$", re.S)


class Sheet:
    """A file of definitions: its items, the cases of its data, and its `use` lines, those that it passes on apart."""

    def __init__(self, path):
        self.path, self.items, self.cases, self.uses, self.passed_on, self.given = path, {}, {}, [], [], set()
        found, name, comment, inside = {}, None, [], False
        for line in path.read_text().splitlines():
            if line.startswith("module _ "):
                self.given |= set(re.findall(r"\{(\w+) :", line))
                inside, name = True, None
                continue
            inside = inside and (not line or line.startswith("  "))
            line = line[2:] if inside else line
            if line.lstrip().startswith("--"):
                comment = [] if line.lstrip().startswith("-- ----") else comment + [line.strip()[2:].strip()]
                continue
            if line.startswith("use "):
                self.uses.append(line)
            elif line.startswith("pub use "):
                self.passed_on.append(line[4:])
            elif HEAD.match(line) and not line.startswith("pub mod "):
                name = HEAD.match(line).group(1) or HEAD.match(line).group(2)
                found[name] = (" ".join(comment), [line])
            elif line.strip() and name:
                found[name][1].append(line)
            comment = []
        for name, (said, lines) in found.items():
            sort = {"record": "record", "data": "data"}.get(lines[0].removeprefix("pub ").split()[0], "word")
            self.items[name] = Item(path, name, said, tuple(lines), sort)
            if sort == "data":
                self.cases |= {it.group(1): self.items[name] for it in map(re.compile(r"  (\S+) :").match, lines) if it}


def rust_paths(tree):
    """The names that one `use` of the code brings, each with its path."""
    front, brace, rest = tree.partition("{")
    if not brace:
        path, _, alias = tree.strip().partition(" as ")
        return {alias or path.split("::")[-1]: path.split("::")}
    names, depth, piece = {}, 0, ""
    for c in rest[: rest.rindex("}")] + ",":
        depth += (c == "{") - (c == "}")
        if c == "," and depth == 0 and piece.strip():
            names |= {name: front.strip().split("::")[:-1] + path for name, path in rust_paths(piece.strip()).items()}
        piece = "" if c == "," and depth == 0 else piece + c
    return names


class Source:
    """A file of code: its types and traits, and its `use` lines, those of the definitions apart."""

    TYPE = re.compile(r"^((?:[ \t]*(?:///|#\[).*\n)*)(?:pub(?:\([a-z]+\))? )?(struct|enum|trait) (\w+)", re.M)

    def __init__(self, path):
        self.path = path
        whole = re.sub(r"(?m)(^|\s)//(?!/).*$", "", path.read_text())
        self.text = re.sub(r"(?m)^\s*///.*$", "", whole)
        self.uses = re.findall(r"(?m)^ghost (use [^;]+);", self.text)
        self.rust = {}
        for tree in re.findall(r"(?m)^(?:pub )?use ([^;]+);", self.text):
            self.rust |= rust_paths(tree)
        self.items = {}
        for found in self.TYPE.finditer(whole):
            said = " ".join(it.strip()[3:].strip() for it in found.group(1).splitlines() if it.strip().startswith("///"))
            lines = [it for it in block_at(whole, found.start(2)).splitlines() if it.strip() and not it.strip().startswith(("///", "#["))]
            self.items[found.group(3)] = Item(path, found.group(3), said, tuple(lines), found.group(2))

    def clauses_of(self, function):
        """What stands around a function, its head, and its clauses by their names; those without one stand together under None."""
        heads = [it.start() for it in re.finditer(rf"(?m)^[ \t]*(?:pub )?fn {function}\b", self.text)]
        for start in heads:
            rest = self.text[start:]
            behind = re.compile(r"(?m)^[ \t]*(?:pub(?:\(crate\))? )?(?:const )?fn \w+").search(rest, 8)
            rest = rest[: behind.start()] if behind else rest
            clauses, heading = {}, rest
            for found in re.finditer(r"(?m)^\s*(?:ensures|requires)(?: (\w+))? (?=\{)", rest):
                heading = heading[: found.start()]
                clauses.setdefault(found.group(1), []).append(block_at(rest, found.end())[1:-1])
            if clauses:
                around = [it.start() for it in re.finditer(r"(?m)^(?:pub )?(?:impl|trait)\b", self.text[:start])]
                inside = around and self.text[start : start + 4].isspace()
                return block_at(self.text, around[-1]) if inside else "", heading, clauses
        raise Unknown(f"{self.path}: no function {function} with clauses")


# ---- names

class Names:
    """The definitions and the code of a repository, and what each item names."""

    def __init__(self, top):
        self.top, self.kit_of = top, {}
        self.sheet = functools.cache(Sheet)
        self.source = functools.cache(Source)
        self.scope_of = functools.cache(self._scope_of)
        self.cited_by = functools.cache(self._cited_by)

    # what `use` lines bring

    def module(self, path):
        """What a dotted path of a `use` line leads to."""
        parts = path.split(".")
        folder = self.top / "crates" / parts[1] if parts[0] == "Rattle" else None
        if folder is None or not folder.is_dir() or parts[2] != "specs":
            return Module()
        if parts[3] in ("declared", "contracts"):
            parts = parts[:-1] if parts[-1] == "TheVariants" else parts
            return Module(type=self.type_in(folder / "src" / ("/".join(parts[4:-1]) + ".rt"), parts[-1]))
        file = folder / "specs" / ("/".join(parts[3:]) + ".antt")
        if not file.is_file():
            raise Unknown(f"{path}: there is no such file")
        return Module(sheet=self.sheet(file))

    def type_in(self, file, name):
        """The type or trait of a name in a file of code."""
        if not file.is_file() or name not in self.source(file).items:
            raise Unknown(f"{file}: there is no type {name}")
        return self.source(file).items[name]

    def member(self, module, path, name):
        """What a name of a module means: an item, or its whole path where it comes with the toolchain."""
        if module.type:
            if path.endswith(".TheVariants") and not re.search(rf"\b{name}\b", " ".join(module.type.lines)):
                raise Unknown(f"{module.type.path}: {module.type.name} has no {name}")
            return module.type
        if not module.sheet:
            return f"{path}.{name}"
        sheet = module.sheet
        if name in sheet.items or name in sheet.cases:
            return sheet.items.get(name) or sheet.cases[name]
        passed = self.brought(sheet.passed_on)
        if name not in passed:
            raise Unknown(f"{sheet.path}: there is no {name}")
        return passed[name]

    def brought(self, uses):
        """What `use` lines bring: by its name here an item, a module with its path, or the path of what comes with the toolchain."""
        names = {}
        for line in uses:
            path, listed, alias = USE.match(line).groups()
            module = self.module(path)
            if listed is None:
                names[alias or path.split(".")[-1]] = (module, path)
                continue
            for name in filter(None, map(str.strip, listed.split(","))):
                name, _, here = name.partition(" as ")
                names[here or name] = self.member(module, path, name)
        return names

    def _scope_of(self, path):
        """What each name means in a file of definitions or of code."""
        if path.suffix == ".antt":
            sheet = self.sheet(path)
            scope = self.brought(sheet.uses + sheet.passed_on)
            return scope | sheet.cases | sheet.items
        source = self.source(path)
        return self.brought(source.uses) | source.items

    def rust_item(self, path, name):
        """The item of a name in a file of code; None for what comes with the toolchain."""
        source = self.source(path)
        if name in source.items:
            return source.items[name]
        if name not in source.rust:
            if name in RUST_PRELUDE | RUST_NUMBERS:
                return None
            raise Unknown(f"{path}: no line accounts for {name}")
        here = path.relative_to(self.top / "crates").parts[0]
        crate, *modules = source.rust[name]
        return self.rust_path(here if crate == "crate" else crate, modules)

    def rust_path(self, crate, path):
        """The item of a path of code in a crate, by the modules that it names or by what the crate passes on."""
        folder = self.top / "crates" / crate / "src"
        if not folder.is_dir():
            return None
        for file in (folder / ("/".join(path[:-1]) + ".rt"), folder / "lib.rt", *([folder / path[0] / "mod.rt", folder / (path[0] + ".rt")])):
            if file.is_file():
                source = self.source(file)
                if path[-1] in source.items or path[-1] in source.rust:
                    return self.rust_item(file, path[-1])
        raise Unknown(f"{folder}: there is no {'::'.join(path)}")

    # what an item names

    def _cited_by(self, item):
        """The items that one names itself."""
        walk = Walk(self, item.path, self.scope_of(item.path))
        if item.path.suffix == ".antt":
            {"word": walk.word, "record": walk.record, "data": walk.data}[item.sort](item)
        elif item.sort == "trait":
            self.read_trait(item, walk)
        else:
            self.read_type(item, walk)
        self.kit_of[item] = walk.kit
        return walk.cited - {item}

    def read_trait(self, item, walk):
        """A trait names what its clauses and ghost members name, the traits that it asks, and those of its types."""
        text = "\n".join(item.lines)
        bound = {"Self", "self", "result"} | set(re.findall(r"(\w+):(?!:)", text)) - {item.name} | set(re.findall(r"<(\w+)", text))
        for found in re.finditer(r"(?m)^\s*(?:(?:ensures|requires)(?: \w+)?|ghost \w+:) (?=\{)", text):
            walk.walk(tree_of(block_at(text, found.end())[1:-1]), bound)
        for bounds in re.findall(r"trait \w+: ([^{]*)\{|type \w+: ([^;]*);", text):
            for name in re.findall(r"\w+", "".join(bounds)):
                walk.add(self.rust_item(item.path, name))

    def read_type(self, item, walk):
        """A type names the value that clauses see in its place, or else what its parts are."""
        source, text = self.source(item.path), "\n".join(item.lines)
        model = re.search(rf"(?m)^impl(?:<.*?>)? Model for {item.name}\b", source.text)
        if model:
            block = block_at(source.text, model.start())
            inner = walk.scope | self.brought(re.findall(r"ghost (use [^;]+);", block))
            value = re.search(r"ghost Value = (?=\{)", block)
            bound = set(re.findall(r"[<,]\s*(\w+)\s*:", block.splitlines()[0]))
            seen = Walk(self, item.path, inner)
            seen.walk(tree_of(block_at(block, value.end())[1:-1]), bound)
            walk.cited |= seen.cited
            walk.kit |= seen.kit
            return
        fields = set(re.findall(r"(\w+):(?!:)", text))
        for found in re.finditer(r"(?m)^\s*ghost \w+: (?=\{)", text):
            walk.walk(tree_of(block_at(text, found.end())[1:-1]), fields)
        given = re.search(rf"\b{item.name}(?:<([^>]*)>)?", text)
        plain = re.sub(r"(?m)^\s*ghost .*$", "", text[given.end() :])
        if item.sort == "enum":
            plain = re.sub(r"(?m)^    [A-Z]\w*", "", plain)
        for name in set(re.findall(r"(?<!:)\b[A-Z]\w*", plain)) - set(re.findall(r"\w+", given.group(1) or "")):
            walk.add(self.rust_item(item.path, name))

    def cited_in_clause(self, file, function, wanted):
        """What the clauses of these names name, of a function, or every clause where none is given; of a trait it is the trait."""
        if function in self.source(file).items:
            return {self.source(file).items[function]}
        around, head, clauses = self.source(file).clauses_of(function)
        bounds = {}
        for text in (around.partition("{")[0], head.partition("(")[0]):
            bounds |= dict(re.findall(r"(\w+): (\w[\w +]*)", text.partition("<")[2]))
        bound = {"self", "Self", "result"} | set(bounds) | set(re.findall(r"(\w+):(?!:)", head)) | set(re.findall(r"ghost (\w+):", around))
        walk = Walk(self, file, self.scope_of(file) | self.brought(re.findall(r"(?m)^\s+ghost (use [^;]+);", around)))
        for name in wanted or clauses:
            if name not in clauses:
                raise Unknown(f"{file}: {function} has no clause {name}")
            for text in clauses[name]:
                text = re.sub(r"⟦<[^⟧]* as (\w+)>⟧", r"\1", text)
                walk.walk(tree_of(text), bound)
                for letter in set(re.findall(r"\b(\w+)\.", text)) & set(bounds):
                    for trait in bounds[letter].split(" + "):
                        walk.add(self.rust_item(file, trait.strip()))
        return walk.cited


class Walk:
    """A way through the tokens of definitions, by which each name is one of a binder, of a `use` line, or unknown."""

    def __init__(self, names, path, scope):
        self.names, self.path, self.scope, self.cited, self.kit = names, path, scope, set(), set()
        self.given = names.sheet(path).given if path.suffix == ".antt" else set()
        self.signs = {sign: name for name in scope if "◌" in name for sign in name.split("◌") if sign}

    def add(self, item):
        """Keeps what a token means: an item, or the path of what comes with the toolchain."""
        if isinstance(item, Item):
            self.cited.add(item)
        elif item:
            self.kit.add(item)

    def meaning(self, token, bound):
        """What a token means: an item, the path of what comes with the toolchain, or None for what is bound or built in."""
        if token in BUILT_IN or token[0] in '".' or token[0].isdigit():
            return None
        name, *behind = token.split(".")
        if name in bound:
            return None
        if token in self.signs:
            return self.scope[self.signs[token]]
        if name not in self.scope:
            if self.path.suffix == ".rt":
                return self.names.rust_item(self.path, name)
            raise Unknown(f"{self.path}: no line accounts for {token}")
        found = self.scope[name]
        if not isinstance(found, tuple):
            return found
        module, path = found
        return self.names.member(module, path, behind[0]) if behind else None

    def is_case(self, token):
        """Whether a token of a pattern is a case, so that it binds nothing."""
        name, *behind = token.split(".")
        if token in BUILT_IN or token[0].isdigit() or token[0] == '"' or token in CASES_OF_THE_KIT or token == "[]":
            return True
        if token in self.signs:
            return True
        found = self.scope.get(name, self)
        if behind or found is self:
            return bool(behind)
        if isinstance(found, str):
            return name[0].isupper()
        return isinstance(found, Item) and found.name != name and found.sort in ("data", "enum")

    def bind(self, parts, bound):
        """The names that a pattern binds, beside those that are bound."""
        bound = set(bound)
        for part in parts:
            if isinstance(part, Group):
                inner = part.parts
                bound |= self.bind(inner[2:] if part.bracket == "{" and inner[1:2] == ["="] else inner, set())
            elif self.is_case(part):
                self.add(self.meaning(part, set()) if part != "[]" and part not in CASES_OF_THE_KIT else None)
            else:
                bound.add(part)
        return bound

    def walk(self, parts, bound):
        """Goes through an expression; what a binder binds holds to the end of the brackets around it. Gives what is bound."""
        bound, place = set(bound), 0
        while place < len(parts):
            part = parts[place]
            if isinstance(part, Group):
                bound |= self.walk_group(part, parts[max(0, place - 2) : place], bound)
            elif part == "λ":
                place += 1
                while isinstance(parts[place], Group) or not parts[place].endswith("."):
                    bound |= self.walk_binder(parts[place], bound)
                    place += 1
                bound |= {parts[place][:-1]} - {""}
            elif part == "let":
                place += 1
                bound.add(parts[place])
            elif part == "unfolding":
                place = len(parts)
            elif part != "[]":
                self.add(self.meaning(part, bound))
            place += 1
        return bound

    def walk_binder(self, part, bound):
        """What one binder of a λ binds."""
        if not isinstance(part, Group):
            return {part}
        if ":" in part.parts:
            return self.walk_group(part, [], bound)
        return self.bind(part.parts, set())

    def walk_group(self, group, before, bound):
        """Goes through brackets, and gives what they bind for what follows."""
        inner = group.parts
        if group.bracket == "[":
            for run in split_at(inner, "|"):
                pattern, *body = split_at(run, "↦")
                if body:
                    self.walk(body[0], self.bind(pattern, bound))
                else:
                    self.walk(run, bound)
            return set()
        if group.bracket == "{" and "record" in before:
            for run in split_at(inner, ";"):
                self.walk(run[2:] if run[1:2] == ["="] else run, bound)
            return set()
        if group.bracket == "{" and inner[1:2] == ["="]:
            self.walk(inner[2:], bound)
            return set()
        if ":" in inner and all(isinstance(it, str) and it not in ("λ", "let") for it in inner[: inner.index(":")]):
            self.walk(inner[inner.index(":") + 1 :], bound)
            return set(inner[: inner.index(":")])
        for run in split_at(inner, ",") if group.bracket == "(" else [inner]:
            self.walk(run, bound)
        return set()

    # definitions

    def word(self, item):
        """A definition by clauses: its type, and each clause with the names that its patterns bind."""
        statements = []
        for line in item.lines:
            if line.strip().startswith("unfolding "):
                continue
            if line[0] in " })]" and statements:
                statements[-1] += " " + line.strip()
            else:
                statements.append(line)
        self.walk(tree_of(statements[0][HEAD.match(statements[0]).end() :]), self.given)
        for statement in statements[1:]:
            parts = tree_of(statement)
            if "=" not in parts:
                raise Unknown(f"{item.path}: a clause of {item.name} without `=`: {statement[:80]}")
            left, right = parts[: parts.index("=")], parts[parts.index("=") + 1 :]
            self.walk(right, self.bind(left[1:] if left[0] == item.name else left, self.given))

    def members(self, item):
        """What stands before `where` in a record or data, and its lines, each with those that go on with it."""
        first = next(number for number, line in enumerate(item.lines, 1) if line.endswith(" where"))
        head = " ".join(item.lines[:first]).removesuffix(" where")
        members = []
        for line in item.lines[first:]:
            if re.match(r"  \S", line):
                members.append(line.strip().removeprefix("pub "))
            else:
                members[-1] += " " + line.strip()
        return self.walk(tree_of(head[HEAD.match(head).end() :]), self.given), members

    def record(self, item):
        """A record: its parameters, and each field, which those behind it may name."""
        bound, members = self.members(item)
        for member in members:
            name, *rest = tree_of(member)
            self.walk(rest, bound | {name})
            bound.add(name)

    def data(self, item):
        """Data: its parameters, and the type of each case."""
        bound, members = self.members(item)
        for member in members:
            self.walk(tree_of(member)[1:], bound)
