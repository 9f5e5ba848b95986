"""Reads what stands in `specs/`, `proofs/` and the contracts of `src/`: blocks, what they are called, and which others they name.

It goes by the layout that `rt fmt` keeps, and by `use` items, whose braces may stand in one another and on several lines:
`use Rattle.ports_core.specs.{Slot.{Slot, slot_at}, Text.message_of}`. A word is a name of its own file, an imported one, or a member of
an imported module (`law.name`). A name that the block binds itself, as a variable, is none of its file's.
"""
import os
import re

TOP = os.path.dirname(os.path.dirname(os.path.realpath(__file__)))
CRATES = os.path.join(TOP, "crates")
# What stands on nobody's way: tests, and what measures.
NO_LIBRARIES = re.compile(r".*_tests$|match_time$")

WORD = re.compile(r"[^\s(){}\[\],;λ`\"]+")
BEGINS = re.compile(r"(?:(?:abbrev|unfoldable|pub)\s+)*(?:(?P<kind>data|record)\s+(?P<type>[^\s:({]+)|(?P<name>[^\s:({]+)\s+:(?:\s|$))")
USE = re.compile(r"\s*((?:(?:pub|unfoldable) )*)(?:ghost )?use (?=[A-Za-z]\w*\.)")
BINDERS = re.compile(r"λ ([^.()]*)\.|[({]((?:[^\s(){}:;=]+ )+):(?=\s)")


class Block:
    """A definition or a lemma, with the comment above it, and the head of the section around it."""

    def __init__(self, file, module, name, line, comment, kind):
        self.file, self.module, self.name, self.line, self.comment, self.kind = file, module, name, line, comment, kind
        self.code, self.around = [], ""

    @property
    def key(self):
        return self.module, self.name

    @property
    def is_public(self):
        return bool(re.match(r"\s*(?:(?:abbrev|unfoldable)\s+)*pub\s", self.code[0]))

    def constructors(self):
        if self.kind != "data":
            return []
        return [found[1] for line in self.code[1:] if (found := re.match(r"\s+([^\s:(){}]+)\s+:\s", line))]


class File:
    """A file of definitions or lemmas."""

    def __init__(self, path):
        self.path = path
        place = os.path.relpath(path, CRATES)
        self.place, self.crate = place, place.split("/")[0]
        self.module = "Rattle." + place.removesuffix(".antt").replace("/", ".")
        with open(path, encoding="utf-8") as file:
            self.lines = file.read().split("\n")
        self.imports, self.blocks, self.comment = imports_of(self.lines), [], []
        self.read()

    def read(self):
        # The sections around a line: how far in what stands in each is, and its head.
        comment, sections, is_head = [], [], False
        of_uses = {at for use in uses(self.lines) for at in range(use.begin, use.end)}
        for number, line in enumerate(self.lines, 1):
            if number - 1 in of_uses:
                comment = []
                continue
            if number == 1 and line.startswith("--"):
                self.comment = [line]
                continue
            if not self.blocks and line.startswith("--") and len(self.comment) == number - 1:
                self.comment.append(line)
                continue
            if not is_head and line.strip():
                while sections and not line.startswith(" " * sections[-1][0]):
                    sections.pop()
            indent = sections[-1][0] if sections else 0
            if re.match(r"((?:abbrev|unfoldable)\s+)?mutual$", line):
                sections, comment = [(2, [])], []
                continue
            if not is_head and line.startswith(" " * indent + "module "):
                sections.append((indent + 2, []))
                is_head = True
            if is_head:
                sections[-1][1].append(line)
                is_head, comment = not line.endswith(" where"), []
                continue
            around = [head for _, lines in sections for head in lines]
            inner = line[indent:] if line.startswith(" " * indent) else line
            if not inner.strip():
                comment = []
            elif inner.startswith("--"):
                comment.append(inner)
            elif not inner.startswith(" ") and (found := BEGINS.match(inner)):
                name = found["type"] or found["name"]
                self.blocks.append(Block(self.place, self.module, name, number, comment, found["kind"]))
                self.blocks[-1].code.append(inner)
                self.blocks[-1].around = "\n".join(around)
                comment = []
            elif self.blocks:
                self.blocks[-1].code.append(inner)
                comment = []


class Use:
    """A `use` item: its first line, the one after its last, its words before the path, and the text of the path with its braces."""

    def __init__(self, lines, begin, head):
        self.begin, self.end, self.is_public, self.text = begin, begin + 1, "pub" in head[1], lines[begin][head.end():]
        while self.text.count("{") > self.text.count("}") and self.end < len(lines):
            self.text += "\n" + lines[self.end]
            self.end += 1
        self.text = self.text.strip().removesuffix(";")

    def brings(self):
        """What it brings: the path of each, whether that is an item or else a module, and the name that the file calls it by."""
        return brought(self.text, "", False)


def uses(lines):
    """The `use` items of an .antt file, or the `ghost use` items of a file of code."""
    at = 0
    while at < len(lines):
        head = USE.match(lines[at])
        if head:
            yield (use := Use(lines, at, head))
        at = use.end if head else at + 1


def entries(text):
    """The parts of a text between the commas that stand in no braces."""
    found, depth = [""], 0
    for char in text:
        depth += (char == "{") - (char == "}")
        if char == "," and not depth:
            found.append("")
        else:
            found[-1] += char
    return [it.strip() for it in found if it.strip()]


def brought(text, prefix, is_item):
    head, opens, inner = text.partition("{")
    if opens:
        for entry in entries(inner.rpartition("}")[0]):
            yield from brought(entry, prefix + head, True)
    else:
        path, _, other = text.partition(" as ")
        yield prefix + path.strip(), is_item, other.strip() or path.strip().split(".")[-1]


def with_fewer(text, is_kept, prefix="", is_item=False):
    """The text of a `use` item with only those paths that are to be kept, or none."""
    head, opens, inner = text.partition("{")
    if not opens:
        return text if is_kept(prefix + text.partition(" as ")[0].strip(), is_item) else ""
    left = [it for entry in entries(inner.rpartition("}")[0]) if (it := with_fewer(entry, is_kept, prefix + head, True))]
    if not left:
        return ""
    return f"{head}{{\n" + "".join(f"  {it},\n" for it in left) + "}" if "\n" in inner else f"{head}{{{', '.join(left)}}}"


def imports_of(lines):
    """What the file calls each name that it imports: `word` to `(module, name)`, or to `(module, None)` for a module."""
    found = {}
    for use in uses(lines):
        for path, is_item, word in use.brings() if not use.is_public else ():
            if path.startswith("Rattle."):
                module, _, name = path.rpartition(".")
                # What stands in a file is an item, with braces or without; the variants of an enum are a module.
                in_file = module.rpartition(".")[2][:1].isupper() and name != "TheVariants"
                found[word] = (module, name) if is_item or in_file else (path, None)
    return found


def without_uses(lines):
    """The lines that are of no `use` item."""
    gone = {at for use in uses(lines) for at in range(use.begin, use.end)}
    return [line for at, line in enumerate(lines) if at not in gone]


def bound_by(code):
    """The variables that a text binds."""
    return {word for names in BINDERS.findall(code) for part in names for word in part.split()}


class Names:
    """All blocks under some folders of the crates, and which of them a text names."""

    def __init__(self, files):
        self.files = files
        self.blocks = {block.key: block for file in files for block in file.blocks}
        self.imports = {file.module: file.imports for file in files}
        self.of_constructor = {}
        for block in self.blocks.values():
            for name in block.constructors():
                self.of_constructor[block.module, name] = block.key

    def named(self, text, imports, module=""):
        """The blocks that a text of this module names."""
        own, found = bound_by(text), set()
        for word in set(WORD.findall(text)):
            for part in {word, *word.split(".")[:1]}:
                keys = [imports[part]] if part in imports else [] if part in own else [(module, part)]
                for of, name in keys:
                    # A member of a module: `law.name`.
                    key = (of, word.split(".")[1] if name is None and "." in word else name)
                    key = self.of_constructor.get(key, key)
                    if key in self.blocks:
                        found.add(key)
        return found

    def below(self, start):
        """These blocks, and all that they rest on."""
        seen, todo = set(), list(start)
        while todo:
            key = todo.pop()
            if key not in seen:
                seen.add(key)
                todo += self.named_by(key)
        return seen

    def named_by(self, key):
        block = self.blocks[key]
        code = "\n".join([block.around, *(line for line in block.code if not line.strip().startswith("--"))])
        return self.named(code, self.imports[block.module], block.module)


def libraries():
    """The names of the library crates, lowest first, as crates.txt has them."""
    with open(os.path.join(TOP, "crates.txt"), encoding="utf-8") as file:
        names = re.findall(r"(?m)^([a-z0-9_]+):", file.read())
    return [name for name in names if not NO_LIBRARIES.match(name)]


def antt_files(crate, part):
    """The files of a part of a crate, those of a folder after the file of its name."""
    found = []
    for at, folders, names in os.walk(os.path.join(CRATES, crate, part)):
        folders.sort()
        found += [os.path.join(at, name) for name in names if name.endswith(".antt") and name != "Lib.antt"]
    return [File(path) for path in sorted(found)]
