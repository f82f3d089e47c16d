"""The edits that must fail, as their files have them (CONTRIBUTING.md, "Edits that must fail").

A file is one edit, by the file's own name; or several, each behind a line `edit: NAME`, which the prover tries together. Several change functions that do not
call each other, so that each is refused by itself: the prover says of a function `not proved` where its own proof fails, and adds `it calls ..` where only that of another does."""
import re
import sys
from collections import namedtuple

Edit = namedtuple("Edit", "crate name what pairs file")  # file: the path of its file, without the suffix the label of its run

FUNCTION = re.compile(r"\s*(?:pub(?:\(crate\))? )?(?:extern \"C\" )?fn (\w+)")
CONSTANT = re.compile(r"\s*(?:pub(?:\(crate\))? )?(?:const|static) (\w+)")
OTHER = re.compile(r"(?:pub )?(?:struct|enum|use|ghost use|mod|impl)\b")
ATTRIBUTES = re.compile(r"(?:\s*#\[(?:[^\[\]]|\[[^\[\]]*\])*\]\n)+")


def parts(file, text):
    """The edits of a file's text, each by its name and its own text."""
    head, *rest = re.split(r"^edit:(.*)\n", text, flags=re.M)
    if not rest:
        return {file: text}
    names = [name.strip() for name in rest[::2]]
    if head or not all(re.fullmatch(r"\w+", name) for name in names):
        sys.exit(f"edits: {file}: each edit begins with a line `edit: NAME`, and the first line of the file is one")
    if len(set(names)) < len(names):
        sys.exit(f"edits: {file}: an edit's name stands twice")
    return {name: own.rstrip("\n") + "\n" for name, own in zip(names, rest[1::2])}


def pairs_of(text):
    """File, old text and new text of each change, in order."""
    file = old = None
    for line in text.splitlines():
        word, _, said = line.partition(":")
        said = said.removeprefix(" ")
        if word == "file":
            file = said
        elif word == "old":
            old = said
        elif word == "new":
            yield file, old, said


def edits_in(path):
    for name, text in parts(path.stem, path.read_text()).items():
        what = next((line[2:] for line in text.splitlines() if line.startswith("# ")), "")
        yield Edit(path.parts[-3], name, what, tuple(pairs_of(text)), path)


def edit_files(root, crate="*"):
    return sorted(root.glob(f"crates/{crate}/must-fail/*.edit"))


def edits(root, crate="*"):
    """Every edit, in the order of crates and names."""
    return sorted((edit for path in edit_files(root, crate) for edit in edits_in(path)), key=lambda edit: (edit.crate, edit.name))


Item = namedtuple("Item", "kind name line text")  # line: the number of its first line


def attributes_above(lines):
    """How many of the last lines are attributes, which belong to what follows."""
    for count in range(len(lines), 0, -1):
        if lines[-count].lstrip().startswith("#[") and ATTRIBUTES.fullmatch("".join(lines[-count:])):
            return count
    return 0


def items(crate, source, path):
    """The functions, constants and statics of a file of code, by the prover's names for them, with what stands between."""
    module = [] if path.stem in ("lib", "main") else list(path.relative_to(source).with_suffix("").parts)
    kind, name, first, gathered, owner = "", "", 1, [], []
    for number, line in enumerate(path.read_text().splitlines(keepends=True), 1):
        begun = None
        if found := re.match(r"impl (\w+)", line):
            owner = [found[1]]
        elif line.startswith("}"):
            owner = []
        if found := FUNCTION.match(line):
            begun = "fn", "::".join([crate, *module, *owner, found[1]])
        elif found := CONSTANT.match(line):
            begun = "const", found[1]
        elif OTHER.match(line):
            begun = "", ""
        if begun:
            above = len(gathered) - attributes_above(gathered)
            yield Item(kind, name, first, "".join(gathered[:above]))
            (kind, name), first, gathered = begun, number - len(gathered[above:]), gathered[above:]
        gathered.append(line)
    yield Item(kind, name, first, "".join(gathered))


def without_comments(text):
    return re.sub(r"//[^\n]*", "", text)


class Code:
    """The functions, constants and statics of a crate, or of a copy of it."""

    def __init__(self, folder, crate):
        source = folder / "src"
        self.items = {path.relative_to(folder).as_posix(): list(items(crate, source, path)) for path in sorted(source.rglob("*.rt"))}

    def users(self, constant):
        """The functions that name a constant, themselves or through another constant."""
        found, todo, seen = set(), [constant], {constant}
        while todo:
            word = re.compile(rf"\b{todo.pop()}\b")
            for item in (item for each in self.items.values() for item in each if word.search(without_comments(item.text))):
                if item.kind == "fn":
                    found.add(item.name)
                elif item.kind == "const" and item.name not in seen:
                    seen.add(item.name)
                    todo.append(item.name)
        return found

    def changed(self, edit):
        """The functions that an edit of the code changes. One that changes the definitions as well changes none: with these a wrong function can be proved, and a theorem fails."""
        found = set()
        if any(not file.startswith("src/") for file, _, _ in edit.pairs):
            return found
        for file, old, _ in edit.pairs:
            for item in self.items.get(file, ()):
                if old in item.text:
                    found |= {item.name} if item.kind == "fn" else self.users(item.name) if item.kind == "const" else set()
        return found

    def at(self, file, line):
        """The function that has a line."""
        return next((item.name for item in reversed(self.items.get(file, ())) if item.line <= line), "")
