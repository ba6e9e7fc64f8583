"""The must-fail edits of this repository: where they are, how they are applied, and which functions they change.

A file of gate/must_fail has the edits of one module, or of a crate with few, in the order of the source: a line
`edit: NAME`, or `control: NAME` for one that keeps the meaning, then a line `file: PATH` and pairs of lines `old: TEXT` and
`new: TEXT`, as a file of crates/*/must-fail, which has one edit.
"""
import pathlib
import re

ROOT = pathlib.Path(__file__).resolve().parent.parent.parent


class CannotApply(Exception):
    """Why an edit cannot be applied."""


class Edit:
    """An edit: pairs of an old and a new text of a file, both within one line, so that no line moves. A control is an edit
    that keeps the meaning. `is_alone` is of those that `rt ci` tries too, each in a check of its own."""

    def __init__(self, crate, name, lines, file, is_control=False):
        self.crate, self.name, self.lines, self.file, self.is_control = crate, name, lines, file, is_control
        self.is_alone = file.parent.name == "must-fail"

    def __repr__(self):
        return f"{self.crate}/{'control ' if self.is_control else ''}{self.name}"

    def text(self):
        """Returns it as `rt must-fail` reads it."""
        return "\n".join([*self.lines, ""])

    def pairs(self):
        """Returns its path, old and new texts."""
        pairs = []
        path = old = None
        for line in self.lines:
            key, _, text = line.partition(":")
            text = text.removeprefix(" ")
            if key == "file":
                path = text.strip()
            elif key == "old" and text:
                old = text
            elif key == "new":
                if not (path and old):
                    raise CannotApply("a new: line without a file: and an old: line")
                pairs.append((path, old, text))
                old = None
            elif line.strip():
                raise CannotApply(f"a line that is no file:, old: or new: line: {line}")
        if not pairs or old is not None:
            raise CannotApply("no pair of an old: and a new: line, or one without the other")
        return pairs

    def applied(self, text_of):
        """Returns the edited texts by path, the pairs applied one after another to what `text_of` gives for a path."""
        texts = {}
        for path, old, new in self.pairs():
            if path not in texts and (text := text_of(path)) is None:
                raise CannotApply(f"there is no file {path}")
            before = texts.get(path, text if path not in texts else None)
            if before.count(old) != 1:
                raise CannotApply(f"its old: text occurs {before.count(old)} times in {path}: {old.strip()}")
            texts[path] = before.replace(old, new)
            at = before[: before.index(old)].count("\n")
            if tokens_of(before.split("\n")[at]) == tokens_of(texts[path].split("\n")[at]):
                raise CannotApply(f"it changes no code: {new.strip()}")
        return texts

    def changed_lines(self, text_of):
        """Returns the lines that it changes, each as its path and number, from 0 on, with the new line."""
        changed = {}
        for path, text in self.applied(text_of).items():
            old, new = text_of(path).split("\n"), text.split("\n")
            changed.update({(path, at): line for at, line in enumerate(new) if line != old[at]})
        return changed


def code_of(text):
    """Returns a source without its comments and without spaces at the ends of lines.

    >>> code_of("a // b\\n//! c\\nlet s = \\"//\\"; // d")
    'a\\n\\nlet s = "//";'
    """
    without = re.sub(r"(\"(?:[^\"\\\n]|\\.)*\"|'(?:[^'\\\n]|\\.)')|//[^\n]*", lambda found: found[1] or "", text)
    return re.sub(r"[ \t]+$", "", without, flags=re.M)


def content_of(file):
    """Returns what a file holds; of a source, specification or proof the lines without comments, so that files with the same
    code are equal."""
    content = file.read_bytes()
    if file.suffix not in (".rt", ".antt"):
        return content
    text = content.decode()
    lines = code_of(text).split("\n") if file.suffix == ".rt" else [line for line in text.split("\n") if not line.lstrip().startswith("--")]
    return "\n".join(line for line in lines if line.strip()).encode()


def tokens_of(line):
    """Returns the texts, words and signs of a line without its comment, so that lines of the same code are equal.

    >>> tokens_of("if a<b { // less") == tokens_of("if a < b {  ")
    True
    """
    return re.findall(r"\"(?:[^\"\\]|\\.)*\"|\w+|[^\w\s]", code_of(line))


def reader(folder):
    """Returns a function that gives the text of a path below a crate's folder, or None; it reads each file once."""
    texts = {}

    def text_of(path):
        if path not in texts:
            file = folder / path
            texts[path] = file.read_text(encoding="utf-8") if file.is_file() else None
        return texts[path]

    return text_of


def crates():
    """Returns the names of the crates that have edits."""
    alone = {folder.parent.name for folder in ROOT.glob("crates/*/must-fail")}
    return sorted(alone | {path.stem for path in (ROOT / "gate/must_fail").iterdir()})


def of(crate):
    """Returns the edits and controls of a crate: those that `rt ci` tries alone too, each a file of its own, and those of
    the shared check, in a file for each module below the crate's root, or in one for the crate."""
    found = [
        Edit(crate, file.stem, file.read_text(encoding="utf-8").splitlines(), file)
        for file in sorted(ROOT.glob(f"crates/{crate}/must-fail/*.edit"))
    ]
    for file in [*sorted(ROOT.glob(f"gate/must_fail/{crate}/*.edits")), *ROOT.glob(f"gate/must_fail/{crate}.edits")]:
        found += in_file(crate, file)
    return found


def in_file(crate, file):
    """Returns the edits and controls of a file: each is a line with its name and the lines after it."""
    found = []
    for line in file.read_text(encoding="utf-8").splitlines():
        kind, _, name = line.partition(": ")
        if kind in ("edit", "control"):
            found.append(Edit(crate, name, [], file, kind == "control"))
        elif found:
            found[-1].lines.append(line)
        elif line.strip():
            raise CannotApply(f"{file.relative_to(ROOT)}: a line before the first edit: or control: line")
    return found


class Item:
    """A function or a constant of a source: its lines, from 0 on, and its names.

    `top` is the first line of its comment, `head` that of its signature, `body` that of its body (None if it has none on
    lines of its own), `end` its last.
    """

    def __init__(self, kind, name, path, head, owner):
        self.kind, self.name, self.path, self.head, self.owner = kind, name, path, head, owner
        self.top = self.body = self.end = None

    def __repr__(self):
        return f"{self.path}:{self.head + 1} {self.owner or ''} {self.name}"

    def has_in_body(self, at, was, line):
        """Whether a line of it is of its body, or becomes so by what a new line adds after the brace that opens that."""
        return self.body is not None and self.body <= at or at == self.head and was.endswith("{") and line.startswith(was)


FUNCTION = re.compile(r"( *)(?:pub(?:\([^)]*\))? )?(?:const )?(?:unsafe )?(?:extern \"C\" )?fn (\w+)")
CONSTANT = re.compile(r"( *)(?:pub(?:\([^)]*\))? )?(?:const|static) (\w+):")
IMPL = re.compile(r"(?:unsafe )?impl\b(.*)")


def item_at(items, at):
    """Returns the function or the constant of a source that a line is of, or None."""
    return next((item for item in reversed(items) if item.head <= at <= item.end), None)


def without_generics(text):
    """Removes what is between angle brackets.

    >>> without_generics("<A: Allocator<X>> Extend<CodePoint> for Wtf8Buf<A>")
    ' Extend for Wtf8Buf'
    """
    depth, kept = 0, []
    for at, letter in enumerate(text):
        if letter == ">" and text[at - 1] not in "-=":
            depth -= 1
        elif letter == "<":
            depth += 1
        elif depth == 0:
            kept.append(letter)
    return "".join(kept)


def owner_of(header):
    """Returns the type of an impl's header, and its trait, if it has one, with the words of that one's arguments.

    >>> owner_of("<A: Allocator<X>> Extend<CodePoint> for Wtf8Buf<A> {"), owner_of("<'a> Wtf8<'a>")
    (('Wtf8Buf', 'ExtendCodePoint'), ('Wtf8', None))
    >>> owner_of(" EncodedLength<16, 32> for TwoBytes")
    ('TwoBytes', 'EncodedLength1632')
    """
    words = without_generics(header).split("{")[0].split(" where ")[0]
    trait, _, of = words.strip().rpartition(" for ")
    trait = trait.strip().split("::")[-1]
    given = re.search(rf"\b{trait}<(.*?)> for ", header) if trait else None
    return of.strip().lstrip("&").split("::")[-1], trait + re.sub(r"\W", "", given[1] if given else "") or None


def items_of(path, text):
    """Returns the functions and constants of a source in rt fmt's layout, in which a body ends at the indentation of its head."""
    lines, found, owner = text.split("\n"), [], None
    for at, line in enumerate(lines):
        if line and not line[0].isspace():
            impl = IMPL.match(line)
            if impl:
                owner = owner_of(impl[1])
            elif not line.startswith(("}", "{", ")")) and re.match(r"(pub )?(fn|struct|enum|trait|mod|const|static|use|ghost)\b|pub\(", line):
                owner = None
        function, constant = FUNCTION.match(line), CONSTANT.match(line)
        if not function and not constant:
            continue
        indent, name = (function or constant).groups()
        item = Item("fn" if function else "const", name, path, at, owner if indent else None)
        item.top = top_of(lines, at)
        item.body, item.end = body_of(lines, at, indent) if function else (at, end_of_constant(lines, at))
        found.append(item)
    return found


def top_of(lines, head):
    """Returns the first line of the comment and the attributes above a signature, or its own."""
    while 0 < head and re.match(r" *(//|#\[)", lines[head - 1]):
        head -= 1
    return head


def body_of(lines, head, indent):
    """Returns the first line after that of a function's opening brace, and the line of its closing brace."""
    at = head
    while at < len(lines):
        line = lines[at]
        if line.endswith("}") and at == head and "{" in line:
            return at, at
        if line.endswith(";") and line.startswith(indent) and not line.startswith(indent + " ") and "{" not in line:
            return None, at
        if line == indent + "{" or line.endswith("{") and (at == head or line.startswith(indent + ")")):
            break
        if line == indent + "{}" or line.startswith(indent + ")") and line.endswith("{}"):
            return at, at
        at += 1
    first = at + 1
    while at < len(lines) and lines[at] != indent + "}":
        at += 1
    return first, at


def end_of_constant(lines, at):
    """Returns the line of a constant's semicolon."""
    while not lines[at].endswith(";"):
        at += 1
    return at
