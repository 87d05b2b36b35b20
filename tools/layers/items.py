"""Generated parts of a Rattle source: items that stand by a name, and values inside of functions. They are found in a file, compared
with what is wanted after the layout is taken off, and put in."""
import re
import typing

STRING = r'b?"(?:\\.|[^"\\])*"'
VISIBLE = re.compile(r"^(pub )?((?:const|static) \w+:)", re.M)
DECLARED = re.compile(r"^(?:pub )?(?:const|static) (\w+)\b", re.M)


class Missing(Exception):
    """A file has no place for a part."""


class Item(typing.NamedTuple):
    """A constant or static. The text has the comment lines that are generated with it, if there are any."""

    name: str
    text: str

    def span(self, file):
        found = next((m for m in DECLARED.finditer(file) if m[1] == self.name), None)
        if not found:
            raise Missing(f"there is no {self.name}")
        start = found.start()
        if self.text.startswith("///"):
            lines = file[:start].splitlines(keepends=True)
            while lines and lines[-1].startswith("///"):
                start -= len(lines.pop())
        return start, end_of(file, found.end())


class Value(typing.NamedTuple):
    """What stands in a function between two texts, of which the first may have gaps, `...`."""

    function: str
    before: str
    after: str
    text: str

    @property
    def name(self):
        return f"fn {self.function}"

    def span(self, file):
        body = re.search(rf"^(?:pub )?fn {self.function}\b.*?^}}\n", file, re.M | re.S)
        found = body and re.search(f"({loose(self.before)})(.*?){loose(self.after)}", body[0], re.S)
        if not found:
            raise Missing(f"fn {self.function} has no {self.before!r}")
        return body.start() + found.start(2), body.start() + found.end(2)


class Entry(typing.NamedTuple):
    """A struct of a list, by the name that it begins with."""

    kind: str
    called: str
    text: str

    @property
    def name(self):
        return f"the {self.kind} {self.called!r}"

    def span(self, file):
        found = re.search(rf"\b{self.kind} {{\s*name: {re.escape(text(self.called))},", file)
        if not found:
            raise Missing(f"{self.name} isn't there")
        return found.start(), end_of(file, found.start(), "}")


def loose(text):
    """A pattern of a text that may be laid out otherwise. A trailing comma may stand before what closes a list."""
    words = re.findall(r"\.\.\.|\w+|[^\w\s]", text)
    return r"\s*".join(".*?" if word == "..." else ",?\\s*" + re.escape(word) if word in ")]}" else re.escape(word) for word in words)


def end_of(file, at, last=";"):
    """The end of an item: the semicolon, or closing brace, behind all that it opens."""
    depth = 0
    for found in re.compile(STRING + r"|//[^\n]*|[\[\](){};]", re.S).finditer(file, at):
        depth += (found[0] in "[({") - (found[0] in "])}")
        if found[0] == last and depth == 0:
            return found.end()
    raise Missing("an item has no end")


def plain(text):
    """A text without its layout: white space, trailing commas, breaks in byte strings, the marks of comment lines; and without `pub`."""
    text = re.sub(r"\\\n", "", text)
    text = re.sub(r"^\s*///? ?", "", text, flags=re.M)
    text = VISIBLE.sub(r"\2", text)
    return re.sub(r",([\])}])", r"\1", re.sub(r"\s+", "", text)).rstrip(",")


def as_visible(text, old):
    """An item's text, as visible as the old one: a file says by itself what it shows."""
    shown = VISIBLE.search(old)
    return VISIBLE.sub(lambda found: (shown[1] or "") + found[2], text) if shown else text


def differences(file, parts, whole):
    """What isn't current, a line for each. Of a file that is generated as a whole no other item may be there."""
    told = []
    for part in parts:
        try:
            start, end = part.span(file)
        except Missing as missing:
            told.append(str(missing))
            continue
        if plain(file[start:end]) != plain(part.text):
            told.append(f"{part.name} has other values")
    wanted = {part.name for part in parts}
    return told + [f"{name} isn't generated" for name in DECLARED.findall(file) if whole and name not in wanted]


def updated(file, parts, whole):
    """The file with the parts in it; what is current stays as it is. Where the file is generated as a whole, what isn't wanted goes, and
    what is missing comes."""
    if whole:
        for name in DECLARED.findall(file):
            if name not in {part.name for part in parts}:
                start, end = Item(name, "///").span(file)
                file = file[:start] + file[end:].lstrip("\n")
    behind = len(file)
    for part in parts:
        try:
            start, end = part.span(file)
        except Missing:
            if not whole:
                raise
            start = end = behind
            file = file[:start] + "\n\n" + part.text + file[end:]
            behind = end + len(part.text) + 2
            continue
        if plain(file[start:end]) != plain(part.text):
            new = as_visible(part.text, file[start:end])
            file, end = file[:start] + new + file[end:], start + len(new)
        behind = end
    return file


# ---- Rattle's texts


def flag(value):
    return "true" if value else "false"


def listed(values):
    return "[" + ", ".join(map(str, values)) + "]"


def array(items):
    """Four times the same is said once."""
    items = list(items)
    return f"[{items[0]}; 4]" if len(items) == 4 and len(set(items)) == 1 else listed(items)


def item(head, name, kind, values):
    """An array's item, as `pub static NAME: [KIND; N] = [..]`."""
    values = list(values)
    return Item(name, f"{head} {name}: [{kind}; {len(values)}] = {listed(values)};")


def struct(name, /, **fields):
    return name + " { " + ", ".join(f"{field}: {value}" for field, value in fields.items()) + " }"


WIDTH = 100
SHORT = {0x00: "\\0", 0x0A: "\\n"}


def spelled(byte):
    if byte in SHORT:
        return SHORT[byte]
    if chr(byte) in '"\\':
        return "\\" + chr(byte)
    return chr(byte) if 0x20 <= byte < 0x7F else f"\\x{byte:02x}"


def byte_string(data):
    """A byte string, broken in lines. A line that follows a break doesn't begin with a space, which would be skipped."""
    lines, line = [], ""
    for byte in data:
        piece = spelled(byte)
        if len(line) + len(piece) > WIDTH and piece != " ":
            lines.append(line)
            line = ""
        line += piece
    lines.append(line)
    return 'b"' + "\\\n".join(lines) + '"'


def text(words):
    assert all(0x20 <= ord(c) < 0x7F for c in words), words
    return '"' + words.replace("\\", "\\\\").replace('"', '\\"') + '"'


BLOCK_SIZES = "B4x4 B4x8 B8x4 B8x8 B8x16 B16x8 B16x16 B16x32 B32x16 B32x32 B32x64 B64x32 B64x64".split()
DEPTHS = {8: "Depth::Eight", 10: "Depth::Ten", 12: "Depth::Twelve"}
PARTITIONS = ["Whole", "Horizontal", "Vertical", "Split"]


def tx_name(side):
    return f"T{side}x{side}"
