"""Divides the object of the whole library into those of the archive, so that a program has only what it calls, without
--gc-sections too: the sections that the same public calls reach are one object. (Objects of `ld -r --gc-sections` would each
have a copy of what calls share.) The public calls are hidden, so that no program or shared library exports what it took from
the archive, and so is what one object has from another, under names of their own. No byte of code changes. Debug information,
which spans the objects, is left out. Arguments: the object, an ELF file of 64 bits with a section for each function, and the
folder to write to. Prints the names of the files."""
import pathlib
import struct
import sys

# The header of a file and of a section, a symbol, a relocation.
HEAD, SECTION, SYMBOL, RELOCATION = (struct.Struct(f"<{fields}") for fields in ("16sHHIQQQIHHHHHH", "IIQQQQIIQQ", "IBBHQQ", "QQq"))
# Types and flags of sections; types, binding and visibility of symbols; a machine.
SYMTAB, STRTAB, RELA, NOBITS, INIT_ARRAY, GROUP = 2, 3, 4, 8, 14, 17
ALLOC, MERGE, STRINGS, INFO_LINK = 2, 0x10, 0x20, 0x40
OF_SECTION, OF_FILE, GLOBAL, HIDDEN, AARCH64 = 3, 4, 1, 2, 183


class Section:
    """A section, with the offset, the symbol, the type and the addend of each relocation."""

    def __init__(self, name, kind, flags, align, entry, data=b"", size=0):
        self.name, self.kind, self.flags, self.align, self.entry, self.data, self.size = name, kind, flags, align, entry, data, size
        self.relocations = []

    def like(self):
        """Returns an empty section of this name and kind."""
        return Section(self.name, self.kind, self.flags, self.align, self.entry)

    def append(self, data):
        self.data += data
        self.size = len(self.data)

    def has_constants(self):
        """Whether it has constants of one size that the linker merges: each object has its own of them."""
        return self.flags & MERGE and not self.flags & STRINGS


class Symbol:
    def __init__(self, name, info, section, value, size):
        self.name, self.kind, self.is_global, self.section, self.value, self.size = name, info & 15, info >> 4 == GLOBAL, section, value, size


class Names:
    """A table of names."""

    def __init__(self):
        self.data, self.at = b"\0", {"": 0}

    def add(self, name):
        if name not in self.at:
            self.at[name] = len(self.data)
            self.data += name.encode() + b"\0"
        return self.at[name]


def stop(why):
    sys.exit(f"c/objects.py: the library cannot be divided: {why}")


def name_at(table, at):
    return table[at : table.index(b"\0", at)].decode()


def read(data):
    """Returns the header, the sections and the symbols of an object."""
    head = HEAD.unpack_from(data)
    headers = [SECTION.unpack_from(data, head[6] + i * SECTION.size) for i in range(head[12])]
    contents = [b"" if kind == NOBITS else data[at : at + size] for _, kind, _, _, at, size, *_ in headers]
    sections = [Section(name_at(contents[head[13]], name), kind, flags, align, entry, content, size)
                for (name, kind, flags, _, _, size, _, _, align, entry), content in zip(headers, contents)]
    table = next(i for i, section in enumerate(sections) if section.kind == SYMTAB)
    symbols = [Symbol(name_at(contents[headers[table][6]], name), info, sections[at] if 0 < at < len(sections) else None, value, size)
               for name, info, _, at, value, size in SYMBOL.iter_unpack(contents[table])]
    for header, section in zip(headers, sections):
        if section.kind == GROUP and any(sections[at].flags & ALLOC for at, in list(struct.iter_unpack("<I", section.data))[1:]):
            stop("it has groups of sections")
        if section.kind == RELA:
            sections[header[7]].relocations = [(offset, symbols[info >> 32], info & 0xFFFFFFFF, addend)
                                               for offset, info, addend in RELOCATION.iter_unpack(section.data)]
    return head, sections, symbols


def reached(section):
    """Returns what a section needs: itself, and by relocations other sections."""
    found, left = set(), [section]
    while left:
        section = left.pop()
        if section not in found:
            found.add(section)
            left += [symbol.section for _, symbol, _, _ in section.relocations if symbol.section]
    return found


def divided(sections, symbols):
    """Returns the sections of each object by its name. What the constructor needs is in one object with it, since a program
    that reads what it writes has to run it."""
    public = {symbol.section: symbol.name for symbol in symbols if symbol.is_global and symbol.section}
    callers = {section: set() for section in sections}
    for root in sections:
        if root in public or root.kind == INIT_ARRAY:
            for section in reached(root):
                callers[section].add(public.get(root, "constructor"))
    found = {}
    for section in sections:
        if callers[section] and not section.has_constants():
            key = "constructor" if "constructor" in callers[section] else frozenset(callers[section])
            found.setdefault(key, []).append(section)
    names = [next((public[section] for section in inside if section in public), f"shared_{i}") for i, inside in enumerate(found.values())]
    return dict(zip(names, found.values()))


def frames(table, sections):
    """Returns the part of an unwind table that is of some sections."""
    part, at, written = table.like(), 0, {}

    def add(begin, head=None):
        """Adds an entry, which has the distance to its head if it has one."""
        end = begin + 4 + struct.unpack_from("<I", table.data, begin)[0]
        part.relocations += [(offset - begin + part.size, *more) for offset, *more in table.relocations if begin <= offset < end]
        back = 0 if head is None else part.size + 4 - written[head]
        part.append(table.data[begin : begin + 4] + struct.pack("<I", back) + table.data[begin + 8 : end])

    while at < table.size:
        length, back = struct.unpack_from("<II", table.data, at)
        if back and next(symbol.section for offset, symbol, _, _ in table.relocations if offset == at + 8) in sections:
            head = at + 4 - back
            if head not in written:
                written[head] = part.size
                add(head)
            add(at, head)
        at += 4 + length
    return [part] if part.size else []


def constants(sections, machine):
    """Returns copies of the constants that sections read, as sections, and for the symbol and the addend of each relocation
    that reads one those that read its copy."""
    found, read_as = {}, {}
    for section in sections:
        for _, symbol, _, addend in section.relocations:
            of = symbol.section
            if not of or not of.has_constants() or (symbol, addend) in read_as:
                continue
            at, rest = symbol.value, addend
            if symbol.kind == OF_SECTION:
                # An addend of x86-64 counts from the end of the instruction, so it does not tell which.
                if machine != AARCH64:
                    stop(f"{section.name} reads a constant without a symbol")
                at, rest = at + addend, 0
            copy = found.setdefault(of, of.like())
            begin = at // of.entry * of.entry
            read_as[symbol, addend] = Symbol(symbol.name, symbol.kind % OF_SECTION, copy, copy.size + at - begin, symbol.size), rest
            copy.append(of.data[begin : begin + of.entry])
    return list(found.values()), read_as


def object_of(head, sections, symbols, shared):
    """Returns the bytes of an object of some sections. `shared` has the name of each symbol that is not its own."""
    copies, read_as = constants(sections, head[2])
    sections = [*sections, *copies]
    index = {section: i for i, section in enumerate(sections, 1)}
    used = {symbol for section in sections for _, symbol, _, _ in section.relocations}
    own = [symbol for symbol in symbols if symbol.section in index and symbol not in shared] + [symbol for symbol, _ in read_as.values()]
    others = [symbol for symbol in symbols if symbol in shared and (symbol in used or symbol.section in index)]
    number = {symbol: i for i, symbol in enumerate(own + others, 1)}
    names, titles, table, headers, body = Names(), Names(), bytes(SYMBOL.size), [(0,) * 10], b""
    for symbol in own:
        table += SYMBOL.pack(names.add(symbol.name), symbol.kind, 0, index[symbol.section], symbol.value, symbol.size)
    for symbol in others:
        is_here = symbol.section in index
        kind, value, size = (symbol.kind if symbol.kind != OF_SECTION else 0, symbol.value, symbol.size) if is_here else (0, 0, 0)
        table += SYMBOL.pack(names.add(shared[symbol]), GLOBAL << 4 | kind, HIDDEN if symbol.section else 0, index.get(symbol.section, 0), value, size)

    def add(name, kind, flags, data, size, align, entry, link=0, info=0):
        nonlocal body
        body += bytes(-len(body) % max(align, 1))
        headers.append((titles.add(name), kind, flags, 0, HEAD.size + len(body), size, link, info, align, entry))
        body += data

    related = [section for section in sections if section.relocations]
    at_table = 1 + len(sections) + len(related)
    for section in sections:
        add(section.name, section.kind, section.flags, section.data, section.size, section.align, section.entry)
    for section in related:
        read = [(offset, kind, *read_as.get((symbol, addend), (symbol, addend))) for offset, symbol, kind, addend in section.relocations]
        lines = b"".join(RELOCATION.pack(offset, number[symbol] << 32 | kind, addend) for offset, kind, symbol, addend in read)
        add(f".rela{section.name}", RELA, INFO_LINK, lines, len(lines), 8, RELOCATION.size, at_table, index[section])
    add(".symtab", SYMTAB, 0, table, len(table), 8, SYMBOL.size, at_table + 1, 1 + len(own))
    add(".strtab", STRTAB, 0, names.data, len(names.data), 1, 0)
    titles.add(".shstrtab")
    add(".shstrtab", STRTAB, 0, titles.data, len(titles.data), 1, 0)
    body += bytes(-len(body) % 8)
    lines = b"".join(SECTION.pack(*header) for header in headers)
    return HEAD.pack(*head[:6], HEAD.size + len(body), *head[7:12], len(headers), len(headers) - 1) + body + lines


def main(file, folder):
    head, sections, symbols = read(pathlib.Path(file).read_bytes())
    symbols = [symbol for symbol in symbols[1:] if symbol.kind != OF_FILE]
    tables = [section for section in sections if section.name == ".eh_frame"]
    notes = [section for section in sections if section.name.startswith(".note")]
    objects = divided([section for section in sections if section.flags & ALLOC and section not in tables + notes], symbols)
    home = {section: name for name, inside in objects.items() for section in inside}
    asked = {symbol for section, name in home.items() for _, symbol, _, _ in section.relocations if home.get(symbol.section, name) != name}
    shared = {}
    for i, symbol in enumerate(symbols):
        if symbol.is_global:
            shared[symbol] = symbol.name
        elif symbol in asked:
            shared[symbol] = f"wtf8_own_{i}_{symbol.name or symbol.section.name}"
    for name, inside in objects.items():
        to = pathlib.Path(folder) / f"{name}.o"
        unwound = [part for table in tables for part in frames(table, inside)]
        to.write_bytes(object_of(head, [*inside, *unwound, *notes], symbols, shared))
        print(to)


main(*sys.argv[1:])
