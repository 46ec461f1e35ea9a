"""Compares the readers of pgo_tools with pyelftools and capstone. checks/by_hand/readers calls it."""
import argparse
import os
import sys
from typing import Any, Dict, Iterator, List, Mapping, NamedTuple, Set, Tuple

from elftools.elf import enums  # type: ignore[import]
from elftools.elf.elffile import ELFFile  # type: ignore[import]
from elftools.elf.relocation import RelocationSection  # type: ignore[import]
from elftools.elf.sections import NoteSection, SymbolTableSection  # type: ignore[import]
from elftools.elf.segments import NoteSegment  # type: ignore[import]

import second_code
from pgo_tools.blocks.program import ALLOC, PART_NAME, Program, Refused, Stretch
from pgo_tools.cli import Trouble
from pgo_tools.dwarf import KEPT_TEXT, PRODUCER, Units
from pgo_tools.elf import COMPRESSED, EXECUTABLE, LONGEST_NOTE, NOBITS, SHARED, X86_64, Elf, Section, Segment
from pgo_tools.texts.names import text_of

SAME, DIFFERENT, USAGE = range(3)
TABLES = (enums.ENUM_E_TYPE, enums.ENUM_E_MACHINE)
SECTION_TABLES = (enums.ENUM_SH_TYPE_BASE, enums.ENUM_SH_TYPE_AMD64)
SEGMENT_TABLES = (enums.ENUM_P_TYPE_BASE,)
NOTE_TABLES = (enums.ENUM_NOTE_N_TYPE, enums.ENUM_CORE_NOTE_N_TYPE)
RELATIVE = enums.ENUM_RELOC_TYPE_x64["R_X86_64_RELATIVE"]
SLOTS = [enums.ENUM_RELOC_TYPE_x64[name] for name in ("R_X86_64_JUMP_SLOT", "R_X86_64_GLOB_DAT")]
GNU_INDIRECT_FUNCTION = "STT_LOOS"


class Difference(NamedTuple):
    """A place of a file, what our reader says of it, and what the second one says."""

    place: str
    ours: str
    theirs: str


def number(value: Any, tables: Tuple[Dict[str, Any], ...]) -> int:
    """Returns the number of a constant, which pyelftools gives by its name if it knows one."""
    return int(next((table[value] for table in tables if value in table), -1) if isinstance(value, str) else value)


def shown(value: Any) -> str:
    """Returns a value as it is printed, with addresses in hexadecimal."""
    if isinstance(value, int) and not isinstance(value, bool):
        return hex(value)
    if isinstance(value, (tuple, list, set)):
        return f"({', '.join(map(shown, sorted(value) if isinstance(value, set) else value))})"
    return "nothing" if value is None else str(value)


def differing(what: str, ours: Mapping[Any, Any], theirs: Mapping[Any, Any]) -> Iterator[Difference]:
    """Compares two answers on the same places."""
    for place in sorted({*ours, *theirs}):
        if ours.get(place) != theirs.get(place):
            yield Difference(f"{what} {shown(place)}", shown(ours.get(place)), shown(theirs.get(place)))


def headers(elf: Elf, second: Any) -> Iterator[Difference]:
    """Compares the file header, the segments and the sections with their bytes."""
    ours = {"kind": elf.kind, "machine": elf.machine}
    theirs = {"kind": number(second["e_type"], TABLES), "machine": number(second["e_machine"], TABLES)}
    yield from differing("the file's", ours, theirs)
    fields = ("p_flags", "p_offset", "p_vaddr", "p_filesz", "p_memsz", "p_align")
    segments = [Segment(number(it["p_type"], SEGMENT_TABLES), *(it[field] for field in fields))
                for it in second.iter_segments()]
    yield from differing("segment", dict(enumerate(elf.segments)), dict(enumerate(segments)))
    fields = ("sh_flags", "sh_addr", "sh_offset", "sh_size", "sh_link", "sh_addralign")
    held = list(second.iter_sections())
    sections = [Section(it.name, number(it["sh_type"], SECTION_TABLES), *(it[field] for field in fields))
                for it in held]
    yield from differing("section", dict(enumerate(elf.sections)), dict(enumerate(sections)))
    yield from differing("packed sections:", {"any": elf.is_compressed()}, {"any": any(
        it["sh_flags"] & COMPRESSED or it.name.startswith(".zdebug_") for it in held)})
    for section in held:
        first = elf.section(section.name)
        if first is None or first.offset != section["sh_offset"] or first.kind == NOBITS or first.flags & COMPRESSED:
            continue
        if bytes(elf.bytes_of(section.name)) != section.data():
            size = len(elf.bytes_of(section.name))
            yield Difference(f"bytes of {section.name}", f"{size} bytes", f"others, {len(section.data())}")
    packed = [it for it in held if it["sh_flags"] & COMPRESSED]
    if packed:
        size = len(elf.data) + sum(it.data_size - it["sh_size"] for it in packed)
        yield from differing("unpacked", {"size": elf.unpacked_size()}, {"size": size})


def notes(elf: Elf, second: Any) -> Iterator[Difference]:
    """Compares the notes and the build ID. pyelftools reads no debug link."""
    ours = {(it.owner.rstrip(b"\0"), it.kind, bytes(it.said)) for it in elf.notes()}
    theirs: Set[Tuple[bytes, int, bytes]] = set()
    build = ""
    for held in [*second.iter_segments(), *second.iter_sections()]:
        if not isinstance(held, (NoteSegment, NoteSection)):
            continue
        for note in held.iter_notes():
            kind = number(note["n_type"], NOTE_TABLES)
            theirs.add((note["n_name"].encode(), kind, note["n_descdata"][:LONGEST_NOTE]))
            if note["n_name"] == "GNU" and kind == 3:
                build = build or note["n_desc"]
    yield from differing("note", dict.fromkeys(ours, True), dict.fromkeys(theirs, True))
    yield from differing("build", {"ID": elf.build_id()}, {"ID": build})


def units(elf: Elf, second: Any) -> Iterator[Difference]:
    """Compares the units of debug info: where each begins and ends, its version and its producer."""
    ours = {it.at: (it.end, it.version, it.word, it.text(PRODUCER)) for it in Units(elf).each()}
    theirs = {}
    if second.has_dwarf_info():
        for unit in second.get_dwarf_info(follow_links=False).iter_CUs():
            said = unit.get_top_DIE().attributes.get("DW_AT_producer")
            producer = text_of(said.value[:KEPT_TEXT]) if said else ""
            end = unit.cu_offset + unit["unit_length"] + unit.structs.initial_length_field_size()
            theirs[unit.cu_offset] = end, unit["version"], unit.structs.dwarf_format // 8, producer
    yield from differing("unit at", ours, theirs)


def symbols(program: Program, second: Any) -> Iterator[Difference]:
    """Compares the functions with their names and sizes, the exported names, and the objects."""
    tables = [it for it in second.iter_sections() if isinstance(it, SymbolTableSection)]
    kinds = {it["sh_type"] for it in tables}
    wanted = "SHT_SYMTAB" if "SHT_SYMTAB" in kinds else "SHT_DYNSYM"
    tables = [it for it in tables if it["sh_type"] == wanted]
    names: Dict[int, Set[str]] = {}
    sizes: Dict[int, int] = {}
    exported: Dict[str, int] = {}
    objects: Set[Stretch] = set()
    for symbol in (symbol for table in tables for symbol in table.iter_symbols()):
        index, kind, size, at = symbol["st_shndx"], symbol["st_info"]["type"], symbol["st_size"], symbol["st_value"]
        if isinstance(index, str) or index >= second.num_sections():
            continue
        is_part = kind == "STT_NOTYPE" and size and PART_NAME.match(symbol.name)
        if kind in ("STT_FUNC", GNU_INDIRECT_FUNCTION) or is_part:
            names.setdefault(at, set()).add(symbol.name)
            sizes[at] = max(size, sizes.get(at, 0))
            if symbol["st_info"]["bind"] in ("STB_GLOBAL", "STB_WEAK"):
                exported[symbol.name] = at
        elif kind == "STT_OBJECT" and size:
            objects.add(Stretch(at, at + size))
    yield from differing("names at", {at: set(held) for at, held in program.names.items()}, names)
    yield from differing("size of the function at", program.sizes, sizes)
    yield from differing("address of", program.exported, exported)
    yield from differing("object at", dict.fromkeys(program.objects, True), dict.fromkeys(objects, True))


def relocations(program: Program, second: Any) -> Iterator[Difference]:
    """Compares the names of slots, and the addresses that the loader writes."""
    slots: Dict[int, str] = {}
    filled: Dict[int, int] = {}
    for section in second.iter_sections():
        if not isinstance(section, RelocationSection) or not section.is_RELA() or not section["sh_flags"] & ALLOC:
            continue
        linked = second.get_section(section["sh_link"])
        for row in section.iter_relocations():
            if row["r_info_type"] == RELATIVE:
                filled[row["r_offset"]] = row["r_addend"]
            elif row["r_info_type"] in SLOTS:
                slots[row["r_offset"]] = linked.get_symbol(row["r_info_sym"]).name
    program.filled(0)
    yield from differing("name of the slot at", program.slots, slots)
    yield from differing("address written at", program.filled_in or {}, filled)


def of_file(path: str) -> Iterator[Difference]:
    """Returns all that differs in a file but its code."""
    elf = Elf(path)
    with open(path, "rb") as file:
        second = ELFFile(file)
        yield from headers(elf, second)
        yield from notes(elf, second)
        if not elf.is_compressed():
            yield from units(elf, second)
        if is_linked(elf):
            program = Program(path)
            yield from symbols(program, second)
            yield from relocations(program, second)


def is_linked(elf: Elf) -> bool:
    """Returns whether it is a program or a library for x86-64, with sections."""
    return elf.machine == X86_64 and elf.kind in (EXECUTABLE, SHARED) and bool(elf.sections)


def files(paths: List[str]) -> Iterator[str]:
    """Returns the ELF files of 64 bits, little-endian, among these files and below these folders."""
    for path in paths:
        found = [path] if not os.path.isdir(path) else [
            os.path.join(folder, name) for folder, _, names in sorted(os.walk(path)) for name in sorted(names)]
        for each in found:
            if os.path.isfile(each) and not (os.path.islink(each) and each != path):
                with open(each, "rb") as file:
                    if file.read(6) == b"\x7fELF\x02\x01":
                        yield each


def main(argv: List[str]) -> int:
    parser = argparse.ArgumentParser(prog="readers", description=__doc__)
    parser.add_argument("--unknown", action="store_true", help="print the instructions that one of both does not know")
    parser.add_argument("paths", nargs="+", metavar="PATH", help="an ELF file, or a folder of them")
    words = parser.parse_args(argv)
    count = differences = 0
    totals = second_code.Totals()
    for path in files(words.paths):
        count += 1
        try:
            for place, ours, theirs in of_file(path):
                differences += 1
                print(f"{path}: {place}: ours {ours}, pyelftools {theirs}", flush=True)
            for place, ours, theirs, is_known in second_code.differences(path, totals) if is_linked(Elf(path)) else ():
                differences += is_known
                if is_known or words.unknown:
                    print(f"{path}: {place}: objdump {ours}, capstone {theirs}", flush=True)
        except Refused as reason:
            print(f"{path}: passed over: {reason.what}", flush=True)
        except Trouble as reason:
            differences += 1
            print(f"{path}: ours {reason.what}", flush=True)
    print(f"{count} files, {totals.instructions} instructions, {totals.flows} jumps and the like: "
          f"{differences} differences, {totals.unknown} instructions that objdump or capstone does not know")
    return DIFFERENT if differences else SAME if count else USAGE


if __name__ == "__main__":
    sys.exit(main(sys.argv[1:]))
