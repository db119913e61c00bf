"""What the library for C has once more for each size of record and each cell. The exports: for each cell and size the same six calls, of a
triple buffer three more, and for each family and size of a board's record the same five. And of crates/c_handles what is made for each side
and place (handles.py).

    exports.py write     writes them: crates/c_exports/src/exports.rt and exports/, the answers for each hold and loan, and the
                         files of crates/c_handles
    exports.py check     compares them, and what c/nidzaru.h declares and c/tests/control.c has, with the text below
"""

import os
import re
import sys

import handles
from handles import BOARD_SIZES, SIZES, code_of

TOP = os.path.dirname(os.path.dirname(os.path.realpath(__file__)))
EXPORTS = os.path.join(TOP, "crates/c_exports/src/exports")
# The first line of each file that is made, after the words that begin a comment.
MADE = {".rt": "// made by c/exports.py\n", ".antt": "-- made by c/exports.py\n"}
# What a triple buffer's exports for records in place take from the definitions.
IN_PLACE = ", HasPublished, at_hand, in_slot"
CELLS = {
    "four_slot": {"words": "A four-slot cell", "prefix": "", "specs": "FourSlotCalls", "name": "four_slot", "type": "FourSlot", "holds": ""},
    "triple": {"words": "A triple buffer", "prefix": "triple_", "specs": "TripleCalls", "name": "triple", "type": "Triple", "holds": IN_PLACE},
}

FAMILIES = {
    "board": {"words": "A board over four-slot cells", "prefix": "", "name": "four_slot", "type": "FourSlot"},
    "triple_board": {"words": "A board over triple buffers", "prefix": "triple_", "name": "triple", "type": "Triple"},
}

HEAD = """//! The exports: for each cell and size a make, a write, a read, a look and an end of either side, and of a triple
//! buffer a hold, a loan and what publishes it; for each family and size of a board a make, a write, two reads and an
//! end; and the library's version.
"""

TEXT = """//! {words} with records of {bytes} bytes.
{record}ghost use Rattle.c_registers.specs.{specs}.{{IsMade, HasWritten, HasRead{holds}}};
ghost use Rattle.c_registers.specs.Handles.{{holding, IsMake, IsWrite, IsRead, IsLook, {is_hold}IsEnd}};

use c_handles::handles::{{{name}_reader_{size}, {name}_writer_{size}}};
use c_handles::{{{structs}}};
use c_registers::{{{names}}};
use std::alloc::Global;

#[unsafe(no_mangle)]
pub extern "C" fn nidzaru_{prefix}{size}_make(
    alloc: Global,
    first: &Record{size},
    writer: &mut {name}_writer_{size}::Handle,
    reader: &mut {name}_reader_{size}::Handle,
) -> u32
    ensures {{ IsMake ({writes}, {reads}) (λ p. record {{ it = p }}) (λ g. record {{ it = g }}) IsMade
        (holding writer.old.live writer.old.loose.side) (holding reader.old.live reader.old.loose.side)
        (holding writer.new.live writer.new.loose.side) (holding reader.new.live reader.new.loose.side)
        first.now result }}
{{
    make::<{type}Writer{size}, {type}Reader{size}, {name}_writer_{size}::Handle, {name}_reader_{size}::Handle, Record{size}, {type}Writer<Record{size}>, {type}Reader<Record{size}>>(alloc, first, writer, reader)
}}

#[unsafe(no_mangle)]
pub extern "C" fn nidzaru_{prefix}{size}_write(writer: &mut {name}_writer_{size}::Handle, item: &Record{size}) -> u32
    ensures {{ IsWrite {writes} (λ p. record {{ it = p }}) (λ p. p.number) HasWritten
        (holding writer.old.live writer.old.loose.side) (holding writer.new.live writer.new.loose.side)
        item.now result }}
{{
    write::<{type}Writer{size}, {name}_writer_{size}::Loose, Record{size}, {type}Writer<Record{size}>>({writes}, &mut writer.live, &mut writer.loose, item)
}}

#[unsafe(no_mangle)]
pub extern "C" fn nidzaru_{prefix}{size}_read(
    reader: &mut {name}_reader_{size}::Handle,
    item: &mut Record{size},
    number: &mut u64,
) -> u32
    ensures {{ IsRead {reads} (λ g. record {{ it = g }}) HasRead (holding reader.old.live reader.old.loose.side)
        (holding reader.new.live reader.new.loose.side) item.old item.new number.old number.new result }}
{{
    read::<{type}Reader{size}, {name}_reader_{size}::Loose, Record{size}, {type}Reader<Record{size}>>({reads}, &mut reader.live, &mut reader.loose, item, number)
}}

#[unsafe(no_mangle)]
pub extern "C" fn nidzaru_{prefix}{size}_look(reader: &mut {name}_reader_{size}::Handle, number: &mut u64) -> u32
    ensures {{ IsLook {reads} (λ g. record {{ it = g }}) HasRead (holding reader.old.live reader.old.loose.side)
        (holding reader.new.live reader.new.loose.side) number.old number.new result }}
{{
    look::<{type}Reader{size}, {name}_reader_{size}::Loose, Record{size}, {type}Reader<Record{size}>>({reads}, &mut reader.live, &mut reader.loose, number)
}}
{hold}
#[unsafe(no_mangle)]
pub extern "C" fn nidzaru_{prefix}{size}_end_writer(alloc: Global, writer: &mut {name}_writer_{size}::Handle) -> u32
    ensures {{ IsEnd {writes} (holding writer.old.live writer.old.loose.side)
        (holding writer.new.live writer.new.loose.side) result }}
{{
    end::<{type}Writer{size}, {name}_writer_{size}::Handle>(alloc, writer)
}}

#[unsafe(no_mangle)]
pub extern "C" fn nidzaru_{prefix}{size}_end_reader(alloc: Global, reader: &mut {name}_reader_{size}::Handle) -> u32
    ensures {{ IsEnd {reads} (holding reader.old.live reader.old.loose.side)
        (holding reader.new.live reader.new.loose.side) result }}
{{
    end::<{type}Reader{size}, {name}_reader_{size}::Handle>(alloc, reader)
}}
"""

HOLD_TEXT = """
#[unsafe(no_mangle)]
pub extern "C" fn nidzaru_{prefix}{size}_hold<'a>(reader: &'a mut {name}_reader_{size}::Handle, at: &mut &'a [u64]) -> u32
    ensures {{ IsHold {reads} (λ g. record {{ it = g }}) (λ g. (at_hand {{W = Record{size}}} g).words.words)
        (holding reader.old.live reader.old.loose.side) at.old.now at.new.now result }}
{{
    let live = reader.live;
    match hold::<{type}Reader{size}, {name}_reader_{size}::Loose, Record{size}>(&mut reader.loose, {reads}, live) {{
        Err(status) => status,
        Ok(record) => {{
            *at = record.words.as_slice();
            DONE
        }}
    }}
}}

#[unsafe(no_mangle)]
pub extern "C" fn nidzaru_{prefix}{size}_loan<'a>(writer: &'a mut {name}_writer_{size}::Handle, at: &mut &'a mut [u64]) -> u32
    ensures {{ IsHold {writes} (λ p. record {{ it = p }}) (λ p. (in_slot {{W = Record{size}}} p).words.words)
        (holding writer.old.live writer.old.loose.side) at.old.now at.new.now result }}
{{
    let live = writer.live;
    match slot::<{type}Writer{size}, {name}_writer_{size}::Loose, Record{size}>(&mut writer.loose, {writes}, live) {{
        Err(status) => status,
        Ok(record) => {{
            *at = record.words.as_mut_slice();
            DONE
        }}
    }}
}}

#[unsafe(no_mangle)]
pub extern "C" fn nidzaru_{prefix}{size}_publish(writer: &mut {name}_writer_{size}::Handle) -> u32
    ensures {{ IsPublish {writes} (λ p. record {{ it = p }}) (λ p. p.number) HasPublished
        (holding writer.old.live writer.old.loose.side) (holding writer.new.live writer.new.loose.side) result }}
{{
    publish::<{type}Writer{size}, {name}_writer_{size}::Loose, Record{size}>({writes}, &mut writer.live, &mut writer.loose)
}}
"""


BOARD_TEXT = """//! {words} with records of {bytes} bytes.
ghost use Rattle.c_registers.specs.Handles.{{holding, IsEnd}};
ghost use Rattle.c_boards.specs.Places.{{IsBoardMake, IsBoardWrite, IsBoardRead, IsBoardReadSince}};

use c_boards::{{Mark, Posts, make_places, read_place, read_place_since, write_place}};
use c_handles::handles::{name}_place_{size};
use c_handles::{{{structs}}};
use c_registers::end;
use std::alloc::Global;

#[unsafe(no_mangle)]
pub extern "C" fn nidzaru_{prefix}board_{size}_make(
    alloc: Global,
    first: &Record{size},
    limit: u64,
    places: &mut [{name}_place_{size}::Handle],
) -> u32
    ensures {{ IsBoardMake (λ h. h.live) (λ h. h.loose.side) {code} (λ s. record {{ it = s }})
        ⟦<{type}Seat{size} as Posts<Record{size}>>⟧.is_made limit places.old places.new first.now result }}
{{
    make_places::<{type}Place{size}, {name}_place_{size}::Handle, Record{size}, {type}Seat{size}>(alloc, first, limit, places)
}}

#[unsafe(no_mangle)]
pub extern "C" fn nidzaru_{prefix}board_{size}_write(
    place: &mut {name}_place_{size}::Handle,
    item: &Record{size},
    stamp: &mut Mark,
) -> u32
    ensures {{ IsBoardWrite {code} (λ s. record {{ it = s }}) ⟦<{type}Seat{size} as Posts<Record{size}>>⟧.has_posted
        ⟦<{type}Seat{size} as Posts<Record{size}>>⟧.is_refused
        (holding place.old.live place.old.loose.side) (holding place.new.live place.new.loose.side)
        item.now stamp.old stamp.new result }}
{{
    write_place::<{type}Place{size}, {name}_place_{size}::Loose, Record{size}, {type}Seat{size}>({code}, &mut place.live, &mut place.loose, item, stamp)
}}

#[unsafe(no_mangle)]
pub extern "C" fn nidzaru_{prefix}board_{size}_read(
    place: &mut {name}_place_{size}::Handle,
    item: &mut Record{size},
    stamp: &mut Mark,
) -> u32
    ensures {{ IsBoardRead {code} (λ s. record {{ it = s }}) ⟦<{type}Seat{size} as Posts<Record{size}>>⟧.has_seen
        (holding place.old.live place.old.loose.side) (holding place.new.live place.new.loose.side)
        item.old item.new stamp.old stamp.new result }}
{{
    read_place::<{type}Place{size}, {name}_place_{size}::Loose, Record{size}, {type}Seat{size}>({code}, &mut place.live, &mut place.loose, item, stamp)
}}

#[unsafe(no_mangle)]
pub extern "C" fn nidzaru_{prefix}board_{size}_read_since(
    place: &mut {name}_place_{size}::Handle,
    least: &Mark,
    item: &mut Record{size},
    stamp: &mut Mark,
) -> u32
    ensures {{ IsBoardReadSince {code} (λ s. record {{ it = s }}) ⟦<{type}Seat{size} as Posts<Record{size}>>⟧.has_seen
        (holding place.old.live place.old.loose.side) (holding place.new.live place.new.loose.side)
        least.now item.old item.new stamp.old stamp.new result }}
{{
    read_place_since::<{type}Place{size}, {name}_place_{size}::Loose, Record{size}, {type}Seat{size}>({code}, &mut place.live, &mut place.loose, least, item, stamp)
}}

#[unsafe(no_mangle)]
pub extern "C" fn nidzaru_{prefix}board_{size}_end(alloc: Global, place: &mut {name}_place_{size}::Handle) -> u32
    ensures {{ IsEnd {code} (holding place.old.live place.old.loose.side)
        (holding place.new.live place.new.loose.side) result }}
{{
    end::<{type}Place{size}, {name}_place_{size}::Handle>(alloc, place)
}}
"""


def export(size, cell):
    """The text of one cell's and size's exports."""
    calls = ["end", "look", "make", "read", "write", *(["hold", "publish", "slot"] if cell["holds"] else [])]
    words = {
        "size": size,
        "bytes": f"{size:,}",
        "writes": code_of(f"{cell['name']}_writer_{size}"),
        "reads": code_of(f"{cell['name']}_reader_{size}"),
        "structs": ", ".join(sorted([f"Record{size}", f"{cell['type']}Reader{size}", f"{cell['type']}Writer{size}"])),
        "record": f"ghost use Rattle.c_handles.specs.declared.record.Record{size}.{{Record{size}}};\n" if cell["holds"] else "",
        "is_hold": "IsHold, IsPublish, " if cell["holds"] else "",
        "names": ", ".join(sorted([*(["DONE"] if cell["holds"] else []), f"{cell['type']}Reader", f"{cell['type']}Writer"]) + sorted(calls)),
        **cell,
    }
    return TEXT.format(hold=HOLD_TEXT.format(**words) if cell["holds"] else "", **words)


def board_export(size, family):
    """The text of one family's and size's exports."""
    structs = ", ".join(sorted([f"Record{size}", f"{family['type']}Place{size}", f"{family['type']}Seat{size}"]))
    return BOARD_TEXT.format(structs=structs, size=size, bytes=f"{size:,}", code=code_of(f"{family['name']}_place_{size}"), **family)


def made():
    """The files by their names below crates/."""
    files = {f"c_exports/src/{name}": text for name, text in exports().items()}
    files.update({f"c_handles/{name}": text for name, text in handles.made().items()})
    for call in ("hold", "loan"):
        answers = read(handles.TEMPLATES, f"{call}_answers.antt.template")
        for size in SIZES:
            at = f"c_exports/proofs/exports/triple_{size}/nidzaru_triple_{size}_{call}"
            files[f"{at}/Answers.antt"] = answers.replace("@FILE@", f"triple_{size}")
    return {name: MADE[os.path.splitext(name)[1]] + text for name, text in files.items()}


def exports():
    """The exports by their names below crates/c_exports/src."""
    files = {
        f"exports/{name}_{size}.rt": export(size, cell)
        for name, cell in CELLS.items()
        for size in SIZES
    }
    for name, family in FAMILIES.items():
        files.update({f"exports/{name}_{size}.rt": board_export(size, family) for size in BOARD_SIZES})
    modules = sorted([os.path.basename(name)[:-3] for name in files] + ["version"])
    files["exports.rt"] = HEAD + "\n" + "".join(f"mod {name};\n" for name in modules)
    return files


def boards():
    """The boards' names in the exports."""
    return [f"{family['prefix']}board_{size}" for family in FAMILIES.values() for size in BOARD_SIZES]


def words(text):
    """A text without its layout, which `rt fmt` decides: no spaces, and no comma before a bracket that closes."""
    return re.sub(r",(?=[)\]}>])", "", re.sub(r"\s+", "", text))


def read(*path):
    with open(os.path.join(*path), encoding="utf-8") as file:
        return file.read()


def faults():
    files = made()
    for name, text in files.items():
        path = os.path.join(TOP, "crates", name)
        if not os.path.exists(path) or words(read(path)) != words(text):
            yield f"crates/{name} isn't the text of c/exports.py"
    there = {f"c_exports/src/exports/{name}" for name in os.listdir(EXPORTS) if name != "version.rt"}
    yield from (f"crates/{name} is made by nothing" for name in sorted(there - set(files)))
    cells = [f"{cell['prefix']}{size}" for cell in CELLS.values() for size in SIZES]
    held = [f"{cell['prefix']}{size}" for cell in CELLS.values() for size in SIZES if cell["holds"]]
    if re.findall(r"^NIDZARU_DECLARE_HOLD\((\w+)\)", read(TOP, "c/nidzaru.h"), re.M) != held:
        yield "c/nidzaru.h declares other holds"
    if re.findall(r"^NIDZARU_DECLARE\((\w+)\)", read(TOP, "c/nidzaru.h"), re.M) != cells:
        yield "c/nidzaru.h declares other cells"
    if re.findall(r"^NIDZARU_DECLARE_BOARD\((\w+)\)", read(TOP, "c/nidzaru.h"), re.M) != boards():
        yield "c/nidzaru.h declares other boards"
    if re.findall(r"^CELL\((\w+), \d+\)", read(TOP, "c/tests/control.c"), re.M) != cells:
        yield "c/tests/control.c has other cells"
    version = re.search(r"result ≡ (\d+)", read(EXPORTS, "version.rt")).group(1)
    parts = [int(part) for part in re.findall(r"#define NIDZARU_VERSION_(?:MAJOR|MINOR|PATCH) (\d+)", read(TOP, "c/nidzaru.h"))]
    if int(version) != 10000 * parts[0] + 100 * parts[1] + parts[2]:
        yield "c/nidzaru.h has another version than the library"


if sys.argv[1:] == ["write"]:
    for name, text in made().items():
        path = os.path.join(TOP, "crates", name)
        os.makedirs(os.path.dirname(path), exist_ok=True)
        with open(path, "w", encoding="utf-8") as file:
            file.write(text)
elif sys.argv[1:] == ["check"]:
    found = list(faults())
    print("\n".join(found) or f"{len(list(handles.kinds()))} handles, {(6 * len(CELLS) + 3) * len(SIZES)} exports of {len(CELLS) * len(SIZES)} cells, {5 * len(boards())} of {len(boards())} boards")
    sys.exit(1 if found else 0)
else:
    sys.exit(__doc__)
