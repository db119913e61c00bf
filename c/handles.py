"""What crates/c_handles has for each family: a place at a board over it, with any record (place.rt). And for each side and place that C may
have: a struct of its own with just that side (side.rt), the handle that C passes, whose box is an erased pointer (handles/), and the
proofs, which cite the lemmas for all of them (proofs/AnyLoose) at the row of each (proofs/Rows). `c/exports.py` writes and compares them.

A handle's `live` is the number of its type where it has a side. 0 is no side, and 255 a call that runs or was cut off."""

import os

# The sizes of a register's records, by when they came: the number of a handle's type never changes, so a later size, whatever it is, is
# numbered behind all that was there.
FIRST_SIZES = (8, 24, 64, 256, 1024, 4096, 65536, 1048576)
BOARD_SIZES = (24, 256, 4096)
LATER_SIZES = (128,)
SIZES = tuple(sorted(FIRST_SIZES + LATER_SIZES))
TEMPLATES = os.path.join(os.path.dirname(os.path.realpath(__file__)), "handles")

# The sides of a cell and the places at boards: the struct's name without the size, the type that it has, and what it is in words.
CELL_SIDES = (
    ("FourSlotWriter", "four_slot_writer", "FourSlotWriter<Record{size}>", "the writing side of a four-slot cell"),
    ("FourSlotReader", "four_slot_reader", "FourSlotReader<Record{size}>", "the reading side of a four-slot cell"),
    ("TripleWriter", "triple_writer", "TripleWriter<Record{size}>", "the writing side of a triple buffer"),
    ("TripleReader", "triple_reader", "TripleReader<Record{size}>", "the reading side of a triple buffer"),
)
PLACES = (
    ("FourSlotPlace", "four_slot_place", "FourSlotSeat{size}", "a place at a board over four-slot cells"),
    ("TriplePlace", "triple_place", "TripleSeat{size}", "a place at a board over triple buffers"),
)

# The functions of a handle whose proofs cite a lemma: where each stands below the handle's module, and its lemma's file in proofs/AnyLoose.
CITES = (("Loose.take", "Take"), ("Loose.put", "Put"), ("LooseHolds{struct}.reach", "Reach"))


def kinds():
    """Each kind of side, by its number: its struct, its module, the type in it, its words and its number. A number never changes: what is
    new comes last."""
    sides = [(kind, size) for size in FIRST_SIZES for kind in CELL_SIDES]
    sides += [(kind, size) for kind in PLACES for size in BOARD_SIZES]
    sides += [(kind, size) for size in LATER_SIZES for kind in CELL_SIDES]
    for code, ((struct, module, holds, words), size) in enumerate(sides, 1):
        yield {
            "struct": f"{struct}{size}",
            "module": f"{module}_{size}",
            "holds": holds.format(size=size),
            "words": f"{words} with records of {size:,} bytes",
            "code": str(code),
        }


def code_of(module):
    """The number of the side with this module."""
    return next(kind["code"] for kind in kinds() if kind["module"] == module)


def template(name, words):
    """A template with these words in it, as a side's names."""
    with open(os.path.join(TEMPLATES, f"{name}.template"), encoding="utf-8") as file:
        text = file.read()
    for word, value in words.items():
        text = text.replace(f"@{word.upper()}@", value)
    return text


def proofs(kind):
    """The proofs of one handle, and the row that they cite, by their names below proofs/."""
    files = {f"Rows/{kind['module']}.antt": template("row.antt", kind)}
    here = f"handles/{kind['module']}"
    for path, lemma in CITES:
        place = path.format(**kind)
        words = {"lemma": lemma, "place": place, "function": place.rpartition(".")[2]}
        files[f"{here}/{place.replace('.', '/')}/Proof.antt"] = template("proof.antt", {**kind, **words})
    files[f"{here}/Loose/TheSendSync/Send.antt"] = template("Send.antt", kind)
    return files


SIDE_HEAD = """//! What a handle can have, each in a struct of its own.
ghost use Rattle.std.specs.Prelude.{{◌≡◌}};

use crate::place::{{FourSlotPlace, TriplePlace}};
use crate::record::{{{records}}};
use c_boards::Seated;
use c_registers::{{FourSlotReader, FourSlotWriter, TripleReader, TripleWriter, Wraps}};
"""

SEAT = """
/// {words}.
pub type {name}{size} = Seated<{place}<Record{size}>>;
"""

SEATS = (
    ("FourSlotSeat", "FourSlotPlace", "A place at a board over four-slot cells"),
    ("TripleSeat", "TriplePlace", "A place at a board over triple buffers"),
)

PLACE_HEAD = """//! A place at a board over each family, with records that have no law.
//!
//! Its type names the record alone, so a call at it has a small dictionary.
ghost use Rattle.std.specs.Prelude.{map};
ghost use Rattle.std.specs.Arc.{arc_value};
ghost use Rattle.board_live.specs.Passes.{IsPass};
ghost use Rattle.c_boards.specs.Boards.{HasPosted, IsRefused, HasSeen, IsBoardOf};

use board_live::{BoardError, Posted};
use c_boards::{Free, HasPlace, Place, Sits, Sitting, open_places};
use cell_contract::Family;
use family_four_slot::FourSlotFamily;
use family_triple::TripleFamily;
use matrix_core::Stamp;
use std::alloc::Global;
"""

FAMILIES = (
    {"name": "FourSlotPlace", "family": "FourSlotFamily", "words": "A place at a board over four-slot cells"},
    {"name": "TriplePlace", "family": "TripleFamily", "words": "A place at a board over triple buffers"},
)

SIDE = """
/// {words}.
#[derive(Drop)]
pub struct {struct} {{
    pub it: {holds},
}}

impl Wraps<{holds}> for {struct} {{
    ghost use Rattle.std.proofs.Common.{{refl}};

    ghost inner = {{ λ d. d.it }};

    ghost side = {{ λ s. record {{ it = s }} }};

    #[inline]
    fn inside(&mut self) -> &mut {holds} {{
        &mut self.it
    }}

    fn whole(variant: {holds}) -> {struct} {{
        {struct} {{ it: variant }}
    }}

    ghost whole_of = {{ λ d. refl }};
}}
"""


def sides():
    """The text of side.rt."""
    head = SIDE_HEAD.format(records=", ".join(f"Record{size}" for size in SIZES))
    seats = "".join(
        SEAT.format(name=name, place=place, words=f"{words} with records of {size:,} bytes", size=size)
        for name, place, words in SEATS
        for size in BOARD_SIZES
    )
    return head + seats + "".join(SIDE.format(**{**kind, "words": kind["words"][0].upper() + kind["words"][1:]}) for kind in kinds())


def made():
    """The files by their names below crates/c_handles, without their first line."""
    files = {
        "src/place.rt": PLACE_HEAD + "".join(template("place.rt", family) for family in FAMILIES),
        "src/side.rt": sides(),
    }
    modules = [kind["module"] for kind in kinds()]
    files["src/handles.rt"] = "//! The handles, a type for each side and place.\n\n" + "".join(f"pub mod {name};\n" for name in sorted(modules))
    for kind in kinds():
        files[f"src/handles/{kind['module']}.rt"] = template("handle.rt", kind)
        files.update({f"proofs/{name}": text for name, text in proofs(kind).items()})
    files["proofs/Rows.antt"] = "".join(f"pub mod {name}\n" for name in modules)
    return files
