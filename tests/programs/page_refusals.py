"""What the page's build refuses: each fault of an LLVM module or of a linked one that web/module.py should see is planted in a plain one, and
pages that are cut and files that are half written stand where web/make.py takes what was built before."""

import os
import sys
import tempfile

TOP = os.path.dirname(os.path.dirname(os.path.dirname(os.path.realpath(__file__))))
sys.path.insert(0, f"{TOP}/web")

import make  # noqa: E402
import module  # noqa: E402

PLAIN = """target datalayout = "e-m:e-p270:32:32-i64:64"
target triple = "x86_64-unknown-linux-gnu"
declare void @rattle_dealloc(ptr)
declare i64 @llvm.ctlz.i64(i64, i1 immarg)
define internal void @"a::asm"() #0 {
  ret void
}
""" + "".join(f"define noundef i32 @{name}(ptr noundef %a0) #0 {{\n  ret i32 0\n}}\n" for name in module.EXPORTS)
IN_TEXT = {
    "assembly": (PLAIN + 'define void @f() {\n  call void asm sideeffect "pause", ""()\n}\n', "assembly"),
    "an intrinsic of x86": (PLAIN + "declare <16 x i8> @llvm.x86.ssse3.pshuf.b.128(<16 x i8>, <16 x i8>)\n", "an intrinsic of a processor"),
    "an unknown function": (PLAIN + "declare i32 @getpid()\n", "a call of getpid"),
    "a variable of a thread": (PLAIN + "@a = internal thread_local global i64 0\n", "a variable of a thread"),
    "another target": (PLAIN.replace("x86_64-unknown", "aarch64-unknown"), "another target"),
    "an export less": (PLAIN.replace("@nidzaru_play", "@play"), "no function nidzaru_play"),
}


def section(number, body):
    assert len(body) < 1 << 14
    return bytes([number, 0x80 | len(body) & 127, len(body) >> 7]) + body


def exports(names):
    entries = b"".join(bytes([len(it)]) + it.encode() + b"\0\0" for it in names)
    return section(module.EXPORTED, bytes([len(names)]) + entries)


def is_refused(said, call, *words):
    try:
        call(*words)
    except module.Refused as fault:
        return said in str(fault)
    return False


def faults_of_halves(folder):
    """What is taken of a page, of kept modules, or of a file that was to be written, whose writing was cut off."""
    whole, stepper, kept = make.read(make.PAGE), make.read(make.STEPPER), f"{folder}/kept"
    for title, text in (("a page cut within a module", whole[:300000]), ("a page without its end", whole[:-9])):
        if not is_refused("is damaged", make.unpacked, text, "wide"):
            yield f"{title} isn't seen"
    make.STEPPER = f"{folder}/stepper.html"
    make.write(make.STEPPER, stepper)
    make.write(make.STEPPER, stepper[:-9])
    if not is_refused("no end", make.stepper, b""):
        yield "a stepper's page without its end isn't seen"
    modules = {name: b"first" for name in make.KEPT[make.CRATE]}
    make.keep(kept, make.CRATE, modules, "sum")
    if make.read_kept(kept, make.CRATE, "sum") != modules:
        yield "modules that were kept aren't found"
    for call, words in ((make.keep, (kept, make.CRATE, {"wide.wasm": b"second", "narrow.wasm": None}, "other")),
                        (make.write, (make.STEPPER, "half\ud800"))):
        try:
            call(*words)
            yield f"{call.__name__} isn't cut off"
        except (TypeError, UnicodeEncodeError):
            pass
    if make.read_kept(kept, make.CRATE, "sum") is not None:
        yield "modules that are half kept are taken"
    if make.read(make.STEPPER) != stepper[:-9]:
        yield "a file that is half written isn't the one of before"


def main():
    with tempfile.TemporaryDirectory() as folder:
        faults = list(faults_of_halves(folder))
    if module.fault_in_text(PLAIN):
        faults.append(f"the plain module is refused: {module.fault_in_text(PLAIN)}")
    for title, (text, said) in IN_TEXT.items():
        if said not in (module.fault_in_text(text) or ""):
            faults.append(f"{title} isn't seen")
    head, names = b"\0asm\1\0\0\0", [*module.EXPORTS, *module.OTHER_EXPORTS]
    plain, wanted = head + exports(names), module.exports_for(False)
    if module.fault_in_module(plain, wanted):
        faults.append(f"the plain link is refused: {module.fault_in_module(plain, wanted)}")
    imports = section(module.IMPORTS, b"\1\3env\3ask\0\0")
    in_module = {
        "an import": (head + imports + exports(names), "imports something"),
        "an export more": (head + exports([*names, "more"]), "exports are others: more"),
        "an export less in the link": (head + exports(names[1:]), "exports are others: nidzaru_check"),
        "a start": (plain + section(module.START, b"\0"), "runs at its start"),
    }
    for title, (wasm, said) in in_module.items():
        if said not in (module.fault_in_module(wasm, wanted) or ""):
            faults.append(f"{title} isn't seen")
    try:
        module.stripped(head + section(module.ELEMENTS, b"\0"))
        faults.append("a table in use isn't seen")
    except module.Refused:
        pass
    print("\n".join(faults or [f"{len(IN_TEXT) + len(in_module) + 6} planted faults are seen"]))
    return 1 if faults else 0


if __name__ == "__main__":
    sys.exit(main())
