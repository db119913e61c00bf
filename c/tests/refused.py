"""What the headers refuse when a program is compiled, each for its reason, and what they take without a warning.

    refused.py FOLDER CC CXX     with the headers in this folder, by a C and a C++ compiler

A page of rows is compiled once, a row a line. A row that must be refused is told by its line and by these words; a row that must be taken
isn't told at all. The last line is the sums.
"""

import os
import re
import subprocess
import sys
import tempfile

C, CPP = "c", "c++"
UNUSED = "warn.unused.result|nodiscard|unused.result"
STRICT = (
    "-Wall -Wextra -pedantic -Wconversion -Wsign-conversion -Wshadow -Wcast-qual -Wcast-align -Wundef -Wformat=2 -Wpointer-arith "
    "-Wwrite-strings -Wredundant-decls"
).split()
STRICT_C = STRICT + "-Wstrict-prototypes -Wmissing-prototypes -Wold-style-definition".split()
STRICT_CPP = STRICT + "-Wold-style-cast -Wzero-as-null-pointer-constant -Weffc++ -Wnon-virtual-dtor -Woverloaded-virtual".split()

SIZES = "at most 4096 bytes"
LARGE = "at most 1048576 bytes"
PLAIN = "neither const nor volatile"
COPIES = "trivially copyable"
HELD = "aligned to at most 8"
FANNED = "at least one reader"

C_TYPES = """
struct ok { double low, high; }; struct most { char bytes[4096]; };
struct large1 { char bytes[4097]; }; struct large2 { char bytes[1048576]; }; struct larger { char bytes[1048577]; };
struct wide { _Alignas(16) char bytes[16]; };
"""
C_MACROS = [
    (f"NIDZARU_{kind}(t{k}_{kind}, {type_});", wants)
    for kind in ("REGISTER", "TRIPLE_REGISTER", "BOARD", "TRIPLE_BOARD")
    for k, (type_, wants) in enumerate(
        [
            ("struct ok", None),
            ("struct most", None),
            ("double", None),
            ("struct large1", None if "REGISTER" in kind else SIZES),
            ("struct large2", None if "REGISTER" in kind else SIZES),
            ("struct larger", LARGE if "REGISTER" in kind else SIZES),
            ("struct wide", None),
            ("volatile struct ok", PLAIN),
            ("const struct ok", PLAIN),
            ("volatile double", PLAIN),
            ("const volatile double", PLAIN),
        ]
    )
] + [
    ("NIDZARU_TRIPLE_REGISTER(held_ok, struct ok); NIDZARU_HOLD(held_ok);", None),
    ("NIDZARU_TRIPLE_REGISTER(held_most, struct most); NIDZARU_HOLD(held_most);", None),
    ("NIDZARU_TRIPLE_REGISTER(held_large, struct large2); NIDZARU_HOLD(held_large); NIDZARU_LOAN(held_large);", None),
    ("NIDZARU_TRIPLE_REGISTER(held_wide, struct wide); NIDZARU_HOLD(held_wide);", HELD),
    ("NIDZARU_TRIPLE_REGISTER(lent_ok, struct ok); NIDZARU_LOAN(lent_ok);", None),
    ("NIDZARU_TRIPLE_REGISTER(lent_wide, struct wide); NIDZARU_LOAN(lent_wide);", HELD),
    ("NIDZARU_FAN(fan_ok, struct ok, 3);", None),
    ("NIDZARU_FAN(fan_large, struct large2, 1);", None),
    ("NIDZARU_TRIPLE_FAN(fan_larger, struct larger, 2);", LARGE),
    ("NIDZARU_FAN(fan_const, const struct ok, 2);", PLAIN),
    ("NIDZARU_FAN(fan_of_none, struct ok, 0);", FANNED),
    ("NIDZARU_TRIPLE_FAN(fan_held, struct ok, 2); NIDZARU_HOLD(fan_held);", None),
    ("NIDZARU_TRIPLE_FAN(fan_lent, struct ok, 2); NIDZARU_LOAN(fan_lent);", "written by a copy"),
]
C_DECLARED = (
    "NIDZARU_REGISTER(ds, double); NIDZARU_REGISTER(es, double); NIDZARU_BOARD(bs, double); NIDZARU_BOARD(qs, double); "
    "NIDZARU_TRIPLE_REGISTER(ts, double); NIDZARU_HOLD(ts); NIDZARU_LOAN(ts); NIDZARU_FAN(fs, double, 3); NIDZARU_FAN(gs, double, 2);"
)
C_ARGUMENTS = "double *x, uint64_t *n, nidzaru_stamp *s, nidzaru_stamp l, const double **at, double **slot"
C_HANDLES = "ds_writer *w, ds_reader *r, bs_place *p, es_writer *ew, es_reader *er, qs_place *q, ts_reader *tr, ts_writer *tw, fs_writer *fw, fs_reader (*fr)[3], gs_reader (*gr)[2]"
C_CALLS = [
    ("ds_make(x, w, r)", UNUSED),
    ("ds_write(w, x)", UNUSED),
    ("ds_read(r, x, n)", UNUSED),
    ("ds_latest(r, x)", UNUSED),
    ("ds_look(r, n)", UNUSED),
    ("ds_news(r, x, n)", UNUSED),
    ("ts_hold(tr, at, n)", UNUSED),
    ("ts_hold_news(tr, at, n)", UNUSED),
    ("ts_loan(tw, slot)", UNUSED),
    ("ts_publish(tw)", UNUSED),
    ("ds_move_writer(w, w)", UNUSED),
    ("ds_move_reader(r, r)", UNUSED),
    ("ds_end_writer(w)", None),
    ("ds_end_reader(r)", None),
    ("bs_make(x, p, 2)", UNUSED),
    ("bs_make_limited(x, 5, p, 2)", UNUSED),
    ("bs_write(p, x, s)", UNUSED),
    ("bs_read(p, x, s)", UNUSED),
    ("bs_latest(p, x)", UNUSED),
    ("bs_read_since(p, l, x, s)", UNUSED),
    ("bs_news(p, x, s)", UNUSED),
    ("bs_move(p, p)", UNUSED),
    ("bs_end(p)", None),
    ("fs_make(x, fw, fr)", UNUSED),
    ("fs_write(fw, x)", UNUSED),
    ("fs_end_writer(fw)", None),
]
MIXED = "incompatible pointer|incompatible type|cannot convert|no matching function"
C_MIXED = [
    ("(void)!ds_move_writer(w, w)", None),
    ("(void)!ds_move_reader(w, w)", MIXED),
    ("(void)!ds_move_writer(w, r)", MIXED),
    ("(void)!ds_move_reader(r, w)", MIXED),
    ("(void)!ds_move_writer(w, ew)", MIXED),
    ("(void)!ds_move_reader(er, r)", MIXED),
    ("(void)!bs_move(p, q)", MIXED),
    ("(void)!bs_move(p, p)", None),
    ("(void)!ds_read(w, x, n)", MIXED),
    ("(void)!ds_write(r, x)", MIXED),
    ("(void)!ds_write(ew, x)", MIXED),
    ("(void)!bs_read(q, x, s)", MIXED),
    ("(void)!ts_hold(tr, at, n)", None),
    ("(void)!ts_hold(r, at, n)", MIXED),
    ("(void)!ts_loan(tw, slot)", None),
    ("(void)!ts_loan(w, slot)", MIXED),
    ("(void)!ts_publish(w)", MIXED),
    ("(void)!fs_make(x, fw, fr)", None),
    ("(void)!fs_make(x, fw, gr)", MIXED),
    ("(void)!fs_make(x, fw, *fr)", MIXED),
    ("(void)!fs_write(w, x)", MIXED),
    ("(void)!ds_write(fw, x)", MIXED),
    ("(void)!ds_write(w, vx)", "discards|discarded|invalid conversion|incompatible|cannot convert|no matching function"),
    ("(void)!ds_make(vx, w, r)", "discards|discarded|invalid conversion|incompatible|cannot convert|no matching function"),
]

CPP_TYPES = """
#include <array>
#include <string>
template <int> struct ok { double low, high; };
template <int> struct most { char bytes[4096]; };
template <int> struct large { char bytes[4097]; };
template <int> struct larger { char bytes[1048577]; };
template <int> struct alignas(16) wide { char bytes[16]; };
template <int> struct text { std::string words; };
template <int> struct rooted { double x; rooted() = default; rooted(const rooted &from) : x(from.x) {} };
template <int> struct fixed { const float x; };
namespace mine {
struct one { double x; };
template <class T, class C> int make(const T &);
template <class T, nidzaru::cell C> int make(const T &);
template <class T, nidzaru::cell C> int try_make(const T &);
template <std::size_t N, nidzaru::cell C, class T> int make_board(const T &);
template <std::size_t N, nidzaru::cell C, class T> int make_fan(const T &);
template <class T> int give(T *, const void *);
}
"""
# A value, why it is refused as a register's record, and why as a board's.
CPP_MADE = [
    ("ok<%d>{}", None, None),
    ("most<%d>{}", None, None),
    ("std::array<ok<%d>, 3>{}", None, None),
    ("large<%d>{}", None, SIZES),
    ("larger<%d>{}", LARGE, SIZES),
    ("wide<%d>{}", None, None),
    ("text<%d>{}", COPIES, COPIES),
    ("rooted<%d>{}", COPIES, COPIES),
]
CPP_MAKERS = ["make(%s)", "make_triple(%s)", "try_make(%s)", "try_make_triple(%s)", "make_board<2>(%s)", "try_make_board<2>(%s)",
              "make_board<2, nidzaru::cell::triple>(%s)", "make_fan<2>(%s)", "try_make_fan<2, nidzaru::cell::triple>(%s)"]
CPP_ROWS = [
    (f"(void)nidzaru::{maker % (value % (10 * m + v))};", on_a_board if "board" in maker else wants)
    for m, maker in enumerate(CPP_MAKERS)
    for v, (value, wants, on_a_board) in enumerate(CPP_MADE)
] + [
    ("static volatile double v1 = 1; (void)nidzaru::make(v1);", PLAIN),
    ("static volatile ok<900> v2{}; (void)nidzaru::make_triple(v2);", PLAIN),
    ("static volatile ok<901> v3{}; (void)nidzaru::make_board<2>(v3);", PLAIN),
    ("nidzaru::writer<volatile ok<902>> v4; (void)!v4.write({});", PLAIN),
    ("nidzaru::writer<volatile int> v5; (void)!v5.write(1);", PLAIN),
    ("nidzaru::place<const int> v6; nidzaru::stamp s6; (void)!v6.write(1, s6);", PLAIN),
    ("static const double a1[3] = {}; (void)nidzaru::make(a1);", "no array"),
    ("static const float a2[3] = {}; (void)nidzaru::make_board<2>(a2);", "no array"),
    ("auto own = nidzaru::make(mine::one{1.5}); (void)!own.first.write({2.5});", None),
    ("auto own = nidzaru::make_triple(mine::one{1.5}); (void)own.second.latest();", None),
    ("auto own = nidzaru::try_make(mine::one{1.5}); (void)own->second.news();", None),
    ("auto own = nidzaru::try_make_triple(mine::one{1.5}); mine::one x; std::uint64_t n; (void)!own->second.read(x, n);", None),
    ("auto own = nidzaru::make_board<2>(mine::one{1.5}); mine::one x; nidzaru::stamp s; (void)!own[0].read(x, s);", None),
    ("auto own = nidzaru::make_fan<2>(mine::one{1.5}); (void)!own.first.write({2.5}); (void)own.second[1].news();", None),
    ("static const short a3[3] = {}; (void)nidzaru::make_fan<2>(a3);", "no array"),
    ("(void)nidzaru::make_fan<0>(1.5);", FANNED),
    ("(void)nidzaru::try_make_fan<1>(1.5);", None),
    ("(void)nidzaru::make_board<1>(1.5);", "2 to 16 places"),
    ("(void)nidzaru::make_board<17>(1.5);", "2 to 16 places"),
    ("(void)nidzaru::try_make_board<17>(1.5f);", "2 to 16 places"),
    ("(void)nidzaru::make_board<16>(1.5);", None),
    ("nidzaru::reader<fixed<1>> f1; fixed<1> x{1}; std::uint64_t n; (void)!f1.read(x, n);", "there is latest|assign"),
    ("nidzaru::place<fixed<2>> f2; fixed<2> x{1}; nidzaru::stamp s; (void)!f2.read(x, s);", "there is latest|assign"),
    ("nidzaru::place<fixed<3>> f3; fixed<3> x{1}; nidzaru::stamp s; (void)!f3.read_since(s, x, s);", "assigns it"),
    ("nidzaru::place<fixed<4>> f4; (void)f4.latest(); (void)f4.news();", None),
    ("nidzaru::reader<fixed<5>, nidzaru::cell::triple> f5; if (f5.hold()) return;", None),
    ("nidzaru::reader<wide<800>, nidzaru::cell::triple> h1; if (h1.hold()) return;", HELD),
    ("nidzaru::reader<ok<801>> h2; if (h2.hold()) return;", "a triple buffer has hold"),
    ("nidzaru::writer<fixed<6>, nidzaru::cell::triple> f6; if (f6.loan() || f6.publish()) return;", None),
    ("nidzaru::writer<wide<802>, nidzaru::cell::triple> h3; if (h3.loan()) return;", HELD),
    ("nidzaru::writer<ok<803>> h4; if (h4.loan()) return;", "a triple buffer has loan"),
    ("nidzaru::writer<ok<804>> h5; if (h5.publish()) return;", "a triple buffer has publish"),
]
CPP_DECLARED = """
using writer = nidzaru::writer<double>; using reader = nidzaru::reader<double>; using place = nidzaru::place<double>;
using triple_writer = nidzaru::writer<double, nidzaru::cell::triple>;
using triple_reader = nidzaru::reader<double, nidzaru::cell::triple>;
using triple_place = nidzaru::place<double, nidzaru::cell::triple>;
using fan_writer = nidzaru::fan_writer<double>;
"""
CPP_ARGUMENTS = (
    "writer &w, reader &r, place &p, double &x, std::uint64_t &n, nidzaru::stamp &s, triple_writer &tw, triple_reader &tr, triple_place &tp, "
    "fan_writer &fw"
)
CPP_CALLS = [
    ("w.write(x)", UNUSED),
    ("r.read(x, n)", UNUSED),
    ("r.latest()", UNUSED),
    ("r.news()", UNUSED),
    ("r.look(n)", UNUSED),
    ("r.has_news()", UNUSED),
    ("r.number()", UNUSED),
    ("tr.hold()", UNUSED),
    ("tr.hold_news()", UNUSED),
    ("*tr.hold() = x", "read-only|not assignable"),
    ("tw.loan()", UNUSED),
    ("*tw.loan() = x", None),
    ("tw.publish()", UNUSED),
    ("w.operator bool()", UNUSED),
    ("w.end()", None),
    ("r.end()", None),
    ("p.write(x, s)", UNUSED),
    ("p.read(x, s)", UNUSED),
    ("p.read_since(s, x, s)", UNUSED),
    ("p.latest()", UNUSED),
    ("p.news()", UNUSED),
    ("p.has_news()", UNUSED),
    ("p.last_stamp()", UNUSED),
    ("p.end()", None),
    ("fw.write(x)", UNUSED),
    ("fw.end()", None),
    ("nidzaru::make_fan<2>(x)", UNUSED),
    ("nidzaru::try_make_fan<2>(x)", UNUSED),
    ("auto copied_fan = fw", "deleted"),
    ("fw = std::move(w)", "no match|no viable"),
    ("fw = std::move(fw)", None),
    ("nidzaru::make(x)", UNUSED),
    ("nidzaru::make<double, nidzaru::cell::triple>(x)", UNUSED),
    ("nidzaru::make_triple(x)", UNUSED),
    ("nidzaru::try_make(x)", UNUSED),
    ("nidzaru::try_make<double, nidzaru::cell::triple>(x)", UNUSED),
    ("nidzaru::try_make_triple(x)", UNUSED),
    ("nidzaru::make_board<2>(x)", UNUSED),
    ("nidzaru::try_make_board<2>(x)", UNUSED),
    ("auto copied_writer = w", "deleted"),
    ("auto copied_reader = r", "deleted"),
    ("auto copied_place = p", "deleted"),
    ("auto moved_reader = std::move(r)", None),
    ("p = std::move(p)", None),
    ("r = std::move(w)", "no match|no viable"),
    ("w = std::move(tw)", "no match|no viable"),
    ("p = std::move(tp)", "no match|no viable"),
    ("int is_no_number = w", "cannot convert|no viable conversion"),
    ("bool is_explicit = p", "cannot convert|no viable conversion"),
    ("if (!w || !r || !p) return", None),
]
BARE = [
    ("(void)nidzaru::make(1.5);", "there is try_make"),
    ("(void)nidzaru::make_triple(1);", "there is try_make"),
    ("(void)nidzaru::make_board<2>(1.5f);", "there is try_make_board"),
    ("(void)nidzaru::make_fan<2>(1.5f);", "there is try_make_fan"),
    ("(void)nidzaru::try_make(1.5); (void)nidzaru::try_make_board<2>(1.5);", None),
]
STRICT_C_ROWS = [(f"({call} ? 1 : 0)", None) for call, _ in C_CALLS]
STRICT_CPP_ROWS = [
    ("nidzaru::writer<double> a; nidzaru::reader<double, nidzaru::cell::triple> b; nidzaru::place<float> c; if (a && b && c) return", None),
    ("nidzaru::stamp s{1, 2}; if (s < nidzaru::stamp() || s != s || s >= s) return", None),
    ("auto [w, r] = nidzaru::make(1.5); double x = 0; std::uint64_t n; if (w.write(x) || r.read(x, n) || r.look(n) || r.has_news()) return", None),
    ("auto [w, r] = nidzaru::make_triple(1.5f); if (w.write(1) || r.latest() || r.news() || r.hold()) return", None),
    ("auto p = nidzaru::make_board<2>(1.5); double x; nidzaru::stamp s; if (p[0].write(1, s) || p[0].read(x, s) || p[0].news()) return", None),
    ("auto p = nidzaru::make_board<2>(1.5f); float x; nidzaru::stamp s; if (p[0].read_since(s, x, s) || p[0].has_news()) return", None),
    ("auto [w, r] = nidzaru::make_fan<2>(1.5); double x = 0; std::uint64_t n; if (w.write(x) || r[1].read(x, n)) return", None),
    ("flaps_writer w = NIDZARU_EMPTY; flaps_reader r[2] = {NIDZARU_EMPTY, NIDZARU_EMPTY}; double x = 1; if (flaps_make(&x, &w, &r)) return", None),
    ("reals_writer w = NIDZARU_EMPTY; reals_reader r = NIDZARU_EMPTY; double x = 1; if (reals_make(&x, &w, &r)) return", None),
    ("planks_place p[2] = {NIDZARU_EMPTY, NIDZARU_EMPTY}; float x = 1; if (planks_make(&x, p, 2)) return", None),
    ("loans_writer w = NIDZARU_EMPTY; double *at = nullptr; if (loans_loan(&w, &at) || loans_publish(&w)) return", None),
    ("auto [w, r] = nidzaru::make_triple(1.5f); if (!w.loan() || w.publish() || r.hold()) return", None),
    ("loans_reader r = NIDZARU_EMPTY; const double *at = nullptr; std::uint64_t n = 0; if (loans_hold(&r, &at, &n)) return", None),
    ("int used = *nidzaru_status_text(NIDZARU_DONE); if (used) return", None),
]


def functions(rows, arguments):
    """Each row as the body of a function."""
    return [(f"void f{k}({arguments}); void f{k}({arguments}) {{ {text.rstrip(';')}; }}", wants) for k, (text, wants) in enumerate(rows)]


# A page: what it shows, its language and flags, what stands above its rows, and the rows.
C_HEAD = '#include "nidzaru.h"\n'
CPP_HEAD = '#include "nidzaru.hpp"\n#include <utility>\n'
STRICT_TYPES = (
    "NIDZARU_REGISTER(reals, double);\nNIDZARU_TRIPLE_BOARD(planks, float);\nNIDZARU_TRIPLE_REGISTER(loans, double);\nNIDZARU_HOLD(loans);\n"
    "NIDZARU_LOAN(loans);\nNIDZARU_FAN(flaps, double, 2);\n"
)
C_FULL = f"{C_HANDLES}, {C_ARGUMENTS}"
PAGES = [
    ("records", C, ["-std=c11"], C_HEAD + C_TYPES, C_MACROS),
    ("statuses", C, ["-std=c11"], C_HEAD + C_DECLARED, functions(C_CALLS, C_FULL)),
    ("handles", C, ["-std=c11"], C_HEAD + C_DECLARED, functions(C_MIXED, C_FULL + ", volatile double *vx")),
    ("strict C", C, ["-std=c11", *STRICT_C, "-Wno-unused-parameter"], C_HEAD + C_DECLARED,
     [(f"int g{k}({C_FULL}); int g{k}({C_FULL}) {{ return {call}; }}", None) for k, (call, _) in enumerate(C_CALLS)]),
    ("handles", CPP, ["-std=c++17"], CPP_HEAD + C_DECLARED, functions(C_MIXED, C_FULL + ", volatile double *vx")),
    ("records", CPP, ["-std=c++17"], CPP_HEAD + CPP_TYPES, functions(CPP_ROWS, "")),
    ("macros", CPP, ["-std=c++17"], CPP_HEAD + CPP_TYPES, [
        (f"using t{k}_{kind} = {type_}; NIDZARU_{kind}(n{k}_{kind}, t{k}_{kind});", wants)
        for kind in ("REGISTER", "BOARD")
        for k, (type_, wants) in enumerate([
            ("ok<1>", None), ("large<1>", None if kind == "REGISTER" else SIZES), ("larger<1>", LARGE if kind == "REGISTER" else SIZES),
            ("wide<1>", None), ("text<1>", COPIES), ("rooted<1>", COPIES),
            ("volatile ok<1>", PLAIN), ("const ok<1>", PLAIN), ("const volatile ok<1>", PLAIN)])
    ] + [
        ("using held = ok<2>; NIDZARU_TRIPLE_REGISTER(helds, held); NIDZARU_HOLD(helds);", None),
        ("using held_wide = wide<2>; NIDZARU_TRIPLE_REGISTER(held_wides, held_wide); NIDZARU_HOLD(held_wides);", HELD),
        ("using lent = ok<3>; NIDZARU_TRIPLE_REGISTER(lents, lent); NIDZARU_LOAN(lents);", None),
        ("using lent_wide = wide<3>; NIDZARU_TRIPLE_REGISTER(lent_wides, lent_wide); NIDZARU_LOAN(lent_wides);", HELD),
    ]),
    ("calls", CPP, ["-std=c++17"], CPP_HEAD + CPP_DECLARED, functions(CPP_CALLS, CPP_ARGUMENTS)),
    ("without exceptions", CPP, ["-std=c++17", "-fno-exceptions"], CPP_HEAD, functions(BARE, "")),
    ("strict C++17", CPP, ["-std=c++17", *STRICT_CPP], CPP_HEAD + STRICT_TYPES, functions(STRICT_CPP_ROWS, "")),
    ("strict C++20", CPP, ["-std=c++20", *STRICT_CPP], CPP_HEAD + STRICT_TYPES, functions(STRICT_CPP_ROWS, "")),
]


def faults(page, folder, compilers):
    """The rows of a page that the compiler doesn't answer as they should be, and what it says of the headers where all is taken."""
    _, language, flags, head, rows = page
    head = head.rstrip("\n") + "\n"
    with tempfile.TemporaryDirectory() as room:
        source = os.path.join(room, "page." + ("c" if language == C else "cpp"))
        with open(source, "w", encoding="utf-8") as file:
            file.write(head + "".join(text + "\n" for text, _ in rows))
        compiler = compilers[language]
        unlimited = ["-ferror-limit=0", "-ftemplate-backtrace-limit=0", "-fno-caret-diagnostics"] if "clang" in compiler else ["-fmax-errors=0", "-fno-diagnostics-show-caret"]
        told = subprocess.run(
            [compiler, *flags, *unlimited, "-Wno-unused-variable", "-I", folder, "-c", source, "-o", os.path.join(room, "page.o")],
            capture_output=True, text=True, check=False,
        ).stderr
    first = head.count("\n") + 1
    lines = {int(number) for number in re.findall(re.escape(source) + r":(\d+):", told)}
    for number, (text, wants) in enumerate(rows, first):
        if wants is None and number in lines:
            yield f"it isn't taken: {text}"
        elif wants is not None and number not in lines:
            yield f"it is taken: {text}"
    for wanted in sorted({wants for _, wants in rows if wants}):
        due = sum(wants == wanted for _, wants in rows)
        count = len(re.findall(rf"(?:error|warning): .*(?:{wanted})", told))
        if count < due:
            yield f"{due} rows are to be refused for this reason, and {count} are: {wanted}"
    if all(wants is None for _, wants in rows) and told:
        yield "the compiler says: " + " ".join(told.split("\n")[:3])


def is_refused_for_narrow_pointers(folder, compiler):
    """Whether the header, once it has its own headers, isn't taken where pointers have 4 bytes, and says why."""
    with tempfile.TemporaryDirectory() as room:
        page = os.path.join(room, "page.i")
        made = subprocess.run([compiler, "-E", "-P", "-I", folder, "-include", "nidzaru.h", "-x", "c", "/dev/null", "-o", page], check=False)
        told = subprocess.run([compiler, "-m32", "-w", "-fsyntax-only", page], capture_output=True, text=True, check=False)
    return not made.returncode and told.returncode != 0 and "the library is built for pointers of 8 bytes" in told.stderr


def main(folder, c_compiler, cpp_compiler):
    compilers = {C: c_compiler, CPP: cpp_compiler}
    passed = failed = 0
    for page in PAGES:
        name, language, rows = page[0], page[1], page[4]
        wrong = list(faults(page, folder, compilers))
        passed += len(rows) - len(wrong)
        failed += len(wrong)
        for text in wrong:
            print(f"test: refused, {name} ({compilers[language]}): FAILED: {text[:160]}")
        if not wrong:
            print(f"test: refused, {name} ({compilers[language]}): ok, {len(rows)} rows")
    if is_refused_for_narrow_pointers(folder, c_compiler):
        passed += 1
    else:
        failed += 1
        print(f"test: refused, pointers of 4 bytes ({c_compiler}): FAILED: the header is taken")
    print(f"{passed} passed, {failed} failed")
    return failed != 0


if __name__ == "__main__":
    if len(sys.argv) != 4:
        sys.exit(__doc__)
    sys.exit(main(*sys.argv[1:]))
