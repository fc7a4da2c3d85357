#!/usr/bin/env python3
"""generate.py: writes pothatch.h, pothatch_inline.h, the Rust crate's sys.rs and refusal.rs and the Python package's _api.py from api.txt
and rules.txt. generate.py --check [LIBRARY]: compares those files with what would be written, the table with the exported functions of
crates/pothatch_c/src, their contracts with those in crates/pothatch/src, and with LIBRARY (a shared library) the table with its exported
symbols, its layout number and the proved sizes."""
import ctypes
import glob
import os
import re
import subprocess
import sys

HERE = os.path.dirname(os.path.abspath(__file__))
C_NUMBERS = {"u8": "uint8_t", "u16": "uint16_t", "u32": "uint32_t", "u64": "uint64_t"}
USES = ("number", "in", "state", "dst", "result")
BY_HAND = ("request", "configuration")  # the objects that a caller may make
WIDTH = 140


class Member:
    def __init__(self, line):
        words, _, self.text = (part.strip() for part in line.partition("|"))
        self.name, kind = words.split()
        self.base, *dims = re.split(r"[\[\]]+", kind.rstrip("]"))
        self.dims = [int(d) for d in dims]


class Struct:
    def __init__(self, name, kind, text, state):
        self.name, self.kind, self.text, self.state, self.members, self.size = name, kind, text, state, [], 0
        if kind:
            self.members += [Member("kind u8 | '%s'" % kind), Member("layout u8")]


class Param:
    def __init__(self, line):
        words = line.split()
        self.name, self.use, self.kind, self.count, self.codes = words[0], words[1], None, None, None
        if self.use not in USES:
            sys.exit("api.txt: %s: no use is called %s" % (line.strip(), self.use))
        if self.use == "number":
            self.codes = words[2] if len(words) > 2 else None
        else:
            self.kind = words[2]
            self.count = int(words[3]) if len(words) > 3 else None

    @property
    def is_value(self):
        """A result that is a number, behind an aligned pointer."""
        return self.use == "result" and self.kind in C_NUMBERS

    @property
    def is_const(self):
        return self.use == "in"


class Call:
    def __init__(self, name, answer, group):
        self.name, self.answer, self.group, self.text, self.params = name, answer, group, [], []


class Api:
    """The table: `codes` (name, text, entries), `structs` by name and `calls`, each in the table's order."""

    def __init__(self, path):
        self.codes, self.structs, self.calls, self.numbers = [], {}, [], {}
        group = at = None
        for line in open(path, encoding="utf-8"):
            line = line.rstrip("\n")
            if not line or line.startswith("#"):
                continue
            if line.startswith("  | ") and at == "group":
                group += line[3:]
                continue
            if line.startswith("  "):
                self.entry(at, line.strip())
                continue
            word, _, rest = line.partition(" ")
            if word in ("layout", "interface"):
                self.numbers[word] = int(rest)
            elif word == "codes":
                name, _, text = rest.partition(" ")
                at = (name, text, [])
                self.codes.append(at)
            elif word in ("struct", "state"):
                at = self.struct(rest, word == "state")
            elif word == "group":
                group, at = rest, "group"
            elif word == "call":
                name, _, answer = rest.partition(" -> ")
                at = Call(name, answer or "u32", group)
                self.calls.append(at)
            else:
                sys.exit("api.txt: %s: not understood" % line)
        for struct in self.structs.values():
            struct.size = sum(self.bytes_of(m) for m in struct.members)

    def struct(self, rest, state):
        name, _, text = rest.partition(" ")
        kind = None
        if text.startswith("'"):
            kind, text = text[1], text[4:]
        self.structs[name] = Struct(name, kind, text, state)
        return self.structs[name]

    @staticmethod
    def entry(at, line):
        if isinstance(at, tuple):
            name, value, text = line.split(" ", 2)
            at[2].append((name, int(value), text))
        elif isinstance(at, Struct):
            at.members.append(Member(line))
        elif line.startswith("|"):
            at.text.append(line[1:].strip())
        else:
            at.params.append(Param(line))

    def bytes_of(self, member):
        one = 1 if member.base == "u8" else sum(self.bytes_of(m) for m in self.structs[member.base].members)
        for d in member.dims:
            one *= d
        return one

    def offsets(self, struct):
        at = 0
        for m in struct.members:
            yield m, at
            at += self.bytes_of(m)

    def refusals(self):
        return next(entries for name, _, entries in self.codes if name == "refusal")


# ---- C
def wrapped(words, first, rest, width=WIDTH):
    """Words put into lines: the first begins with `first`, the others with `rest`."""
    lines, line = [], first
    for i, word in enumerate(words):
        glue = "" if line in (first, rest) else " "
        if len(line) + len(glue) + len(word) > width and line not in (first, rest):
            lines.append(line)
            line, glue = rest, ""
        line += glue + word
    return lines + [line]


def comment(text, indent=""):
    return wrapped((text + " */").replace(" */", "\0*/").split(" "), indent + "/* ", indent + " * ")


def finished(lines):
    return [line.replace("\0", " ").rstrip() for line in lines]


def c_parameters(call):
    words = []
    for p in call.params:
        if p.use == "number":
            words.append("uint64_t %s" % p.name)
        elif p.is_value:
            words.append("%s *%s" % (C_NUMBERS[p.kind], p.name))
        else:
            words += ["%suint8_t *%s" % ("const " if p.is_const else "", p.name), "uint64_t %s_len" % p.name]
    return words


def c_prototype(call):
    params = [w + "," for w in c_parameters(call)] or ["void,"]
    params[-1] = params[-1][:-1] + ")" + ("\0POTHATCH_CHECKED;" if call.params else ";")
    return wrapped(params, "uint32_t pothatch_%s(" % call.name, "    ")


def kinds_text(call):
    """The kinds of a call's pointer parameters, as [in] payload [result] out."""
    found = []
    for use in USES[1:]:
        names = []
        for p in call.params:
            if p.use == use:
                size = " (%d bytes)" % p.count if p.count else ""
                names.append(p.name + (": a struct pothatch_%s" % p.kind if p.kind not in ("bytes", *C_NUMBERS) else size))
        if names:
            found.append("[%s] %s" % (use, ", ".join(names)))
    return "; ".join(found)


def c_member(m, width=36):
    base = "uint8_t" if m.base == "u8" else "struct pothatch_" + m.base
    left = "    %s %s%s;" % (base, m.name, "".join("[%d]" % d for d in m.dims))
    return left.ljust(width) + " /* %s */" % m.text if m.text else left


def c_header(api):
    out = ["/* pothatch.h: the proved join and rekey software of a 6TiSCH thermostat, for C. Layout %d." % api.numbers["layout"]]
    out += [" * Made by bindings/generate.py. Each function is the proved function of the same name in the sources' crate pothatch.", " *"]
    out += [(" * " + line).rstrip() for line in open(os.path.join(HERE, "rules.txt"), encoding="utf-8").read().splitlines()]
    out[-1] += " */"
    out += ["#ifndef POTHATCH_H", "#define POTHATCH_H", "#include <stdint.h>", "#ifdef __cplusplus", 'extern "C" {', "#endif", ""]
    out += ["/* ---- numbers */", "#define POTHATCH_LAYOUT %du" % api.numbers["layout"], ""]
    for name, text, entries in api.codes:
        out += comment(text)
        if name == "limit":
            out += ["#define POTHATCH_%s %du" % (n, v) + " /* %s */" % t for n, v, t in entries] + [""]
            continue
        out.append("enum pothatch_%s {" % name)
        out += (["    POTHATCH_OK = 0,"] if name == "refusal" else [])
        out += [("    POTHATCH_%s = %d," % (n, v)).ljust(32) + " /* %s */" % t for n, v, t in entries]
        out[-1] = out[-1].replace(",", " ", 1)
        out += ["};", ""]
    out += ["/* ---- structs of bytes */"]
    for s in api.structs.values():
        out += comment("%s %d bytes." % (s.text, s.size)) + ["struct pothatch_%s {" % s.name]
        out += [c_member(m) for m in s.members] + ["};", ""]
    out += c_attributes()
    group = None
    for call in api.calls:
        if call.group != group:
            group = call.group
            out += comment("---- %s." % group)
        kinds = kinds_text(call)
        out += comment(" ".join(call.text) + (" " + kinds if kinds else "")) + c_prototype(call) + [""]
    out += open(os.path.join(HERE, "c", "numbers.h"), encoding="utf-8").read().rstrip().split("\n")
    out += c_asserts(api) + ["#ifdef __cplusplus", "}", "#endif", "#endif"]
    return "\n".join(finished(out)) + "\n"


def c_attributes():
    out = ["/* A refusal must not be overlooked. Define POTHATCH_MAY_IGNORE before the include where that is not wanted. */"]
    out += ["#if defined(__GNUC__) && !defined(POTHATCH_MAY_IGNORE)", "#define POTHATCH_CHECKED __attribute__((warn_unused_result))"]
    out += ["#else", "#define POTHATCH_CHECKED", "#endif", ""]
    text = "Passes a struct, or all of an array, as a pointer and its length: pothatch_node_poll(POTHATCH_LEND(&node), time, &due). An "
    text += "array needs the & too: POTHATCH_LEND(&text). Without it, and for a pointer to bytes, the size would be 1, which does not "
    text += "compile; a single byte is passed as a pointer and 1. "
    out += comment(text + "The functions of pothatch_inline.h take typed pointers instead.")
    out += ["#define POTHATCH_LENGTH(p) (sizeof *(p) * sizeof(char[sizeof *(p) > 1 ? 1 : -1]))"]
    out += ["#define POTHATCH_LEND(p) ((uint8_t *)(void *)(p)), POTHATCH_LENGTH(p)"]
    return out + ["#define POTHATCH_LEND_IN(p) ((const uint8_t *)(const void *)(p)), POTHATCH_LENGTH(p)", ""]


def c_asserts(api):
    out = ["", "/* ---- a struct with padding is not an image: refuse to compile */", "#if defined(__cplusplus)"]
    out += ["#define POTHATCH_IS(t, n) static_assert(sizeof(struct t) == (n), #t)", "#else"]
    out += ["#define POTHATCH_IS(t, n) _Static_assert(sizeof(struct t) == (n), #t)", "#endif"]
    return out + ["POTHATCH_IS(pothatch_%s, %d);" % (s.name, s.size) for s in api.structs.values()] + ["#undef POTHATCH_IS"]


# ---- the typed layer for C
def inline_parameters(call):
    """Declarations of the typed function, and the arguments that it hands on."""
    words, given = [], []
    for p in call.params:
        const = "const " if p.is_const else ""
        if p.use == "number":
            words.append("uint64_t %s" % p.name)
            given.append(p.name)
        elif p.is_value:
            words.append("%s *%s" % (C_NUMBERS[p.kind], p.name))
            given.append(p.name)
        elif p.kind == "bytes" and p.count:
            words.append("%suint8_t %s[%d]" % (const, p.name, p.count))
            given += [p.name, "%d" % p.count]
        elif p.kind == "bytes":
            words += ["%suint8_t *%s" % (const, p.name), "uint64_t %s_len" % p.name]
            given += [p.name, "%s_len" % p.name]
        else:
            words.append("%sstruct pothatch_%s *%s" % (const, p.kind, p.name))
            given += ["(%suint8_t *)%s" % (const, p.name), "sizeof *%s" % p.name]
    return words, given


def inline_initial(api, plus):
    """The _INIT macro of each struct that has a kind; C++ (plus) warns of members that are left out."""
    out = []
    for s in api.structs.values():
        value = "{}" if plus else "{ 0 }"
        if s.name in BY_HAND:
            rest = ", ".join("0" if m.base == "u8" and not m.dims else "{}" for m in s.members[2:])
            value = "{ '%s', POTHATCH_LAYOUT, %s }" % (s.kind, rest) if plus else "{ .kind = '%s', .layout = POTHATCH_LAYOUT }" % s.kind
        if s.kind:
            out.append("#define POTHATCH_%s_INIT %s" % (s.name.upper(), value))
    return out


def inline_header(api):
    text = "pothatch_inline.h: pothatch.h with types. Each ph_NAME but ph_node_reserve calls pothatch_NAME and does nothing else: "
    text += "structs are passed by pointers of their own type, buffers of a fixed length without a length, and a result that is not "
    text += "looked at is a warning. ph_node_reserve is made of calls of ph_node_send. Passing a ledger where a node is due is an error "
    text += "in C++. In C it may be a warning only: compile with -Werror=incompatible-pointer-types (and for gcc "
    out = comment(text + "-Werror=discarded-qualifiers) to make it an error. The rules of pothatch.h hold. Made by bindings/generate.py.")
    out += ["#ifndef POTHATCH_INLINE_H", "#define POTHATCH_INLINE_H", '#include "pothatch.h"', "#ifdef __cplusplus", 'extern "C" {']
    out += ["#endif", ""]
    out += ["#if defined(__GNUC__)", "#define PH_CALL static inline __attribute__((warn_unused_result, unused))"]
    out += ["#else", "#define PH_CALL static inline", "#endif", ""]
    out += ["/* What a struct holds before it is used: zeros, and for an object that is made by hand its kind and layout. */"]
    out += ["#ifdef __cplusplus"] + inline_initial(api, True) + ["#else"] + inline_initial(api, False) + ["#endif"]
    out += ["", "/* The refusal's name and meaning, for logs. */", "static inline const char *pothatch_strerror(uint32_t refusal) {"]
    out += ["    switch (refusal) {", '    case POTHATCH_OK: return "OK";']
    out += ['    case POTHATCH_%s: return "%s: %s";' % (n, n, t) for n, _, t in api.refusals()]
    out += ['    default: return "not a refusal";', "    }", "}", ""]
    for call in api.calls:
        if not call.params:
            continue
        words, given = inline_parameters(call)
        params = [w + "," for w in words]
        params[-1] = params[-1][:-1] + ")\0{"
        out += wrapped(params, "PH_CALL uint32_t ph_%s(" % call.name, "    ")
        args = [g + "," for g in given]
        args[-1] = args[-1][:-1] + ");"
        out += wrapped(args, "    return pothatch_%s(" % call.name, "        ") + ["}", ""]
    out += open(os.path.join(HERE, "c", "reserve.h"), encoding="utf-8").read().rstrip().split("\n") + [""]
    out += ["#ifdef __cplusplus", "}", "#endif", "#endif"]
    return "\n".join(finished(out)) + "\n"


# ---- Rust
def camel(name):
    return "".join(w.capitalize() for w in name.split("_"))


def rust_type(m):
    kind = "u8" if m.base == "u8" else camel(m.base)
    for d in reversed(m.dims):
        kind = "[%s; %d]" % (kind, d)
    return kind


def rust_getters(s):
    """A state's members may be read, and are changed by calls only."""
    out = ["", "impl %s {" % camel(s.name)]
    for m in s.members:
        kind = rust_type(m)
        out += ["    /// %s." % (m.text or m.name.capitalize()).rstrip(".")]
        out += ["    pub const fn %s(&self) -> %s {" % (m.name, kind if kind == "u8" else "&" + kind)]
        out += ["        %sself.%s" % ("" if kind == "u8" else "&", m.name), "    }"]
    return out + ["}"]


def rust_sys(api):
    out = ["//! The functions and structs of pothatch.h, as C declares them. Made by bindings/generate.py."]
    out += ["//!", "//! The rules for these functions (what each call may write, lengths, aliasing) are in pothatch.h.", ""]
    out += ["/// The layout number of the images that this crate was made for.", "pub const LAYOUT: u32 = %d;" % api.numbers["layout"]]
    for name, text, entries in api.codes:
        if name in ("refusal", "limit"):
            continue
        out.append("")
        for n, v, t in entries:
            out += ["/// %s: %s." % (name, t), "pub const %s: u8 = %d;" % (n, v)]
    out.append("")
    for n, v, t in next(entries for name, _, entries in api.codes if name == "limit"):
        out += ["/// Number of %s." % t, "pub const %s: usize = %d;" % (n, v)]
    for s in api.structs.values():
        out += ["", "/// %s" % s.text, "///", "/// %d bytes%s." % (s.size, ", all public" if not s.state else "; changed by calls only")]
        out += ["#[repr(C)]"] + ([] if s.state else ["#[derive(Clone, Copy, PartialEq, Eq)]"]) + ["pub struct %s {" % camel(s.name)]
        for m in s.members:
            out += ["    /// %s." % (m.text or m.name.replace("_", " ").capitalize()).rstrip(".")]
            out += ["    pub%s %s: %s," % ("(crate)" if s.state else "", m.name, rust_type(m))]
        out += ["}", "", "image!(%s, %d);" % (camel(s.name), s.size)]
        if s.state:
            out += rust_getters(s)
    out += ["", "#[rustfmt::skip]", 'extern "C" {']
    for call in api.calls:
        words = []
        for p in call.params:
            if p.use == "number":
                words.append("%s: u64," % p.name)
            elif p.is_value:
                words.append("%s: *mut %s," % (p.name, p.kind))
            else:
                words += ["%s: *%s u8," % (p.name, "const" if p.is_const else "mut"), "%s_len: u64," % p.name]
        out += wrapped(" ".join(call.text).split(" "), "    /// ", "    /// ")
        words = [w.replace(" ", "\0") for w in words] or [","]
        words[-1] = words[-1][:-1] + ")\0->\0u32;"
        out += wrapped(words, "    pub fn pothatch_%s(" % call.name, "        ")
    return "\n".join(finished(out + ["}"])) + "\n"


def rust_refusal(api):
    out = ["//! Refusals. Made by bindings/generate.py.", "", "/// Why a call was refused: the papers' numbers."]
    out += ["#[derive(Debug, Clone, Copy, PartialEq, Eq, Hash)]", "#[non_exhaustive]", "pub enum Refusal {"]
    for n, v, t in api.refusals():
        out += ["    /// %d: %s." % (v, t), "    %s," % n.capitalize()]
    out += ["    /// A number that this version of the crate does not know.", "    Other(u32),", "}", "", "impl Refusal {"]
    out += ["    /// The refusal that has this number; `None` for 0, which is no refusal."]
    out += ["    pub const fn from_number(number: u32) -> Option<Refusal> {"]
    out += ["        Some(match number {", "            0 => return None,"]
    out += ["            %d => Refusal::%s," % (v, n.capitalize()) for n, v, _ in api.refusals()]
    out += ["            other => Refusal::Other(other),", "        })", "    }", ""]
    out += ["    /// The number in the papers, which C returns.", "    pub const fn number(self) -> u32 {", "        match self {"]
    out += ["            Refusal::%s => %d," % (n.capitalize(), v) for n, v, _ in api.refusals()]
    out += ["            Refusal::Other(number) => number,", "        }", "    }", ""]
    out += ["    /// The name in the papers.", "    pub const fn name(self) -> &'static str {", "        match self {"]
    out += ['            Refusal::%s => "%s",' % (n.capitalize(), n) for n, v, _ in api.refusals()]
    out += ['            Refusal::Other(_) => "OTHER",', "        }", "    }", ""]
    out += ["    /// The meaning in a few words.", "    pub const fn meaning(self) -> &'static str {", "        match self {"]
    out += ['            Refusal::%s => "%s",' % (n.capitalize(), t) for n, v, t in api.refusals()]
    out += ['            Refusal::Other(_) => "a refusal that this version of the crate does not know",', "        }", "    }", "}"]
    return "\n".join(out) + "\n"


# ---- Python
def python_api(api):
    out = ['"""Codes, structs and signatures of the library. Made by bindings/generate.py."""', "from __future__ import annotations", ""]
    out += ["import ctypes", "import enum", "from typing import Any, Dict, Optional, Tuple, Type, TypeVar, Union"]
    out += ["", "LAYOUT = %d" % api.numbers["layout"]]
    out += open(os.path.join(HERE, "python", "members.py"), encoding="utf-8").read().rstrip().split("\n")[1:] + [""]
    for name, text, entries in api.codes:
        out += ["", "class %s(enum.IntEnum):" % camel(name), '    """%s"""' % text, ""]
        out += ["    %s = %d  # %s" % (n, v, t) for n, v, t in entries] + [""]
    out += ["", "MEANINGS = {"] + ['    %d: "%s",' % (v, t) for n, v, t in api.refusals()] + ["}", ""]
    for s in api.structs.values():
        base = "_Object" if s.name in BY_HAND else "_Image" if s.kind else "_Members"
        out += ["", "class %s(%s):" % (camel(s.name), base), '    """%s %d bytes."""' % (s.text, s.size), ""]
        out += (['    KIND = "%s"' % s.kind] if s.kind else []) + ["    _fields_ = ["]
        for m in s.members:
            kind, dims = ("_U8", list(m.dims)) if m.base == "u8" else (camel(m.base), list(m.dims))
            if m.base == "u8" and dims:
                kind = "_octets(%d)" % dims.pop()
            for d in reversed(dims):
                kind = "%s * %d" % (kind, d)
            out.append('        ("%s", %s),%s' % (m.name, kind, "  # " + m.text if m.text else ""))
        out += ["    ]", ""]
    out += ["", "# the struct of each kind", "KINDS = {"]
    out += ['    "%s": %s,' % (s.kind, camel(s.name)) for s in api.structs.values() if s.kind] + ["}", ""]
    out += ["# name, use (number, in, state, dst, result), type (bytes, a number's or a struct's name) and fixed length of each parameter"]
    out += ["Parameter = Tuple[str, str, Optional[str], Optional[int]]", "SIGNATURES: dict[str, tuple[Parameter, ...]] = {"]
    for call in api.calls:
        out.append('    "%s": (' % call.name)
        for p in call.params:
            kind = p.kind if p.kind in (None, "bytes") or p.kind in C_NUMBERS else camel(p.kind)
            out.append("        (%s, %s, %s, %s)," % tuple('"%s"' % x if isinstance(x, str) else x for x in (p.name, p.use, kind, p.count)))
        out.append("    ),")
    return "\n".join(out + ["}"]) + "\n"


# ---- comparing
def source_declarations():
    """Each exported function of crates/pothatch_c/src: its parameters as (name, Rattle type) and its answer."""
    found = {}
    for path in sources("pothatch_c"):
        text = open(path, encoding="utf-8").read()
        here = re.findall(r'#\[unsafe\(no_mangle\)\]\s+pub extern "C" fn (\w+)\(([^)]*)\) -> (\w+)', text)
        if len(here) != text.count("no_mangle"):
            sys.exit("api: %s: a marked function was not understood" % os.path.basename(path))
        for name, params, answer in here:
            pairs = [tuple(w.strip() for w in p.split(":")) for p in params.split(",") if p.strip()]
            found[name] = (pairs, answer)
    return found


def sources(crate):
    return glob.glob(os.path.join(HERE, "..", "crates", crate, "src", "*.rt"))


def contracts(crate):
    """Of each function pothatch_.. of a crate: its signature with its clauses, its body and its module."""
    found = {}
    for path in sources(crate):
        text = open(path, encoding="utf-8").read()
        for name, clauses, body in re.findall(r'^pub (?:extern "C" )?fn (pothatch_\w+)(\(.*?)^\{\n(.*?)^\}', text, re.M | re.S):
            module = os.path.basename(path)[:-3]
            clauses = " ".join(clauses.split()).replace("( ", "(", 1).replace(", )", ")", 1)
            found[name] = (clauses, re.sub(r"\s+", "", body).replace(",)", ")"), module)
    return found


def unlike_exports():
    """The exports that do not restate the contract of the function of their name in crates/pothatch, or do more than call it."""
    library, exports = contracts("pothatch"), contracts("pothatch_c")
    for name in sorted(set(library) | set(exports)):
        clauses, _, module = library.get(name, ("", "", ""))
        params = [p.split(":")[0].strip() for p in clauses[1 : clauses.find(")")].split(",") if p.strip()]
        if exports.get(name) != (clauses, "pothatch::%s::%s(%s)" % (module, name, ",".join(params)), module):
            yield name


def table_declarations(api):
    def kind(p):
        if p.use == "number":
            return "u64"
        if p.is_value:
            return "&mut " + p.kind
        return "&[u8]" if p.is_const else "&mut [u8]"

    return {"pothatch_" + c.name: ([(p.name, kind(p)) for p in c.params], c.answer) for c in api.calls}


def compare_library(api, path):
    """Exported symbols, layout number and proved sizes against the table."""
    bad = 0
    listed = subprocess.run(["nm", "-D", "--defined-only", path], capture_output=True, text=True, check=True).stdout
    exported = {line.split()[-1] for line in listed.splitlines() if " T " in line}
    wanted = {"pothatch_" + c.name for c in api.calls}
    for name in sorted(exported ^ wanted):
        bad += 1
        print("api: %s is only in the %s" % (name, "library" if name in exported else "table"))
    library = ctypes.CDLL(os.path.abspath(path))
    if library.pothatch_layout() != api.numbers["layout"]:
        bad += 1
        print("api: the library's layout number is %d" % library.pothatch_layout())
    kinds = {s.kind: s for s in api.structs.values() if s.kind}
    size = ctypes.c_uint32()
    for kind in range(600):
        answer = library.pothatch_size(ctypes.c_uint64(kind), ctypes.byref(size))
        struct = kinds.get(chr(kind))
        if (answer, size.value) != ((0, struct.size) if struct else (13, 0)):
            bad += 1
            print("api: kind %d: answer %d, size %d" % (kind, answer, size.value))
    print("api: %d symbols and %d sizes of the library compared" % (len(wanted), len(kinds)))
    return bad


def versions(api):
    """VERSION is LAYOUT.INTERFACE.PATCH, and crate and package have the same."""
    version = open(os.path.join(HERE, "..", "VERSION"), encoding="ascii").read().strip()
    found = {"VERSION": version.rsplit(".", 1)[0] == "%d.%d" % (api.numbers["layout"], api.numbers["interface"])}
    for name, line in (("rust/pothatch/Cargo.toml", 'version = "%s"'), ("python/pothatch/__init__.py", '__version__ = "%s"')):
        found[name] = line % version in open(os.path.join(HERE, name), encoding="utf-8").read().split("\n")
    return [name for name, right in found.items() if not right]


def main():
    api = Api(os.path.join(HERE, "api.txt"))
    files = {
        "pothatch.h": c_header(api),
        "pothatch_inline.h": inline_header(api),
        "rust/pothatch/src/sys.rs": rust_sys(api),
        "rust/pothatch/src/refusal.rs": rust_refusal(api),
        "python/pothatch/_api.py": python_api(api),
    }
    if sys.argv[1:2] != ["--check"]:
        for name, text in files.items():
            os.makedirs(os.path.dirname(os.path.join(HERE, name)), exist_ok=True)
            with open(os.path.join(HERE, name), "w", encoding="utf-8") as f:
                f.write(text)
        return 0
    bad = 0
    for name, text in files.items():
        path = os.path.join(HERE, name)
        if not os.path.exists(path) or open(path, encoding="utf-8").read() != text:
            bad += 1
            print("api: %s is not what generate.py writes" % name)
    for name in versions(api):
        bad += 1
        print("api: %s has another version" % name)
    source, table = source_declarations(), table_declarations(api)
    for name in sorted(set(source) | set(table)):
        if source.get(name) != table.get(name):
            bad += 1
            print("api: %s\n  source: %s\n  table:  %s" % (name, source.get(name), table.get(name)))
    for name in unlike_exports():
        bad += 1
        print("api: %s of crates/pothatch_c does not call that of crates/pothatch under the same contract" % name)
    if len(sys.argv) > 2:
        bad += compare_library(api, sys.argv[2])
    print("api: %d functions, %d structs, %d files, %d differ" % (len(table), len(api.structs), len(files), bad))
    return 1 if bad else 0


if __name__ == "__main__":
    sys.exit(main())
