"""Fails unless code, exports, header and both wrappers name the same calls, with the same parameters in the same order,
the same reply and the same constants.

  tests/library/agree.py [ARCHIVE]
"""

import ctypes
import os
import re
import subprocess
import sys

TOP = os.path.join(os.path.dirname(os.path.abspath(__file__)), "..", "..")
SIZES = {"uint8_t": "u8", "uint16_t": "u16", "uint32_t": "u32", "int32_t": "i32", "size_t": "usize"}
PYTHON = {ctypes.c_uint8: "u8", ctypes.c_uint16: "u16", ctypes.c_uint32: "u32", ctypes.c_int32: "i32",
          ctypes.c_size_t: "usize"}


def text(*path):
    with open(os.path.join(TOP, *path), encoding="utf-8") as file:
        return file.read()


def without_comments(source):
    return re.sub(r"/\*.*?\*/|//[^\n]*", " ", source, flags=re.S)


def split(parameters):
    return [one.strip() for one in parameters.split(",") if one.strip()]


def from_header():
    calls = {}
    source = without_comments(text("include", "strakewhip.h"))
    for name, parameters in re.findall(r"strakewhip_reply\s+(strakewhip_\w+)\s*\(([^)]*)\)\s*;", source):
        calls[name] = []
        for one in split(parameters):
            parts = re.fullmatch(r"(const\s+)?(\w+)\s*(\*?)\s*(\w+)(?:\[(\d+)\])?", one)
            const, sort, star, label, count = parts.groups()
            form = SIZES[sort]
            if count:
                form = f"*mut [{form}; {count}]"
            elif star:
                form = f"*{'const' if const else 'mut'} {form}"
            calls[name].append((label, form))
    return calls


def from_rust():
    source = without_comments(text("bindings", "rust", "src", "raw.rs"))
    return {name: [tuple(part.strip() for part in one.split(":", 1)) for one in split(parameters)]
            for name, parameters in re.findall(r"pub fn (strakewhip_\w+)\(([^)]*)\) -> Reply;", source)}


def from_code():
    calls = {}
    folder = os.path.join(TOP, "crates", "strakewhip", "src")
    for file in sorted(os.listdir(folder)):
        source = without_comments(text(folder, file))
        for name, parameters in re.findall(r'#\[(?:unsafe\()?no_mangle\)?\]\s*pub extern "C" fn (\w+)\(([^)]*)\) -> Reply', source):
            calls[name] = []
            for one in split(parameters):
                label, form = (part.strip() for part in one.split(":", 1))
                slice_of = re.fullmatch(r"&(mut )?\[(\w+)\]", form)
                if slice_of:
                    calls[name].append((label, f"*{'mut' if slice_of[1] else 'const'} {slice_of[2]}"))
                    calls[name].append((label + "_length", "usize"))
                else:
                    calls[name].append((label, form.replace("&mut ", "*mut ")))
    return calls


def python_form(sort):
    if sort in PYTHON:
        return PYTHON[sort]
    inner = sort._type_
    return f"*[{PYTHON[inner._type_]}; {inner._length_}]" if hasattr(inner, "_length_") else "*" + PYTHON[inner]


def from_python(module):
    return {name: [python_form(sort) for sort in parameters] for name, parameters in module.CALLS.items()}


def exports(archive):
    said = subprocess.run(["nm", "-g", "--defined-only", archive], check=True, capture_output=True, text=True).stdout
    return set(re.findall(r" T (strakewhip_\w+)$", said, flags=re.M))


def c_fields(source):
    inside = re.search(r"typedef struct \{(.*?)\} strakewhip_reply;", without_comments(source), flags=re.S)[1]
    return [(name, SIZES[sort]) for sort, name in re.findall(r"(\w+) (\w+);", inside)]


def rust_fields(source):
    inside = re.search(r"pub struct Reply \{(.*?)\}", without_comments(source), flags=re.S)[1]
    return re.findall(r"pub (\w+): (\w+)", inside)


def constants(source, pattern):
    return {name: eval(value.replace("_", ""), {"SHEET": 8192}) for name, value in re.findall(pattern, source)}


def main():
    sys.path.insert(0, os.path.join(TOP, "bindings", "python"))
    import strakewhip as module
    archive = sys.argv[1] if len(sys.argv) > 1 else os.path.join(TOP, "crates", "strakewhip", "out", "libstrakewhip.a")
    header, rust, code, python = from_header(), from_rust(), from_code(), from_python(module)
    faults = [] if header else ["the header names no call"]

    def same(what, one, other):
        if one != other:
            faults.append(f"{what}: {one} against {other}")

    same("exports and header", sorted(exports(archive)), sorted(header))
    for what, calls in (("code", code), ("Rust", rust), ("Python", python)):
        same(f"names of {what} and header", sorted(calls), sorted(header))
    for name in sorted(header):
        same(f"code and header, {name}", code.get(name), header[name])
        same(f"Rust and header, {name}", rust.get(name), header[name])
        # ctypes has no const and no names.
        bare = [re.sub(r"\*(const|mut) ", "*", form) for _, form in header[name]]
        same(f"Python and header, {name}", python.get(name), bare)
    c = text("include", "strakewhip.h")
    raw, wrapper = text("bindings", "rust", "src", "raw.rs"), text("bindings", "rust", "src", "lib.rs")
    same("reply of Rust", rust_fields(raw), c_fields(c))
    same("reply of code", rust_fields(text("crates", "replies", "src", "lib.rt")), c_fields(c))
    same("reply of Python", [(name, PYTHON[sort]) for name, sort in module.Reply._fields_], c_fields(c))
    sizes = constants(c, r"#define STRAKEWHIP_(SHEET|DIVISION|MOST_\w+) (\d+)")
    same("constants of Rust", constants(wrapper, r"pub const (\w+): usize = ([^;]+);"), sizes)
    same("constants of Python", {name: getattr(module, name, None) for name in sizes}, sizes)
    for fault in faults:
        print("library:", fault)
    if faults:
        sys.exit(1)
    print(f"library: code, exports, header and wrappers agree on {len(header)} calls")


if __name__ == "__main__":
    main()
