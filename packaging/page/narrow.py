#!/usr/bin/env python3
"""Makes of a WebAssembly module with 64-bit memory the same code with 32-bit memory, by wasm-opt of Debian's package binaryen:

    packaging/page/narrow.py WIDE NARROW

wasm-opt cuts each address to 32 bits, by `i32.wrap_i64`. Version 108 does not cut the addresses of loads and stores of a part of a vector, such as
`v128.load8_lane`, and then refuses its own output. For this version the script cuts these addresses in the text of the module first. Whichever way
is taken, wasm-opt validates NARROW as a module with 32-bit memory.
"""

import pathlib
import re
import subprocess
import sys
import tempfile

WASM_OPT = ["wasm-opt", "--quiet", "--enable-bulk-memory", "--enable-sign-ext", "--enable-simd"]
TOKEN = re.compile(r'"(?:[^"\\]|\\.)*"|;;[^\n]*|[()]|[^\s()";]+|\s+|;')
PART_OF_VECTOR = re.compile(r"v128\.(load\w*_(lane|splat|zero|[su])|store\w*_lane)")


def cut_addresses(text):
    """Returns the text of a module in which the address of each load and store of a part of a vector is cut to 32 bits. An address is the first
    operand of its instruction."""
    out, depth, awaited, opened = [], 0, set(), set()  # awaited, opened: the depths at which an address comes next, and at which it is open
    for token in TOKEN.findall(text):
        if token == "(":
            if depth in awaited:
                awaited.remove(depth)
                opened.add(depth)
                out.append("(i32.wrap_i64 ")
            depth += 1
        elif token == ")":
            depth -= 1
            if depth in opened:
                opened.remove(depth)
                out.append(")")
        elif PART_OF_VECTOR.fullmatch(token):
            awaited.add(depth)
        out.append(token)
    return "".join(out)


def main(wide, narrow):
    lowering = ["--enable-memory64", "--memory64-lowering", "-o", narrow]
    if subprocess.run([*WASM_OPT, *lowering, wide], stderr=subprocess.DEVNULL, check=False).returncode == 0:
        return
    with tempfile.TemporaryDirectory() as room:
        shown, lowered = pathlib.Path(room, "shown.wat"), pathlib.Path(room, "lowered.wasm")
        subprocess.run([*WASM_OPT, "--enable-memory64", "-S", "-o", shown, wide], check=True)
        shown.write_text(cut_addresses(shown.read_text(encoding="utf-8")), encoding="utf-8")
        subprocess.run([*WASM_OPT, *lowering[:2], "--no-validation", "-o", lowered, shown], check=True)
        subprocess.run([*WASM_OPT, "-o", narrow, lowered], check=True)


if __name__ == "__main__":
    main(*sys.argv[1:])
