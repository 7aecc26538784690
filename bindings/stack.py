#!/usr/bin/env python3
"""The stack that a call needs, read off the machine code of the archive (x86-64, by objdump).

    python3 bindings/stack.py crates/redstartgilt/out/libredstartgilt.a

From each exported function the deepest path of calls is followed, every function at the depth that it has at the call.
Fails where a path passes what include/redstartgilt.h promises, and where the code has what is not followed: a call or
jump by pointer, a function that calls itself and is not named below, another use of the stack pointer, a function of
another library.
"""
import re
import subprocess
import sys
from pathlib import Path

HEADER = Path(__file__).resolve().parent.parent / "include" / "redstartgilt.h"
EXPORT = "redstartgilt_"
WORD = 8
# What the archive needs of the C library, as bindings/c/README.md says, and the stack that is allowed for it.
OUTSIDE = {"memset"}
OUTSIDE_BYTES = 512
# Functions that call themselves, and how deep at most: `search` goes on in at most half of its part.
NESTED = {"column_search::search": 64}
# A large frame is touched in steps of at most a page: these, the first two of which hold its end and its size.
PROBE = [r"mov +%rsp,%r11", r"sub +\$(0x[0-9a-f]+),%r11", r"sub +\$0x[0-9a-f]+,%rsp", r"movq? +\$0x0,\(%rsp\)", r"cmp +%r11,%rsp", r"jne .*"]


class Fault(Exception):
    pass


def promised():
    found = re.search(r"at\s+most\s+(\d+)\s+KiB\s+of\s+stack", HEADER.read_text().replace("\n *", "\n"))
    if not found:
        raise Fault(f"{HEADER} promises no stack")
    return int(found.group(1)) * 1024


def disassembled(archive):
    """Each function as a list of [address, text, symbol of its relocation], and the function at a place of a section."""
    command = ["objdump", "-dr", "--no-show-raw-insn", archive]
    text = subprocess.run(command, capture_output=True, text=True, check=True).stdout
    if "elf64-x86-64" not in text:
        raise Fault(f"{archive} is not x86-64")
    functions, places, section, code = {}, {}, None, None
    for line in text.splitlines():
        if found := re.match(r"Disassembly of section (.*):$", line):
            section = found.group(1)
        elif found := re.match(r"([0-9a-f]+) <(.*)>:$", line):
            address, name = int(found.group(1), 16), found.group(2)
            if name in functions:
                raise Fault(f"two functions are named {name}")
            code = functions[name] = []
            places[section, address] = name
        elif found := re.match(r"\s+[0-9a-f]+: (R_X86_64_\w+)\t(.*)$", line):
            code[-1][2] = found.group(2)
        elif found := re.match(r"\s+([0-9a-f]+):\t(.*)$", line):
            code.append([int(found.group(1), 16), found.group(2).split(" #")[0].strip(), None])
    return functions, places


def named(symbol, places):
    """The function that a relocation of a call names: itself, or by its section and place."""
    found = re.match(r"(.*?)([+-]0x[0-9a-f]+)?$", symbol)
    name, offset = found.group(1), int(found.group(2) or "0", 16) + 4
    return places.get((name, offset), name if offset == 0 else symbol)


def local(name, operands, places):
    """The function that a call without a relocation names, which stands in the section of the function that calls it."""
    section = next(section for (section, _), function in places.items() if function == name)
    return places.get((section, int(operands.split()[0], 16)), operands)


def probed(code, at):
    """The size of a frame that is touched page by page from this place on, or None."""
    if not re.fullmatch(PROBE[0], code[at][1]):
        return None
    steps = [re.fullmatch(step, text) for step, (_, text, _) in zip(PROBE, code[at:])]
    return int(steps[1].group(1), 16) if len(steps) == len(PROBE) and all(steps) else None


def followed(name, code, places):
    """The greatest depth of a function itself, and its calls, each with the depth at which it is made."""
    index = {address: at for at, (address, _, _) in enumerate(code)}
    depths, calls, todo = {}, [], [(0, 0)]
    while todo:
        at, depth = todo.pop()
        if at in depths and depths[at] == depth:
            continue
        if at in depths or at >= len(code):
            raise Fault(f"{name} has two depths at a place, or runs past its end")
        depths[at] = depth
        _, text, symbol = code[at]
        operation, _, operands = text.partition(" ")
        operands = operands.strip()
        if (size := probed(code, at)) is not None:
            todo.append((at + len(PROBE), depth + size))
        elif operation.startswith(("call", "j")):
            if "*" in operands:
                raise Fault(f"{name} calls or jumps by pointer: {text}")
            if operation.startswith("call"):
                calls.append((depth + WORD, named(symbol, places) if symbol else local(name, operands, places)))
            elif symbol:
                calls.append((depth, named(symbol, places)))
            else:
                todo.append((index[int(operands.split()[0], 16)], depth))
            if operation != "jmp":
                todo.append((at + 1, depth))
        elif operation.startswith(("ret", "ud2")):
            continue
        elif operation in ("push", "pushq"):
            todo.append((at + 1, depth + WORD))
        elif operation in ("pop", "popq"):
            todo.append((at + 1, depth - WORD))
        elif found := re.fullmatch(r"(sub|add)q? +\$(-?0x[0-9a-f]+),%rsp", text):
            size = int(found.group(2), 16)
            todo.append((at + 1, depth + size if found.group(1) == "sub" else depth - size))
        elif operands.endswith(",%rsp") and operation not in ("cmp", "test"):
            raise Fault(f"{name} sets the stack pointer: {text}")
        else:
            todo.append((at + 1, depth))
    return max(depths.values()), calls


def main(archive):
    functions, places = disassembled(archive)
    deepest = {}

    def depth(name, above):
        """The bytes that a function and what it calls take, and the path of the most."""
        if name in OUTSIDE:
            return OUTSIDE_BYTES, [name]
        if name in above:
            raise Fault(f"{name} calls itself")
        if name not in functions:
            raise Fault(f"{above[-1]} calls {name}, which is not in the archive")
        if name not in deepest:
            own, calls = followed(name, functions[name], places)
            again = max((at for at, called in calls if called == name), default=0)
            if again and name not in NESTED:
                raise Fault(f"{name} calls itself")
            paths = [(own, [name])]
            for at, called in calls:
                if called != name:
                    below, path = depth(called, above + [name])
                    paths.append((at + below, [name] + path))
            most, path = max(paths)
            deepest[name] = (most + again * NESTED.get(name, 0), path)
        return deepest[name]

    exports = [name for name in functions if name.startswith(EXPORT)]
    if not exports:
        raise Fault(f"{archive} has no function {EXPORT}..")
    # a call puts its place of return on the stack
    bytes_, path = max(depth(name, []) for name in exports)
    bytes_ += WORD
    most = promised()
    print(f"stack: {bytes_:,} bytes of {most:,} at most, by {' > '.join(path)}; {len(exports)} exported functions")
    if bytes_ > most:
        raise Fault("that is more than include/redstartgilt.h promises")


if __name__ == "__main__":
    if len(sys.argv) != 2:
        sys.exit(__doc__)
    try:
        main(sys.argv[1])
    except Fault as fault:
        sys.exit(f"stack: {fault}")
