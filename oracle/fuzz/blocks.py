#!/usr/bin/env python3
"""blocks.py PROGRAM FUNCTION ..: where the blocks of machine code of these functions and of all that they call begin, for
blocks.c. PROGRAM is linked with -no-pie, so that its addresses are known. A block begins at a function's start, at the
target of a jump, and behind a jump that may not be taken."""
import re
import subprocess
import sys

HEAD = re.compile(r"^([0-9a-f]+) <(.+)>:$")
LINE = re.compile(r"^\s*([0-9a-f]+):\t(\S+)\s*(.*)$")
TARGET = re.compile(r"^([0-9a-f]+) <([^>+]+)(\+0x[0-9a-f]+)?>")


def functions(program):
    """The instructions of each function: address, name and operands."""
    text = subprocess.run(["objdump", "-d", "--no-show-raw-insn", program], check=True, capture_output=True, text=True).stdout
    found, name = {}, None
    for line in text.splitlines():
        if head := HEAD.match(line):
            name = head[2]
            found[name] = []
        elif (instruction := LINE.match(line)) and name:
            found[name].append((int(instruction[1], 16), instruction[2], instruction[3]))
    return found


def main():
    found = functions(sys.argv[1])
    todo, done, blocks = list(sys.argv[2:]), set(), set()
    while todo:
        name = todo.pop()
        if name in done or name.endswith("@plt"):
            continue
        done.add(name)
        instructions = found[name]
        blocks.add(instructions[0][0])
        for i, (_, what, operands) in enumerate(instructions):
            target = TARGET.match(operands)
            if what.startswith("call"):
                if not target:
                    sys.exit(f"{name}: a call through a pointer")
                todo.append(target[2])
            elif what.startswith("j"):
                if not target:
                    sys.exit(f"{name}: a jump through a pointer")
                if target[2] != name:
                    todo.append(target[2])
                if not target[2].endswith("@plt"):
                    blocks.add(int(target[1], 16))
                if not what.startswith("jmp"):
                    blocks.add(instructions[i + 1][0])
    print("\n".join(f"{address:x}" for address in sorted(blocks)))
    print(f"{len(done)} functions, {len(blocks)} blocks", file=sys.stderr)


if __name__ == "__main__":
    main()
