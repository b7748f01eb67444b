"""Writes images of a loop, to measure instructions a second.

usage: loop_image.py KIND TURNS FILE    KIND: sums, or memory

Each turn of the loop is eight instructions: sums and shifts, or with two loads and two stores. It ends with the answer
of x11. With --elf the same loop becomes an ELF file that exits with status 0 by a call of Linux.
"""

import os
import sys
import tempfile

from compare_programs import BASE, assembled, elf
from images import image

LOOPS = {
    "sums": ["add x11, x11, x5", "xor x6, x6, x11", "slli x7, x6, 3", "sub x11, x11, x7", "srli x8, x11, 5",
             "add x11, x11, x8"],
    "memory": ["ld x6, 0(x9)", "add x6, x6, x5", "sd x6, 0(x9)", "lw x7, 8(x9)", "add x11, x11, x7", "sd x11, 8(x9)"],
}


def main() -> None:
    kind, turns, name = sys.argv[1], int(sys.argv[2]), sys.argv[3]
    is_elf = "--elf" in sys.argv
    lines = [f"lui x9, {0x20000 >> 12}", f"lui x5, {turns >> 12}", f"addi x5, x5, {turns % 4096 // 2}",
             f"addi x5, x5, {turns % 4096 - turns % 4096 // 2}", "loop:"]
    lines += LOOPS[kind] + ["addi x5, x5, -1", "bne x5, x0, loop"]
    lines += ["addi x10, x0, 0", "addi x17, x0, 93" if is_elf else "addi x17, x0, 0", "ecall"]
    with tempfile.TemporaryDirectory() as folder:
        code = assembled(folder, lines)
    whole = elf(code, BASE, 0x20000) if is_elf else image(code.ljust(0x10000, b"\0"))
    with open(name, "wb") as file:
        file.write(whole)
    if is_elf:
        os.chmod(name, 0o755)


if __name__ == "__main__":
    main()
