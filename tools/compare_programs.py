"""Compares what straight-line programs leave in the registers with qemu-riscv64.

usage: compare_programs.py GRIFT [COUNT [SEED]]

A program sets the registers to random words, makes random instructions of RV64I without jumps, and stores all
registers.
GNU as assembles it. `grift exec` runs it as an image that prints them by environment calls; qemu runs it as an ELF file
that writes them by a call of Linux. Both lie at the same addresses.
"""

import os
import random
import subprocess
import sys
import tempfile
from concurrent.futures import ThreadPoolExecutor

from images import image, run

BASE = 0x10000
REGION = 0x20000
THREE = "add sub sll slt sltu xor srl sra or and addw subw sllw srlw sraw".split()
IMMEDIATE = "addi slti sltiu xori ori andi addiw".split()
SHIFTS = {"slli": 64, "srli": 64, "srai": 64, "slliw": 32, "srliw": 32, "sraiw": 32}
LOADS = {"lb": 1, "lh": 2, "lw": 4, "ld": 8, "lbu": 1, "lhu": 2, "lwu": 4}
STORES = {"sb": 1, "sh": 2, "sw": 4, "sd": 8}

# x30 points into the region, x31 at the constants
FREE = list(range(1, 30))


def instruction(source: random.Random) -> str:
    """A random instruction that changes no register but the free ones and x0."""
    rd = source.choice([0] + FREE)
    a, b = source.randrange(32), source.randrange(32)
    kind = source.randrange(10)
    if kind < 4:
        return f"{source.choice(THREE)} x{rd}, x{a}, x{b}"
    if kind < 6:
        return f"{source.choice(IMMEDIATE)} x{rd}, x{a}, {source.randrange(-2048, 2048)}"
    if kind == 6:
        name = source.choice(list(SHIFTS))
        return f"{name} x{rd}, x{a}, {source.randrange(SHIFTS[name])}"
    if kind == 7:
        name = source.choice(list(LOADS))
        return f"{name} x{rd}, {source.randrange(0, 1024 // LOADS[name]) * LOADS[name]}(x30)"
    if kind == 8:
        name = source.choice(list(STORES))
        return f"{name} x{b}, {source.randrange(0, 1024 // STORES[name]) * STORES[name]}(x30)"
    return source.choice([f"lui x{rd}, {source.getrandbits(20)}", f"auipc x{rd}, {source.getrandbits(20)}", "fence"])


def body(source: random.Random) -> tuple[list[str], bytes]:
    """The lines of a program, and its constants."""
    constants = b"".join(source.getrandbits(64).to_bytes(8, "little") for _ in range(32))
    lines = [f"lui x31, {BASE >> 12}", f"lui x30, {REGION >> 12}"]
    lines += [f"ld x{r}, {8 * r}(x31)" for r in FREE]
    lines += [instruction(source) for _ in range(60)]
    lines += [f"sd x{r}, {1024 + 8 * r}(x30)" for r in range(32)]
    return lines, constants


def epilogue_of_image() -> list[str]:
    lines = []
    for r in range(32):
        lines += [f"ld x10, {1024 + 8 * r}(x30)", "addi x17, x0, 1", "ecall"]
        lines += ["addi x10, x0, 10", "addi x17, x0, 2", "ecall"]
    return lines + ["addi x10, x0, 0", "addi x11, x0, 0", "addi x17, x0, 0", "ecall"]


def epilogue_of_linux() -> list[str]:
    return ["addi x10, x0, 1", "addi x11, x30, 1024", "addi x12, x0, 256", "addi x17, x0, 64", "ecall",
            "addi x10, x0, 0", "addi x17, x0, 93", "ecall"]


def assembled(folder: str, lines: list[str]) -> bytes:
    """The machine code of these lines."""
    source, made, raw = (os.path.join(folder, name) for name in ("a.s", "a.o", "a.bin"))
    with open(source, "w") as file:
        file.write(".option norelax\n.option norvc\n" + "\n".join(lines) + "\n")
    subprocess.run(["riscv64-linux-gnu-as", "-march=rv64i", "-o", made, source], check=True)
    subprocess.run(["riscv64-linux-gnu-objcopy", "-O", "binary", "-j", ".text", made, raw], check=True)
    with open(raw, "rb") as file:
        return file.read()


def elf(loaded: bytes, entry: int, size: int) -> bytes:
    """An ELF file that loads these bytes at the first address, with zeros up to the size, and begins at the entry."""
    head = b"\x7fELF" + bytes([2, 1, 1, 0]) + bytes(8)
    head += (2).to_bytes(2, "little") + (243).to_bytes(2, "little") + (1).to_bytes(4, "little")
    head += entry.to_bytes(8, "little") + (64).to_bytes(8, "little") + bytes(8) + bytes(4)
    head += (64).to_bytes(2, "little") + (56).to_bytes(2, "little") + (1).to_bytes(2, "little") + bytes(6)
    offset = 4096
    part = (1).to_bytes(4, "little") + (7).to_bytes(4, "little")
    for field in (offset, BASE, BASE, len(loaded), size, 4096):
        part += field.to_bytes(8, "little")
    return (head + part).ljust(offset, b"\0") + loaded


def agrees(grift: str, seed: int) -> bool:
    lines, constants = body(random.Random(seed))
    with tempfile.TemporaryDirectory() as folder:
        ours = assembled(folder, lines + epilogue_of_image())
        theirs = assembled(folder, lines + epilogue_of_linux())
        # the region begins at the same address in both
        room = REGION - BASE - len(constants)
        filled = image(ours.ljust(room, b"\0"), constants)
        status, printed, line = run(grift, filled, "--region", "4096", "--stack", "0")
        name = os.path.join(folder, "a.elf")
        with open(name, "wb") as file:
            file.write(elf(constants + theirs, BASE + len(constants), REGION - BASE + 8192))
        os.chmod(name, 0o755)
        written = subprocess.run(["qemu-riscv64", name], capture_output=True, check=True).stdout
    words = [int.from_bytes(written[8 * r : 8 * r + 8], "little", signed=True) for r in range(32)]
    return status == 0 and line == "answer 0\n" and printed.decode().split() == [str(word) for word in words]


def main() -> int:
    grift = sys.argv[1]
    count = int(sys.argv[2]) if len(sys.argv) > 2 else 1000
    first = int(sys.argv[3]) if len(sys.argv) > 3 else 1
    with ThreadPoolExecutor(4) as pool:
        answers = list(pool.map(lambda seed: agrees(grift, seed), range(first, first + count)))
    wrong = [first + place for place, same in enumerate(answers) if not same]
    print(f"{count} programs, {len(wrong)} differ", *wrong[:20])
    return 1 if wrong else 0


if __name__ == "__main__":
    sys.exit(main())
