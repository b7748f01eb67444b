#!/usr/bin/env python3
"""Counts the instructions of compiled programs beside those of the same in C.

Usage: tools/instructions.py PROGRAM
PROGRAM is the built program, as crates/grift/out/grift. Each program of the list below is compiled by it and run, with
all types written and with none. Its C, in tools/c, is compiled by gcc for RV64I without extensions, with -O0 and with
-O1, and run twice: with tools/c/start.c as an image by `exec`, and with tools/c/linux.c as an ELF file under
qemu-riscv64; these two files, and tools/c/library.c for memory, products and remainders, are compiled with -O2. All
versions have to print the same and to end by the same line. Of each program it also tells how many bytes an image has
for each byte of its source.

On the emulator a version costs the least number of instructions with which it ends, found by halving. qemu-riscv64 logs
each block that it executes, and blocks are of one instruction here: it costs as many as the log has lines for blocks.
Under Linux a program writes the registers of its environment calls, which are put into text here, so the digits of a
number cost nothing in any version. Each call takes ten instructions more there, and the end four further ones: the two
counts of the same C have to differ by just these. Compiled images make the emulator's environment calls, and run on it
alone.

Needs riscv64-linux-gnu-gcc, with its ld and objcopy, and qemu-riscv64.
"""
import os
import pathlib
import struct
import subprocess
import sys
import tempfile

from images import image

TOOLS = pathlib.Path(__file__).parent
EXAMPLES = TOOLS.parent / "examples"
FIRST_ADDRESS = 65_536
GNU = "riscv64-linux-gnu-"
MOST = 10**12
HEAD = """\
| Program | all types written | no types | C -O0 | C -O1 | C -O0, qemu | C -O1, qemu | image bytes a byte of source |
|---|---|---|---|---|---|---|---|"""
FIB = "(define (fib{}){} (if (< n 2) n (+ (fib (- n 1)) (fib (- n 2))))) (fib 20)"
TAK = (
    "(define (tak{}){} (if (< y x) (tak (tak (- x 1) y z) (tak (- y 1) z x) (tak (- z 1) x y)) z)) (tak 18 12 6)"
)


def example(name):
    """An example with all types written and with none."""
    return EXAMPLES / f"{name}.grift", EXAMPLES / f"{name}_untyped.grift"


EXAMPLES_IN_C = "ackermann queens bank even_odd lists machine matrix queue quicksort".split()
# The name of the C file, and the program with all types written and with none.
PROGRAMS = [
    ("fib", FIB.format(" [n : Int]", " : Int"), FIB.format(" n", "")),
    ("tak", TAK.format(" [x : Int] [y : Int] [z : Int]", " : Int"), TAK.format(" x y z", "")),
    *((name, *example(name)) for name in EXAMPLES_IN_C),
]


def ends(words):
    """What a run prints, and the last line on standard error."""
    done = subprocess.run(words, capture_output=True)
    return done.stdout, done.stderr.decode()


def least(words):
    """The least number of instructions with which a run ends, and how it ends."""
    whole = ends([*words, "--steps", str(MOST)])
    low, high = 0, 1
    while ends([*words, "--steps", str(high)]) != whole:
        low, high = high, 2 * high
    while low + 1 < high:
        middle = (low + high) // 2
        if ends([*words, "--steps", str(middle)]) == whole:
            high = middle
        else:
            low = middle
    return high, whole


def linked(start, name, level, folder):
    """A C file as an ELF file that begins by this start."""
    objects = []
    for file, own_level in ((start, "-O2"), ("library", "-O2"), (name, level)):
        made = f"{folder}/{file}.o"
        flags = ["-march=rv64i", "-mabi=lp64", "-ffreestanding", "-fno-pic", own_level]
        subprocess.run([f"{GNU}gcc", *flags, "-c", str(TOOLS / "c" / f"{file}.c"), "-o", made], check=True)
        objects.append(made)
    elf, script = f"{folder}/{name}.elf", pathlib.Path(folder, "layout")
    # Constants lie behind the code; other data lie where the region of an image begins, and are zero at the start.
    script.write_text(
        "SECTIONS { . = %d; .text : { *(.text.start) *(.text .text.*) *(.rodata .rodata.*) } . = ALIGN(8);"
        " .bss : { *(.bss .bss.* .sbss .sbss.* COMMON) }"
        " /DISCARD/ : { *(.comment .note* .eh_frame .riscv.attributes) } }"
        % FIRST_ADDRESS
    )
    flags = ["--no-warn-rwx-segments", "-T", str(script), "-e", "start"]
    subprocess.run([f"{GNU}ld", *flags, *objects, "-o", elf], check=True)
    return elf


def as_image(elf):
    """The file of the image with this code."""
    code, file = pathlib.Path(f"{elf}.bin"), pathlib.Path(f"{elf}.img")
    subprocess.run([f"{GNU}objcopy", "-O", "binary", "-j", ".text", elf, str(code)], check=True)
    file.write_bytes(image(code.read_bytes()))
    return file


def as_text(calls):
    """What the emulator prints at these environment calls, and its last line."""
    output, line = "", ""
    for number, first, second in calls:
        if number == 1:
            output += str(first)
        elif number == 2:
            output += chr(first)
        else:
            line = f"answer {second if first == 0 else ('#f', '#t')[second]}\n"
    return output.encode(), line


def under_qemu(elf):
    """The number of instructions of a run under qemu-riscv64, and its environment calls."""
    # Version 8.1 has another name for the option by which a block is one instruction.
    one_each = dict(os.environ, QEMU_SINGLESTEP="1", QEMU_ONE_INSN_PER_TB="1")
    words, pipe = ["qemu-riscv64", "-d", "nochain,exec", elf], subprocess.PIPE
    with subprocess.Popen(words, stdout=pipe, stderr=pipe, env=one_each) as run:
        count = sum(line.startswith(b"Trace") for line in run.stderr)
        return count, list(struct.iter_unpack("<3q", run.stdout.read()))


def bytes_of(program, file):
    """How many bytes the image of a source has for each of its own."""
    done = subprocess.run([program, "image", str(file)], capture_output=True, check=True)
    return len(done.stdout) / file.stat().st_size


def main():
    program = sys.argv[1]
    print(HEAD)
    with tempfile.TemporaryDirectory() as folder:
        for name, typed, untyped in PROGRAMS:
            counts, traced, sizes, seen = [], [], [], set()
            for number, source in enumerate((typed, untyped)):
                file = pathlib.Path(folder, f"{name}{number}.grift")
                file.write_text(source if isinstance(source, str) else source.read_text())
                count, end = least([program, "run", str(file)])
                counts.append(count)
                sizes.append(f"{bytes_of(program, file):.0f}")
                seen.add(end)
            for level in ("-O0", "-O1"):
                count, end = least([program, "exec", str(as_image(linked("start", name, level, folder)))])
                trace, calls = under_qemu(linked("linux", name, level, folder))
                if trace != count + 10 * len(calls) + 4:
                    sys.exit(f"{name} {level}: {count} and {trace} instructions, {len(calls)} calls")
                counts.append(count)
                traced.append(trace)
                seen |= {end, as_text(calls)}
            if len(seen) != 1:
                sys.exit(f"{name}: {seen}")
            cells = [f"{count:,}" for count in counts + traced]
            print(f"| {name} | " + " | ".join([*cells, ", ".join(sizes)]) + " |")


if __name__ == "__main__":
    main()
