"""Compares which words are instructions with GNU objdump, on random words.

usage: compare_words.py GRIFT [COUNT [SEED]]

Each word is the first of an image that is run for one step: the machine calls it undefined, or not. objdump has to
name an instruction of RV64I for exactly the words that aren't undefined. Words of the opcodes 0x73 and 0x0F are
compared with a list instead, since objdump knows more of them than the machine does.
"""

import random
import subprocess
import sys
import tempfile
from concurrent.futures import ThreadPoolExecutor

from images import image, run

RV64I = set(
    "lui auipc jal jalr beq bne blt bge bltu bgeu lb lh lw ld lbu lhu lwu sb sh sw sd addi slti sltiu xori ori andi "
    "slli srli srai add sub sll slt sltu xor srl sra or and addiw slliw srliw sraiw addw subw sllw srlw sraw".split()
)
OPCODES = [0x37, 0x17, 0x6F, 0x67, 0x63, 0x03, 0x23, 0x13, 0x33, 0x1B, 0x3B]


def random_word(source: random.Random) -> int:
    """Any word, or one with an opcode of RV64I, half of these with a plain upper field."""
    word = source.getrandbits(32)
    kind = source.randrange(5)
    if kind == 0:
        return word
    word = word & ~0x7F | source.choice(OPCODES)
    if kind < 3:
        word = word & 0x01FFFFFF | source.choice([0, 0x20, 0x10, 0x01, 0x21]) << 25
    return word


def named(words: list[int]) -> list[bool]:
    """Whether objdump names an instruction of RV64I for each word."""
    whole = [word & 3 == 3 and word & 0x1F != 0x1F for word in words]
    with tempfile.NamedTemporaryFile() as file:
        for word, is_whole in zip(words, whole):
            if is_whole:
                file.write(word.to_bytes(4, "little"))
        file.flush()
        listing = subprocess.run(
            ["riscv64-linux-gnu-objdump", "-D", "-b", "binary", "-m", "riscv:rv64", "-M", "no-aliases,numeric",
             file.name],
            capture_output=True, check=True, text=True,
        ).stdout
    names = {}
    for line in listing.splitlines():
        parts = line.split("\t")
        if len(parts) >= 3 and parts[0].strip().endswith(":"):
            names[int(parts[0].strip()[:-1], 16)] = parts[2].strip()
    answers, at = [], 0
    for is_whole in whole:
        answers.append(is_whole and names[at] in RV64I)
        at += 4 if is_whole else 0
    return answers


def is_listed(word: int) -> bool:
    """Whether a word of the opcodes 0x73 and 0x0F is ECALL, EBREAK or a FENCE; EBREAK stops as undefined."""
    if word & 0x7F == 0x0F:
        return word >> 12 & 7 == 0
    return word == 0x00000073


def main() -> int:
    grift = sys.argv[1]
    count = int(sys.argv[2]) if len(sys.argv) > 2 else 100_000
    source = random.Random(int(sys.argv[3]) if len(sys.argv) > 3 else 1)
    words = [random_word(source) for _ in range(count)]
    special = [word & ~0x7F | opcode for word in words[: count // 20] for opcode in (0x73, 0x0F)]
    special += [0x73, 0x00100073, 0x00200073, 0x000000F3, 0x10500073, 0x30200073, 0x0000100F, 0x0FF0000F, 0x8330000F]
    wanted = [
        is_listed(word) if word & 0x7F in (0x73, 0x0F) else name
        for word, name in zip(words, named(words))
    ] + [is_listed(word) for word in special]

    def is_instruction(word: int) -> bool:
        # x17 is 0, so ECALL ends with an answer
        whole = image(word.to_bytes(4, "little"))
        status, _, line = run(grift, whole, "--region", "0", "--stack", "0", "--steps", "1")
        assert status in (0, 7, 11), (hex(word), status, line)
        return line != "machine undefined 00010000\n"

    with ThreadPoolExecutor(4) as pool:
        got = list(pool.map(is_instruction, words + special))
    wrong = [hex(word) for word, a, b in zip(words + special, wanted, got) if a != b]
    print(f"{len(words)} words, {sum(wanted[:count])} of them instructions; {len(special)} of 0x73 and 0x0F; "
          f"{len(wrong)} differ")
    print("\n".join(wrong[:20]), end="\n" if wrong else "")
    return 1 if wrong else 0


if __name__ == "__main__":
    sys.exit(main())
