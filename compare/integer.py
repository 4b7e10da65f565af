"""Random programs of integer instructions, which flexemu plays as a raw image and QEMU as a Linux program.

A program loads the registers from memory, makes random instructions of RV64IMA on them and on 256 bytes of memory, and
then mixes these bytes into a register. At the end QEMU's program writes its registers. Left out is what tells the two
addresses apart (AUIPC, JAL, JALR), what traps, and a store between a load-reserved and its store-conditional, after
which the two may rightly differ.
"""
import os
import struct
import subprocess

from words import NOTHING, TO_ITSELF, addi, bytes_of, i_type, load_double, r_type, s_type, store_double

# x3 points at the data, 4 KiB after the code, and x4 at the place of an atomic instruction.
BASE, PLACE = 3, 4
REGISTERS = [r for r in range(1, 32) if r not in (BASE, PLACE)]
OPERANDS = [0] + REGISTERS
CODE = 0x1000
MEMORY = 0x100  # from the data on: 32 registers, 256 bytes of memory, and the registers at the end
MEMORY_BYTES = 256
RESULTS = 0x400
LINUX_WRITE, LINUX_EXIT = 64, 93
ECALL = 0x73

CORNERS = [0, 1, 2**31 - 1, 2**31, 2**32 - 1, 2**32, 2**63 - 1, 2**63, 2**64 - 2**31, 2**64 - 1]


def place(chance, width):
    return MEMORY + chance.randrange(MEMORY_BYTES // width) * width


def on_registers(chance, operands):
    rd, rs1, rs2 = chance.choice(operands), chance.choice(operands), chance.choice(operands)
    return chance.choice([
        r_type(0, rs2, rs1, chance.randrange(8), rd, 0x33),
        r_type(32, rs2, rs1, chance.choice([0, 5]), rd, 0x33),
        r_type(*chance.choice([(0, rs2, rs1, 0), (0, rs2, rs1, 1), (0, rs2, rs1, 5), (32, rs2, rs1, 0), (32, rs2, rs1, 5)]), rd, 0x3B),
        r_type(1, rs2, rs1, chance.randrange(8), rd, 0x33),
        r_type(1, rs2, rs1, chance.choice([0, 4, 5, 6, 7]), rd, 0x3B),
    ])


def with_immediate(chance, operands):
    rd, rs1 = chance.choice(operands), chance.choice(operands)
    return chance.choice([
        i_type(chance.randrange(4096), rs1, chance.choice([0, 2, 3, 4, 6, 7]), rd, 0x13),
        i_type(chance.choice([0, 0x400]) | chance.randrange(64), rs1, 5, rd, 0x13),
        i_type(chance.randrange(64), rs1, 1, rd, 0x13),
        i_type(chance.randrange(4096), rs1, 0, rd, 0x1B),
        i_type(chance.choice([0, 0x400]) | chance.randrange(32), rs1, 5, rd, 0x1B),
        i_type(chance.randrange(32), rs1, 1, rd, 0x1B),
        chance.randrange(1 << 20) << 12 | rd << 7 | 0x37,
    ])


def on_memory(chance, operands):
    if chance.random() < 0.5:
        funct3 = chance.randrange(7)
        return i_type(place(chance, 1 << (funct3 & 3)), BASE, funct3, chance.choice(operands), 0x03)
    funct3 = chance.randrange(4)
    return s_type(place(chance, 1 << funct3), chance.choice(operands), BASE, funct3)


def atomic(chance, operands):
    """An atomic operation, or a load-reserved and a store-conditional, at a place of its own."""
    funct3 = chance.choice([2, 3])

    def at_place(funct5, rs2):
        return r_type(funct5 << 2 | chance.randrange(4), rs2, PLACE, funct3, chance.choice(operands), 0x2F)

    first = addi(PLACE, BASE, place(chance, 1 << funct3))
    if chance.random() < 0.25:
        return [first, at_place(2, 0), at_place(3, chance.choice(operands))]
    return [first, at_place(chance.choice([0, 1, 4, 8, 12, 16, 20, 24, 28]), chance.choice(operands))]


def branch(chance, operands):
    """A branch that may pass over one addition."""
    past_one = 8 << 7  # imm[4:1] of 8
    compares = chance.choice([0, 1, 4, 5, 6, 7])
    word = chance.choice(operands) << 20 | chance.choice(operands) << 15 | compares << 12 | past_one | 0x63
    return [word, addi(chance.choice(operands), chance.choice(operands), chance.randrange(4096))]


def some(chance, operands):
    kind = chance.choice([on_registers, on_registers, with_immediate, with_immediate, on_memory, atomic, branch])
    made = kind(chance, operands)
    return made if isinstance(made, list) else [made]


def mixes_memory():
    words = []
    for offset in range(MEMORY, MEMORY + MEMORY_BYTES, 8):
        # x6 = 33 * x6 + the 8 bytes
        words += [load_double(5, BASE, offset), addi(7, 0, 33)]
        words += [r_type(1, 7, 6, 0, 6, 0x33), r_type(0, 5, 6, 0, 6, 0x33)]
    return words


def code_of(chance):
    # auipc x3, 0; lui x4, 1; add x3, x3, x4
    words = [0x00000197, 1 << 12 | PLACE << 7 | 0x37, r_type(0, PLACE, BASE, 0, BASE, 0x33)]
    words += [load_double(r, BASE, 8 * r) for r in REGISTERS]
    for _ in range(chance.randrange(40, 250)):
        words += some(chance, OPERANDS)
    return [*words, NOTHING, *mixes_memory()]


def value(chance):
    return chance.choice([
        chance.choice(CORNERS),
        chance.randrange(256),
        chance.randrange(2**32),
        2**64 - chance.randrange(1, 2**20),
        chance.randrange(2**64),
    ])


def image_of(words, data):
    code = bytes_of(words)
    assert len(code) <= CODE
    return code.ljust(CODE, b"\0") + data


def by_flexemu(program, words, data, folder):
    with open(os.path.join(folder, "image"), "wb") as file:
        file.write(image_of(words + [TO_ITSELF], data))
    budget = f"--budget={len(words) + 2}"
    subprocess.run([program, "solo", "image", "trace", "--ram=1", budget], cwd=folder, check=True)
    found = dict.fromkeys(REGISTERS, 0)
    with open(os.path.join(folder, "trace")) as file:
        for line in file:
            if line.startswith("hart 0 x"):
                name, digits = line.split()[2:]
                found[int(name[1:])] = int(digits, 16)
    return [found[r] for r in REGISTERS]


def by_qemu(words, data, folder):
    out = [store_double(r, BASE, RESULTS + 8 * r) for r in range(1, 32)]
    out += [addi(17, 0, LINUX_WRITE), addi(10, 0, 1), addi(11, BASE, RESULTS), addi(12, 0, 256), ECALL]
    out += [addi(17, 0, LINUX_EXIT), addi(10, 0, 0), ECALL]
    image = image_of(words + out, data + bytes(0x800))
    start = 0x11000
    # An ELF64 file for RISC-V with one segment that can be read, written and executed.
    header = b"\x7fELF\x02\x01\x01".ljust(16, b"\0") + struct.pack("<HHIQQQIHHHHHH", 2, 243, 1, start, 64, 0, 0, 64, 56, 1, 0, 0, 0)
    segment = struct.pack("<IIQQQQQQ", 1, 7, 0x1000, start, start, len(image), len(image), 0x1000)
    path = os.path.join(folder, "program")
    with open(path, "wb") as file:
        file.write((header + segment).ljust(0x1000, b"\0") + image)
    os.chmod(path, 0o755)
    told = subprocess.run(["qemu-riscv64", path], stdout=subprocess.PIPE, check=True).stdout
    found = struct.unpack("<32Q", told)
    return [found[r] for r in REGISTERS]


def differences(program, chance, folder):
    """What differs after a random program, a line each."""
    words = code_of(chance)
    data = b"".join(struct.pack("<Q", value(chance)) for _ in range(32)) + chance.randbytes(MEMORY_BYTES)
    ours, theirs = by_flexemu(program, words, data, folder), by_qemu(words, data, folder)
    return [f"x{r} is {a:016x}, and {b:016x} by QEMU" for r, a, b in zip(REGISTERS, ours, theirs) if a != b]
