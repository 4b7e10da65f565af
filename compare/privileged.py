"""Random programs with CSRs, traps, returns and interrupts, which flexemu and QEMU's board `virt` play as a raw image.

A program goes between M, S and U by MRET, SRET and traps. Between these it makes CSR instructions, exceptions, and
instructions on registers and memory. Its handlers mix mcause, mepc, mtval and mstatus (or those of S) and the entry of
the vector into a register, and step over the instruction. Of an interrupt, the handler in M clears the bit in mip and
turns the lines of timer and software interrupt off, and that in S clears the one in sie. Compared at the end are the registers, into one of which the bytes of memory are mixed, and
the CSRs that a trace shows.

Left out is where the two rightly differ, or where this QEMU (7.2) isn't as the manual says:
- misa, the registers of memory protection, and what mcycle, minstret, cycle, time and instret hold; who may read the
  last three is compared;
- bits that QEMU keeps and this machine doesn't: writes stay within WRITTEN; MPP never gets 2, satp neither a MODE that
  only QEMU has nor an ASID, mtvec and stvec no reserved mode, and their handlers are the only ones;
- satp with MODE 8 and legal SFENCE.VMA, which paging.py beside this file has, and legal WFI, which devices.py has;
- misaligned loads and stores, which QEMU does; misaligned SC and AMO, and those outside RAM: there QEMU's SC fails, and
  its AMO traps as a load does;
- a CSRRS or CSRRC with a register that holds 0, of a read-only number: legal to QEMU;
- SEI beside SSI or STI: QEMU takes interrupts of one level by their numbers;
- MPRV while the mode changes, which QEMU doesn't clear; TSR while traps are delegated, since S then can't return;
- a misaligned JAL or branch, for which QEMU tells another mtval; an illegal word of which bits 1:0 aren't both set, of
  which QEMU tells 16 bits, but for the word 0.
"""
import os
import struct
import subprocess

import integer
from words import AUIPC, NOTHING, TO_ITSELF, addi, branch_to, bytes_of, constant, i_type, jump, load_double, r_type
from words import s_type, store_double, u_type

RAM = 0x80000000
CODE = 0x10000
MEMORY, MEMORY_BYTES, RESULTS = integer.MEMORY, integer.MEMORY_BYTES, integer.RESULTS
BASE, PLACE = integer.BASE, integer.PLACE
# The handlers' own registers, in S and in M; where the handler of the next exception goes on, if not at the instruction
# after it; the mode that is asked of the handler in M, more by 1; and what the handlers mix.
IN_S, RESUME, ASKED, IN_M, DIGEST = (24, 25), 27, 28, (29, 30), 31
FREE = [r for r in range(1, 24) if r not in (BASE, PLACE)]
OPERANDS = [0, *FREE]
SPARE = 26

U, S, M = 0, 1, 3
MODES = (U, S, M)
RW, RS, RC, IMMEDIATE = 1, 2, 3, 4

SSTATUS, SIE, STVEC, SEPC, SCAUSE, STVAL, SIP, SATP = 0x100, 0x104, 0x105, 0x141, 0x142, 0x143, 0x144, 0x180
MSTATUS, MEDELEG, MIDELEG, MIE, MTVEC = 0x300, 0x302, 0x303, 0x304, 0x305
MEPC, MCAUSE, MTVAL, MIP = 0x341, 0x342, 0x343, 0x344
TIMES = [0xC00, 0xC01, 0xC02]
WHO = [0xF11, 0xF12, 0xF13, 0xF14]
UNLISTED = [0x5C0, 0x6C0, 0x7C0, 0x800, 0x8FF, 0x9C0, 0xAC0, 0xBC0, 0xCC0, 0xDC0, 0xEC0, 0xFC0]
ALL = 2**64 - 1
WRITTEN = {
    SSTATUS: 0xC0122, SIE: 0x222, 0x106: 7, 0x140: ALL, SEPC: ALL - 3, SCAUSE: 0x800000000000003F, STVAL: ALL, SIP: 2,
    SATP: 0xFFFFFFFFFFF, MSTATUS: 0x3C19AA, MEDELEG: 0xB3FF, MIDELEG: 0x222, MIE: 0xAAA, 0x306: 7, 0x340: ALL,
    MEPC: ALL - 3, MCAUSE: 0x800000000000003F, MTVAL: ALL, MIP: 0x222,
}
# The registers on which it depends what traps, and where to.
TURNING = [SSTATUS, SIE, SIP, MSTATUS, MEDELEG, MIDELEG, MIE, MIP]
SHOWN = [*range(0x105, 0x107), *range(0x140, 0x144), SATP, MSTATUS, *range(0x302, 0x307), *range(0x340, 0x345)]
MIE_BIT, TVM, TW, TSR, MPRV, MPP = 1 << 3, 1 << 20, 1 << 21, 1 << 22, 1 << 17, 3 << 11
SIE_BIT, SPP = 1 << 1, 1 << 8

ECALL, EBREAK, SRET, MRET, WFI, SFENCE = 0x73, 0x100073, 0x10200073, 0x30200073, 0x10500073, 0x12000073
# No instruction at all, an LR with a source, branches, loads, stores and jumps of no kind, and system instructions.
ILLEGAL = [0, ALL >> 32, 0x0B, 0x7B, 0x7F, 0x1010A12F, 0x2063, 0x7003, 0x4023, 0x1067, 0x00200073, 0x7FF00073]
INTERRUPTS = 12
MSIP, MTIMECMP, UART, FINISHER, PASS = 0x2000000, 0x2004000, 0x10000000, 0x100000, 0x5555
CPU = "rv64,c=false,f=false,d=false,h=false,sstc=false,marchid=0,mimpid=0,mvendorid=0"
QEMU = ["qemu-system-riscv64", "-M", "virt", "-m", "64M", "-display", "none", "-monitor", "none", "-cpu", CPU]


def no_alarm(place, value):
    """Gives the timer a compare value that sets no alarm. QEMU's timer interrupt pends until then."""
    return [*constant(place, MTIMECMP), addi(value, 0, -1), s_type(0, value, place, 3)]


QUIET = no_alarm(SPARE, PLACE)


def csr(op, rd, rs1, number):
    return i_type(number, rs1, op, rd, 0x73)


def mixed(a, b):
    """DIGEST = 33 * DIGEST + a, by way of b."""
    return [i_type(5, DIGEST, 1, b, 0x13), r_type(0, b, DIGEST, 0, DIGEST, 0x33), r_type(0, a, DIGEST, 0, DIGEST, 0x33)]


def asked_mode(b):
    """Gives MPP the mode that is asked for, if one is."""
    inner = [*constant(b, MPP), csr(RC, 0, b, MSTATUS), addi(ASKED, ASKED, -1), i_type(11, ASKED, 1, ASKED, 0x13)]
    inner += [csr(RS, 0, ASKED, MSTATUS), addi(ASKED, 0, 0)]
    return [branch_to(0, ASKED, 0, 4 + 4 * len(inner)), *inner]


def lines_off(place, value):
    """Turns the lines of timer and software interrupt off."""
    return [*constant(place, MSIP), s_type(0, 0, place, 2), *no_alarm(place, value)]


def handler(registers, numbers, ask, lower, returns):
    """The table of a vector and what all of its entries lead to."""
    a, b = registers
    status, epc, cause, tval, cleared = numbers
    step = [csr(RS, b, 0, epc), addi(b, b, 4), csr(RW, 0, b, epc), returns]
    resume = [csr(RW, 0, RESUME, epc), addi(RESUME, 0, 0), returns]
    exception = [*ask, branch_to(1, RESUME, 0, 4 + 4 * len(step)), *step, *resume]
    interrupt = [addi(b, 0, 1), r_type(0, a, b, 1, b, 0x33), csr(RC, 0, b, cleared), *lower, returns]
    words = [jump(a, 4 * (INTERRUPTS - entry)) for entry in range(INTERRUPTS)] + mixed(a, b)
    for number in (status, epc, tval, cause):
        words += [csr(RS, a, 0, number), *mixed(a, b)]
    return words + [branch_to(4, a, 0, 4 + 4 * len(exception)), *exception, *interrupt]


IN_MACHINE = handler(IN_M, (MSTATUS, MEPC, MCAUSE, MTVAL, MIP), asked_mode(IN_M[1]), lines_off(*IN_M), MRET)
IN_SUPERVISOR = handler(IN_S, (SSTATUS, SEPC, SCAUSE, STVAL, SIE), [], [], SRET)
MACHINE = RAM + 4
SUPERVISOR = MACHINE + 4 * len(IN_MACHINE)
VECTORS = {MTVEC: MACHINE, STVEC: SUPERVISOR}


def escapes(mode, medeleg):
    """Instructions whose exceptions come to M from this mode."""
    causes = {8 + mode: ECALL, 2: 0, 3: EBREAK}
    return [word for cause, word in causes.items() if mode == M or not medeleg >> cause & 1]


class Program:
    """The words so far, and what is known of the hart after them: its mode, medeleg and mstatus, and how often it may
    have trapped."""

    def __init__(self, chance):
        self.chance = chance
        self.words = []
        self.mode, self.medeleg, self.status, self.traps = M, 0, 0, 0
        # SSI and STI, or SEI.
        self.pending = chance.choice([0x22, 0x200])

    def add(self, *words):
        self.words += words

    def here(self):
        return RAM + 4 * len(self.words)

    def alias(self, mode):
        """How much higher this mode sees the program than it stands."""
        return 0

    def points(self, register, mode, words):
        """Gives a register the address, in this mode, of the word that comes so many words after these two."""
        higher = self.alias(mode) - self.alias(self.mode)
        self.add(u_type(higher >> 12, register, AUIPC), addi(register, register, 8 + 4 * words))

    def register(self):
        return self.chance.choice(FREE)

    # CSRs

    def written(self, number):
        """The bits that may be written."""
        return WRITTEN[number] & (self.pending if number in (SIP, MIP) else ALL)

    def operand(self, op, number):
        """A value that may be written by this operation."""
        chance = self.chance
        bits = chance.getrandbits(64)
        found = chance.choice([integer.value(chance), bits, bits, bits, ALL, 0]) & self.written(number)
        if number == MSTATUS:
            found = found & ~MPP | chance.choice([0, 2, 3] if op == RC else [0, 1, 3]) << 11
        if number == SATP and chance.random() < 0.3:
            found |= chance.choice([1, 7, 15]) << 60 if op == RW else 0
        return found

    def known(self, op, number, value):
        """What is known after a write; whether each mode can still come back to M."""
        after = {RW: lambda old: value, RS: lambda old: old | value, RC: lambda old: old & ~value}[op]
        medeleg = after(self.medeleg) if number == MEDELEG else self.medeleg
        if not all(escapes(mode, medeleg) for mode in MODES):
            return False
        self.medeleg = medeleg
        if number == MSTATUS:
            self.status = after(self.status)
        return True

    def writes(self, number):
        op, rd = self.chance.choice([RW, RS, RC]), self.register()
        if self.chance.random() < 0.3:
            value = self.chance.randrange(32) & self.written(number)
            if self.known(op, number, value):
                self.add(csr(op | IMMEDIATE, rd, value, number))
        else:
            value, rs1 = self.operand(op, number), self.register()
            if self.known(op, number, value):
                self.add(*constant(rs1, value), csr(op, rd, rs1, number))
        self.traps += 1

    def may_use(self, number):
        return self.mode >= number >> 8 & 3

    def vector(self):
        number = self.chance.choice([n for n in VECTORS if self.may_use(n)])
        if self.chance.random() < 0.5:
            self.add(csr(self.chance.choice([RS, RC]) | IMMEDIATE, self.register(), 1, number))
        else:
            value = VECTORS[number] | self.chance.randrange(2)
            self.add(*constant(SPARE, value), csr(RW, self.register(), SPARE, number))

    def uses_csr(self):
        """A CSR instruction that is legal, or where satp is guarded maybe isn't."""
        if self.mode == U or self.chance.random() < 0.1:
            return self.reads_time()
        if self.chance.random() < 0.15:
            return self.vector()
        numbers = [n for n in WRITTEN if self.may_use(n)]
        if self.chance.random() < 0.15:
            numbers = [n for n in [*numbers, *WHO, MTVEC, STVEC] if self.may_use(n)]
            return self.add(csr(self.chance.choice([RS, RC]), self.register(), 0, self.chance.choice(numbers)))
        return self.writes(self.chance.choice(numbers + [n for n in TURNING if self.may_use(n)] * 2))

    def raises(self):
        """Interrupts that are raised and enabled, delegated or not."""
        for number in self.chance.sample([MIDELEG, MIE, MIP, MSTATUS], 4):
            if self.mode == M:
                self.writes(number)

    def delegates(self):
        self.writes(MEDELEG)
        self.writes(MIDELEG)

    def reads_time(self):
        self.traps += 1
        self.add(csr(RS, 0, 0, self.chance.choice(TIMES)))

    def refused_csr(self):
        rs1, op = self.register(), self.chance.choice([RW, RS, RC, RW | IMMEDIATE, RS | IMMEDIATE, RC | IMMEDIATE])
        above = [n for n in [*WRITTEN, *VECTORS, 0x301, 0xB00] if not self.may_use(n)]
        number = self.chance.choice([*UNLISTED, *TIMES, *WHO, *above])
        self.add(*constant(rs1, self.chance.randrange(1, 2**32)), csr(op, self.register(), rs1, number))

    # Exceptions

    def far(self, width):
        """Points PLACE outside RAM, at a multiple of the width."""
        place = self.chance.choice([0x90000000, 0x1000000000, 2**40, 2**55]) + self.chance.randrange(2**20)
        self.add(*constant(PLACE, place // width * width))

    def refused_access(self):
        kind, log = self.chance.choice(["load", "store", "lr"]), self.chance.randrange(4)
        self.far(8)
        if kind == "load":
            self.add(i_type(0, PLACE, log, self.register(), 0x03))
        elif kind == "store":
            self.add(s_type(0, self.register(), PLACE, log))
        else:
            self.add(r_type(8, 0, PLACE, 2 | log & 1, self.register(), 0x2F))

    def misaligned_lr(self):
        width = self.chance.choice([4, 8])
        self.add(addi(PLACE, BASE, MEMORY + self.chance.randrange(1, width)))
        self.add(r_type(8, 0, PLACE, 2 if width == 4 else 3, self.register(), 0x2F))

    def misaligned_jump(self):
        self.add(*constant(PLACE, RAM + 4 * self.chance.randrange(64) + self.chance.choice([2, 3])))
        self.add(i_type(0, PLACE, 0, self.register(), 0x67))

    def jump_away(self):
        self.far(4)
        self.points(RESUME, self.mode, 1)
        self.add(i_type(0, PLACE, 0, self.register(), 0x67))

    def refused_word(self):
        words = [*ILLEGAL, *[EBREAK, ECALL] * 5]
        words += [MRET] if self.mode != M else []
        words += [SRET, WFI, SFENCE | self.register() << 15 | self.register() << 20] if self.mode == U else []
        words += [WFI] if self.mode == S and self.status & TW else []
        words += [SFENCE] if self.mode == S and self.status & TVM else []
        self.add(self.chance.choice(words))

    def traps_once(self):
        self.traps += 1
        self.chance.choice([
            self.refused_csr, self.refused_csr, self.refused_word, self.refused_word, self.refused_word,
            self.refused_access, self.misaligned_lr, self.misaligned_jump, self.jump_away,
        ])()

    # Modes

    def returns(self, mode, epc, clears, sets, status, word):
        """A return to the next instruction in this mode, with bits of the status cleared and set before."""
        self.add(*constant(SPARE, clears), csr(RC, 0, SPARE, status), *constant(SPARE, sets), csr(RS, 0, SPARE, status))
        self.points(SPARE, mode, 2)
        self.add(csr(RW, 0, SPARE, epc), word)

    def to(self, mode):
        self.traps += 4
        ways = ["trap"] + (["mret"] if self.mode == M else []) + (["sret"] if mode <= S <= self.mode else [])
        way = self.chance.choice(ways)
        if way == "mret":
            self.returns(mode, MEPC, MIE_BIT | MPP, mode << 11, MSTATUS, MRET)
        elif way == "sret" and self.mode == M:
            self.returns(mode, SEPC, MIE_BIT | SPP, mode << 8, MSTATUS, SRET)
        elif way == "sret":
            self.returns(mode, SEPC, SIE_BIT | SPP, mode << 8, SSTATUS, SRET)
        else:
            self.points(RESUME, mode, 2)
            self.add(addi(ASKED, 0, mode + 1), self.chance.choice(escapes(self.mode, self.medeleg)))
        self.mode = mode

    def moves(self):
        self.to(self.chance.choice(MODES))

    def guarded_sret(self):
        """SRET in S with TSR."""
        self.to(M)
        self.add(csr(RW, 0, 0, MEDELEG), csr(RW, 0, 0, MIDELEG), *constant(SPARE, TSR), csr(RS, 0, SPARE, MSTATUS))
        self.medeleg = 0
        self.returns(S, MEPC, MIE_BIT | MPP, S << 11, MSTATUS, MRET)
        self.mode = S
        self.add(SRET)
        self.to(M)
        self.add(*constant(SPARE, TSR), csr(RC, 0, SPARE, MSTATUS))
        self.delegates()

    def as_other_mode(self):
        """Accesses in M with MPRV."""
        self.to(M)
        self.add(*constant(SPARE, MIE_BIT | MPP), csr(RC, 0, SPARE, MSTATUS))
        self.add(*constant(SPARE, MPRV | self.chance.choice(MODES) << 11), csr(RS, 0, SPARE, MSTATUS))
        self.add(integer.on_memory(self.chance, OPERANDS), integer.on_memory(self.chance, OPERANDS))
        self.add(*constant(SPARE, MPRV), csr(RC, 0, SPARE, MSTATUS))

    def computes(self):
        if self.chance.random() < 0.1:
            self.add(u_type(self.chance.randrange(2**20), self.register(), AUIPC))
        elif self.chance.random() < 0.1:
            self.add(jump(self.register(), 8), addi(self.register(), 0, 1))
        else:
            self.add(*integer.some(self.chance, OPERANDS))

    def begins(self):
        """The handlers, and the registers at the start."""
        self.add(jump(0, 4 * (1 + len(IN_MACHINE) + len(IN_SUPERVISOR))), *IN_MACHINE, *IN_SUPERVISOR)
        self.add(*QUIET)
        self.add(*constant(BASE, RAM + CODE), *[load_double(r, BASE, 8 * r) for r in FREE])
        self.add(addi(PLACE, 0, 0), *[addi(r, 0, 0) for r in range(24, 32)])
        for number in VECTORS:
            self.add(*constant(SPARE, VECTORS[number]), csr(RW, 0, SPARE, number))
        # All of memory for S and U, by QEMU's memory protection; here these registers are constant.
        self.add(*constant(SPARE, ALL), csr(RW, 0, SPARE, 0x3B0), addi(SPARE, 0, 0x1F), csr(RW, 0, SPARE, 0x3A0))
        self.delegates()

    def make(self):
        self.begins()
        kinds = [self.uses_csr] * 20 + [self.traps_once] * 15 + [self.moves] * 10 + [self.computes] * 10
        kinds += [self.raises] * 5 + [self.guarded_sret, self.as_other_mode]
        for _ in range(self.chance.randrange(30, 250)):
            self.chance.choice(kinds)()
        self.to(M)
        self.add(NOTHING, *integer.mixes_memory())


def image_of(words, data):
    code = bytes_of(words)
    assert len(code) <= CODE
    return code.ljust(CODE, b"\0") + data


def by_flexemu(program, made, data, folder):
    """Registers and CSRs at the end, or None where the program doesn't come to it."""
    with open(os.path.join(folder, "image"), "wb") as file:
        file.write(image_of([*made.words, TO_ITSELF], data))
    budget = f"--budget={len(made.words) + 60 * made.traps + 500}"
    subprocess.run([program, "solo", "image", "trace", "--ram=1", budget], cwd=folder, check=True)
    found = {}
    with open(os.path.join(folder, "trace")) as file:
        for line in file:
            if line.startswith("hart 0 ends"):
                if line.split()[4:] != ["mode", "m", "pc", f"{made.here():016x}"]:
                    return None
            elif line.startswith("hart 0"):
                *name, digits = line.split()[2:]
                found["".join(name)] = int(digits, 16)
    return found


def tells(word):
    """Stores the registers and CSRs, sends them by the console, and turns the power off by this word."""
    words = [store_double(r, BASE, RESULTS + 8 * r) for r in range(1, 32)]
    for place, number in enumerate(SHOWN):
        words += [csr(RS, 5, 0, number), store_double(5, BASE, RESULTS + 8 * (32 + place))]
    words += [addi(5, BASE, RESULTS), addi(6, 5, 8 * (32 + len(SHOWN))), *constant(7, UART)]
    is_ready = [i_type(5, 7, 4, 8, 0x03), i_type(0x20, 8, 7, 8, 0x13), branch_to(0, 8, 0, -8)]
    send = [i_type(0, 5, 4, 8, 0x03), s_type(0, 8, 7, 0), addi(5, 5, 1)]
    words += [*is_ready, *send, branch_to(1, 5, 6, -24)]
    return [*words, *constant(5, word), *constant(6, FINISHER), s_type(0, 5, 6, 2), TO_ITSELF]


def told_by(words):
    """The registers and CSRs by their names, as they were sent."""
    names = ["x0", *[f"x{r}" for r in range(1, 32)], *[f"csr{number:03x}" for number in SHOWN]]
    return dict(zip(names[1:], struct.unpack(f"<{TOLD // 8}Q", words)[1:]))


TOLD = 8 * (32 + len(SHOWN))


def by_qemu(made, data, folder):
    with open(os.path.join(folder, "firmware"), "wb") as file:
        file.write(image_of([*made.words, *tells(PASS)], data + bytes(0x800)))
    words = [*QEMU, "-serial", "file:told", "-bios", "firmware"]
    try:
        subprocess.run(words, cwd=folder, check=True, timeout=20)
    except subprocess.TimeoutExpired:
        return None
    with open(os.path.join(folder, "told"), "rb") as file:
        return told_by(file.read())


def random_data(chance):
    """The registers at the start, and the memory of ordinary loads and stores."""
    return b"".join(struct.pack("<Q", integer.value(chance)) for _ in range(32)) + chance.randbytes(MEMORY_BYTES)


def compared(program, made, data, folder):
    """What differs after a program, a line each."""
    ours, theirs = by_flexemu(program, made, data, folder), by_qemu(made, data, folder)
    if ours is None or theirs is None:
        return [f"no end is reached {'here' if ours is None else 'by QEMU'}"]
    pairs = [(name, ours.get(name, 0), b) for name, b in theirs.items()]
    return [f"{name} is {a:016x}, and {b:016x} by QEMU" for name, a, b in pairs if a != b]


def differences(program, chance, folder):
    """What differs after a random program, a line each."""
    made = Program(chance)
    made.make()
    return compared(program, made, random_data(chance), folder)
