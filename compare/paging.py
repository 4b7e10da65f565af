"""Random programs under Sv39, which flexemu and QEMU's board `virt` play as a raw image.

A program goes between M, S and U as privileged.py has it, turns translation on and off, and changes from one root table
to the other. It loads, stores, makes atomic instructions and jumps at addresses of all kinds: of a page or a superpage,
which leads to one of a few frames or outside RAM, with R, W, X, U, G and the bits for software in all combinations;
below entries that are faults in each way; and such as aren't canonical. It does so in S and U, and in M with MPRV, with
SUM and MXR either way. In M and in S it changes entries of all levels. Page faults and the other exceptions are
delegated or not. S sees the program where it stands and U at another address, both by a superpage or by pages. Compared
at the end is what privileged.py compares, with the first bytes of each frame mixed in.

Left out is, beside what privileged.py leaves out, where the two rightly differ, or where this QEMU (7.2) isn't as the
manual says:
- a leaf with A clear, or with D clear where something is stored: QEMU sets the bits, and flexemu faults. So A and D are
  set in all leaves;
- a change of an entry, or of satp, without SFENCE.VMA after it: which translations outlive it is each machine's own;
- a table outside RAM: QEMU makes a page fault of it, and it is an access fault;
- a fetch in S from a page of U, after S loaded or stored there with SUM: QEMU makes it. A fence stands before it;
- an SC without a reservation, of which QEMU doesn't translate the address. It comes after an LR that didn't trap;
- an AMO where a load traps: QEMU's traps as the load does. It comes after a load that didn't trap;
- more than one access under MPRV: a trap changes MPP, and QEMU keeps what it translated for the MPP before;
- misaligned accesses, as there; so also whether they trap for that or for their page.
"""
import struct

import integer
import privileged
from privileged import ALL, DIGEST, EBREAK, ECALL, FREE, M, MEDELEG, MPP, MPRV, MSTATUS, OPERANDS, PLACE, RAM
from privileged import RC, RESUME, RS, RW, S, SATP, SFENCE, SPARE, SSTATUS, TVM, U, WRITTEN, csr
from words import addi, branch_to, constant, i_type, load_double, r_type, s_type

PAGE = 0x1000
# From the start of RAM on: the frames of data, and tables. Of the two roots, and of the two tables of the levels below,
# any may lead to any; those that map the program are apart.
FRAMES, FRAME_COUNT = 0x20000, 8
ROOTS, MIDDLES, LASTS = [0x30000, 0x31000], [0x32000, 0x33000], [0x34000, 0x35000]
TABLES = [LASTS, MIDDLES, ROOTS]
PROGRAM_TABLES = {S: (0x36000, 0x37000), U: (0x38000, 0x39000)}
END = 0x3A000
# How much higher U sees the program than it stands, and the root's entry by which each mode sees it.
HIGHER, SEEN_BY = 0x40000000, {S: 2, U: 3}
# The indices of the addresses that are tried; in a superpage at the start of RAM, the last ones lead to the frames.
INDICES = [[FRAMES // PAGE + n for n in range(FRAME_COUNT)], [0, 40, 511], [0, 1, 256, 511]]
# What is loaded and stored of a frame, and where the code stands that adds to a register and jumps back.
USED, LANDING = 64, 0x800
COUNTED = 10
# Frames outside RAM, at which gigapages may begin; two of them lead into RAM where high bits are lost.
FAR = [0x100000, 2**28, 2**32 + 0x80000, 2**43 + 0x80000]

V, R, W, X, OF_USER, GLOBAL, A, D = (1 << bit for bit in range(8))
SUM, MXR = 1 << 18, 1 << 19
SV39 = 8 << 60


def entry(frame, flags):
    return frame << 10 | flags


def frame_at(offset):
    return (RAM + offset) // PAGE


def canonical(indices):
    """The address of the page that has these indices, those of level 0 first."""
    address = sum(index << 12 + 9 * level for level, index in enumerate(indices))
    return address | (ALL << 39 & ALL if address >> 38 else 0)


class Program(privileged.Program):
    """Also the root in satp, or None, whether SUM is set, and the tables' entries at the start."""

    def __init__(self, chance):
        super().__init__(chance)
        self.root = None
        self.may_see_user = False
        self.entries = {}

    def alias(self, mode):
        return HIGHER if mode == U and self.root is not None else 0

    # Entries of tables

    def leaf(self, level):
        chance = self.chance
        flags = chance.choice([R, R | W, R | X, R | W | X, R | W | X, X]) | chance.choice([0, OF_USER])
        flags |= V | A | D | chance.choice([0, GLOBAL]) | chance.choice([0, 0, 0x100, 0x300])
        if chance.random() < 0.1:
            return entry(chance.choice(FAR), flags)
        if level:
            return entry(frame_at(0), flags)
        return entry(frame_at(FRAMES) + chance.randrange(FRAME_COUNT), flags)

    def table(self, level):
        return entry(frame_at(self.chance.choice(TABLES[level - 1])), V | self.chance.choice([0, GLOBAL, 0x200]))

    def fault(self, level):
        """An entry that is a page fault, whatever is tried."""
        chance = self.chance
        kinds = [self.leaf(level) & ~V, self.leaf(level) & ~R | W, self.leaf(level) | 1 << chance.randrange(54, 64), 0]
        if level:
            kinds += [self.table(level) & ~V, self.table(level) | 1 << chance.randrange(54, 64)]
            kinds += [self.table(level) | chance.choice([A, D, OF_USER])]
            kinds += [self.leaf(level) + (1 << 10 + chance.randrange(9 * level))] * 2
        else:
            kinds += [entry(frame_at(LASTS[0]), V)]
        return chance.choice(kinds)

    def any_entry(self, level):
        kinds = [self.leaf] * (2 if level else 8) + [self.table] * (6 if level else 0) + [self.fault]
        return self.chance.choice(kinds)(level)

    def any_place(self):
        """An entry's place, and its level."""
        level = self.chance.randrange(3)
        return self.chance.choice(TABLES[level]) + 8 * self.chance.choice(INDICES[level]), level

    def maps_program(self, mode):
        """Entries by which a mode sees the program, by a gigapage, a megapage, or pages."""
        flags = V | R | W | X | A | D | (OF_USER if mode == U else 0)
        middle, last = PROGRAM_TABLES[mode]
        level = self.chance.randrange(3)
        if level == 0:
            self.entries.update({last + 8 * page: entry(frame_at(page * PAGE), flags) for page in range(END // PAGE)})
        self.entries[middle] = entry(frame_at(0), flags) if level else entry(frame_at(last), V)
        for root in ROOTS:
            found = entry(frame_at(0), flags) if level == 2 else entry(frame_at(middle), V)
            self.entries[root + 8 * SEEN_BY[mode]] = found

    def fills_tables(self):
        for level, tables in enumerate(TABLES):
            for table in tables:
                self.entries.update({table + 8 * index: self.any_entry(level) for index in INDICES[level]})
        for mode in PROGRAM_TABLES:
            self.maps_program(mode)

    # Instructions

    def fence(self):
        registers = [self.chance.choice([0, 0, self.register()]) for _ in range(2)]
        self.add(SFENCE | registers[0] << 15 | registers[1] << 20)

    def address(self):
        """Of a page, where translation is on."""
        found = canonical([self.chance.choice(indices) for indices in INDICES])
        if self.chance.random() < 0.05:
            return found ^ 1 << self.chance.choice([39, 63, self.chance.randrange(39, 64)])
        return found

    def pointed(self, width):
        place = self.address() + self.chance.randrange(USED // width) * width
        self.add(*constant(PLACE, place))

    def loads_or_stores(self):
        chance = self.chance
        if chance.random() < 0.5:
            funct3 = chance.randrange(7)
            self.pointed(1 << (funct3 & 3))
            self.add(i_type(0, PLACE, funct3, self.register(), 0x03))
        else:
            funct3 = chance.randrange(4)
            self.pointed(1 << funct3)
            self.add(s_type(0, chance.choice(OPERANDS), PLACE, funct3))

    def atomic(self):
        """An AMO after a load, or an SC after an LR, where the first didn't trap, which the handlers' digest tells."""
        chance, funct3 = self.chance, self.chance.choice([2, 3])
        source = chance.choice(OPERANDS)
        self.pointed(8)
        self.add(addi(SPARE, DIGEST, 0))
        if chance.random() < 0.3:
            first = i_type(2 << 7, PLACE, funct3, self.register(), 0x2F)
            then = [r_type(3 << 2, source, PLACE, funct3, self.register(), 0x2F)]
        else:
            first = i_type(0, PLACE, funct3, self.register(), 0x03)
            then = [SFENCE] if self.mode != U and chance.random() < 0.5 else []
            funct5 = chance.choice([0, 1, 4, 8, 12, 16, 20, 24, 28])
            then.append(r_type(funct5 << 2, source, PLACE, funct3, self.register(), 0x2F))
        self.add(first, branch_to(1, SPARE, DIGEST, 4 + 4 * len(then)), *then)

    def jumps(self):
        if self.mode == S and self.may_see_user:
            self.fence()
        self.add(*constant(PLACE, self.address() + LANDING))
        self.points(RESUME, self.mode, 1)
        self.add(i_type(0, PLACE, 0, 0, 0x67), addi(RESUME, 0, 0))

    def accesses(self):
        """One access that is translated, as data or as an instruction."""
        self.traps += 1
        kinds = [self.loads_or_stores] * 5 + [self.atomic] * 2
        if self.mode != M:
            self.chance.choice(kinds + [self.jumps] * 3)()
            return
        self.add(*constant(SPARE, MPP), csr(RC, 0, SPARE, MSTATUS))
        self.add(*constant(SPARE, MPRV | self.chance.choice([U, S]) << 11), csr(RS, 0, SPARE, MSTATUS))
        self.chance.choice(kinds)()
        self.add(*constant(SPARE, MPRV), csr(RC, 0, SPARE, MSTATUS))

    def tries(self):
        if self.root is None:
            self.turns_to(self.chance.choice(ROOTS))
        for _ in range(self.chance.randrange(1, 4)):
            self.accesses()

    def changes(self):
        """Another entry, in the mode that may write it, and the fence after it."""
        if self.mode == U:
            self.moves()
        if self.mode == U:
            return
        place, level = self.any_place()
        a, b = self.chance.sample(FREE, 2)
        self.add(*constant(a, RAM + place), *constant(b, self.any_entry(level)), s_type(0, b, a, 3))
        self.fence()

    def turns_to(self, root):
        """A write of satp, and the fence after it."""
        if self.mode == U:
            self.to(self.chance.choice([S, M]))
        a = self.register()
        self.root = root
        self.add(*constant(a, 0 if root is None else SV39 | frame_at(root)), csr(RW, self.register(), a, SATP))
        self.fence()

    def turns(self):
        self.turns_to(self.chance.choice([*ROOTS, *ROOTS, *ROOTS, None]))

    def allows(self):
        """SUM and MXR."""
        if self.mode == U:
            return
        bits = self.chance.choice([SUM, MXR, SUM | MXR])
        op = self.chance.choice([RS, RC])
        if bits & SUM:
            self.may_see_user = op == RS
        self.add(*constant(SPARE, bits), csr(op, 0, SPARE, MSTATUS if self.mode == M else SSTATUS))

    def guarded(self):
        """The fence and satp in S with TVM."""
        self.to(M)
        self.add(*constant(SPARE, TVM), csr(RS, 0, SPARE, MSTATUS))
        self.to(S)
        self.fence()
        self.add(csr(RS, self.register(), 0, SATP), csr(RW, 0, self.register(), SATP))
        self.traps += 3
        self.to(M)
        self.add(*constant(SPARE, TVM), csr(RC, 0, SPARE, MSTATUS))

    def traps_once(self):
        self.traps += 1
        self.add(self.chance.choice([ECALL, EBREAK, 0] if self.mode == U else [EBREAK, 0]))

    def computes(self):
        kinds = [integer.on_registers, integer.with_immediate] + ([integer.on_memory] if self.mode != U else [])
        self.add(self.chance.choice(kinds)(self.chance, OPERANDS))

    def delegates(self):
        """Any exceptions to S, but for illegal instructions or breakpoints, by which each mode comes to M."""
        if self.mode != M:
            self.to(M)
        self.medeleg = self.chance.getrandbits(16) & WRITTEN[MEDELEG] & ~(1 << self.chance.choice([2, 3]))
        self.add(*constant(SPARE, self.medeleg), csr(RW, 0, SPARE, MEDELEG))

    def mixes_frames(self):
        """x6 = 33 * x6 + the 8 bytes, for the bytes of each frame that are used."""
        words = [addi(7, 0, 33)]
        for frame in range(FRAME_COUNT):
            words += constant(8, RAM + FRAMES + frame * PAGE)
            for offset in range(0, USED, 8):
                words += [load_double(5, 8, offset), r_type(1, 7, 6, 0, 6, 0x33), r_type(0, 5, 6, 0, 6, 0x33)]
        return words

    def make(self):
        self.fills_tables()
        self.begins()
        kinds = [self.tries] * 40 + [self.changes] * 15 + [self.moves] * 12 + [self.allows] * 8 + [self.turns] * 5
        kinds += [self.delegates] * 3 + [self.computes] * 5 + [self.traps_once] * 3 + [self.guarded]
        for _ in range(self.chance.randrange(20, 150)):
            self.chance.choice(kinds)()
        self.to(M)
        self.add(*integer.mixes_memory(), *self.mixes_frames())

    def data(self):
        """What follows the code in the image: registers and memory, frames with their landings, and tables."""
        data = bytearray(privileged.random_data(self.chance).ljust(END - privileged.CODE, b"\0"))

        def put(offset, form, *values):
            struct.pack_into(form, data, offset - privileged.CODE, *values)

        for number in range(FRAME_COUNT):
            frame = FRAMES + number * PAGE
            put(frame, f"<{USED // 8}Q", *(integer.value(self.chance) for _ in range(USED // 8)))
            put(frame + LANDING, "<II", addi(COUNTED, COUNTED, 1 << number), i_type(0, RESUME, 0, 0, 0x67))
        for place, value in self.entries.items():
            put(place, "<Q", value)
        return bytes(data)


def differences(program, chance, folder):
    """What differs after a random program, a line each."""
    made = Program(chance)
    made.make()
    return privileged.compared(program, made, made.data(), folder)
