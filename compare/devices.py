"""Random whole programs with the console, timer and software interrupts, and WFI, which flexemu and QEMU's board `virt`
play as one and the same raw image to the end, where they turn the power off.

A program is one of privileged.py, which also sends bytes to the console in each mode, takes bytes of its input, waits by
WFI for its timer or its own software interrupt, takes that interrupt or turns its line off, and writes its compare value
whole or by halves. At the end it sends the registers and CSRs, and turns the power off by a pass, or by a fail with a
code. Compared are all bytes of the console, and the way the run ends.

Left out is, beside what privileged.py leaves out, where the two rightly differ:
- how much time passes: QEMU's timer goes by the clock, and this one by instructions, so mtime is never told;
- when an interrupt comes after its cause, since QEMU looks for it less often: lines change only where MIE is 0 and the
  hart in M, and the interrupt is taken when MIE is set after WFI;
- the end of the input: this line status says that no byte is left, where QEMU has yet to get one;
- the UART's other registers, which QEMU has, among them those of its interrupt and of the divisor;
- devices of 8-byte registers but the compare value, and accesses of widths that one of the two doesn't take;
- more harts than one, since QEMU has no order of their events to be given; so no hart is parked here;
- an idle run, which QEMU doesn't end, and a power off by a code of 256 or more, of which it tells the low byte.
"""
import os
import subprocess

import privileged
from privileged import DIGEST, FREE, FINISHER, M, MIE, MIE_BIT, MIP, MSIP, MSTATUS, MTIMECMP, PASS, PLACE, RC, RS, RW
from privileged import SPARE, TOLD, UART, WFI, csr
from words import addi, branch_to, constant, i_type, load_double, s_type, store_double

MTIME = 0x200BFF8
SOFTWARE, TIMER = 3, 7
BUDGET = 100_000
FAIL = 0x3333


class Program(privileged.Program):
    """Also the input, what power off is asked for at the end, and its code."""

    def __init__(self, chance):
        super().__init__(chance)
        self.input = b""
        self.code = chance.choice([0, 0, 1, 2, 42, 255])
        self.word = self.code << 16 | FAIL if self.code else PASS

    def mixes(self, register):
        self.add(*privileged.mixed(register, SPARE))

    def polls(self, bit):
        """Waits until a bit of the line status is set."""
        self.add(i_type(5, SPARE, 4, PLACE, 0x03), i_type(bit, PLACE, 7, PLACE, 0x13), branch_to(0, PLACE, 0, -8))

    def sends(self):
        """A byte to the console, in whatever mode the hart is."""
        self.add(*constant(SPARE, UART))
        self.polls(0x20)
        self.add(s_type(0, self.chance.choice([0, *FREE]), SPARE, 0))

    def takes(self):
        """A byte of the input, once it is there."""
        self.input += self.chance.randbytes(1)
        self.add(*constant(SPARE, UART))
        self.polls(1)
        self.add(i_type(0, SPARE, 4, PLACE, 0x03))
        self.mixes(PLACE)

    def takes_no_interrupt(self):
        self.to(M)
        self.add(*constant(SPARE, MIE_BIT), csr(RC, 0, SPARE, MSTATUS))

    def sets_line(self, line):
        """Has the line go on, at once or after a while."""
        if line == SOFTWARE:
            return self.add(*constant(SPARE, MSIP), addi(PLACE, 0, 1), s_type(0, PLACE, SPARE, 2))
        self.add(*constant(SPARE, MTIME), load_double(PLACE, SPARE, 0), addi(PLACE, PLACE, self.chance.randrange(1000)))
        return self.add(*constant(SPARE, MTIMECMP), store_double(PLACE, SPARE, 0))

    def tells_pending(self):
        lines = 1 << SOFTWARE | 1 << TIMER
        self.add(csr(RS, PLACE, 0, MIP), i_type(lines, PLACE, 7, PLACE, 0x13))
        self.mixes(PLACE)

    def waits(self):
        """WFI by which the hart waits for one line, with MIE 0."""
        self.takes_no_interrupt()
        line = self.chance.choice([SOFTWARE, TIMER])
        self.sets_line(line)
        self.add(*constant(SPARE, 1 << line), csr(RW, 0, SPARE, MIE), WFI)
        self.tells_pending()
        if self.chance.random() < 0.7:
            self.traps += 1
            self.add(*constant(SPARE, MIE_BIT), csr(RS, 0, SPARE, MSTATUS), csr(RC, 0, SPARE, MSTATUS))
        else:
            self.add(*privileged.lines_off(SPARE, PLACE))
        self.tells_pending()

    def compares(self):
        """The compare value is written and read, whole or by halves."""
        self.takes_no_interrupt()
        self.add(*constant(SPARE, MTIMECMP))
        for _ in range(self.chance.randrange(1, 4)):
            width, half = self.chance.choice([(3, 0), (2, 0), (2, 4)])
            self.add(s_type(half, self.chance.choice([0, *FREE]), SPARE, width))
        width, half = self.chance.choice([(3, 0), (2, 0), (2, 4), (6, 0), (6, 4)])
        self.add(i_type(half, SPARE, width, PLACE, 0x03))
        self.mixes(PLACE)
        self.add(*privileged.lines_off(SPARE, PLACE))

    def software_bit(self):
        """The software interrupt bit is written and read."""
        self.takes_no_interrupt()
        self.add(*constant(SPARE, MSIP), s_type(0, self.chance.choice(FREE), SPARE, 2), i_type(0, SPARE, 2, PLACE, 0x03))
        self.mixes(PLACE)
        self.add(*privileged.lines_off(SPARE, PLACE))

    def make(self):
        self.begins()
        kinds = [self.sends] * 12 + [self.takes] * 3 + [self.waits] * 4 + [self.compares] * 2 + [self.software_bit]
        kinds += [self.uses_csr] * 6 + [self.traps_once] * 5 + [self.moves] * 6 + [self.computes] * 6 + [self.raises] * 2
        for _ in range(self.chance.randrange(20, 150)):
            self.chance.choice(kinds)()
        self.to(M)
        self.add(*privileged.tells(self.word))


def by_flexemu(program, folder):
    """What is printed, and why the run stops."""
    words = [program, "solo", "image", "trace", "--ram=1", f"--budget={BUDGET}", "--input=input"]
    printed = subprocess.run(words, cwd=folder, check=True, stdout=subprocess.PIPE).stdout
    with open(os.path.join(folder, "trace")) as file:
        return printed, next(line for line in file if line.startswith("stop ")).strip()


def by_qemu(folder):
    """The same: QEMU ends with the code."""
    words = [*privileged.QEMU, "-serial", "stdio", "-bios", "image"]
    with open(os.path.join(folder, "input"), "rb") as given:
        try:
            ran = subprocess.run(words, cwd=folder, timeout=20, stdin=given, stdout=subprocess.PIPE, stderr=subprocess.DEVNULL)
        except subprocess.TimeoutExpired as expired:
            return expired.stdout or b"", "no stop"
    return ran.stdout, f"stop off {ran.returncode}"


def console_differs(ours, theirs):
    """The first byte that differs, and the registers that do."""
    if len(ours) != len(theirs) or ours[:-TOLD] != theirs[:-TOLD]:
        place = next((n for n, (a, b) in enumerate(zip(ours, theirs)) if a != b), min(len(ours), len(theirs)))
        yield f"{len(ours)} bytes are printed, {len(theirs)} by QEMU, and they differ from byte {place} on"
    elif len(ours) >= TOLD:
        told = privileged.told_by(theirs[-TOLD:])
        for name, value in privileged.told_by(ours[-TOLD:]).items():
            if value != told[name]:
                yield f"{name} is {value:016x}, and {told[name]:016x} by QEMU"


def differences(program, chance, folder):
    """What differs after a random program, a line each."""
    made = Program(chance)
    made.make()
    data = privileged.random_data(chance) + bytes(0x800)
    for name, content in (("image", privileged.image_of(made.words, data)), ("input", made.input)):
        with open(os.path.join(folder, name), "wb") as file:
            file.write(content)
    (ours, stop), (theirs, end) = by_flexemu(program, folder), by_qemu(folder)
    found = [] if stop == end == f"stop off {made.code}" else [f"the run ends with {stop}, and {end} by QEMU"]
    return found + list(console_differs(ours, theirs))
