"""Words of RISC-V instructions, as the scripts beside this file make them."""
import struct

NOTHING = 0x13
TO_ITSELF = 0x6F
AUIPC, LUI = 0x17, 0x37


def r_type(funct7, rs2, rs1, funct3, rd, opcode):
    return funct7 << 25 | rs2 << 20 | rs1 << 15 | funct3 << 12 | rd << 7 | opcode


def i_type(imm, rs1, funct3, rd, opcode):
    return (imm & 0xFFF) << 20 | rs1 << 15 | funct3 << 12 | rd << 7 | opcode


def s_type(imm, rs2, rs1, funct3):
    return (imm >> 5 & 0x7F) << 25 | rs2 << 20 | rs1 << 15 | funct3 << 12 | (imm & 0x1F) << 7 | 0x23


def addi(rd, rs1, imm):
    return i_type(imm, rs1, 0, rd, 0x13)


def load_double(rd, base, offset):
    return i_type(offset, base, 3, rd, 0x03)


def store_double(rs2, base, offset):
    return s_type(offset, rs2, base, 3)


def u_type(imm, rd, opcode):
    return (imm & 0xFFFFF) << 12 | rd << 7 | opcode


def jump(rd, offset):
    bits = (offset >> 20 & 1) << 19 | (offset >> 1 & 0x3FF) << 9 | (offset >> 11 & 1) << 8 | offset >> 12 & 0xFF
    return u_type(bits, rd, 0x6F)


def branch_to(funct3, rs1, rs2, offset):
    high = (offset >> 12 & 1) << 6 | offset >> 5 & 0x3F
    return r_type(high, rs2, rs1, funct3, (offset >> 1 & 0xF) << 1 | offset >> 11 & 1, 0x63)


def signed(value, bits):
    value &= (1 << bits) - 1
    return value - (1 << bits) if value >> (bits - 1) else value


def constant(rd, value):
    """The instructions that make a register hold these 64 bits."""
    value = signed(value, 64)
    low = signed(value, 12)
    if value == low:
        return [addi(rd, 0, low)]
    if value == signed(value, 32):
        return [u_type(value - low >> 12, rd, LUI), i_type(low, rd, 0, rd, 0x1B)]
    return [*constant(rd, value - low >> 12), i_type(12, rd, 1, rd, 0x13), addi(rd, rd, low)]


def bytes_of(words):
    return b"".join(struct.pack("<I", word) for word in words)
