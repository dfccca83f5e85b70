"""Writes the core file of `crash` as Linux lays it out for a process of 32 bits (fs/binfmt_elf.c, elf_core_dump).

All notes stand in one segment with p_align 0: status, process, signal, auxiliary vector and file table. Then one load
segment per mapping: the first page of the text, the data, the stack, and the kernel's own mappings, of which the data page
of the vDSO is not saved. The bytes of the mappings begin at the next page."""
import struct, sys

PAGE = 4096
EXECUTABLE = open("../data/crash", "rb").read()
PC, SP = int(sys.argv[1], 0), 0x9CB1FE30
COUNTERS = int(sys.argv[2], 0)


def words(*values):
    return struct.pack(f"<{len(values)}I", *values)


def note(kind, desc):
    name = b"CORE\0"
    return words(len(name), len(desc), kind) + name + bytes(-len(name) % 4) + desc + bytes(-len(desc) % 4)


def page(data, offset=0):
    return (bytes(offset) + data).ljust(PAGE, b"\0")


registers = [0] * 32
registers[0], registers[2], registers[14], registers[15] = PC, SP, 14, 49
status = words(11, 1, 0) + struct.pack("<HH", 11, 0) + words(0, 0, 4711, 4700, 4711, 4700) + words(*[0] * 8)
status += words(*registers) + words(0)
process = b"\0R\0\0" + words(0x400000, 1000, 1000, 4711, 4700, 4711, 4700) + b"crash".ljust(16, b"\0") + b"./crash".ljust(80, b"\0")
signal = words(11, 0, 1, 0).ljust(128, b"\0")
vector = words(3, 0x10034, 4, 32, 5, 4, 6, PAGE, 7, 0, 9, PC, 11, 1000, 12, 1000, 33, 0x9CBE4000, 0, 0)
table = words(1, PAGE, 0x10000, 0x11000, 0) + b"/home/user/crash\0"
notes = note(1, status) + note(3, process) + note(0x53494749, signal) + note(6, vector) + note(0x46494C45, table)

text = page(EXECUTABLE)
data = page(words(0, 7, 14), COUNTERS % PAGE)
stack = page(words(1, 0x9CB1FF7C, 0), SP % PAGE)
# address, flags, size in memory, bytes that are saved
mappings = [
    (0x10000, 5, PAGE, text),
    (0x11000, 6, PAGE, data),
    (0x9CB1F000, 6, PAGE, stack),
    (0x9CBE2000, 4, 2 * PAGE, b""),
    (0x9CBE4000, 5, PAGE, page(b"\x7fELF\x01\x01\x01")),
]

header = b"\x7fELF\x01\x01\x01".ljust(16, b"\0") + struct.pack("<HHIIIIIHHHHHH", 4, 243, 1, 0, 52, 0, 0, 52, 32, 1 + len(mappings), 0, 0, 0)
at = 52 + 32 * (1 + len(mappings))
headers = words(4, at, 0, 0, len(notes), 0, 0, 0)
at = (at + len(notes) + PAGE - 1) // PAGE * PAGE
bodies = b""
for address, flags, size, saved in mappings:
    headers += words(1, at + len(bodies), address, 0, len(saved), size, flags, PAGE)
    bodies += saved
core = (header + headers + notes).ljust(at, b"\0") + bodies
open("../data/core", "wb").write(core)
