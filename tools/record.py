"""The full record of a stored crash: tests/crashes/NAME/record.gz. Its README says what is in it.
rept never reads it: tools/gdb and tools/record_stub work out from it what a debugger is to say."""
import gzip
from pathlib import Path
from struct import unpack_from

CRASHES = Path(__file__).resolve().parent.parent / "tests" / "crashes"
EVERY = 256


class Thread:
    """The steps of a thread: the address of each, and then the one where it stopped; the register
    that each sets, and its value; the bytes that some write, as address, old bytes, new bytes."""

    def __init__(self, process, first, registers):
        self.process, self.first, self.start = process, first, [0, *registers]
        self.addresses, self.sets, self.writes = [], [], {}

    def add(self, words):
        step = len(self.addresses)
        self.addresses.append(int(words[0], 16))
        self.sets.append((int(words[1]), int(words[2], 16)))
        if len(words) > 3:
            self.writes[step] = [(int(address, 16), bytes.fromhex(old), bytes.fromhex(new))
                                 for address, old, new in (word.split(":") for word in words[3:])]

    def make_checkpoints(self):
        """The registers at every 256th point."""
        now, self.kept = list(self.start), []
        for point in range(len(self.sets) + 1):
            if point % EVERY == 0:
                self.kept.append(list(now))
            if point < len(self.sets):
                number, value = self.sets[point]
                now[number] = value if number else 0

    def registers(self, point):
        """x0 to x31 at a point."""
        now = list(self.kept[point // EVERY])
        for number, value in self.sets[point // EVERY * EVERY:point]:
            now[number] = value if number else 0
        return now

    def writers(self, address):
        """The steps that write one of the four bytes from an address on, oldest first, each with
        whether it changes one."""
        found = []
        for step, writes in sorted(self.writes.items()):
            pairs = [(old[at], new[at]) for first, old, new in writes for at in range(len(new))
                     if address <= first + at < address + 4]
            if pairs:
                found.append((step, any(old != new for old, new in pairs)))
        return found


def read(name):
    """The threads of a crash."""
    with gzip.open(CRASHES / name / "record.gz", "rt") as file:
        lines = [line.split() for line in file]
    threads = one_thread(lines) if lines[0][0] == "steps" else several_threads(lines)
    for thread in threads:
        thread.make_checkpoints()
    return threads


def one_thread(lines):
    thread = Thread(0, 0, [int(word, 16) for word in lines[1][1:]])
    for words in lines[2:-1]:
        thread.add(words)
    thread.addresses.append(int(lines[-1][1], 16))
    return [thread]


def several_threads(lines):
    """Their steps stand in one order; a call's line is that of its step."""
    threads = []
    for words in lines[1:]:
        if words[0] == "thread":
            threads.append(Thread(int(words[3]), int(words[5]),
                                  [int(word, 16) for word in words[9:]]))
        elif words[0] == "end":
            for thread, address in zip(threads, words[1:]):
                thread.addresses.append(int(address, 16))
        elif words[3] in ("row", "call"):
            threads[int(words[0])].add(words[4:])
    return threads


def loaded(image):
    """The loaded bytes of an ELF file, by their first address, and whether they can be written."""
    first, count = unpack_from("<I", image, 28)[0], unpack_from("<H", image, 44)[0]
    for at in range(first, first + 32 * count, 32):
        kind, offset, address, _, size, _, flags = unpack_from("<7I", image, at)
        if kind == 1 and size:
            yield address, image[offset:offset + size], bool(flags & 2)


def segments(image):
    """The loaded bytes of an ELF file, by their first address."""
    return ((address, data) for address, data, _ in loaded(image))


def constants(name, size):
    """Addresses of so many bytes of the executable each that can't be written."""
    image = (CRASHES / name / "exe").read_bytes()
    return [at for address, data, written in loaded(image) if not written
            for at in range(address, address + len(data) - size + 1, size)]


def jump_of(word):
    """Whether an instruction calls, and whether it returns: by the manual's JAL and JALR with rd
    x1, and JALR x0 by x1, and their compressed forms."""
    if word & 3 != 3:
        half = word & 0xffff
        calls = half & 0xe003 == 0x2001 or half & 0xf07f == 0x9002 and half != 0x9002
        return calls, half == 0x8082
    target, source = word >> 7 & 31, word >> 15 & 31
    calls = word & 0x7f in (0x6f, 0x67) and target == 1
    return calls, word & 0x7f == 0x67 and target == 0 and source == 1


def frames(machine, wanted):
    """At each of these points the address and the point; and for each call that the thread is in,
    the last one first, where it returns to and the point of the call."""
    addresses, calls, found = machine.thread.addresses, [], {}
    for point, address in enumerate(addresses):
        if point in wanted:
            found[point] = [(address, point), *calls[::-1]]
        if point + 1 == len(addresses):
            return found
        word = int.from_bytes(machine.bytes(address, 4), "little")
        is_call, is_return = jump_of(word)
        if is_call:
            calls.append((address + (4 if word & 3 == 3 else 2), point))
        if is_return:
            while calls and calls.pop()[0] != addresses[point + 1]:
                pass


class Machine:
    """The registers and the memory at a cursor."""

    def __init__(self, name):
        self.thread = read(name)[0]
        self.end = self.point = len(self.thread.sets)
        self.memory = {}
        for file in ("exe", "core"):
            for address, data in segments((CRASHES / name / file).read_bytes()):
                self.memory.update(zip(range(address, address + len(data)), data))

    def move(self, wanted):
        while self.point > wanted:
            self.point -= 1
            for address, old, _ in reversed(self.thread.writes.get(self.point, [])):
                self.memory.update(zip(range(address, address + len(old)), old))
        while self.point < wanted:
            for address, _, new in self.thread.writes.get(self.point, []):
                self.memory.update(zip(range(address, address + len(new)), new))
            self.point += 1

    def registers(self):
        address = self.thread.addresses[self.point]
        return [*self.thread.registers(self.point), address]

    def bytes(self, address, count):
        found = [self.memory.get(at) for at in range(address, address + count)]
        return bytes(found) if None not in found else None
