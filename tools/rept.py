"""Commands of gdb for a crash that rept_gdb serves: `source tools/rept.py`, or tools/rept-gdb.

It knows nothing of its own: each answer is what the stub says to `monitor`. Frames of `bt`, `up`,
`finish` and `reverse-next` come from the executed path, so they don't need the stack's bytes."""
import bisect
import re

import gdb
import gdb.unwinder

NAMES = ("zero ra sp gp tp t0 t1 t2 fp s1 a0 a1 a2 a3 a4 a5 a6 a7 s2 s3 s4 s5 s6 s7 s8 s9 s10 s11 "
         "t3 t4 t5 t6").split()
SAVED = (8, 9, *range(18, 28))
WORD = 1 << 32
MOST_BYTES = 1024
# Instructions whose first operand isn't written.
READERS = {"sb", "sh", "sw", "beq", "bne", "blt", "bge", "bltu", "bgeu", "fence", "fence.i"}


# What the stub says.

def connection():
    found = gdb.selected_inferior().connection
    if not isinstance(found, gdb.RemoteTargetConnection):
        raise gdb.GdbError("rept: there is no crash: target remote | ./rept_gdb EXE CORE TRACE")
    return found


def packet(text):
    """The reply to a packet. gdb forgets its frames by that, so no unwinder may send one."""
    return bytes(connection().send_packet(text)).decode()


def told(line):
    """The stub's answer to a line of `monitor`."""
    return gdb.execute(f"monitor {line}", False, True)


def ask(line):
    """The answer without the line that says of which thread and point it is."""
    return re.sub(r"\Athread \d+ point \d+\n", "", told(line))


def cursor():
    """The thread and the point of the stub's cursor, and the thread's last point."""
    found = re.match(r"(?:thread (\d+) point \d+\n)?point (\d+) of (\d+) pc", told("where"))
    if not found:
        raise gdb.GdbError("rept: the target is no rept_gdb")
    return int(found[1] or 0), int(found[2]), int(found[3])


def sync():
    """Makes the stub look at gdb's thread: a packet that reads memory names it."""
    try:
        gdb.selected_inferior().read_memory(0, 1)
    except gdb.error:
        pass


def here():
    if len(gdb.selected_inferior().threads()) > 1:
        sync()
    return cursor()


# The path of a thread.

class Path:
    """The steps of a thread, and what follows from its instructions alone."""

    def __init__(self, thread, last):
        self.addresses, self.texts = [], []
        for first in range(0, last, 256):
            for line in ask(f"list {first} 256").splitlines():
                _, address, text = line.split(" ", 2)
                self.addresses.append(int(address, 16))
                self.texts.append(text)
        # What is said of a thread is its last point, and where that is.
        self.addresses.append(int(re.search(r" pc (\w+)", ask(f"thread {thread}"))[1], 16))
        self.written, self.constants, self.rises, self.stacks = {}, {}, [0], [0]
        self.calls = [None]
        for step, text in enumerate(self.texts):
            self.follow_registers(step, text)
            self.calls.append(self.calls_after(step, text))

    def follow_registers(self, step, text):
        """What the step writes. `rises` has how far sp has risen by constants, `stacks` how often
        it was set otherwise."""
        name, _, operands = text.partition(" ")
        target = re.match(r"x(\d+)", operands)
        number = 10 if name == "ecall" else int(target[1]) if target else 0
        rise, value = self.rise_of(text), self.constant_of(text)
        written = 0 if name in READERS else number
        if written:
            self.written.setdefault(written, []).append(step)
            self.constants[written] = value
        self.rises.append(self.rises[-1] + (rise or 0))
        self.stacks.append(self.stacks[-1] + (written == 2 and rise is None))

    def rise_of(self, text):
        """How far a step lets sp rise: by a constant, or by a register that holds one."""
        found = re.fullmatch(r"(addi|add|sub) x2,x2,(x?)(-?\d+)", text)
        if not found:
            return None
        rise = self.constants.get(int(found[3])) if found[2] else int(found[3])
        return -rise if rise and found[1] == "sub" else rise

    def constant_of(self, text):
        """The constant that a step leaves in its register, or None: of `li` and `lui`."""
        found = re.fullmatch(r"lui x\d+,(0x\w+)|addi x\d+,x(\d+),(-?\d+)", text)
        if not found:
            return None
        if found[1]:
            return int(found[1], 16) << 12
        base = 0 if found[2] == "0" else self.constants.get(int(found[2]))
        return None if base is None else (base + int(found[3]) + WORD // 2) % WORD - WORD // 2

    def calls_after(self, step, text):
        """The calls that the thread is in, as pairs of the last call's step and the others."""
        calls = self.calls[step]
        if re.match(r"jalr? x1,", text):
            return step, calls
        if not re.match(r"jalr x0,-?\d+\(x1\)", text):
            return calls
        while calls:
            at, calls = self.addresses[calls[0]], calls[1]
            if self.addresses[step + 1] in (at + 2, at + 4):
                break
        return calls

    def writes_within(self, register, first, last):
        """The first step from `first` on and before `last` that writes the register."""
        steps = self.written.get(register, [])
        at = bisect.bisect_left(steps, first)
        return steps[at] if at < len(steps) and steps[at] < last else None

    def last_write(self, register, point):
        steps = self.written.get(register, [])
        at = bisect.bisect_left(steps, point)
        return steps[at - 1] if at else None

    def store_of(self, register, first, last):
        """The first step there that stores the register at an offset of sp, and the offset."""
        for step in range(first, min(last, first + 200)):
            found = re.fullmatch(rf"sw x{register},(-?\d+)\(x2\)", self.texts[step])
            if found:
                return step, int(found[1])
        return None


PATHS = {}


def path_of(thread, last):
    """The path of the thread that the stub looks at."""
    key = connection().num, thread
    if key not in PATHS:
        PATHS[key] = Path(thread, last)
    return PATHS[key]


# Frames by the path.

def first_byte(address):
    """The first byte of the instruction there; that of one of four bytes where gdb has no code."""
    try:
        return gdb.selected_inferior().read_memory(address, 1)[0][0]
    except gdb.error:
        return 3


def function_start(address):
    """The first address of the function, as gdb knows it, or None. Inlined functions are parts of
    it."""
    block, start = gdb.block_for_pc(address), None
    while block and not block.is_static:
        start = block.start if block.function else start
        block = block.superblock
    if start is not None:
        return start
    found = re.search(r" \+ (\d+) in section", gdb.execute(f"info symbol {address}", False, True))
    return address - int(found[1]) if found else None


class Frame:
    """A frame: its address, sp, the point that it stands at, and the calls that led to it."""

    def __init__(self, address, stack, point, calls):
        self.address, self.stack, self.point, self.calls = address, stack, point, calls


class Frames:
    """The frames at a point, the innermost one first, as far as sp changed by constants alone."""

    backs = {}

    def __init__(self, path, point, stack):
        self.path, self.list, self.places = path, [], {}
        self.add(Frame(path.addresses[point], stack, point, path.calls[point]))

    def add(self, frame):
        self.places.setdefault((frame.address, frame.stack), len(self.list))
        self.list.append(frame)

    def back(self, address):
        """Where the call at an address returns to."""
        if address not in self.backs:
            self.backs[address] = address + (4 if first_byte(address) & 3 == 3 else 2)
        return self.backs[address]

    def grow(self):
        """Whether there is one frame more."""
        frame, path = self.list[-1], self.path
        if not frame.calls or path.stacks[frame.calls[0]] != path.stacks[frame.point]:
            return False
        call, calls = frame.calls
        stack = (frame.stack - path.rises[frame.point] + path.rises[call]) % WORD
        self.add(Frame(self.back(path.addresses[call]), stack, call, calls))
        return True

    def with_caller(self, address, stack):
        """The frame with this address and sp, and the one that called it."""
        while (address, stack) not in self.places and self.grow():
            pass
        at = self.places.get((address, stack))
        if at is None or at + 1 == len(self.list) and not self.grow():
            return None
        return self.list[at:at + 2]


class Place:
    """Where the stub's cursor was when frames were made, and these frames."""
    key, frames, path, prompted = None, None, None, False
    # Registers at the points of calls never change. What a frame doesn't tell of them now it may
    # tell at another stop.
    kept, missed = {}, set()


def renew(pending):
    """The frames at the stub's cursor. gdb makes the innermost frame first, and once a stop."""
    if pending.level() and Place.key:
        return
    Place.key = connection().num, *here()
    thread, point, last = Place.key[1:]
    Place.path = path_of(thread, last)
    stack = number_in(pending, "sp") if not pending.level() else None
    if stack is None:
        stack = int(re.match(r"x2 (0x\w+)?", ask("reg sp"))[1] or "0", 16)
    Place.frames = Frames(Place.path, point, stack)


def number_in(pending, name):
    """A register of a frame, or None where it isn't known."""
    try:
        return int(pending.read_register(name)) % WORD
    except (gdb.error, ValueError):
        return None


def saved_value(register, frame, call):
    """What the frame saved of a register on the stack, if nothing wrote there since."""
    store = Place.path.store_of(register, call + 1, frame.point)
    if not store or Place.path.writes_within(register, call, store[0]) is not None:
        return None
    risen = Place.path.rises[frame.point] - Place.path.rises[store[0]]
    slot = (frame.stack - risen + store[1]) % WORD
    data = known_bytes(slot, 4)
    if None in data:
        return None
    for byte in range(4):
        if not re.match(rf"writes {store[0]}\b", ask(f"writer {(slot + byte) % WORD:#x}")):
            return None
    return int.from_bytes(bytes(data), "little")


def value_at_call(pending, register, frame, call):
    """A register at the point of a call, as far as the frame that it led to tells."""
    if Place.path.writes_within(register, call, frame.point) is None:
        return number_in(pending, NAMES[register])
    key = (*Place.key[:2], call, register)
    if key not in Place.kept and key not in Place.missed:
        value = saved_value(register, frame, call)
        if value is None:
            Place.missed.add(key)
        else:
            Place.kept[key] = value
    return Place.kept.get(key)


class FrameId:
    def __init__(self, stack, start):
        kind = gdb.lookup_type("unsigned int")
        self.sp, self.pc = gdb.Value(stack).cast(kind), gdb.Value(start).cast(kind)


def unwound(pending):
    """The frame that called this one, where the path has the call."""
    renew(pending)
    pair = Place.frames.with_caller(number_in(pending, "pc"), number_in(pending, "sp"))
    if not pair:
        return None
    frame, caller = pair
    # A call may be the last instruction of its function.
    start = function_start(frame.address - (frame is not Place.frames.list[0]))
    if start is None:
        start = Place.path.addresses[caller.point + 1]
    info = pending.create_unwind_info(FrameId(caller.stack, start))
    # The caller goes on where ra leads.
    values = {"pc": caller.address, "ra": caller.address, "sp": caller.stack}
    for register in SAVED:
        values[NAMES[register]] = value_at_call(pending, register, frame, caller.point)
    for name, value in values.items():
        if value is not None:
            kind = pending.read_register(name).type
            info.add_saved_register(name, gdb.Value(value).cast(kind))
    return info


def may_run_commands():
    """Whether asking the stub would first run the commands of the breakpoint that was reached."""
    if Place.prompted or gdb.selected_thread().is_running():
        return False
    return any(it.commands for it in gdb.breakpoints())


class PathUnwinder(gdb.unwinder.Unwinder):
    """Frames by the path, as far as it has their calls."""

    def __init__(self):
        super().__init__("rept")

    def __call__(self, pending):
        if may_run_commands():
            return None
        try:
            return unwound(pending)
        except (gdb.error, gdb.GdbError):
            return None


# Places and lines.

def line_of(address):
    """The address as `0x.. function file:line`, as far as there are such."""
    found = gdb.find_pc_line(address)
    block = gdb.block_for_pc(address)
    while block and not block.function:
        block = block.superblock
    words = [f"{address:#010x}"]
    words += [str(block.function)] if block else []
    name = found.symtab.filename.rpartition("/")[2] if found.symtab and found.line else ""
    return " ".join(words + ([f"{name}:{found.line}"] if name else []))


class Bytes:
    """The bytes of an expression: its first address and their count; of a register, its number."""

    def __init__(self, address, count, register=None):
        self.address, self.count, self.register = address, count, register

    def all(self):
        return [(self.address + at) % WORD for at in range(self.count)]


def register_named(text):
    found = re.fullmatch(r"\$?(x(?:[0-9]|[12][0-9]|3[01])|\w+)", text)
    word = "fp" if found and found[1] == "s0" else found[1] if found else ""
    if word in NAMES:
        return NAMES.index(word)
    return int(word[1:]) if re.fullmatch(r"x\d+", word) else None


def register_of(text):
    """The register that has a variable of the innermost frame, where it is there as it is."""
    if not re.fullmatch(r"[A-Za-z_]\w*", text) or gdb.selected_frame() != gdb.newest_frame():
        return None
    told, address = gdb.execute(f"info address {text}", False, True), gdb.newest_frame().pc()
    found = re.search(r"is a variable in \$(\w+)\.$", told, re.M)
    for first, last, name in re.findall(r"Range (\w+)-(\w+): a variable in \$(\w+)$", told, re.M):
        if int(first, 16) <= address < int(last, 16):
            return register_named(name)
    return register_named(found[1]) if found else None


def meant(text):
    """What an expression stands for: bytes of memory, a register, or an address of four bytes."""
    if not text:
        raise gdb.GdbError("rept: an expression is wanted")
    if text[0] == "$" and register_named(text) is not None:
        return Bytes(0, 0, register_named(text))
    value = gdb.parse_and_eval(text)
    if value.address is not None:
        size = value.type.sizeof
        if size > MOST_BYTES:
            raise gdb.GdbError(f"rept: {size} bytes; at most {MOST_BYTES} can be asked for")
        return Bytes(int(value.address) % WORD, size)
    register = register_of(text)
    if register is not None:
        return Bytes(0, 0, register)
    if not re.fullmatch(r"0[xX][0-9a-fA-F]+|\d+", text):
        raise gdb.GdbError("rept: this is neither in memory nor in a register")
    return Bytes(int(value) % WORD, 4)


# Moves.

def step_raw(point, wanted):
    """Moves the stub's cursor by packets: by steps, or by a breakpoint where that is fewer."""
    thread, _, last = cursor()
    addresses = path_of(thread, last).addresses
    back = wanted < point
    between = addresses[wanted:point] if back else addresses[point + 1:wanted + 1]
    visits = between.count(addresses[wanted])
    if visits * 4 < len(between):
        packet(f"Z0,{addresses[wanted]:x},4")
        for _ in range(visits):
            packet("bc" if back else "c")
        packet(f"z0,{addresses[wanted]:x},4")
        return
    for _ in between:
        packet("bs" if back else "s")


def move_to(wanted):
    """Moves gdb to a point of its thread."""
    thread, point, last = here()
    if not 0 <= wanted <= last:
        raise gdb.GdbError(f"rept: the thread has the points 0 to {last}")
    if point != wanted:
        ask(f"goto {wanted}")
    if cursor()[1] != wanted:
        many = len(gdb.selected_inferior().threads()) > 1
        if many:
            packet(f"Hc{gdb.selected_thread().ptid[1]:x}")
        step_raw(point, wanted)
        if many:
            packet("Hc0")
    Place.key = None
    for cache in ("register-cache", "dcache"):
        gdb.execute(f"maintenance flush {cache}", False, True)
    if cursor()[1] != wanted:
        raise gdb.GdbError(f"rept: the stub is at point {cursor()[1]}")


def show_place():
    thread, point, last = cursor()
    several = f"thread {thread} " if len(gdb.selected_inferior().threads()) > 1 else ""
    print(f"{several}point {point} of {last}")
    gdb.execute("frame")


class Words(gdb.Command):
    """A command of two words: its name, and what gdb takes it for."""

    def __init__(self):
        super().__init__(*self.named)

    def invoke(self, text, from_terminal):
        try:
            self.act(text)
        except gdb.error as error:
            raise gdb.GdbError(f"rept: {error}") from None


class Rept(gdb.Command):
    """A crash that rept_gdb serves.

rept when            the point of the cursor
rept goto POINT      moves to a point of this thread
rept last EXPR       moves to the last step that wrote it, or may have; without EXPR once more
rept writers EXPR    the steps that wrote it, or may have, by function and line
rept why EXPR        why its bytes, or its register, are known
rept print EXPR      a value, with <unknown> for what isn't known
rept locals          arguments and locals of the frame, so too"""

    def __init__(self):
        super().__init__("rept", gdb.COMMAND_USER, prefix=True)

    def invoke(self, text, from_terminal):
        print(self.__doc__)


class When(Words):
    """The point of the cursor: point J is before step J of the thread."""

    named = "rept when", gdb.COMMAND_STATUS

    def act(self, text):
        here()
        print(told("when" if "when" in ask("help") else "where"), end="")


class Goto(Words):
    """rept goto POINT: moves to a point of this thread."""

    named = "rept goto", gdb.COMMAND_RUNNING

    def act(self, text):
        move_to(int(gdb.parse_and_eval(text)))
        show_place()


# Writers.

def writers_of(address):
    """Each step that wrote the byte or may have, with whether it surely did; and the last line."""
    lines = ask(f"writers {address:#x}").splitlines()
    found = [re.fullmatch(r"(writes|may write) (\d+)(?: of (\d+))?", line) for line in lines]
    steps = [(int(it[2]), it[3] and int(it[3]), it[1] == "writes") for it in found if it]
    return steps, lines[-1] if lines and not found[-1] else ""


def newest_writer(target, thread):
    """The last step of the thread that wrote one of the bytes, or may have; else what is said."""
    best, said = None, set()
    for address in target.all():
        line = ask(f"writer {address:#x}").strip()
        found = re.fullmatch(r"(writes|may write) (\d+)(?: of (\d+))?", line)
        if found and int(found[3] or thread) == thread:
            best = max(best or (-1, False), (int(found[2]), found[1] == "writes"))
        elif line != "none":
            said.add(line)
    return best, sorted(said)


class Last(Words):
    """rept last EXPR: moves to right before the last step that wrote it, or may have. Of a
register, the last step of the path that set it. Without EXPR: of the same bytes once more."""

    target = None

    named = "rept last", gdb.COMMAND_RUNNING

    def act(self, text):
        Last.target = meant(text) if text else Last.target
        if not Last.target:
            raise gdb.GdbError("rept: an expression is wanted")
        thread, point, last = here()
        if Last.target.register is not None:
            step = path_of(thread, last).last_write(Last.target.register, point)
            best, said = (None if step is None else (step, True)), []
        else:
            best, said = newest_writer(Last.target, thread)
        for line in said:
            print("several: steps of more than one thread, or untraced ones, may have written it "
                  "last" if line == "several" else f"another thread's step: {line}")
        if best is None and not said:
            print("no step of the path before the cursor wrote it")
        if best is None:
            return
        print(f"step {best[0]} {'wrote' if best[1] else 'may have written'} it")
        move_to(best[0])
        show_place()


class Writers(Words):
    """rept writers EXPR: the steps before the cursor that wrote it, or may have, by function and
line, newest first. `sure` counts those that surely wrote one of its bytes."""

    named = "rept writers", gdb.COMMAND_DATA

    def steps(self, target):
        sure, said = {}, set()
        for address in target.all():
            steps, end = writers_of(address)
            said.update({end} - {"", "none"})
            if len(steps) >= 256:
                said.add(f"there may be more before step {steps[-1][0]}")
            for step, thread, surely in steps:
                sure[step, thread] = sure.get((step, thread), False) or surely
        return sure, said

    def act(self, text):
        target = meant(text)
        thread, point, last = here()
        if target.register is not None:
            raise gdb.GdbError("rept: a register; `rept last` goes to the step that set it")
        sure, said = self.steps(target)
        groups = {}
        for step, other in sorted(sure, key=lambda it: -it[0]):
            addresses = path_of(thread, last).addresses
            mine = other in (None, thread)
            name = line_of(addresses[step])[11:] or f"{addresses[step]:#010x}" if mine else (
                f"thread {other}")
            groups.setdefault(name, []).append((step, sure[step, other]))
        for name, steps in groups.items():
            surely = sum(it[1] for it in steps)
            print(f"{len(steps):6} {name}: steps {steps[0][0]} to {steps[-1][0]}, sure {surely}"
                  if len(steps) > 1 else
                  f"{1:6} {name}: step {steps[0][0]}, {'sure' if surely else 'may write'}")
        for line in sorted(said) + ([] if groups or said else ["none"]):
            print(line)


class Why(Words):
    """rept why EXPR: the reason of each byte, or of the register, as `monitor why` tells it."""

    named = "rept why", gdb.COMMAND_DATA

    def act(self, text):
        target = meant(text)
        here()
        if target.register is not None:
            print(ask(f"why x{target.register}"), end="")
        for address in target.all():
            print(f"{address:#010x}: {ask(f'why {address:#x}')}", end="")


# Values with holes.

def known_bytes(address, count):
    """The bytes from an address on, None for each that isn't known."""
    found = []
    for at in range(0, count, 256):
        some = min(256, count - at)
        for line in ask(f"mem {(address + at) % WORD:#x} {some}").splitlines():
            words = line.partition(":")[2].split()
            found += [None if word == "??" else int(word, 16) for word in words]
    return found


def scalar_text(data, kind):
    if None in data and any(byte is not None for byte in data):
        return f"<unknown: {' '.join('??' if it is None else f'{it:02x}' for it in data)}>"
    if None in data:
        return "<unknown>"
    return gdb.Value(bytes(data), kind).format_string()


def bits_text(data, field, kind):
    """A field of single bits."""
    first, last = field.bitpos // 8, (field.bitpos + field.bitsize - 1) // 8
    if None in data[first:last + 1]:
        return "<unknown>"
    number = int.from_bytes(bytes(data[first:last + 1]), "little") >> field.bitpos % 8
    number &= (1 << field.bitsize) - 1
    if kind.code == gdb.TYPE_CODE_INT and kind.is_signed and number >> field.bitsize - 1:
        number -= 1 << field.bitsize
    return gdb.Value(number).cast(kind).format_string()


def field_text(data, field):
    kind = field.type.strip_typedefs()
    if field.bitsize:
        text = bits_text(data, field, kind)
    else:
        first = field.bitpos // 8
        text = value_text(data[first:first + kind.sizeof], field.type)
    return f"{field.name} = {text}" if field.name else text


def array_text(data, kind):
    """An array, with `<repeats N times>` as gdb has it."""
    item = kind.target()
    size = max(1, item.sizeof)
    texts = [value_text(data[at:at + size], item) for at in range(0, len(data), size)]
    shown, at = [], 0
    while at < len(texts):
        count = 1
        while at + count < len(texts) and texts[at + count] == texts[at]:
            count += 1
        shown += [f"{texts[at]} <repeats {count} times>"] if count > 9 else [texts[at]] * count
        at += count
    return "{" + ", ".join(shown) + "}"


def value_text(data, kind):
    """A value of these bytes."""
    plain = kind.strip_typedefs()
    if None not in data and plain.sizeof == len(data):
        return gdb.Value(bytes(data), kind).format_string()
    if plain.code in (gdb.TYPE_CODE_STRUCT, gdb.TYPE_CODE_UNION):
        texts = [field_text(data, it) for it in plain.fields() if hasattr(it, "bitpos")]
        return "{" + ", ".join(texts) + "}"
    if plain.code == gdb.TYPE_CODE_ARRAY and None in data and set(data) != {None}:
        return array_text(data, plain)
    return scalar_text(data, kind)


def shown_value(value):
    """A value of gdb, with `<unknown>` for what isn't known."""
    try:
        if value.is_optimized_out:
            return "<optimized out>"
        address = value.address
        if address is None:
            return value.format_string()
        return value_text(known_bytes(int(address) % WORD, value.type.sizeof), value.type)
    except gdb.error as error:
        return "<unknown>" if "not available" in str(error) else f"<{error}>"


class Print(Words):
    """rept print EXPR: its value, with <unknown> for what isn't known."""

    named = "rept print", gdb.COMMAND_DATA

    def act(self, text):
        here()
        print(f"{text} = {shown_value(gdb.parse_and_eval(text))}")


class Locals(Words):
    """rept locals: arguments and locals of the frame, with <unknown> for what isn't known."""

    named = "rept locals", gdb.COMMAND_DATA

    def act(self, text):
        here()
        frame = gdb.selected_frame()
        block, seen = frame.block(), set()
        while block and not block.is_global and not block.is_static:
            for symbol in block:
                if (symbol.is_variable or symbol.is_argument) and symbol.name not in seen:
                    seen.add(symbol.name)
                    print(f"{symbol.name} = {shown_value(symbol.value(frame))}")
            block = None if block.function else block.superblock


def forget(event):
    Place.key, Place.prompted = None, False


def remember_prompt():
    Place.prompted = True


def retry(event):
    Place.missed.clear()


gdb.events.cont.connect(forget)
gdb.events.before_prompt.connect(remember_prompt)
gdb.events.stop.connect(retry)
gdb.unwinder.register_unwinder(None, PathUnwinder(), replace=True)
for command in (Rept, When, Goto, Last, Writers, Why, Print, Locals):
    command()
