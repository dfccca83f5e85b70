"""What tools/gdb runs within gdb: the moves of a plan, and where each of them lands. It writes a
line for each into the file DONE: what was done, and what came of it; and `end` as the last one."""
import json
import os
import re

import gdb

PLAN = json.loads(os.environ["PLAN"])
exec(compile(open(os.environ["REPT_PY"]).read(), "rept.py", "exec"))
done = open(os.environ["DONE"], "w")


def run(line):
    return gdb.execute(line, to_string=True)


def point():
    return cursor()[1]


def tell(what, came):
    done.write(json.dumps([what, came]) + "\n")
    done.flush()


def try_move(line):
    """Where a command lands, or what gdb says."""
    try:
        run(line)
        return point()
    except gdb.error as error:
        return str(error)


def landings(line, count):
    return [try_move(line) for _ in range(count)]


def address():
    return int(gdb.parse_and_eval("$pc"))


def registers():
    """x1 to x31, None for each that gdb can't show."""
    frame = gdb.newest_frame()
    return [number_in(frame, name) for name in NAMES[1:]]


def bytes_at(address, count):
    """Bytes, where gdb can read all of them."""
    try:
        return bytes(gdb.selected_inferior().read_memory(address, count)).hex()
    except gdb.error:
        return ""


def stack_bytes():
    """The bytes at sp."""
    stack = registers()[1]
    return bytes_at(stack, 16) if stack else ""


def frames():
    """The address of each frame, and its sp and saved registers, None where they aren't known. gdb
    tells by an error where it has no more frames."""
    run("set backtrace past-main on")
    found, frame = [], gdb.newest_frame()
    try:
        while frame and len(found) < 60:
            found.append([frame.pc(), [number_in(frame, NAMES[it]) for it in (2, *SAVED)]])
            frame = frame.older()
    except gdb.error:
        pass
    return found


# Parts of a plan.

def do_step(points):
    for at in points:
        move_to(at)
        tell(["values", at], [address(), registers(), stack_bytes()])
        run("stepi")
        tell(["stepi", at], [point(), address()])
        run("reverse-stepi")
        tell(["reverse-stepi", at + 1], [point(), address()])


def do_constants(plan):
    """Bytes that can't be written, 16 from each address on."""
    for at, places in plan:
        move_to(at)
        for place in places:
            tell(["constants", at, place], bytes_at(place, 16))


def do_break(places):
    for place, count in places:
        run("continue")
        run(f"break *{place:#x}")
        tell(["break back", place], landings("reverse-continue", count))
        tell(["break on", place], landings("continue", count - 1))
        run("delete")


def named(place, low):
    """The steps from `low` on that the stub names as writers of one of four bytes."""
    steps = set()
    for byte in range(4):
        steps.update(step for step, _, _ in writers_of(place + byte)[0] if step >= low)
    return sorted(steps, reverse=True)


def do_watch(words):
    for place, low, most in words:
        run("continue")
        steps = named(place, low)[:most]
        tell(["named", place], steps)
        run(f"awatch *(unsigned*){place:#x}")
        tell(["awatch back", place], landings("reverse-continue", len(steps)))
        tell(["awatch on", place], landings("continue", len(steps)))
        run("delete")
        run("continue")
        run(f"watch *(unsigned*){place:#x}")
        tell(["watch back", place], watched_back(steps))
        run("delete")


def watched_back(steps):
    """The stops of `watch` back to the oldest of these steps."""
    stops = []
    while steps and len(stops) < 2 * len(steps) and (not stops or stops[-1] > steps[-1]):
        stops.append(try_move("reverse-continue"))
        if not isinstance(stops[-1], int):
            break
    return stops


def do_moves(moves):
    for line, at, *end in moves:
        move_to(at)
        came = try_move(line)
        if not PLAN["rept"] and end and isinstance(came, int) and came != end[0]:
            came = blind_at(end[0]) or came
        tell([line if PLAN["rept"] else f"plain {line}", at], came)


def blind_at(end):
    """Why gdb by itself passes by a point: it knows a frame by sp and s0, or says nothing."""
    move_to(end)
    return f"gdb knows no frame at {end}" if None in (registers()[1], registers()[7]) else ""


def do_frames(points):
    for at in points:
        move_to(at)
        tell(["frames", at], frames())


def do_holes(words):
    """The bytes that `rept print` has, around each word at the step that wrote it."""
    for place, low, most in words:
        move_to(low)
        tell(["holes", low, place - 32], known_bytes(place - 32, 64))


def do_last(words):
    for place, low, most in words:
        run("continue")
        steps = named(place, low)
        tell(["named", place], steps[:most])
        run(f"rept last {place:#x}")
        tell(["rept last", place], point())
        run("rept last" if len(steps) > 1 else "rept when")
        tell(["rept last again", place], point())


def do_threads(plan):
    """For each thread: its moves, after gdb looked at all of them. By gdb's defaults that thread
    moves that stopped last, the first one; so others want the setting of tools/rept-gdb."""
    for number, (process, points, places) in enumerate(plan):
        if number:
            run("set scheduler-locking on")
        found = re.search(r"Thread (\d+) has", run(f"thread find Thread.{process}"))
        run(f"thread {found[1]}")
        for at in points:
            move_to(at)
            run("info threads")
            run("reverse-stepi")
            tell(["thread reverse-stepi", number, at], [cursor()[0], point(), address()])
        for place, count in places:
            run("continue")
            run(f"break *{place:#x}")
            run("info threads")
            tell(["thread break back", number, place], landings("reverse-continue", count))
            run("delete")


run("set pagination off")
run("set confirm off")
run("set remotetimeout 60")
if not PLAN["rept"]:
    run("disable unwinder global rept")
run("target remote | " + os.environ["STUB"])
tell(["end"], [point(), address()])
for part, what in PLAN["parts"]:
    globals()["do_" + part](what)
done.write('"end"\n')
done.close()
