"""The cases of a master whose scene names signals and slaves, beside those of commanded.py."""
import struct

from commanded import TWO_ITEMS, WANTED_GET, WANTED_SET, answer, commanded, tells
from live import MACHINE, PATIENCE, STARTED, both_ends, case, last_lines

# Signals on a machine of two bytes of outputs, 0102, and two of inputs, cafe.
SIGNALS = TWO_ITEMS + (
    "signal on 0 0 1 bool\nsignal level 0 1 3 u8\nsignal speed 0 4 12 i16\nsignal all 0 0 16 raw\n"
    "signal seen 1 15 1 bool\nsignal high 1 8 8 i8\nsignal back 1 0 16 u16\nsignal row 1 8 8 raw\n"
)

# What one is told that is no signal of the scene.
WANTED_NAME = "wanted the name of a signal, as `signals` tells them\n"
WANTED_SIGNED = "wanted set NAME NUMBER, that the signal's bits hold with its sign\n"
WANTED_UNSIGNED = "wanted set NAME NUMBER, from 0 on, that the signal's bits hold\n"
WANTED_BOOL = "wanted set NAME 0|1\n"
WANTED_ROW = "wanted set NAME BYTES, two hexadecimal digits for each byte of the signal\n"
WANTED_FLOAT = "wanted set NAME NUMBER, as 1.5 or -2e3\n"

# What is told where a master of two slaves starts.
STARTED_TWO = STARTED.replace("slaves 3", "slaves 2")

# The machine of live.py, of which the second slave has a name.
NAMED = MACHINE.replace("slave 0x1002\n", "slave 0x1002\nname Y axis\n")


@case
def signals_are_got_by_their_names(stage):
    """Those of outputs as they went out, those of inputs as they came; bits with a sign are told with it."""
    rows = [
        ("on", "outputs 1"),
        ("level", "outputs 0"),
        ("speed", "outputs 32"),
        ("all", "outputs 0102"),
        ("seen", "inputs 1"),
        ("high", "inputs -2"),
        ("back", "inputs 65226"),
        ("row", "inputs fe"),
    ]
    with commanded(stage, SIGNALS, started=STARTED_TWO) as (_line, master):
        for name, wanted in rows:
            yield name, f"signal {name} {wanted}\nok\n", answer(master, f"get {name}")
        wanted = (
            "signal on item 0 bit 0 count 1 bool outputs 1\n"
            "signal level item 0 bit 1 count 3 u8 outputs 0\n"
            "signal speed item 0 bit 4 count 12 i16 outputs 32\n"
            "signal all item 0 bit 0 count 16 raw outputs 0102\n"
            "signal seen item 1 bit 15 count 1 bool inputs 1\n"
            "signal high item 1 bit 8 count 8 i8 inputs -2\n"
            "signal back item 1 bit 0 count 16 u16 inputs 65226\n"
            "signal row item 1 bit 8 count 8 raw inputs fe\nok\n"
        )
        yield "signals", wanted, answer(master, "signals")
        yield "quit", "ok\n", answer(master, "quit")
        yield "status", "0\n", last_lines(master.end(), 1)


@case
def signals_are_set_by_their_names(stage):
    """Their bits change and no other, by several names and places of one line too."""
    rows = [
        ("set level 5", "0b02"),
        ("set on 0", "0a02"),
        ("set speed -1", "faff"),
        ("set speed -2048", "0a80"),
        ("set speed 2047", "fa7f"),
        ("set speed 0x123", "3a12"),
        ("set all FFfe", "fffe"),
        ("set speed 0; on 0; level 1", "0200"),
        ("set 0 0 00; on 1; 0 1 aa;level  0x7", "0faa"),
        ("set on 1; on 0", "0eaa"),
    ]
    with commanded(stage, SIGNALS, started=STARTED_TWO) as (_line, master):
        for text, wanted in rows:
            yield text, "ok\n", answer(master, text)
            yield f"behind {text}", f"item 0 outputs {wanted}\nok\n", answer(master, "get 0")
        yield "quit", "ok\n", answer(master, "quit")
        yield "status", "0\n", last_lines(master.end(), 1)


@case
def signals_are_refused_by_name(stage):
    """A line that is refused changes nothing: what stands before the fault stays too."""
    rows = [
        ("get off", f"NoSignal, {WANTED_NAME}"),
        ("get On", f"NoSignal, {WANTED_NAME}"),
        ("get on 0", f"WrongCount, {WANTED_GET}"),
        ("get 7", f"NoItem, {WANTED_GET}"),
        ("set off 1", f"NoSignal, {WANTED_NAME}"),
        ("set on", f"WrongCount, {WANTED_SET}"),
        ("set on 0 1", f"BadNumber, {WANTED_SET}"),
        ("set on 2", f"BadValue, {WANTED_BOOL}"),
        ("set on true", f"BadValue, {WANTED_BOOL}"),
        ("set level 8", f"BadValue, {WANTED_UNSIGNED}"),
        ("set level -1", f"BadValue, {WANTED_UNSIGNED}"),
        ("set level 4294967296", f"BadValue, {WANTED_UNSIGNED}"),
        ("set speed 2048", f"BadValue, {WANTED_SIGNED}"),
        ("set speed -2049", f"BadValue, {WANTED_SIGNED}"),
        ("set speed 4294967295", f"BadValue, {WANTED_SIGNED}"),
        ("set speed -4294967295", f"BadValue, {WANTED_SIGNED}"),
        ("set speed --1", f"BadValue, {WANTED_SIGNED}"),
        ("set speed -", f"BadValue, {WANTED_SIGNED}"),
        ("set all 01", f"BadValue, {WANTED_ROW}"),
        ("set all 010203", f"BadValue, {WANTED_ROW}"),
        ("set all 01023", f"BadValue, {WANTED_ROW}"),
        ("set all 0x01", f"BadValue, {WANTED_ROW}"),
        ("set seen 0", f"NoOutputs, {WANTED_SET}"),
        ("set on 0; seen 0", f"NoOutputs, {WANTED_SET}"),
        ("set on 0; off 1", f"NoSignal, {WANTED_NAME}"),
        ("set on 0; level 8", f"BadValue, {WANTED_UNSIGNED}"),
        ("set " + ";".join(65 * ["on 1"]), f"TooMany, {WANTED_BOOL}"),
        (
            "sett on 1",
            "UnknownWord, wanted set, get, signals, slaves, cable, counts, times, sdo, state, acknowledge, "
            "leave or quit\n",
        ),
        ("signals on", "WrongCount, wanted signals\n"),
    ]
    with commanded(stage, SIGNALS, started=STARTED_TWO) as (_line, master):
        for text, wanted in rows:
            yield text[:40], f"refused: {wanted}", answer(master, text)
        yield "outputs", "item 0 outputs 0102\nok\n", answer(master, "get 0")
        yield "quit", "ok\n", answer(master, "quit")
        yield "status", "0\n", last_lines(master.end(), 1)


@case
def signals_with_a_binary_point_are_numbers(stage):
    """They are written as the shortest text that is read as this number."""
    scene = (
        "slave 1\nsimple\nareas 5 0\nsm 2 0x1000 5 write\nfmmu 0 0x10000 5 0 7 0x1000 0 write\n"
        "lwr 0x10000 0000803f00\nsignal x 0 0 32 f32\nsignal y 0 4 32 f32\n"
    )
    with commanded(stage, scene, started=STARTED.replace("slaves 3", "slaves 1")) as (_line, master):
        yield "as the scene has it", "signal x outputs 1.0\nok\n", answer(master, "get x")
        for text, told in [
            ("-2.5", "-2.5"),
            ("0.1", "0.1"),
            ("1e10", "10000000000.0"),
            ("1e17", "1e17"),
            ("1e-7", "1e-7"),
            ("16777217", "16777216.0"),
        ]:
            yield f"set {text}", "ok\n", answer(master, f"set x {text}")
            bits = struct.pack("<f", float(text)).hex()
            yield f"bits of {text}", f"item 0 outputs {bits}00\nok\n", answer(master, "get 0")
            yield f"get {text}", f"signal x outputs {told}\nok\n", answer(master, "get x")
        for text in ("1e39", "nan", "inf", "0x1", "1.5.", "x"):
            yield f"no {text}", f"refused: BadValue, {WANTED_FLOAT}", answer(master, f"set x {text}")
        yield "from bit 4 on", "ok\n", answer(master, "set 0 0 0f00000000; y 1")
        yield "shifted", "item 0 outputs 0f0000f803\nok\n", answer(master, "get 0")
        yield "quit", "ok\n", answer(master, "quit")
        yield "status", "0\n", last_lines(master.end(), 1)


@case
def slaves_of_a_scene_are_told_by_their_names(stage):
    """Where the scene has none for a slave, its place and its station stand alone."""
    with commanded(stage, NAMED, "--every", "20000") as (line, master):
        slaves = "".join(
            f"slave {place} station {0x1001 + place:#06x} state 8 error 0x0000 links up up{name}\n"
            for place, name in enumerate(("", " name Y axis", ""))
        )
        yield "slaves", f"{slaves}ok\n", answer(master, "slaves")
        line.process.stdin.write(b"state 1 4\n")
        yield "a state", "True", tells(master, "slave 1 Y axis (0x1002) is in Safe-Op\n")
        line.process.stdin.write(b"link 1 down\n")
        words = "link 1 down: between slave 0 (0x1001) and slave 1 Y axis (0x1002)"
        yield "a break", "True", tells(master, f"{words}\n")
        yield "quit", "ok\n", answer(master, "quit")
        master.end()


@case
def a_slave_that_cannot_be_brought_up_is_told_by_its_name(stage):
    """Its startup object is none of its own: so it is named with the step that failed."""
    scene = NAMED.replace("name Y axis\n", "name Y axis\nstartup 0x2000 0 0102\n")
    with stage.serve(NAMED, "--forever"):
        stage.file("m", scene)
        end = stage.ends("master", "m", "--at", both_ends(stage), "--cycles", "1", *PATIENCE)
        why = "startup object 0x2000:0: abort 0x06020000 object does not exist in the object dictionary"
        yield "told", f"fault: slave 1 Y axis (0x1002): {why}\n1\n", last_lines(end, 2)
