"""The cases of a master that lines of its input speak to (`master --control`), beside those of live.py."""
import contextlib
import fcntl
import os
import re
import subprocess
import time

from live import MACHINE, PATIENCE, STARTED, TIME, both_ends, case, command, last_lines, left_out, outputs_sent, sums, timed
from live import without_late, without_times

# A machine with outputs and inputs in items of their own: slave 1 takes two bytes, and slave 2 gives two.
TWO_ITEMS = (
    "slave 1\nsimple\nareas 2 0\nsm 2 0x1000 2 write\nfmmu 0 0x10000 2 0 7 0x1000 0 write\n"
    "slave 2\nsimple\nareas 0 2\nsm 3 0x1100 2 read\nfmmu 0 0x20000 2 0 7 0x1100 0 read\nmem 0x1100 cafe\n"
    "lwr 0x10000 0102\nlrd 0x20000 0000\n"
)

# The call that sets how much a pipe holds (Linux, `F_SETPIPE_SZ`).
SET_PIPE_SIZE = 1031

# The machine of live.py, whose second slave has an object that can be written.
OBJECTS = MACHINE.replace("object 0x1018 2 4 ro 257\n", "object 0x1018 2 4 ro 257\nobject 0x2000 0 2 rw 0\n")

WANTED_SET = "wanted set ITEM OFFSET BYTES; ..\n"
WANTED_GET = "wanted get ITEM [OFFSET LENGTH]\n"


@contextlib.contextmanager
def commanded(stage, scene, *words, started=STARTED):
    """A service of a scene, which takes commands, and a master on it that does, once it has brought it to Op."""
    pipe = {"stdin": subprocess.PIPE}
    with stage.serve(scene, "--control", **pipe) as line:
        stage.file("m", scene)
        words = ("master", "m", "--at", both_ends(stage), "--control", *words, *PATIENCE)
        with stage.start(*words, **pipe) as master:
            for wanted in started.splitlines(True):
                told = master.line()
                if told != wanted:
                    raise AssertionError(f"{wanted!r} is wanted, and here is {told!r}")
            yield line, master


def next_line(master):
    """The next line, but for what is told of a cycle: a loaded machine has late ones, and such as are not good."""
    while re.match(rf"({TIME} )?cycle \d+: ", line := master.line()):
        pass
    return line


def answer(master, text):
    """Gives a command, and answers all that it is answered by."""
    master.process.stdin.write(text.encode() + b"\n")
    told = line = next_line(master)
    while line and line != "ok\n" and not line.startswith(("refused: ", "failed: ")):
        told += (line := next_line(master))
    return told


def answer_and(master, text, words):
    """Gives a command, and answers what it is answered by, once these words were told of a cycle too, before
    that or behind it."""
    master.process.stdin.write(text.encode() + b"\n")
    told, is_told, is_over = "", False, False
    while not (is_told and is_over) and (line := master.line()):
        if re.match(r"cycle \d+: ", line):
            is_told = is_told or words in line
        else:
            told += line
            is_over = line == "ok\n" or line.startswith(("refused: ", "failed: "))
    return told if is_told else f"{told}and not {words}"


def tells(master, words):
    """Reads on to a line of a cycle with these words, and answers whether there is one."""
    while (line := master.line()) and words not in line:
        pass
    return str(words in line)


@case
def a_running_master_is_asked_how_it_goes(stage):
    """By commands that change nothing; and `quit` ends it as the end of its input does."""
    with commanded(stage, MACHINE, "--every", "50000") as (_line, master):
        got = "item 0 outputs a1a2a3\nitem 0 inputs 112233\nok\n"
        yield "get", got, answer(master, "get 0")
        yield "of it", "item 0 outputs a2a3\nitem 0 inputs 2233\nok\n", answer(master, "get 0 1 2")
        yield "none of it", "item 0 outputs \nitem 0 inputs \nok\n", answer(master, "get 0 3 0")
        yield "a read", "item 1 inputs 0800\nok\n", answer(master, "get 1")
        slaves = "".join(
            f"slave {place} station {0x1001 + place:#06x} state 8 error 0x0000 links up up\n" for place in range(3)
        )
        yield "slaves", f"{slaves}ok\n", answer(master, "slaves")
        yield "cable", "ring whole\nok\n", answer(master, "cable")
        counts = answer(master, "counts").splitlines(True)
        cycles = int(counts[0].split()[1])
        yield "counts", sums(cycles).splitlines(True)[0], counts[0]
        yield "they count", "True", str(int(answer(master, "counts").split()[1]) > cycles)
        yield "times", "cycle time N\nlateness N\nok\n", timed(answer(master, "times"))
        yield "nothing", "ok\nok\n", answer(master, "") + answer(master, "# get 0")
        yield "quit", "ok\nleft in Init\n", answer(master, "quit") + next_line(master)
        yield "status", "0\n", last_lines(master.end(), 1)


@case
def answers_to_commands_bear_no_time(stage):
    """Where each line of a master begins with one: so whoever asks finds an answer as it always is."""
    pipe = {"stdin": subprocess.PIPE}
    with stage.serve(MACHINE, "--control", **pipe) as line:
        stage.file("m", MACHINE)
        words = ("master", "m", "--at", both_ends(stage), "--control", "--clock", "utc", "--every", "20000")
        with stage.start(*words, *PATIENCE, **pipe) as master:
            told = "".join(master.line() for _ in STARTED.splitlines())
            yield "start", STARTED, without_times(told)
            line.process.stdin.write(b"link 1 down\n")
            while (told := master.line()) and "redundancy lost" not in told:
                pass
            yield "a break", "a time", re.sub(rf"^{TIME} cycle \d+: redundancy lost: link 1 .*\n", "a time", told)
            yield "get", "item 1 inputs 0800\nok\n", answer(master, "get 1")
            yield "refused", f"refused: BadNumber, {WANTED_GET}", answer(master, "get x")
            yield "quit", "ok\n", answer(master, "quit")
            end = master.end().splitlines(True)
            yield "end", "left in Init\n", without_times("".join(row for row in end if row.endswith(" left in Init\n")))
            yield "status", "0\n", end[-1]


@case
def outputs_are_set_while_a_master_runs(stage):
    """Those of a line are of one cycle; up to the first one they are those of the scene."""
    with commanded(stage, MACHINE, "--log", "log", "--log-images") as (line, master):
        yield "as the scene has them", "item 0 outputs a1a2a3\n", answer(master, "get 0").splitlines(True)[0]
        yield "set", "ok\n", answer(master, "set 0 1 beef")
        yield "as sent", "item 0 outputs a1beef\nitem 0 inputs 112233\nok\n", answer(master, "get 0")
        yield "two places", "ok\n", answer(master, "set 0 0 01; 0 2 03")
        yield "places that meet", "ok\n", answer(master, "set 0 0 0102;0 1 0a0B")
        master.process.stdin.write(b"set 0 0 ff0000\nset 0 1 ff\nset 0 2 ff\nget 0\n")
        told = "".join(next_line(master) for _ in range(6))
        yield "lines at once", "ok\nok\nok\nitem 0 outputs ffffff\nitem 0 inputs 112233\nok\n", told
        yield "quit", "ok\n", answer(master, "quit")
        yield "status", "0\n", last_lines(master.end(), 1)
        line.process.stdin.write(b"areas\n")
        yield "areas", "slave 0 sm 2 open ff shown ff\n", line.line()
    _, rows = outputs_sent(stage)
    yield "sent", "a1a2a3 a1beef 01be03 010a0b ffffff", " ".join(rows)


@case
def commands_to_a_master_are_refused_by_name(stage):
    """A line that is refused changes nothing: the other places of it stay too."""
    rows = [
        ("get\t0", "NotText, wanted ASCII text\n"),
        (
            "sett 0 0 00",
            "UnknownWord, wanted set, get, slaves, cable, counts, times, sdo, state, acknowledge, leave or quit\n",
        ),
        ("set", f"WrongCount, {WANTED_SET}"),
        ("set 0 0", f"WrongCount, {WANTED_SET}"),
        ("set 0 0 00;", f"WrongCount, {WANTED_SET}"),
        ("set 0 0 aa 0 1 bb", f"WrongCount, {WANTED_SET}"),
        ("set 0 0 a", f"BadNumber, {WANTED_SET}"),
        ("set 0 0 0xaa", f"BadNumber, {WANTED_SET}"),
        ("set -1 0 aa", f"BadNumber, {WANTED_SET}"),
        ("set " + ";".join(65 * ["0 0 aa"]), f"TooMany, {WANTED_SET}"),
        ("set 2 0 aa", f"NoItem, {WANTED_SET}"),
        ("set 99999999999999999999999 0 aa", f"NoItem, {WANTED_SET}"),
        ("set 1 0 aa", f"NoOutputs, {WANTED_SET}"),
        ("set 0 2 aa", f"OutOfRange, {WANTED_SET}"),
        ("set 0 1 aabb", f"OutOfRange, {WANTED_SET}"),
        ("set 0 18446744073709551615 aa", f"OutOfRange, {WANTED_SET}"),
        ("set 0 0 aa; 0 1 bb; 0 2 cc", f"OutOfRange, {WANTED_SET}"),
        ("get", f"WrongCount, {WANTED_GET}"),
        ("get 0 0", f"WrongCount, {WANTED_GET}"),
        ("get 0 0 1 1", f"WrongCount, {WANTED_GET}"),
        ("get x", f"BadNumber, {WANTED_GET}"),
        ("get 2", f"NoItem, {WANTED_GET}"),
        ("get 0 1 2", f"OutOfRange, {WANTED_GET}"),
        ("slaves 0", "WrongCount, wanted slaves\n"),
        ("sdo 1 0x1018", "WrongCount, wanted sdo STATION INDEX SUB [VALUE]\n"),
        ("sdo 1 0x1018 0 5", "BadNumber, wanted sdo STATION INDEX SUB [VALUE]\n"),
        ("state 1 boot", "BadNumber, wanted state STATION init|pre-op|safe-op|op\n"),
        ("acknowledge 0x10000", "BadNumber, wanted acknowledge STATION\n"),
        ("leave boot", "BadNumber, wanted leave init|pre-op|safe-op|op\n"),
        ("leave", "WrongCount, wanted leave init|pre-op|safe-op|op\n"),
        ("quit now", "WrongCount, wanted quit\n"),
        ("set 0 0 " + "aa" * 600, "TooLong, wanted 1024 bytes at most\n"),
    ]
    started = STARTED.replace("slaves 3", "slaves 2")
    with commanded(stage, TWO_ITEMS, started=started) as (_line, master):
        for text, wanted in rows:
            yield text[:40], f"refused: {wanted}", answer(master, text)
        yield "outputs", "item 0 outputs 0102\nok\n", answer(master, "get 0")
        yield "inputs", "item 1 inputs cafe\nok\n", answer(master, "get 1")
        yield "64 places", "ok\n", answer(master, "set " + ";".join(64 * ["0 0 aa"]))
        yield "set", "item 0 outputs aa02\nok\n", answer(master, "get 0")
        yield "quit", "ok\n", answer(master, "quit")
        yield "status", "0\n", last_lines(master.end(), 1)


@case
def a_master_is_told_where_to_leave_its_slaves(stage):
    """By a line that ends it; without one they are left as `--leave` says."""
    rows = [("leave safe-op", (), "left in Safe-Op\n"), ("leave init", ("--leave", "op"), "left in Init\n")]
    rows.append(("quit", ("--leave", "pre-op"), "left in Pre-Op\n"))
    for text, words, left in rows:
        with commanded(stage, MACHINE, *words) as (_line, master):
            yield text, "ok\n", answer(master, text)
            yield "left", left, next_line(master)
            yield "status", "0\n", last_lines(master.end(), 1)


@case
def a_master_that_takes_commands_ends_with_its_input(stage):
    """Once each line is done; so does one of so many cycles, which ends without it too."""
    for words in ((), ("--cycles", "4294967295")):
        with commanded(stage, MACHINE, *words) as (_line, master):
            master.process.stdin.write(70 * b"\n" + b"set 0 0 77\nget 0 0 1")
            master.process.stdin.close()
            master.process.stdin = None
            end = re.sub(r"(?m)^cycle \d+: .*\n", "", without_late(master.end()))
            wanted = 71 * "ok\n" + "item 0 outputs 77\nitem 0 inputs 11\nok\nleft in Init\n"
            yield "ends", wanted, end[: len(wanted)]
            yield "status", "0\n", last_lines(end, 1)
    with stage.serve(MACHINE, "--forever"):
        stage.file("m", MACHINE)
        stage.file("lines", "set 0 0 0a\nget 0\nquit\nget 0\n")
        with open(os.path.join(stage.folder, "lines"), "rb") as lines:
            words = ("master", "m", "--at", both_ends(stage), "--control", *PATIENCE)
            end = without_late(stage.ends(*words, stdin=lines))
        wanted = "ok\nitem 0 outputs 0aa2a3\nitem 0 inputs 112233\nok\nok\nleft in Init\n" + sums(1)
        yield "of a file", STARTED + wanted, end[: len(STARTED + wanted)]


@case
def a_master_takes_32_lines_between_two_cycles(stage):
    """So no input holds one: what else waits comes before the next ones."""
    with stage.serve(MACHINE, "--forever"):
        stage.file("m", MACHINE)
        stage.file("lines", 32 * "\n" + 32 * "# b\n" + "counts\nquit\n")
        with open(os.path.join(stage.folder, "lines"), "rb") as lines:
            words = ("master", "m", "--at", both_ends(stage), "--control", *PATIENCE)
            end = without_late(stage.ends(*words, stdin=lines))
    rows = end[len(STARTED) :].splitlines()
    yield "oks", "64", str(rows.index("cycles 3 good 3 short 0 over 0 fault 0 not-in-op 0"))
    yield "status", "0", rows[-1]


@case
def objects_are_read_and_written_beside_the_cycles(stage):
    """Each answer is the object's, and each cycle meanwhile is good."""
    with commanded(stage, OBJECTS) as (_line, master):
        yield "read", "sdo 0x1002 0x1018 2 value 0x00000101\nok\n", answer(master, "sdo 0x1002 0x1018 2")
        yield "of another", "sdo 0x1003 0x1018 2 value 0x00000102\nok\n", answer(master, "sdo 0x1003 0x1018 2")
        yield "written", "sdo 0x1002 0x2000 0 written\nok\n", answer(master, "sdo 0x1002 0x2000 0 0xbeef")
        yield "as written", "sdo 0x1002 0x2000 0 value 0xbeef\nok\n", answer(master, "sdo 4098 8192 0")
        yield "no object", "failed: sdo 0x1002 0x3000 0 abort 0x06020000\n", answer(master, "sdo 0x1002 0x3000 0")
        words = "sdo 0x1002 0x1018 1 0x00000001"
        yield "read only", "failed: sdo 0x1002 0x1018 1 abort 0x06010002\n", answer(master, words)
        yield "nobody", "failed: sdo 0x1009 0x1018 1 fault NoSlave\n", answer(master, "sdo 0x1009 0x1018 1")
        count, good = re.match(r"cycles (\d+) good (\d+) ", answer(master, "counts")).groups()
        yield "each cycle is good", count, good
        yield "quit", "ok\n", answer(master, "quit")
        yield "status", "0\n", last_lines(master.end(), 1)


@case
def an_object_is_read_beside_cycles_though_copies_are_lost(stage):
    with commanded(stage, MACHINE, "--every", "5000") as (line, master):
        for place in range(3):
            yield "lose", "ok\nok\n", command(line, "lose A 5") + command(line, "lose B 5")
            words = f"sdo {0x1001 + place:#06x} 0x1018 2"
            yield f"of slave {place}", f"{words} value {0x100 + place:#010x}\nok\n", answer(master, words)
        yield "quit", "ok\n", answer(master, "quit")
        yield "ends", "True", str(master.end()[-2:] in ("0\n", "1\n"))


@case
def a_slave_is_asked_for_a_state_beside_the_cycles(stage):
    """It comes to it, and is told of; an error is acknowledged; a state that it refuses is told with its code."""
    with commanded(stage, MACHINE, "--every", "5000") as (line, master):
        told = answer_and(master, "state 0x1003 safe-op", "slave 2 (0x1003) is in Safe-Op\n")
        yield "safe-op", "state 0x1003 state 4\nok\n", told
        told = answer_and(master, "state 0x1003 op", "all in Op again")
        yield "op", "state 0x1003 state 8\nok\n", told
        yield "fall", "ok\n", command(line, "error 0x1002 0x0011")
        yield "not all", "True", tells(master, "slave 1 (0x1002) is in Safe-Op with error 0x0011")
        yield "acknowledged", "acknowledge 0x1002 state 4\nok\n", answer(master, "acknowledge 0x1002")
        told = answer_and(master, "state 0x1002 op", "all in Op again")
        yield "op again", "state 0x1002 state 8\nok\n", told
        yield "init", "state 0x1001 state 1\nok\n", answer(master, "state 0x1001 init")
        yield "refused", "failed: state 0x1001 error 0x0011\n", answer(master, "state 0x1001 op")
        yield "quit", "ok\n", answer(master, "quit")
        yield "status", "1\n", last_lines(master.end(), 1)


@case
def one_slave_is_asked_at_a_time(stage):
    """Lines behind such a one are done meanwhile; what is not answered at the end is told so."""
    with commanded(stage, MACHINE, "--every", "20000") as (_line, master):
        master.process.stdin.write(b"sdo 0x1002 0x1018 1\nstate 0x1003 op\nget 0\n")
        told = "".join(next_line(master) for _ in range(6))
        wanted = "refused: Busy, wanted one of sdo, state and acknowledge at a time\n"
        wanted += "item 0 outputs a1a2a3\nitem 0 inputs 112233\nok\nsdo 0x1002 0x1018 1 value 0x00000002\nok\n"
        yield "meanwhile", wanted, told
        master.process.stdin.write(b"sdo 0x1002 0x1018 1\nquit\n")
        told = "".join(next_line(master) for _ in range(2))
        yield "at the end", "ok\nfailed: sdo 0x1002 0x1018 1 fault NoAnswer\n", told
        yield "status", "0\n", last_lines(master.end(), 1)


@case
def a_commanded_master_tells_what_it_knows_of_slaves_and_cable(stage):
    with commanded(stage, MACHINE) as (line, master):
        yield "break", "ok\n", command(line, "link 2 down")
        lost = "link 2 down: between slave 1 (0x1002) and slave 2 (0x1003)\n"
        yield "lost", "True", tells(master, lost)
        yield "cable", f"{lost}ok\n", answer(master, "cable")
        told = answer(master, "slaves")
        yield "links", "up up, up down, down up", ", ".join(re.findall("links (.*)\n", told))
        yield "fall", "ok\n", command(line, "error 0x1002 0x0011")
        yield "not all", "True", tells(master, "not all in Op\n")
        yield "which", "True", tells(master, "slave 1 (0x1002) is in Safe-Op with error 0x0011")
        told = answer(master, "slaves").splitlines()
        yield "state", "slave 1 station 0x1002 state 4 error 0x0011 links up down", told[1]
        yield "others", "True True", " ".join(str(" state unknown error unknown " in told[place]) for place in (0, 2))
        yield "quit", "ok\n", answer(master, "quit")
        yield "status", "1\n", last_lines(master.end(), 1)


@case
def a_master_cycles_on_though_nobody_reads_its_answers(stage):
    """The lines that nobody takes are left out and counted, and the cycles go on."""
    with commanded(stage, MACHINE, "--log", "log") as (_line, master):
        fcntl.fcntl(master.process.stdout, SET_PIPE_SIZE, 4096)
        for _ in range(200):
            master.process.stdin.write(32 * b"get 0\n")
        log, until, sizes = os.path.join(stage.folder, "log"), time.monotonic() + stage.limit, []
        while len(sizes) < 20 and time.monotonic() < until:
            sizes.append(os.path.getsize(log))
            time.sleep(0.05)
        yield "cycles go on", "True", str(sizes[-1] > sizes[len(sizes) // 2] > sizes[0])
        master.process.stdin.write(b"quit\n")
        end = master.end()
        yield "left out", "True", str(left_out("output", end) > 100)
        yield "status", "0\n", last_lines(end, 1)
