"""The cases of who asks a running master by its door, beside those of live.py."""
import contextlib
import os
import re
import socket
import struct
import subprocess
import time

from live import MACHINE, PATIENCE, STARTED, both_ends, case, outputs_sent

# What is asked of a running master, and what it replies: the head, but for the text.
QUESTION, REPLY = struct.Struct("<4sBBHQ"), struct.Struct("<4sBBHQHH")

# The machine of live.py, whose second slave has an object that can be written.
OBJECTS = MACHINE.replace("object 0x1018 2 4 ro 257\n", "object 0x1018 2 4 ro 257\nobject 0x2000 0 2 rw 0\n")

BUSY = "refused: Busy, wanted one question at a time\n"


@contextlib.contextmanager
def asked(stage, *words, scene=OBJECTS):
    """A master on the machine that has a door: it, what it tells of its start, and HOST:PORT of the door."""
    with stage.serve(scene, "--forever"):
        stage.file("m", scene)
        words = ("master", "m", "--at", both_ends(stage), "--io", "127.0.0.1:0", *words, *PATIENCE)
        with stage.start(*words, stdin=subprocess.PIPE) as master:
            where = master.process.stderr.readline().decode()
            for wanted in STARTED.splitlines(True):
                told = master.line()
                if told != wanted:
                    raise AssertionError(f"{wanted!r} is wanted, and here is {told!r}")
            yield master, f"127.0.0.1:{where.rsplit(':', 1)[1].strip()}"


def ended(master):
    """What a master tells at its end, behind the end of its input."""
    master.process.stdin.close()
    master.process.stdin = None
    return master.end()


def short_cycles(told):
    """How many cycles were not good, by what a master tells at its end."""
    counts = re.search(r"^cycles (\d+) good (\d+) ", told, re.M)
    return int(counts[1]) - int(counts[2])


def asker(stage, door):
    """A socket that speaks to a door."""
    one = stage.master()
    host, port = door.split(":")
    one.connect((host, int(port)))
    return one


def question(number, line):
    return QUESTION.pack(b"EcIO", 1, 3, len(line), number) + line.encode()


def replies(one, number):
    """The text of the replies to a question, whose places have to follow one another."""
    text, place = "", 0
    while True:
        packet = one.recv(65535)
        head, run = REPLY.unpack_from(packet), packet[REPLY.size :].decode()
        if head[:3] + head[4:5] + head[5:6] != (b"EcIO", 1, 4, number, place) or head[3] != len(run):
            return f"another packet: {head}"
        text, place = text + run, place + 1
        if head[6]:
            return text


def answered(one, number, line):
    one.send(question(number, line))
    return replies(one, number)


@case
def commands_ask_the_master_that_runs(stage):
    """They print what they print with `--at`, and no cycle is short by them."""
    with asked(stage, "--every", "10000") as (master, door):
        through = ("--through", door)
        yield "where", "whole\n0\n", stage.ends("where", "m", *through)
        read = ("sdo", "m", "0x1002", "0x1018", "1")
        yield "read", "value 0x00000002\n0\n", stage.ends(*read, *through)
        write = ("sdo", "m", "0x1002", "0x2000", "0")
        yield "written", "written\n0\n", stage.ends(*write, "0xbeef", *through)
        yield "as written", "value 0xbeef\n0\n", stage.ends(*write, *through)
        abort = "abort 0x06020000\n0x06020000: object does not exist in the object dictionary\n1\n"
        yield "an abort", abort, stage.ends("sdo", "m", "0x1002", "0x3000", "0", *through)
        nobody = "fault NoSlave\nno slave of the scene has the station 0x1007\n1\n"
        yield "no slave", nobody, stage.ends("sdo", "m", "0x1007", "0x1018", "1", *through)
        rows = "".join(
            f"slave {place} station {0x1001 + place:#06x} state 8 error 0x0000 links up up" for place in range(3)
        )
        scanned = stage.ends("scan", *through)
        slaves = "".join(re.sub(" name .*", "", row) for row in scanned.splitlines()[:3])
        yield "slaves", rows, slaves
        yield "cable", "ring whole\n0\n", "".join(scanned.splitlines(True)[3:])
        told = ended(master)
    yield "cycles", "0", str(short_cycles(told))
    yield "status", "0", told.splitlines()[-1]


@case
def a_broken_cable_is_told_by_the_master_that_runs(stage):
    pipe = {"stdin": subprocess.PIPE}
    with stage.serve(MACHINE, "--control", **pipe) as line:
        stage.file("m", MACHINE)
        words = ("master", "m", "--at", both_ends(stage), "--io", "127.0.0.1:0", "--every", "2000", *PATIENCE)
        with stage.start(*words, **pipe) as master:
            where = master.process.stderr.readline().decode()
            for _ in STARTED.splitlines():
                master.line()
            line.process.stdin.write(b"link 1 down\n")
            while (told := master.line()) and "redundancy lost" not in told:
                pass
            door = f"127.0.0.1:{where.rsplit(':', 1)[1].strip()}"
            far = stage.ends("where", "m", "--through", door).splitlines()
            yield "status", "1", far[-1]
            yield "break", "link 1", far[0][:6]


@case
def a_door_that_is_closed_is_told(stage):
    with stage.master() as none:
        door = f"127.0.0.1:{none.getsockname()[1]}"
        began = time.monotonic()
        told = stage.ends("scan", "--through", door)
        wanted = f"through: NoAnswer\nno master answers at {door}: --io HOST:PORT gives one a door\n3\n"
        yield "nobody answers", wanted, told
        yield "in time", "True", str(1.4 < time.monotonic() - began < 10)
    yield "nobody is there", wanted, stage.ends("scan", "--through", door)


@case
def a_question_that_is_sent_twice_is_done_once(stage):
    """It is answered twice; the same number of another asker is another question."""
    with asked(stage, "--every", "5000", "--log", "log", "--log-images") as (master, door):
        with asker(stage, door) as one, asker(stage, door) as two:
            line = "sdo 0x1002 0x2000 0 0x0001"
            done = "sdo 0x1002 0x2000 0 written\nok\n"
            yield "done", done, answered(one, 7, line)
            yield "another", "sdo 0x1002 0x2000 0 written\nok\n", answered(two, 7, "sdo 0x1002 0x2000 0 0x0002")
            yield "again", done, answered(one, 7, line)
            yield "not twice", "sdo 0x1002 0x2000 0 value 0x0002\nok\n", answered(two, 8, "sdo 0x1002 0x2000 0")
            yield "the next one", done, answered(one, 8, line)
            yield "is done", "sdo 0x1002 0x2000 0 value 0x0001\nok\n", answered(two, 9, "sdo 0x1002 0x2000 0")
        told = ended(master)
    rows = [row for row in told.splitlines() if row.startswith("task: questions")]
    yield "counts", "['task: questions 5, once more 1, beside another 0']", str(rows)


@case
def questions_read_and_ask_alone(stage):
    """What sets outputs or ends the master is refused by name, and changes nothing."""
    with asked(stage, "--every", "5000", "--log", "log", "--log-images") as (master, door):
        with asker(stage, door) as one:
            wanted = "refused: NotHere, wanted get, signals, slaves, cable, counts, times, sdo, state or acknowledge\n"
            for number, line in enumerate(("set 0 0 010203", "leave op", "quit")):
                yield line, wanted, answered(one, number, line)
            yield "get", "item 0 outputs a1a2a3\nitem 0 inputs 112233\nok\n", answered(one, 3, "get 0")
            yield "no item", "refused: NoItem, wanted get ITEM [OFFSET LENGTH]\n", answered(one, 4, "get 2")
            yield "no word", "refused: UnknownWord, ", answered(one, 5, "sd")[:22]
            yield "no text", "refused: NotText, wanted ASCII text\n", answered(one, 6, "get\t0")
            yield "nothing", "ok\n", answered(one, 7, "")
            yield "state", "state 0x1001 state 8\nok\n", answered(one, 8, "state 0x1001 op")
            counts = answered(one, 9, "counts")
            yield "counts", "cycles ", counts[:7]
            yield "they end", "ok\n", counts[-3:]
        told = ended(master)
    yield "status", "0", told.splitlines()[-1]
    yield "outputs", "['a1a2a3']", str(outputs_sent(stage)[1])


@case
def two_ask_at_once(stage):
    """Who comes while another question is under way is refused, and asks again; both have their answer."""
    with asked(stage, "--every", "20000") as (master, door):
        with asker(stage, door) as one, asker(stage, door) as two:
            one.send(question(1, "sdo 0x1002 0x1018 1"))
            two.send(question(1, "cable"))
            yield "beside another", BUSY, replies(two, 1)
            yield "the first one", "sdo 0x1002 0x1018 1 value 0x00000002\nok\n", replies(one, 1)
            yield "then", "ring whole\nok\n", answered(two, 1, "cable")
        words = ("sdo", "m", "0x1002", "0x1018", "1", "--through", door)
        with stage.start(*words) as first, stage.start(*words) as second:
            yield "both", "value 0x00000002\n0\n" * 2, first.end() + second.end()
        ended(master)


@case
def who_orders_is_told_of_cycles_though_others_ask(stage):
    with asked(stage, "--every", "5000") as (master, door):
        with asker(stage, door) as program, asker(stage, door) as one:
            program.send(struct.pack("<4sBBHQ", b"EcIO", 1, 1, 3, 2**64 - 1) + bytes.fromhex("010203"))
            first = program.recv(65535)
            yield "cable", "ring whole\nok\n", answered(one, 1, "cable")
            yield "get", "item 0 outputs 010203\nitem 0 inputs 112233\nok\n", answered(one, 2, "get 0")
            later = program.recv(65535)
            yield "reports", "22", f"{first[5]}{later[5]}"
        ended(master)


@case
def what_is_no_question_costs_no_cycle(stage):
    """Rubbish, packets that are cut, and more questions than are taken."""
    with asked(stage, "--every", "10000") as (master, door):
        with asker(stage, door) as one:
            whole = question(1, "cable")
            rubbish = [whole[:cut] for cut in range(len(whole))] + [whole + b"\0", os.urandom(2000), os.urandom(64)]
            rubbish += [QUESTION.pack(b"EcIO", 1, 3, 1025, 1) + bytes(1025), REPLY.pack(b"EcIO", 1, 4, 0, 1, 0, 1)]
            over = time.monotonic() + 1.5
            sent = 0
            while time.monotonic() < over:
                for packet in rubbish:
                    one.send(packet)
                for number in range(200):
                    one.send(question(1000 + sent, "cable"))
                    sent += 1
        with asker(stage, door) as one:
            one.settimeout(0.5)
            told = ""
            for _try in range(20):
                with contextlib.suppress(socket.timeout):
                    told = answered(one, 1, "cable")
                if told != BUSY and told:
                    break
                time.sleep(0.05)
            yield "it answers", "ring whole\nok\n", told
        told = ended(master)
    yield "cycles", "0", str(short_cycles(told))
    yield "status", "0", told.splitlines()[-1]


@case
def a_long_answer_comes_in_some_replies(stage):
    """Of a line of 60 slaves, each of which takes some 70 characters."""
    slaves = "".join(f"slave {0x1001 + k:#x}\nsimple\nareas 1 0\nsm 2 0x1000 1 write\n"
                     f"fmmu 0 {0x10000 + k:#x} 1 0 7 0x1000 0 write\n" for k in range(60))
    scene = f"{slaves}lwr 0x10000 {'00' * 60}\n"
    with stage.serve(scene, "--forever"):
        stage.file("m", scene)
        words = ("--at", both_ends(stage), "--io", "127.0.0.1:0", "--every", "20000")
        with stage.start("master", "m", *words, *PATIENCE, stdin=subprocess.PIPE) as master:
            where = master.process.stderr.readline().decode()
            while (told := master.line()) and told != "all in Op\n":
                pass
            with asker(stage, f"127.0.0.1:{where.rsplit(':', 1)[1].strip()}") as one:
                text = answered(one, 2**64 - 1, "slaves")
            yield "slaves", "60", str(text.count("slave "))
            yield "long", "True", str(len(text) > 3000)
            yield "its end", "ok\n", text[-3:]
            ended(master)
