"""The cases that move: packets from outside, a pipe that is still written, outputs that are full or closed.

Each is a function of a `Stage`. It gives what `cases/try` compares: a name, what is wanted, what is seen.
"""
import collections
import contextlib
import datetime
import fcntl
import os
import pty
import re
import select
import shutil
import signal
import socket
import struct
import subprocess
import sys
import termios
import time

CASES = []

# One slave with a byte of outputs, whose state goes up at a step.
SLAVE = (
    "slave 0x1001\nsm 0 0x1800 32 mailbox-write\nsm 1 0x1880 32 mailbox-read\nsm 2 0x1000 1 write\n"
    "fmmu 0 0x10000 1 0 7 0x1000 0 write\n"
)

# A broadcast read of AL status as it is sent, and as one slave in Init answers it, then as two do.
ASKED = bytes.fromhex("0e10 0707 0000 3001 0200 0000 0000 0000")
ONE = "0e100707010030010200000001000100"
TWO = "0e100707020030010200000001000200"

# Nothing of this is a frame in the UDP form: cut, padded, empty, of another type, too long.
RUBBISH = [ASKED[:-1], ASKED + b"\0", b"", ASKED[:1] + b"\x40" + ASKED[2:], bytes(1600)]

# What a word is answered by that is no command.
REFUSED_WORD = (
    "refused: UnknownWord, "
    "wanted link, mem, state, error, power, lose, late, double, damage, unplug, areas, line, counts or quit"
)

# A capture's header, and the record of a packet of 14 bytes.
CAPTURE = bytes.fromhex("d4c3b2a1 0200 0400 00000000 00000000 ffff0000 01000000")
RECORD = bytes.fromhex("00000000 00000000 0e000000 0e000000 ffffffffffff 020000000001 0806")

# A program under strace, whose waits for sockets fail.
NO_WAITS = ["strace", "-qq", "-o", "/dev/null", "-e", "inject=epoll_wait,epoll_pwait:error=EBADF"]


class Running:
    """A program that runs, and is ended with the block that it runs in."""

    def __init__(self, limit, ecat, words, **streams):
        self.limit = limit
        usual = {"stdin": subprocess.DEVNULL, "stdout": subprocess.PIPE, "stderr": subprocess.PIPE}
        self.process = subprocess.Popen(["ecat", *words], executable=ecat, bufsize=0, **usual | streams)

    def __enter__(self):
        return self

    def __exit__(self, *_fault):
        self.process.kill()
        self.process.communicate()

    def line(self):
        """The next line of output, or what there is of it when the time is over."""
        line = b""
        while not line.endswith(b"\n") and select.select([self.process.stdout], [], [], self.limit)[0]:
            byte = self.process.stdout.read(1)
            if not byte:
                break
            line += byte
        return line.decode("latin-1")

    def end(self):
        """The rest of the output, the error text and the status, as one text."""
        texts = self.process.communicate(timeout=self.limit)
        told = "".join(text.decode("latin-1") for text in texts if text)
        return f"{told}{self.process.returncode}\n"


class Stage:
    """The program, a folder of its own and two free ports."""

    def __init__(self, ecat, folder, port, limit):
        self.ecat, self.folder, self.port, self.limit = ecat, folder, port, limit

    def start(self, *words, **streams):
        return Running(self.limit, self.ecat, words, cwd=self.folder, **streams)

    def ends(self, *words, **streams):
        """What a program leaves that runs to its end."""
        with self.start(*words, **streams) as running:
            return running.end()

    def file(self, name, text):
        with open(os.path.join(self.folder, name), "w", encoding="latin-1", newline="\n") as file:
            file.write(text)

    def serve(self, scene, *words, **streams):
        """Serves a scene; its first line of output has been read."""
        self.file("s", scene)
        running = self.start("serve", "s", "--port", str(self.port), *words, **streams)
        running.first = running.line()
        return running

    def master(self, port=None):
        """A socket at a free port, or at this one."""
        master = socket.socket(type=socket.SOCK_DGRAM)
        master.bind(("127.0.0.1", port or 0))
        master.settimeout(self.limit)
        return master


class Live:
    """A case of this file."""

    def __init__(self, function, limit):
        self.name, self.function, self.limit = function.__name__, function, limit

    def run(self, ecat, folder, port):
        yield from self.function(Stage(ecat, folder, port, self.limit))


def stop(process):
    """Stops a program, and waits until it stands still: what comes to it from here on comes at once."""
    process.send_signal(signal.SIGSTOP)
    os.waitid(os.P_PID, process.pid, os.WSTOPPED | os.WEXITED | os.WNOWAIT)


def cases(limit):
    return [Live(function, limit) for function in CASES]


def case(function):
    CASES.append(function)
    return function


def asked(master, port, packet=ASKED):
    """Sends a packet to a port, and answers what comes back, in hexadecimal digits."""
    master.sendto(packet, ("127.0.0.1", port))
    return master.recv(2000).hex()


@case
def packets_are_counted_until_there_were_so_many(stage):
    """The input is at its end from the start, and is not what ends the service."""
    with stage.serve(SLAVE, "--set-up", "--packets", "23") as line, stage.master() as master:
        yield "where", f"serving A 127.0.0.1:{stage.port} B 127.0.0.1:{stage.port + 1}\n", line.first
        for _ in range(11):
            yield "answer", ONE, asked(master, stage.port)
        for packet in RUBBISH + RUBBISH + [b"\0"]:
            master.sendto(packet, ("127.0.0.1", stage.port))
        yield "answer", ONE, asked(master, stage.port)
        yield "end", "packets 23 frames 12 dropped 11\nslave 0 sm 2 open 00 shown 00\n0\n", line.end()


@case
def service_ends_with_its_input(stage):
    with stage.serve(SLAVE, "--set-up", stdin=subprocess.PIPE) as line, stage.master() as master:
        line.process.stdin.write(b"not the end\n")
        yield "answer", ONE, asked(master, stage.port)
        line.process.stdin.write(b"\n")
        yield "answer", ONE, asked(master, stage.port)
        line.process.stdin.close()
        line.process.stdin = None
        told = "packets 2 frames 2 dropped 0\nslave 0 sm 2 open 00 shown 00\n"
        yield "end", told + "input: ended; with --forever or --packets N it is left alone\n0\n", line.end()


@case
def service_serving_a_service_tells_where_it_lies_and_what_came(stage):
    """A cable is broken behind the slave, so that the frame leaves where it came in."""
    mapped = "sm 2 0x1000 1 write\nfmmu 0 0x10000 1 0 7 0x1000 0 write\n"
    scene = f"slave 0x1001\n{mapped}link 1 down\nlrw 0x10000 ff\n"
    sent, back = "0d100b000000010001000000aa0000", "0d100b000000010001000000aa0100"
    serving = f"serving A 127.0.0.1:{stage.port} B 127.0.0.1:{stage.port + 1}\n"
    area = "slave 0 sm 2 open aa shown aa\n"
    ended = "input: ended; with --forever or --packets N it is left alone\n"
    for words in ((), ("--packets", "1"), ("--packets", "2", "--log")):
        with stage.serve(scene, "--set-up", *words, stdin=subprocess.PIPE) as line, stage.master() as master:
            yield "where", serving, line.first
            yield "answer", back, asked(master, stage.port, bytes.fromhex(sent))
            told = "packets 2 frames 1 dropped 1\n" + area
            if words[1:] == ("1",):
                told = "packets 1 frames 1 dropped 0\n" + area
            else:
                master.sendto(bytes.fromhex(sent[:6]), ("127.0.0.1", stage.port))
            if not words:
                told += ended
            if "--log" in words:
                told += f"speaker A 127.0.0.1:{master.getsockname()[1]}\n"
                told += "packet 0 A size 15 frame LWR log 00010000 length 1 counter 0>1 left A\n"
                told += "packet 1 A size 3 dropped Short at 3\n"
            line.process.stdin.close()
            line.process.stdin = None
            yield "end", told + "0\n", line.end()


@case
def service_goes_on_forever_without_an_input(stage):
    with stage.serve("slave 1\n", "--forever") as line, stage.master() as master:
        for _ in range(2):
            time.sleep(0.2)
            yield "answer", ONE, asked(master, stage.port)
        yield "status", "None", str(line.process.poll())


@case
def service_lies_where_it_is_bound(stage):
    with stage.serve("slave 1\n", "--bind", "127.0.0.3", "--packets", "1") as line, stage.master() as master:
        yield "where", f"serving A 127.0.0.3:{stage.port} B 127.0.0.3:{stage.port + 1}\n", line.first
        with stage.master(stage.port):
            master.sendto(ASKED, ("127.0.0.1", stage.port))
        master.sendto(ASKED, ("127.0.0.3", stage.port))
        yield "answer", ONE, master.recv(2000).hex()
        yield "end", "packets 1 frames 1 dropped 0\n0\n", line.end()


@case
def log_has_a_line_for_each_packet(stage):
    ethernet = bytes.fromhex("ffffffffffff 020000000001 88a4") + ASKED
    packets = [ASKED, ASKED + b"\0", ethernet, b"", ASKED]
    status = "frame BRD adp 0000 ado 0130 length 2 counter 0>1 left A"
    with stage.serve("slave 1\n", "--log", "--packets", "6") as line:
        with stage.master() as one, stage.master() as other:
            for packet in packets:
                one.sendto(packet, ("127.0.0.1", stage.port))
            for _ in range(2):
                yield "answer", ONE, one.recv(2000).hex()
            yield "answer", ONE, asked(other, stage.port)
            told = ["packets 6 frames 3 dropped 3", f"speaker A 127.0.0.1:{one.getsockname()[1]}"]
            told += [f"packet 0 A size 16 {status}", "packet 1 A size 17 dropped Trailing at 16 padded"]
            told += ["packet 2 A size 30 dropped BadType at 1 ethernet"]
            told += ["packet 3 A size 0 dropped Short at 0"]
            told += [f"packet 4 A size 16 {status}", f"speaker A 127.0.0.1:{other.getsockname()[1]}"]
            told += [f"packet 5 A size 16 {status}", "0", ""]
            yield "end", "\n".join(told), line.end()


@case
def log_tells_what_commands_do(stage):
    frame = "frame BRD adp 0000 ado 0130 length 2 counter 0>"
    with controlled(stage, "slave 1\n", "--log") as line, stage.master() as master:
        yield "lose", "ok\n", command(line, "lose A 1")
        for _ in range(2):
            master.sendto(ASKED, ("127.0.0.1", stage.port))
        yield "answer", ONE, master.recv(2000).hex()
        for text in ("unplug A", "link 0 down"):
            yield text, "ok\n", command(line, text)
        master.sendto(ASKED, ("127.0.0.1", stage.port))
        # A packet is taken before a command that is said behind it.
        yield "counts", "packets 3 frames 3 dropped 0\n", command(line, "counts")
        yield "ok", "ok\n", line.line()
        yield "quit", "ok\n", command(line, "quit")
        speaker = f"speaker A 127.0.0.1:{master.getsockname()[1]}"
        told = ["packets 3 frames 3 dropped 0", speaker, f"packet 0 A size 16 {frame}1 lost at A"]
        told += [f"packet 1 A size 16 {frame}1 left A", speaker, f"packet 2 A size 16 {frame}- left nowhere"]
        yield "end", "\n".join(told + ["0", ""]), line.end()


@case
def copies_leave_twice_or_damaged(stage):
    with controlled(stage, "slave 1\n") as line, stage.master() as master:
        yield "double", "ok\n", command(line, "double A 1")
        master.sendto(ASKED, ("127.0.0.1", stage.port))
        yield "twice", ONE + ONE, "".join(master.recv(2000).hex() for _ in range(2))
        yield "damage", "ok\n", command(line, "damage A 2")
        for name in ("damaged", "the next one too"):
            yield name, "0f" + ONE[2:], asked(master, stage.port)
        yield "whole again", ONE, asked(master, stage.port)
        yield "no end", "refused: BadNumber, wanted double A|B N\n", command(line, "double C 1")


@case
def copies_leave_late(stage):
    """A copy is late by what is said, and leaves behind one that was asked for later."""
    again = ASKED.replace(b"\x07\x07", b"\x07\x08")
    with controlled(stage, "slave 1\n") as line, stage.master() as master:
        yield "late", "ok\n", command(line, "late A 1500 1")
        began = time.monotonic()
        master.sendto(ASKED, ("127.0.0.1", stage.port))
        yield "the next one", ONE.replace("0707", "0708"), asked(master, stage.port, again)
        yield "before it is due", "True", str(time.monotonic() - began < 1.5)
        yield "the late one", ONE, master.recv(2000).hex()
        yield "when it is due", "True", str(1.5 <= time.monotonic() - began)
        yield "no count", "refused: WrongCount, wanted late A|B MILLISECONDS N\n", command(line, "late A 1")
        yield "too many", "refused: OutOfRange, wanted late A|B MILLISECONDS N\n", command(line, "late A 1 4294967296")
        yield "quit", "ok\n", command(line, "quit")


@case
def service_ends_after_its_packets_while_the_input_is_open(stage):
    with stage.serve("slave 1\n", "--packets", "1", stdin=subprocess.PIPE) as line, stage.master() as master:
        yield "answer", ONE, asked(master, stage.port)
        yield "line", "packets 1 frames 1 dropped 0\n", line.line()
        yield "status", "0", str(line.process.wait(stage.limit))


@case
def links_of_a_scene_are_down_in_a_service(stage):
    with stage.serve("slave 1\nslave 2\nlink 1 down\n", "--packets", "2") as line:
        with stage.master() as one, stage.master() as other:
            yield "answer at A", ONE, asked(one, stage.port)
            yield "answer at B", ONE.replace("0200000001", "0240000001"), asked(other, stage.port + 1)
            yield "end", "packets 2 frames 2 dropped 0\n0\n", line.end()


@case
def gap_of_a_scene_is_there_in_a_service(stage):
    with stage.serve("slave 1\nslave 2\nslave 3\nlink 1 down\nlink 2 down\n", "--packets", "1") as line:
        with stage.master() as master:
            yield "answer", ONE, asked(master, stage.port)
            yield "end", "packets 1 frames 1 dropped 0\n0\n", line.end()


@case
def frames_leave_where_they_arrive(stage):
    with stage.serve("slave 1\nslave 2\n", "--packets", "3") as line:
        with stage.master() as one, stage.master() as other:
            yield "answer while nobody is at B", TWO, asked(one, stage.port)
            other.sendto(ASKED, ("127.0.0.1", stage.port + 1))
            yield "from B, past no slave, at A", ASKED.hex(), one.recv(2000).hex()
            one.sendto(ASKED, ("127.0.0.1", stage.port))
            yield "from A, past both slaves, at B", TWO, other.recv(2000).hex()
            yield "end", "packets 3 frames 3 dropped 0\n0\n", line.end()


@case
def slaves_step_after_each_packet(stage):
    request = bytes.fromhex("0e10 0500 0110 2001 0200 0000 0200 0000")
    status = bytes.fromhex("0e10 0400 0110 3001 0200 0000 0000 0000")
    with stage.serve(SLAVE, "--set-up", "--packets", "2") as line, stage.master() as master:
        yield "request", "0e100500011020010200000002000100", asked(master, stage.port, request)
        yield "state", "0e100400011030010200000002000100", asked(master, stage.port, status)
        yield "end", "packets 2 frames 2 dropped 0\nslave 0 sm 2 open 00 shown 00\n0\n", line.end()


@case
def packets_that_come_late_are_answered(stage):
    """The service waits by then: at an end that it does not wait for nobody would ever be answered."""
    with stage.serve("slave 1\nslave 2\nlink 1 down\n", "--packets", "4") as line:
        with stage.master() as one, stage.master() as other:
            for _ in range(2):
                time.sleep(0.2)
                yield "answer at B", ONE.replace("0200000001", "0240000001"), asked(other, stage.port + 1)
                time.sleep(0.2)
                yield "answer at A", ONE, asked(one, stage.port)
            yield "end", "packets 4 frames 4 dropped 0\n0\n", line.end()


# A slave whose outputs come back as inputs, and one that counts.
MOVING = (
    "slave 1\nsm 2 0x1000 1 write\nsm 3 0x1100 1 read\nfmmu 0 0x10000 1 0 7 0x1000 0 write\n"
    "fmmu 1 0x10000 1 0 7 0x1100 0 read\nmirror 3 2\n"
    "slave 2\nsm 3 0x1100 1 read\nfmmu 0 0x10001 1 0 7 0x1100 0 read\ncount 3\n"
)


def exchange(outputs):
    """An LRW of the byte that the first of them takes, and of what both give."""
    return bytes.fromhex(f"0e10 0c00 0000 0100 0200 0000 {outputs:02x}00 0000")


def moved(stage, master, outputs):
    """What both give on such an exchange, and its working counter."""
    return asked(master, stage.port, exchange(outputs)).removeprefix("0e100c000000010002000000")


@case
def applications_act_behind_each_packet(stage):
    with stage.serve(MOVING, "--set-up", "--packets", "5") as line, stage.master() as master:
        yield "first", "00000400", moved(stage, master, 0x5A)
        yield "mirrored", "5a010400", moved(stage, master, 0xC3)
        yield "and again", "c3020400", moved(stage, master, 0)
        master.sendto(b"no frame", ("127.0.0.1", stage.port))
        yield "dropped", "00040400", moved(stage, master, 0)
        yield "end", "packets 5 frames 4 dropped 1\nslave 0 sm 2 open 00 shown 00\n0\n", line.end()


@case
def applications_act_between_commands(stage):
    """A byte that is put by hand into inputs is read once: then the application puts its own."""
    with controlled(stage, MOVING, "--set-up") as line, stage.master() as master:
        yield "input", "ok\n", command(line, "mem 1 0x1100 77")
        yield "by hand", "00770400", moved(stage, master, 0x5A)
        yield "output", "ok\n", command(line, "mem 0 0x1000 11")
        yield "mirrored before", "5a010400", moved(stage, master, 0)
        yield "quit", "ok\n", command(line, "quit")


def controlled(stage, scene, *words):
    """Serves a scene under commands."""
    return stage.serve(scene, "--control", *words, stdin=subprocess.PIPE)


def command(line, text):
    """Gives a command, and answers the line that comes first of its answer."""
    line.process.stdin.write(text.encode() + b"\n")
    return line.line()


@case
def cable_breaks_between_two_packets(stage):
    with controlled(stage, "slave 1\nslave 2\n") as line, stage.master() as master:
        yield "whole", TWO, asked(master, stage.port)
        yield "break", "ok\n", command(line, "link 1 down")
        yield "broken", ONE, asked(master, stage.port)
        yield "no link", "refused: OutOfRange,", command(line, "link 3 up")[:20]
        yield "broken still", ONE, asked(master, stage.port)
        yield "mend", "ok\n", command(line, "link 1 up")
        yield "mended", TWO, asked(master, stage.port)
        yield "quit", "ok\n", command(line, "quit")
        yield "end", "packets 4 frames 4 dropped 0\n0\n", line.end()


@case
def copies_are_lost_on_command(stage):
    with controlled(stage, "slave 1\n") as line, stage.master() as master:
        yield "lose", "ok\n", command(line, "lose A 2")
        for _ in range(2):
            master.sendto(ASKED, ("127.0.0.1", stage.port))
        yield "answer of the third", ONE, asked(master, stage.port)
        yield "counts", "packets 3 frames 3 dropped 0\n", command(line, "counts")
        master.settimeout(0.05)
        try:
            yield "no more", "", master.recv(2000).hex()
        except TimeoutError:
            pass
        yield "ok", "ok\n", line.line()


@case
def unplugged_end_gets_nothing_until_it_speaks(stage):
    with controlled(stage, "slave 1\nslave 2\n") as line:
        with stage.master() as one, stage.master() as other:
            other.sendto(ASKED, ("127.0.0.1", stage.port + 1))
            yield "counts", "packets 1 frames 1 dropped 0\n", command(line, "counts")
            yield "ok", "ok\n", line.line()
            one.sendto(ASKED, ("127.0.0.1", stage.port))
            yield "from A, at B", TWO, other.recv(2000).hex()
            yield "unplug", "ok\n", command(line, "unplug B")
            yield "from A, at A", TWO, asked(one, stage.port)
            other.sendto(ASKED, ("127.0.0.1", stage.port + 1))
            yield "from B, at A", ASKED.hex(), one.recv(2000).hex()


@case
def inputs_and_states_move_between_two_packets(stage):
    read = bytes.fromhex("0d10 0a00 0000 0100 0100 0000 00 0000")
    scene = "slave 1\nsm 3 0x1100 1 read\nfmmu 0 0x10000 1 0 7 0x1100 0 read\n"
    with controlled(stage, scene, "--set-up") as line, stage.master() as master:
        yield "input", "ok\n", command(line, "mem 0 0x1100 5a")
        yield "answer", "0d100a0000000100010000005a0100", asked(master, stage.port, read)
        yield "state", "ok\n", command(line, "state 0x0001 8")
        yield "status", ONE.replace("01000100", "08000100"), asked(master, stage.port)


@case
def half_a_command_waits_for_its_end(stage):
    with controlled(stage, "slave 1\n") as line, stage.master() as master:
        line.process.stdin.write(b"link 0 do")
        yield "before", ONE, asked(master, stage.port)
        line.process.stdin.write(b"wn\ncou")
        yield "broken", "ok\n", line.line()
        line.process.stdin.close()
        line.process.stdin = None
        yield "end", REFUSED_WORD + "\npackets 1 frames 1 dropped 0\n0\n", line.end()


@case
def line_of_input_has_1024_bytes_at_most(stage):
    with controlled(stage, "slave 1\n") as line:
        yield "most", "ok\n", command(line, "#" + "x" * 1023)
        yield "more", "refused: TooLong, wanted 1024 bytes at most\n", command(line, "#" + "x" * 1024)
        yield "many more", "refused: TooLong, wanted 1024 bytes at most\n", command(line, "#" + "x" * 9999)
        yield "next", "ok\n", command(line, "link 0 down")


@case
def commands_come_between_packets_that_never_end(stage):
    """More packets wait than are taken in a row."""
    with controlled(stage, "slave 1\n") as line, stage.master() as master:
        for _ in range(100):
            master.sendto(b"no frame", ("127.0.0.1", stage.port))
        yield "counts", "packets", command(line, "counts")[:7]
        yield "ok", "ok\n", line.line()


@case
def commands_of_a_file_are_done(stage):
    stage.file("commands", "link 0 down\ncounts\n")
    with open(os.path.join(stage.folder, "commands"), "rb") as commands:
        with stage.serve("slave 1\n", "--control", stdin=commands) as line:
            counts = "packets 0 frames 0 dropped 0\n"
            yield "end", f"ok\n{counts}ok\n{counts}0\n", line.end()


@case
def service_under_commands_ends_after_its_packets(stage):
    with controlled(stage, "slave 1\n", "--packets", "2") as line, stage.master() as master:
        yield "answer", ONE, asked(master, stage.port)
        yield "break", "ok\n", command(line, "link 0 down")
        master.sendto(ASKED, ("127.0.0.1", stage.port))
        yield "counts", "packets 2 frames 2 dropped 0\n", line.line()
        yield "status", "0", str(line.process.wait(stage.limit))


@case
def outputs_of_a_service_are_told(stage):
    write = bytes.fromhex("0d10 0500 0110 0010 0100 0000 c3 0000")
    with stage.serve(SLAVE, "--set-up", "--packets", "1") as line, stage.master() as master:
        yield "answer", "0d1005000110001001000000c30100", asked(master, stage.port, write)
        yield "end", "packets 1 frames 1 dropped 0\nslave 0 sm 2 open c3 shown c3\n0\n", line.end()


def unbound(port):
    """What is told where a line does not get one of its ports, and the status."""
    ports = f"of the UDP ports {port} and {port + 1} one cannot be had; --port names others"
    return f"socket: Bind\n127.0.0.1: {ports}\n3\n"


@case
def ports_that_are_taken_are_told(stage):
    stage.file("s", "slave 1\nbrd 0x0130 0000\n")
    for taken in (stage.port, stage.port + 1):
        with stage.master(taken):
            for command in ("udp", "serve"):
                yield command, unbound(stage.port), stage.ends(command, "s", "--port", str(stage.port))


@case
def port_is_34980_if_none_is_given(stage):
    """Somebody has it: this case, or another program."""
    stage.file("s", "slave 1\n")
    try:
        held = stage.master(34980)
    except OSError:
        held = stage.master()
    with held:
        for command in ("udp", "serve"):
            yield command, unbound(34980), stage.ends(command, "s")


@case
def scene_is_checked_before_a_socket_is_opened(stage):
    digits = "lrd wants two hexadecimal digits for each byte, without 0x"
    texts = {
        "slave 1\nlrd 0 0\n": f'scene: line 2: BadNumber\ns:2:7: "0" is no row of bytes; {digits}\n1\n',
        "slave 1\nstep\n": "scene: actions\ns has a line frame, step or weather, which ecat run does alone\n1\n",
    }
    with stage.master(stage.port):
        for scene, told in texts.items():
            stage.file("s", scene)
            for command in ("udp", "serve"):
                yield command, told, stage.ends(command, "s", "--port", str(stage.port))


@case
def copies_of_a_run_are_kept_and_listed(stage):
    stage.file("s", "slave 1\nslave 2\nbrd 0x0130 0000\nlink 1 down\n")
    told = "item 0 BRD data 0100 wkc 2 of 2 adp 2\n0\n"
    yield "run", told, stage.ends("run", "s", "--pcap", "p")
    yield "list", COPIES, stage.ends("list", "p")


# Each copy as it leaves and as it arrives, marked there by bit 1 of its source: each turns at the broken
# link, behind one of the two slaves.
COPIES = """\
1 0.000000 10:52:4d:50:00:0a 0 BRD 0x0000:0x0130 2 wkc 0 0000
2 0.000001 12:52:4d:50:00:0a 0 BRD 0x0001:0x0130 2 wkc 1 0100
3 0.000002 10:52:4d:50:00:0b 0 BRD 0x0000:0x0130 2 wkc 0 0000
4 0.000003 12:52:4d:50:00:0b 0 BRD 0x0001:0x0130 2 wkc 1 0100
0
"""


@case
def packet_of_a_live_pipe_is_shown_before_the_next_one(stage):
    pipe = os.path.join(stage.folder, "pipe")
    os.mkfifo(pipe)
    with stage.start("show", "pipe") as show, open(pipe, "wb", buffering=0) as capture:
        capture.write(CAPTURE)
        for number in range(3):
            capture.write(RECORD[:20])
            capture.write(RECORD[20:])
            yield "line", f"packet {number} ethertype 0806\n", show.line()
        capture.write(RECORD[:29])
        capture.close()
        yield "end", "capture: Short\n1\n", show.end()


@case
def scene_of_a_live_pipe_is_read_to_its_end(stage):
    pipe = os.path.join(stage.folder, "pipe")
    os.mkfifo(pipe)
    with stage.start("check", "pipe") as check, open(pipe, "wb", buffering=0) as scene:
        for piece in (b"sla", b"ve 1\nsl", b"ave 1", b"\n"):
            scene.write(piece)
        scene.close()
        hints = "pipe:1: slave 0 is set here\npipe:2: slave 1 is set here\n"
        yield "end", f"refused: TwinStation slave 0 slave 1\n{hints}1\n", check.end()


# What each command prints to an output that takes nothing.
COMMANDS = ["vectors", "check good", "check bad", "check refused", "run good", "run bad", "run refused"]
COMMANDS += ["show capture", "show bad", "sdo good 1 0 0", "sdo bad 1 0 0", "udp good --port {port}"]
COMMANDS += ["udp bad --port {port}", "serve good --port {port}", "serve bad --port {port}"]


def commands(stage):
    """The command lines of COMMANDS, whose files are there then."""
    stage.file("good", "slave 1\nbrd 0x0130 0000\n")
    stage.file("bad", "slave 1\nslave 1 1\n")
    stage.file("refused", "slave 1\nslave 1\nbrd 0x0130 0000\n")
    stage.file("capture", (CAPTURE + RECORD).decode("latin-1"))
    for words in COMMANDS:
        yield words.replace("{port}", str(stage.port)).split()


@case
def full_output_is_told(stage):
    for words in commands(stage):
        with open("/dev/full", "wb") as full:
            yield " ".join(words), "output: Write\n3\n", stage.ends(*words, stdout=full)


@case
def closed_output_is_told(stage):
    for words in commands(stage):
        ours, theirs = socket.socketpair()
        with ours, theirs:
            theirs.shutdown(socket.SHUT_WR)
            yield " ".join(words), "output: Write\n3\n", stage.ends(*words, stdout=theirs)


@case
def output_that_closes_between_packets_is_told(stage):
    pipe = os.path.join(stage.folder, "pipe")
    os.mkfifo(pipe)
    ours, theirs = socket.socketpair()
    ours.settimeout(stage.limit)
    with ours, theirs, stage.start("show", "pipe", stdout=theirs) as show:
        with open(pipe, "wb", buffering=0) as capture:
            capture.write(CAPTURE + RECORD)
            yield "line", "packet 0 ethertype 0806\n", ours.recv(100).decode("latin-1")
            ours.shutdown(socket.SHUT_RD)
            capture.write(RECORD)
            yield "end", "output: Write\n3\n", show.end()


@case
def faults_of_standard_error_are_passed_over(stage):
    for words, status in ((["--help"], 2), (["sdo", "s", "x", "0", "0"], 2), (["run", "nothing"], 3)):
        with open("/dev/full", "wb") as full:
            yield " ".join(words), f"{status}\n", stage.ends(*words, stderr=full)


@case
def words_that_are_no_text_are_bad(stage):
    yield "end", "argument: BadNumber\n2\n", stage.ends("run", b"\xff")


@case
def args_numbers_other_forms_are_bad_numbers_with_spaces(stage):
    """Words that no line of a file gives: empty ones, and ones with a space."""
    of = "it wants 0 to 65535, as decimal digits or as 0x and hexadecimal ones"
    small = of.replace("65535", "255")
    value = "it wants 0x and 2, 4 or 8 hexadecimal digits"
    for place, (name, wants) in enumerate((("STATION", of), ("INDEX", of), ("SUB", small), ("VALUE", value))):
        for word in ("", " 1", "1 ") if place < 3 else ("",):
            words = ["1", "1", "1"] if place == 3 else ["0", "0", "0"]
            words[place:place + 1] = [word]
            told = f'argument: BadNumber\n{name} is "{word}"; {wants}\n2\n'
            yield f"{name} {word!r}", told, stage.ends("sdo", "a.scene", *words)
    told = 'argument: BadNumber\n--bind is " 1.2.3.4"; it wants an IPv4 address, as 127.0.0.1\n2\n'
    yield "--bind", told, stage.ends("serve", "a.scene", "--bind", " 1.2.3.4")


@case
def largest_item_is_told_whole(stage):
    digits = "5a" * 1486
    stage.file("s", f"slave 1\nlrd 0 {digits}\n")
    told = f"item 0 LRD data {digits} wkc 0 of 0\n"
    odd = "odd lines: 2; ecat lint s names them\n"
    yield "run", told + odd + "0\n", stage.ends("run", "s")
    yield "udp", "good\n" + told + "0\n", stage.ends("udp", "s", "--port", str(stage.port))


@case
def wait_that_fails_ends_a_service(stage):
    """Where strace is not to be had there is nothing to see."""
    quiet = {"stderr": subprocess.DEVNULL}
    if not shutil.which("strace") or subprocess.run([*NO_WAITS, "true"], **quiet).returncode:
        return
    stage.file("s", SLAVE)
    words = [*NO_WAITS, stage.ecat, "serve", "s", "--port", str(stage.port), "--packets", "1"]
    streams = {"stdin": subprocess.DEVNULL, "capture_output": True, "text": True}
    done = subprocess.run(words, cwd=stage.folder, timeout=stage.limit, **streams)
    yield "output", f"serving A 127.0.0.1:{stage.port} B 127.0.0.1:{stage.port + 1}\n", done.stdout
    yield "error", "cycle: Port\n", done.stderr
    yield "status", "3\n", f"{done.returncode}\n"


@case
def receive_that_fails_ends_a_service_and_a_send_loses_a_copy(stage):
    """Of the calls of a packet each fails in turn. Where strace is not to be had there is nothing to see."""
    quiet = {"stderr": subprocess.DEVNULL}
    if not shutil.which("strace") or subprocess.run([*NO_WAITS, "true"], **quiet).returncode:
        return
    stage.file("s", SLAVE)
    ended = {"recvfrom,recvmsg": ("cycle: Port\n", "3", ""), "sendto,sendmsg": ("", "0", "frames 2")}
    for call, (error, status, told) in ended.items():
        fails = ["strace", "-qq", "-o", "/dev/null", "-e", f"inject={call}:error=ENETDOWN:when=1"]
        words = [*fails, stage.ecat, "serve", "s", "--port", str(stage.port), "--packets", "2"]
        streams = {"stdin": subprocess.DEVNULL, "stdout": subprocess.PIPE, "stderr": subprocess.PIPE}
        with subprocess.Popen(words, cwd=stage.folder, **streams) as running, stage.master() as master:
            yield "where", "serving A", running.stdout.readline()[:9].decode()
            master.sendto(ASKED, ("127.0.0.1", stage.port))
            master.sendto(ASKED, ("127.0.0.1", stage.port))
            out, err = running.communicate(timeout=stage.limit)
            yield "error", error, err.decode()
            yield "status", status, str(running.returncode)
            yield "frames", told, "frames 2" if b"packets 2 frames 2 dropped 0" in out else ""


# Three slaves with mailboxes, which take a byte of outputs and give a byte of inputs each, and what a master
# asks of them in each cycle.
MACHINE = "".join(
    f"slave {0x1001 + k:#x}\nareas 1 1\n"
    "sm 0 0x1800 32 mailbox-write\nsm 1 0x1880 32 mailbox-read\nsm 2 0x1000 1 write\nsm 3 0x1100 1 read\n"
    f"fmmu 0 {0x10000 + k:#x} 1 0 7 0x1000 0 write\nfmmu 1 {0x10000 + k:#x} 1 0 7 0x1100 0 read\n"
    f"mem 0x1100 {0x11 * (k + 1):02x}\nobject 0x1018 1 4 ro 2\nobject 0x1018 2 4 ro {0x100 + k}\n"
    for k in range(3)
) + "lrw 0x10000 a1a2a3\nbrd 0x0130 0000\n"

# What a scan finds of the machine once it is in Op.
FOUND = "".join(
    f"slave 0x{0x1001 + k:04x}\nstate 8\n"
    "sm 0 0x1800 32 mailbox-write\nsm 1 0x1880 32 mailbox-read\nsm 2 0x1000 1 write\nsm 3 0x1100 1 read\n"
    f"fmmu 0 0x{0x10000 + k:08x} 1 0 7 0x1000 0 write\nfmmu 1 0x{0x10000 + k:08x} 1 0 7 0x1100 0 read\n"
    for k in range(3)
)

# The lines of a start-up over a whole ring of three slaves.
STARTED = "slaves 3\nring whole\nstations given\nall in Init\nall in Pre-Op\nall in Safe-Op\nall in Op\n"

# What the slaves are left in, unless it is told otherwise.
LEFT = "left in Init\n"


def sums(cycles):
    """The sums of so many cycles, all of them good, with all slaves in Op; N for their times."""
    return f"cycles {cycles} good {cycles} short 0 over 0 fault 0 not-in-op 0\ncycle time N\n"


def timed(text):
    """What a master prints, with N for the times of its cycles and for by how much they began late."""
    times = r"least \d+ mean \d+ greatest \d+ microseconds, 50% within \d+, 90% \d+, 99% \d+, 99.9% \d+(, missed \d+)?\n"
    return re.sub(f"^(cycle time|lateness) {times}", r"\1 N\n", text, flags=re.M)


# The items of its last cycle: the inputs, and 8 for each slave, which is in Op.
ITEMS = "item 0 LRW data 112233 wkc 9 of 9\nitem 1 BRD data 0800 wkc 3 of 3 adp 3\n"

# How long a master waits for a copy here, in microseconds: a loaded machine is to lose none.
PATIENCE = ("--limit", "1000000")


def both_ends(stage):
    """Where both ends of a served line lie, in the words of a master."""
    return f"127.0.0.1:{stage.port},127.0.0.1:{stage.port + 1}"


def last_lines(text, count):
    """The last lines of a text, so many."""
    return "".join(text.splitlines(True)[-count:])


def told(line):
    """A line of a master, with N for the number of its cycle and M for how many it lasted."""
    line = re.sub(r"^cycle \d+:", "cycle N:", line)
    return re.sub(r"after \d+ cycles?", "after M cycles", line)


# A line of a master of what a machine that is busy has: a cycle that began late, or a copy that came late.
LATE = r"cycle N: (began .* s late, \d+ cycles? left out|a copy of .*)\n"


def next_told(master):
    """The next line of a master, as `told` has it, behind those that a busy machine adds."""
    line = told(master.line())
    while re.fullmatch(LATE, line):
        line = told(master.line())
    return line


@case
def a_master_brings_a_line_to_op_and_cycles(stage):
    with stage.serve(MACHINE, "--forever") as _line:
        stage.file("m", MACHINE)
        words = ("master", "m", "--at", both_ends(stage), "--cycles", "50", "--log", "log", *PATIENCE)
        wanted = STARTED + LEFT + sums(50) + ITEMS + "0\n"
        yield "master", wanted, timed(stage.ends(*words))
        with open(os.path.join(stage.folder, "log"), encoding="latin-1") as log:
            wanted = "".join(f"cycle {k} good counts 9 3\n" for k in range(50))
            yield "log", wanted, log.read()


# The time that a line begins with where it is asked for: the day and the time of the day in UTC, to the millisecond.
TIME = r"\d{4}-\d\d-\d\dT\d\d:\d\d:\d\d\.\d{3}Z"


def utc_now():
    """The time as such a line has it."""
    return datetime.datetime.now(datetime.timezone.utc).strftime("%Y-%m-%dT%H:%M:%S.%f")[:23] + "Z"


def seen_times(name, text, began):
    """Each line begins with the time, which never falls and lies from that on up to now."""
    times = re.findall(f"(?m)^{TIME}(?= .)", text)
    yield f"{name}: times", str(text.count("\n")), str(len(times))
    yield f"{name}: in their order", "\n".join(sorted(times)), "\n".join(times)
    yield f"{name}: now", "True", str(bool(times) and began <= times[0] and times[-1] <= utc_now())


def without_times(text):
    """The lines of a text without the times that they begin with."""
    return re.sub(f"(?m)^{TIME} ", "", text)


@case
def each_line_of_a_master_begins_with_the_time(stage):
    """Where it is asked for: all that is printed and logged. Else, and by `none`, it is as it always was."""
    with stage.serve(MACHINE, "--forever") as _line:
        stage.file("m", MACHINE)
        words = ("master", "m", "--at", both_ends(stage), "--cycles", "20", "--log", "log", *PATIENCE)
        wanted = STARTED + LEFT + sums(20) + ITEMS + "0\n"
        logged = "".join(f"cycle {k} good counts 9 3\n" for k in range(20))
        for clock, has_times in ((), False), (("--clock", "none"), False), (("--clock", "utc"), True):
            began = utc_now()
            end = stage.ends(*words, *clock)
            with open(os.path.join(stage.folder, "log"), encoding="latin-1") as log:
                kept = log.read()
            if has_times:
                yield from seen_times("output", end.removesuffix("0\n"), began)
                yield from seen_times("log", kept, began)
                end, kept = without_times(end), without_times(kept)
            name = " ".join(clock) or "no word"
            yield f"{name}: output", wanted, without_late(end)
            yield f"{name}: log", logged, re.sub(" unsure .*", "", kept)


@case
def a_master_logs_what_it_sent_and_holds_and_keeps_its_packets(stage):
    with stage.serve(MACHINE, "--forever") as _line:
        stage.file("m", MACHINE)
        words = ("master", "m", "--at", both_ends(stage), "--cycles", "3", "--outputs", "count", *PATIENCE)
        kept = ("--log", "log", "--log-images", "--pcap", "c")
        yield "master", "0", stage.ends(*words, *kept).splitlines()[-1]
        with open(os.path.join(stage.folder, "log"), encoding="latin-1") as log:
            sent = [f"{k:02x}0000" for k in range(3)]
            wanted = "".join(
                f"cycle {k} good counts 9 3 sent {row},0000 image 112233,0800\n" for k, row in enumerate(sent)
            )
            yield "log", wanted, log.read()
        shown = stage.ends("list", "c").splitlines()
        leaving = [row for row in shown if " LRW " in row and " 10:52:4d:50:00:0" in row]
        yield "packets", "6", str(len(leaving))
        yield "data", ",".join(2 * row for row in sent), ",".join(
            a.split()[-1] + b.split()[-1] for a, b in zip(leaving[::2], leaving[1::2])
        )
        told = "pcap: Exists\nc: it is kept; --force overwrites it\n3\n"
        yield "kept", told, stage.ends(*words, "--pcap", "c")


def brought_up_and_scanned(stage, scan):
    """A master brings the served machine to Op and leaves it there; then the scan is made."""
    stage.file("m", MACHINE)
    words = ("master", "m", "--at", both_ends(stage), "--cycles", "1", "--leave", "op", *PATIENCE)
    yield "master", "0", stage.ends(*words).splitlines()[-1]
    yield "scan", "0", stage.ends(*scan).splitlines()[-1]


@case
def a_scan_writes_the_line_that_it_finds(stage):
    """The scene is that of the line: a machine that was brought up is mapped as the scene that did it."""
    with stage.serve(MACHINE, "--forever") as _line:
        scan = ("scan", "--at", both_ends(stage), *PATIENCE, "--scene", "found")
        yield from brought_up_and_scanned(stage, scan)
        told = "scene: Exists\nfound: it is kept; --force overwrites it\n3\n"
        yield "kept", told, stage.ends(*scan)
        yield "forced", "0", stage.ends(*scan, "--force").splitlines()[-1]
    with open(os.path.join(stage.folder, "found"), encoding="latin-1") as found:
        records = [row for row in found.read().splitlines() if row.split()[0] in ("slave", "sm", "fmmu", "state")]
    yield "records", FOUND, "\n".join([*records, ""])
    yield "check", "accepted\n0\n", stage.ends("check", "found")
    nobody = ("scan", "--at", "127.0.0.1:9", "--limit", "1000", "--scene", "none")
    refused = "nobody answers at A\nport A failed (Connection refused)\n1\n"
    yield "nobody", refused, last_lines(stage.ends(*nobody), 3)


# Slaves without a mailbox: one of outputs alone, one that counts, one whose outputs come back.
TERMINALS = (
    "slave 0x1001\nsimple\nareas 1 0\nsm 2 0x1000 1 write\nfmmu 0 0x10000 1 0 7 0x1000 0 write\n"
    "slave 0x1002\nsimple\nareas 0 1\nsm 3 0x1100 1 read\nfmmu 0 0x20000 1 0 7 0x1100 0 read\ncount 3\n"
    "slave 0x1003\nsimple\nareas 1 1\nsm 2 0x1000 1 write\nsm 3 0x1100 1 read\n"
    "fmmu 0 0x10001 1 0 7 0x1000 0 write\nfmmu 1 0x10001 1 0 7 0x1100 0 read\nmirror 3 2\n"
    "lwr 0x10000 a1\nlrd 0x20000 00\nlrw 0x10001 b2\nbrd 0x0130 0000\n"
)


@case
def a_master_brings_slaves_without_a_mailbox_to_op(stage):
    """Each cycle is a packet at both ends: what counts is two further in the next cycle."""
    with stage.serve(TERMINALS, "--forever") as _line:
        stage.file("m", TERMINALS)
        seen = []
        for cycles in ("2", "3"):
            words = ("master", "m", "--at", both_ends(stage), "--cycles", cycles, *PATIENCE)
            text = stage.ends(*words)
            seen.append(re.search("item 1 LRD data (..)", text))
            wanted = STARTED + LEFT + sums(cycles)
            wanted += "item 0 LWR data a1 wkc 1 of 1\nitem 1 LRD data NN wkc 1 of 1\n"
            wanted += "item 2 LRW data b2 wkc 3 of 3\nitem 3 BRD data 0800 wkc 3 of 3 adp 3\n0\n"
            yield "master", wanted, timed(re.sub("LRD data ..", "LRD data NN", text))
        yield "counts", "True", str(bool(seen[0] and seen[1] and seen[0][1] != seen[1][1]))


# Two slaves whose inputs are words that count, one item that reads both, and a broken cable between them.
COUNTING = "".join(
    f"slave {0x1001 + k:#x}\nsimple\nareas 0 2\nsm 3 0x1100 2 read\n"
    f"fmmu 0 {0x20000 + 2 * k:#x} 2 0 7 0x1100 0 read\ncount 3\n"
    for k in range(2)
) + "link 1 down\nlrd 0x20000 00000000\nbrd 0x0130 0000\n"


@case
def a_copy_of_an_earlier_cycle_is_told(stage):
    """The copy from port B of cycle 3 is handed on in cycle 6, in front of that one's."""
    held = []

    def gives(place, sent, leaves, packet):
        if sent == B and place == (3, 0):
            held.append((leaves, packet))
            return []
        if sent == B and place == (6, 0):
            return [*held, (leaves, packet)]
        return [(leaves, packet)]

    with master_behind(stage, 9, "--log", "log", *PATIENCE, gives=gives) as (_line, between, master):
        rows = [re.sub(r" 0\.\d{3} s", " T s", row) for row in between.until_the_end_of(master).splitlines()]
        late = "cycle 6: a copy of cycle 3 came T s late: slaves may have had its outputs until cycle 6"
        yield "told", late, "\n".join(row for row in rows if row.startswith("cycle 6: a copy"))
        yield "sums", "late copies 1, unsure cycles 3", "\n".join(row for row in rows if "unsure" in row)
        yield "status", "0", rows[-1]
        with open(os.path.join(stage.folder, "log"), encoding="latin-1") as log:
            yield "log", "cycle 6 good counts 9 3 unsure 4..6\n", "".join(row for row in log if "unsure" in row)


@case
def a_cable_at_an_end_costs_no_cycle_its_time(stage):
    """Of 300 cycles each would wait for a fifth of a second for a copy that cannot come."""
    for link, where in (("link 0", "port A"), ("link 3", "port B")):
        with controlled(stage, MACHINE) as line:
            stage.file("m", MACHINE)
            words = ("--cycles", "300", "--every", "10000", "--limit", "200000")
            with stage.start("master", "m", "--at", both_ends(stage), *words) as master:
                for wanted in STARTED.splitlines(True):
                    yield "start", wanted, master.line()
                yield link, "ok\n", command(line, f"{link} down")
                end = master.end()
        lost = re.search(rf"redundancy lost: {link} down: .*{where}", end)
        yield "lost", "True", "True" if lost else end
        good = re.search(r"cycles 300 good (\d+)", end)
        yield "good", "True", "True" if good and int(good[1]) >= 290 else end


@case
def cycles_without_copies_cost_no_other_one_its_time(stage):
    """Three copies are lost at either end: the cable is looked at for no longer than a cycle may last."""
    with controlled(stage, MACHINE) as line:
        stage.file("m", MACHINE)
        words = ("--cycles", "60", "--every", "50000", "--limit", "1000000")
        with stage.start("master", "m", "--at", both_ends(stage), *words) as master:
            for wanted in STARTED.splitlines(True):
                yield "start", wanted, master.line()
            for end in "AB":
                yield end, "ok\n", command(line, f"lose {end} 3")
            end = master.end()
    good = re.search(r"cycles 60 good (\d+)", end)
    yield "good", "True", "True" if good and 54 <= int(good[1]) < 60 else end
    missed = re.search(r"^lateness .*, missed (\d+)$", end, re.M)
    lost = re.search(r"^cycle (\d+): item 0: came", end, re.M)
    # What is left out long behind the loss is left out by a machine that stood still.
    left_out = re.findall(r"^cycle (\d+): began .* late\b.*, (\d+) cycles? left out$", end, re.M)
    others = sum(int(count) for cycle, count in left_out if lost and int(cycle) > int(lost[1]) + 12)
    yield "missed", "True", "True" if missed and int(missed[1]) - others <= 6 else end


@case
def a_cycle_without_copies_ends_sooner_where_no_limit_is_given(stage):
    """Four fifths of the time between two cycles are waited for then, and else all but what a cycle takes."""
    for words, least, most in (((), 15_500, 18_299), (("--limit", "1000000"), 18_300, 26_000)):
        with controlled(stage, MACHINE) as line:
            stage.file("m", MACHINE)
            words = ("--cycles", "40", "--every", "20000", *words)
            with stage.start("master", "m", "--at", both_ends(stage), *words) as master:
                for wanted in STARTED.splitlines(True):
                    yield "start", wanted, master.line()
                time.sleep(0.1)
                for end in "AB":
                    yield end, "ok\n", command(line, f"lose {end} 2")
                end = master.end()
        took = re.search(r"^cycle time .* greatest (\d+) microseconds", end, re.M)
        yield "greatest", "True", "True" if took and least <= int(took[1]) <= most else end


LONG_LATE = r"cycle \d+: began (0\.[4-9]|\d*[1-9]\.)\d+ s late, \d+ cycles left out\n"


@case
def a_master_that_stood_still_tells_what_it_left_out(stage):
    with stage.serve(MACHINE, "--forever"):
        stage.file("m", MACHINE)
        words = ("master", "m", "--at", both_ends(stage), "--every", "10000", "--log", "log", *PATIENCE)
        with stage.start(*words, stdin=subprocess.PIPE) as master:
            for wanted in STARTED.splitlines(True):
                yield "start", wanted, master.line()
            # The time of each cycle is told by the first one, which has to be over.
            log, until = os.path.join(stage.folder, "log"), time.monotonic() + stage.limit
            while os.path.getsize(log) == 0 and time.monotonic() < until:
                time.sleep(0.01)
            stop(master.process)
            time.sleep(0.5)
            master.process.send_signal(signal.SIGCONT)
            row, until = master.line(), time.monotonic() + stage.limit
            while not re.fullmatch(LONG_LATE, row) and time.monotonic() < until:
                row = master.line()
            master.process.stdin.close()
            master.process.stdin = None
            end = master.end()
        yield "told", "True", "True" if re.fullmatch(LONG_LATE, row) else row + end
        missed = re.search(r"^lateness .*, missed (\d+)$", end, re.M)
        yield "missed", "True", "True" if missed and int(missed[1]) >= 48 else end


@case
def a_word_that_counts_is_never_torn(stage):
    """Slaves step behind every packet, and each is passed by one copy: its word is of that moment."""
    with stage.serve(COUNTING, "--forever") as _line:
        stage.file("m", COUNTING)
        words = ("master", "m", "--at", both_ends(stage), "--cycles", "2000", *PATIENCE)
        yield "master", "0", stage.ends(*words, "--log", "log", "--log-images").splitlines()[-1]
    with open(os.path.join(stage.folder, "log"), encoding="latin-1") as log:
        images = re.findall(r"^cycle \d+ good .* image (\w{8}),", log.read(), re.M)
    rows = [struct.unpack("<2H", bytes.fromhex(image)) for image in images]
    yield "good cycles", "2000", str(len(rows))
    rises = {(later - before) % 65536 for a, b in zip(rows, rows[1:]) for before, later in zip(a, b)}
    yield "rises", "True", str(rises <= {1, 2, 3, 4})
    yield "apart", "True", str(all((a - b) % 65536 in (0, 1, 2, 65534, 65535) for a, b in rows))
    yield "two moments", "True", str(any(a != b for a, b in rows))
    yield "high bytes", "True", str(len({a // 256 for a, _ in rows}) > 8)


@case
def a_master_with_one_port_cycles(stage):
    with stage.serve(MACHINE, "--forever") as _line:
        stage.file("m", MACHINE)
        words = ("master", "m", "--at", f"127.0.0.1:{stage.port}", "--cycles", "5", *PATIENCE)
        wanted = LEFT + sums(5) + ITEMS + "0\n"
        yield "master", wanted, timed(last_lines(stage.ends(*words), 6))


# Items whose first frame has no room for a number, and what is said of it. An item is twelve bytes longer
# than its data, and the last one is too long to go out with those before it.
NO_ROOM = (
    ((1467, 100), "item 0, 1466 bytes of data at the most"),
    ((1486,), "item 0, 1466 bytes of data at the most"),
    ((1454,), "item 0, its frame has 1479 bytes of datagrams with the read of states, 1478 at the most"),
    ((700, 755, 100), "item 1, its frame has 1479 bytes of datagrams, 1478 at the most"),
    ((1, 700, 761, 100), "item 2, its frame has 1498 bytes of datagrams, 1478 at the most"),
)

# Items whose first frame has just room for a number.
JUST_ROOM = ((1466, 100), (700, 754, 100), (1, 700, 741, 100))


def reads(lengths):
    """A slave, and items of so many bytes that it does not serve."""
    slave = "slave 0x1001\nsimple\nareas 1 0\nsm 2 0x1000 1 write\nfmmu 0 0x10000 1 0 7 0x1000 0 write\n"
    return slave + "".join(f"lrd 0x20000 {'00' * length}\n" for length in lengths)


@case
def a_master_without_room_for_numbers_sends_nothing(stage):
    with stage.master() as silent:
        at = f"127.0.0.1:{silent.getsockname()[1]}"
        for lengths, why in NO_ROOM:
            stage.file("m", reads(lengths))
            wanted = f"refused: NoRoom {why}\n1\n"
            yield str(lengths), wanted, stage.ends("master", "m", "--at", at, "--cycles", "1")
        yield "nothing sent", "[]", str(select.select([silent], [], [], 0)[0])


def with_mailboxes(length):
    """A slave with mailboxes of so many bytes, and an object that a master writes at its start."""
    return (
        f"slave 0x1001\nareas 1 1\nsm 0 0x1800 {length} mailbox-write\nsm 1 0x2000 {length} mailbox-read\n"
        "sm 2 0x1000 1 write\nsm 3 0x1100 1 read\nfmmu 0 0x10000 1 0 7 0x1000 0 write\n"
        "fmmu 1 0x10000 1 0 7 0x1100 0 read\nobject 0x2000 1 4 rw 0\nstartup 0x2000 1 78563412\n"
        "lrw 0x10000 a1\n"
    )


@case
def mailboxes_are_used_as_long_as_copies_have_room_for_numbers(stage):
    """The longest one is written by a frame that is as long as one may be; a longer one is refused."""
    for length in (129, 256, 1024, 1466):
        scene = with_mailboxes(length)
        with stage.serve(scene, "--forever") as _line:
            stage.file("m", scene)
            at = ("--at", both_ends(stage))
            told = stage.ends("master", "m", *at, *PATIENCE, "--cycles", "2", "--leave", "op").splitlines()
            yield f"{length}: written", "True", str("startup objects written" in told)
            yield f"{length}: status", "0", told[-1]
            value = stage.ends("sdo", "m", "0x1001", "0x2000", "1", *at)
            yield f"{length}: read", "value 0x12345678\n0\n", value
    with stage.master() as silent:
        at = ("--at", f"127.0.0.1:{silent.getsockname()[1]}")
        stage.file("m", with_mailboxes(1467))
        wanted = "refused: NoRoom slave 0, its mailbox has 1467 bytes, 1466 at the most\n1\n"
        yield "master", wanted, stage.ends("master", "m", *at, "--cycles", "1")
        yield "nothing sent", "[]", str(select.select([silent], [], [], 0)[0])
        yield "sdo", wanted, stage.ends("sdo", "m", "0x1001", "0x2000", "1", *at)


@case
def lint_names_items_without_room_for_a_number(stage):
    stage.file("m", reads((1466, 1467)))
    rows = stage.ends("lint", "m").splitlines()
    wanted = "line 7: item 1: `master` has no room for the item: 1467 bytes of data, 1466 at the most"
    yield "rooms", wanted, "\n".join(row for row in rows if "room" in row)
    yield "status", "1", rows[-1]


@case
def a_frame_with_just_room_goes_out_with_its_number(stage):
    """The first frame of a cycle is as long as a frame may be."""
    for lengths in JUST_ROOM:
        with stage.serve(reads(lengths), "--forever") as _line:
            stage.file("m", reads(lengths))
            words = ("master", "m", "--at", both_ends(stage), "--cycles", "2", "--pcap", "c", "--force")
            told = stage.ends(*words, *PATIENCE)
            yield "sums", sums(2), timed("".join(re.findall("cycles? .*\n", told)))
            yield "status", "0", told.splitlines()[-1]
        longest = max(len(frame) for _leaves, _end, frame in kept_frames(stage, "c"))
        yield "bytes of the longest frame", "1500", str(longest)


def kept_frames(stage, name):
    """The frames of a capture that a master kept: of each whether it leaves the master, at which port, and
    its bytes."""
    for _time, packet in packets_of(stage, name):
        length = 2 + struct.unpack_from("<H", packet, 14)[0] % 2048
        yield packet[6] == 0x10, "ab"[packet[11] - 10], packet[14:14 + length]


def datagrams_of(frame):
    """Each datagram of a frame: its command, index, data and counter."""
    at, more = 2, True
    while more:
        length = struct.unpack_from("<H", frame, at + 6)[0]
        size, more = length % 2048, length >> 15
        counter = struct.unpack_from("<H", frame, at + 10 + size)[0]
        yield frame[at], frame[at + 1], frame[at + 10:at + 10 + size], counter
        at += 12 + size


@case
def a_master_puts_a_number_behind_each_frame(stage):
    """In a NOP of eight bytes, which no slave counts: an even one at port A and the next one at port B, and
    two more on each trip. Indexes are the places of the items, and each counter is 0. The first frame at each
    port asks nothing, and has no number."""
    with stage.serve(MACHINE, "--forever") as _line:
        stage.file("m", MACHINE)
        words = ("master", "m", "--at", both_ends(stage), "--cycles", "5", "--pcap", "c", *PATIENCE)
        yield "master", "0", stage.ends(*words).splitlines()[-1]
    numbers, came, cycles, counts = {"a": [], "b": []}, [], [], []
    for leaves, end, frame in kept_frames(stage, "c"):
        *asked_for, (command, index, data, counter) = datagrams_of(frame)
        if not asked_for:
            yield "a first frame", "0 0 0000 0", f"{command} {index} {data.hex()} {counter}"
            continue
        yield "its number", "0 0 8 0", f"{command} {index} {len(data)} {counter}"
        (numbers[end] if leaves else came).append(int.from_bytes(data, "little"))
        yield "indexes", str([*range(len(asked_for))]), str([one[1] for one in asked_for])
        if leaves:
            yield "counters", "[0]", str(sorted({one[3] for one in asked_for}))
        if asked_for[0][0] == LRW:
            (cycles if leaves else counts).append([one[3] for one in asked_for])
    first = numbers["a"][0]
    for end, number in (("a", first), ("b", first + 1)):
        wanted = [(number + 2 * k) % 2**64 for k in range(len(numbers[end]))]
        yield f"numbers at port {end}", str(wanted), str(numbers[end])
    yield "an even one", "0", str(first % 2)
    yield "came back", str(sorted(numbers["a"] + numbers["b"])), str(sorted(came))
    yield "cycles", "10", str(len(cycles))
    counted = 5 * [[0, 0, 0]] + 5 * [[9, 3, 3]]
    yield "counted", str(counted), str(sorted(counts))
    rows = [row.split() for row in stage.ends("list", "c").splitlines()[:-1]]
    listed = [row for row in rows if row[4] == "NOP" and row[6] == "8"]
    yield "listed", str(len(came) + 2 * len(numbers["a"])), str(len(listed))
    yield "as a NOP", "NOP 0x0000:0x0000 8 wkc 0", " ".join(sorted({" ".join(row[4:9]) for row in listed}))


@case
def numbers_are_in_nobodys_way_who_reads_a_capture(stage):
    """What a master kept is learned and judged as if there were none."""
    with stage.serve(MACHINE, "--forever") as _line:
        stage.file("m", MACHINE)
        words = ("master", "m", "--at", both_ends(stage), "--cycles", "20", "--pcap", "c", *PATIENCE)
        yield "master", "0", stage.ends(*words).splitlines()[-1]
    rows = stage.ends("learn", "c").splitlines()
    yield "learn", "0", rows.pop()
    records = [row for row in rows if row.split()[:1] in (["slave"], ["sm"], ["fmmu"], ["state"])]
    yield "records", FOUND, "\n".join([*records, ""])
    rows = stage.ends("judge", "c", "m").splitlines()
    yield "judge", "0", rows.pop()
    for text in ("item 0 LRW 0x00010000 3 bytes: ", "item 1 BRD 0x0130 2 bytes: "):
        told = "".join(row for row in rows if row.startswith(text))
        yield text, "True", "True" if re.search(r"sent (\d+) good \1 short 0 over 0 lost 0$", told) else told


# What a program orders of a running master, and what it is told of a cycle, but for the process data.
ORDER, REPORT = struct.Struct("<4sBBHQ"), struct.Struct("<4sBBHQQBBHIQ")
NO_CYCLE = 2**64 - 1


@contextlib.contextmanager
def serving_a_task(stage, *words):
    """A master on the machine for whose outputs a program is asked: it, and the socket of that program."""
    with stage.serve(MACHINE, "--forever"):
        stage.file("m", MACHINE)
        words = ("--every", "5000", "--log", "log", "--log-images", "--io", "127.0.0.1:0", *words, *PATIENCE)
        with stage.start("master", "m", "--at", both_ends(stage), *words, stdin=subprocess.PIPE) as master:
            where = master.process.stderr.readline().decode()
            with stage.master() as program:
                program.connect(("127.0.0.1", int(where.rsplit(":", 1)[1])))
                yield master, program, where


def report(program):
    """The next report, as the values of its head, and its inputs."""
    packet = program.recv(65535)
    return REPORT.unpack_from(packet), packet[REPORT.size :].hex()


def outputs_sent(stage):
    """What cycles sent by the log: the outputs by the cycles' numbers, and those that followed one
    another."""
    with open(os.path.join(stage.folder, "log"), encoding="latin-1") as log:
        sent = dict(re.findall(r"^cycle (\d+) .* sent (\w+),", log.read(), re.M))
    rows = list(sent.values())
    return sent, [row for row, before in zip(rows, [None, *rows]) if row != before]


def end_of_task(master):
    """What a master tells of its program at its end, behind the end of its input."""
    master.process.stdin.close()
    master.process.stdin = None
    return [row for row in master.end().splitlines() if row.startswith("task:") or row.isdigit()]


@case
def a_program_gives_the_outputs_of_a_running_master(stage):
    """What it orders goes out in the cycle of the next report, and what is no order changes nothing."""
    with serving_a_task(stage) as (master, program, where):
        yield "where", "task: outputs of 3 bytes wanted at 127.0.0.1:", where.rsplit(":", 1)[0] + ":"
        for wanted in STARTED.splitlines(True):
            yield "start", wanted, master.line()
        program.send(ORDER.pack(b"EcIO", 1, 1, 3, NO_CYCLE) + bytes.fromhex("010203"))
        first, inputs = report(program)
        cycle = first[4]
        yield "head", "(b'EcIO', 1, 2, 5)", str(first[:4])
        yield "end", "(0, 0, 0)", str(first[6:9])
        yield "of", str(cycle), str(first[10])
        yield "inputs", "1122330800", inputs
        refused = [b"", b"EcIO", bytes(19), ORDER.pack(b"EcIO", 2, 1, 3, 0) + bytes(3)]
        refused += [ORDER.pack(b"EcIO", 1, 2, 3, 0) + bytes(3), ORDER.pack(b"EcIO", 1, 1, 3, 0) + bytes(2)]
        for packet in [*refused, ORDER.pack(b"EcIO", 1, 1, 2, 0) + bytes(2)]:
            program.send(packet)
        second, _ = report(program)
        yield "goes on", str(cycle + 1), str(second[4])
        program.send(ORDER.pack(b"EcIO", 1, 1, 0, second[4]))
        third, _ = report(program)
        program.send(ORDER.pack(b"EcIO", 1, 1, 3, third[4]) + bytes.fromhex("0a0b0c"))
        while (last := report(program)[0])[4] < third[4] + 3:
            pass
        end = end_of_task(master)
    yield "refused", "task: refused packets 7, the last one: 2 bytes of outputs", end[1]
    yield "orders", "task: orders 3, ", end[0][: len("task: orders 3, ")]
    yield "status", "0", end[-1]
    sent, rows = outputs_sent(stage)
    yield "first", "010203", sent[str(cycle)]
    yield "last", "0a0b0c", sent[str(last[4])]
    yield "outputs", "010203 0a0b0c", " ".join(rows[-2:])


@case
def outputs_of_a_silent_program_become_stale(stage):
    """They are told as stale and are 0 then, up to its next order."""
    with serving_a_task(stage, "--io-stale", "4", "--io-rest", "zeros") as (master, program, _where):
        program.send(ORDER.pack(b"EcIO", 1, 1, 3, NO_CYCLE) + bytes.fromhex("010203"))
        flags = [report(program)[0][7] for _ in range(6)]
        yield "stale behind four cycles", "[0, 0, 0, 0, 8, 8]", str(flags)
        program.send(ORDER.pack(b"EcIO", 1, 1, 3, 0) + bytes.fromhex("040506"))
        yield "no more", "True", str(0 in [report(program)[0][7] for _ in range(20)])
        end = end_of_task(master)
    yield "status", "0", end[-1]
    _, rows = outputs_sent(stage)
    yield "outputs", "010203 000000 040506", " ".join(rows[rows.index("010203") :][:3])


@case
def a_line_rests_in_safe_op_while_its_program_is_silent(stage):
    """Its slaves are asked for Safe-Op, each by itself, with outputs of 0; and for Op once an order comes."""
    with serving_a_task(stage, "--io-stale", "200", "--io-rest", "safe-op") as (master, program, _where):
        program.send(ORDER.pack(b"EcIO", 1, 1, 3, NO_CYCLE) + bytes.fromhex("010203"))
        for place in range(3):
            wanted = f"slave {place} ({0x1001 + place:#06x}) is in Safe-Op"
            while (line := master.line()) and wanted not in line:
                pass
            yield f"slave {place} rests", "True", str(wanted in line)
        while not (flags := report(program)[0][7]) & 1:
            pass
        yield "stale, and not all in Op", "9", str(flags & 9)
        program.send(ORDER.pack(b"EcIO", 1, 1, 3, 0) + bytes.fromhex("040506"))
        while (line := master.line()) and "all in Op again" not in line:
            pass
        yield "driven again", "True", str("all in Op again" in line)
        end = end_of_task(master)
    yield "status", "0", end[-1]
    _, rows = outputs_sent(stage)
    yield "outputs", "010203 000000 040506", " ".join(rows[rows.index("010203") :][:3])


@case
def examples_of_tasks_run(stage):
    """The programs of examples/, each for a hundred cycles; the one in C where there is a compiler."""
    examples = os.path.join(os.path.dirname(os.path.dirname(os.path.abspath(__file__))), "examples")
    with serving_a_task(stage) as (master, _program, where):
        for wanted in STARTED.splitlines(True):
            yield "start", wanted, master.line()
        port = where.split(":")[-1].strip()
        words = [sys.executable, os.path.join(examples, "task.py"), "127.0.0.1", port, "3", "100"]
        ran = subprocess.run(words, capture_output=True, text=True, timeout=stage.limit, check=False)
        yield "python", "inputs 1122330800\n0", f"{ran.stdout[-18:]}{ran.returncode}"
        words = [os.path.join(examples, "task.sh"), port, "2a0000"]
        ran = subprocess.run(words, capture_output=True, text=True, timeout=stage.limit, check=False)
        yield "shell", "11 22 33 08 00\n0", f"{ran.stdout[-15:]}{ran.stderr}{ran.returncode}"
        if shutil.which("cc"):
            task = os.path.join(stage.folder, "task")
            built = ["cc", "-D_DEFAULT_SOURCE", "-std=c11", "-Wall", "-Werror", "-o", task]
            subprocess.run([*built, os.path.join(examples, "task.c")], check=True)
            words = [task, port, "3", "100"]
            ran = subprocess.run(words, capture_output=True, text=True, timeout=stage.limit, check=False)
            yield "c", "end 0, inputs 11 22 33 08 00\n0", f"{ran.stdout[-29:]}{ran.returncode}"
        end = end_of_task(master)
    yield "status", "0", end[-1]


@contextlib.contextmanager
def machine_and_master(stage):
    """The machine, which takes commands, and a master that cycles on it until its input ends."""
    control = {"stdin": subprocess.PIPE}
    with stage.serve(MACHINE, "--control", **control) as line:
        stage.file("m", MACHINE)
        words = ("master", "m", "--at", both_ends(stage), "--every", "100000", *PATIENCE)
        with stage.start(*words, **control) as master:
            yield line, master


@case
def a_master_sees_cables_break_and_heal(stage):
    """Each break is told once, with its place; two breaks cut slaves off, and the cycles are short."""
    with machine_and_master(stage) as (line, master):
        for wanted in STARTED.splitlines(True):
            yield "start", wanted, master.line()

        def tells(words):
            """Reads on to a line with these words. A cycle that met a change between its two copies may have
            another counter: its line tells of the cable too, and the next one that it is good again."""
            seen, until = told(master.line()), time.monotonic() + stage.limit
            others = "came|good again|lost: links|left out"
            while words not in seen and re.search(others, seen) and time.monotonic() < until:
                seen = told(master.line())
            if "came" in seen and "came" not in words:
                master.line()
            return words if words in seen else seen

        def after(command, words):
            line.process.stdin.write(command.encode() + b"\n")
            line.line()
            return tells(words)

        lost = "link 1 down: between slave 0 (0x1001) and slave 1 (0x1002)\n"
        yield "one break", lost, after("link 1 down", lost)
        yield "none", "ring whole", after("link 1 up", "ring whole")
        yield "one break", lost, after("link 1 down", lost)
        short = "came 6 of 9; links 1 and 2 down: slave 1 cut off (0x1002)\n"
        yield "two breaks", short, after("link 2 down", short)
        line.process.stdin.write(b"link 2 up\n")
        line.line()
        seen, until = "", time.monotonic() + stage.limit
        while ("good again" not in seen or lost not in seen) and time.monotonic() < until:
            # At the limit there is no line: what is missing is told below.
            if not (line_told := told(master.line())):
                break
            seen += line_told
        yield "one break", "good again", "good again" if "good again" in seen and lost in seen else seen
        master.process.stdin.close()
        master.process.stdin = None
        end = master.end()
        cycles, good, short, over, fault = (int(n) for n in re.findall(r"\d+", last_lines(end, 6))[:5])
        yield "sums", f"{cycles} 0", f"{good + short + over} {fault}"
        yield "items", ITEMS + "0\n", last_lines(end, 3)


@case
def a_master_names_what_is_in_its_way(stage):
    one, two = MACHINE.split("slave 0x1002")[0], MACHINE.split("slave 0x1003")[0]
    stage.file("m", two + "lrw 0x10000 a1a2\n")
    words = ("master", "m", "--at", both_ends(stage), "--cycles", "5", *PATIENCE)
    with stage.serve(one, "--forever") as _line:
        wanted = "slaves 1, wanted 2\nfault: another number of slaves\n1\n"
        yield "a missing slave", wanted, stage.ends(*words)
    with stage.serve(two.replace("areas 1 1\n", ""), "--forever") as _line:
        stage.file("n", "slave 0x1001\n")
        why = "fault: slave 0 (0x1001): Safe-Op: refused 0x001d invalid output configuration"
        yield "a refusal", why + "\n1\n", last_lines(stage.ends(*words), 2)
    yield "no items", "no items: nothing to cycle on\n1\n", stage.ends("master", "n", "--at", "127.0.0.1:9")
    told_file = stage.ends("master", "m", "--at", "127.0.0.1:9", "--outputs", "counts")
    yield "outputs", "outputs: Open\ncounts: ", told_file[:22]
    told_name = stage.ends("master", "m", "--at", "127.0.0.1:9,no.such.host.invalid:9")
    yield "a name", "end B: \n3\n", told_name[:7] + told_name[-3:]
    why = "argument: --at wants HOST:PORT, or two of them with a comma between\n2\n"
    for ends in ("127.0.0.1:9,no end", "127.0.0.1", "127.0.0.1:0", "127.0.0.1:65536", ":9", ""):
        yield f"--at '{ends}'", why, stage.ends("master", "m", "--at", ends)
    why = "log: Open\nno/log: No such file or directory (os error 2)\n3\n"
    yield "a log", why, stage.ends(*words, "--log", "no/log")


@case
def the_outputs_of_a_file_begin_again_behind_its_last_line(stage):
    """Each run begins at the first line; what a slave was shown last is the line of the last cycle."""
    with stage.serve(TERMINALS, "--control", stdin=subprocess.PIPE) as line:
        stage.file("m", TERMINALS)
        stage.file("o", "0102\n0304\nF5f6")
        for cycles, wanted in ((1, "01 02"), (2, "03 04"), (3, "f5 f6"), (4, "01 02"), (8, "03 04")):
            at = ("--at", both_ends(stage), "--cycles", str(cycles), "--outputs", "o", *PATIENCE)
            last = timed(last_lines(stage.ends("master", "m", *at), 7))
            yield "sums", sums(cycles), "".join(last.splitlines(True)[:2])
            line.process.stdin.write(b"areas\n")
            shown = [line.line().split()[-1] for _ in range(2)]
            yield f"{cycles} cycles", wanted, " ".join(shown)
            yield "areas", "ok\n", line.line()


# The machine with an object that the slaves let be written, and what is written into that of slave 1.
WRITABLE = re.sub("(object 0x1018 1 .*\n)", r"\1object 0x8000 1 2 rw 5\n", MACHINE)
STARTING = WRITABLE.replace("slave 0x1003", "startup 0x8000 1 0700\nstartup 0x8000 1 e803\nslave 0x1003")
OBJECTS_STARTED = STARTED.replace("all in Safe-Op\n", "startup objects written\nall in Safe-Op\n")


@case
def startup_objects_are_written_before_safe_op(stage):
    with stage.serve(WRITABLE, "--forever") as _line:
        stage.file("m", STARTING)
        at = ("--at", both_ends(stage))
        words = ("master", "m", *at, "--cycles", "5", "--leave", "op", *PATIENCE)
        yield "master", OBJECTS_STARTED + sums(5) + ITEMS + "0\n", timed(stage.ends(*words))
        yield "written", "value 0x03e8\n0\n", stage.ends("sdo", "m", "0x1002", "0x8000", "1", *at)
        yield "another", "value 0x0005\n0\n", stage.ends("sdo", "m", "0x1003", "0x8000", "1", *at)


@case
def startup_objects_that_cannot_be_written_are_named(stage):
    bad = {
        "startup 0x8000 2 01": "0x8000:2: abort 0x06090011 subindex does not exist",
        "startup 0x8001 0 01": "0x8001:0: abort 0x06020000 object does not exist in the object dictionary",
        "startup 0x1018 1 02000000": "0x1018:1: abort 0x06010002 attempt to write a read only object",
    }
    with stage.serve(WRITABLE, "--forever") as _line:
        for text, why in bad.items():
            stage.file("m", WRITABLE.replace("slave 0x1003\n", f"{text}\nslave 0x1003\n"))
            words = ("master", "m", "--at", both_ends(stage), "--cycles", "5", *PATIENCE)
            wanted = f"all in Pre-Op\nfault: slave 1 (0x1002): startup object {why}\n1\n"
            yield text, wanted, last_lines(stage.ends(*words), 3)
    with stage.serve(TERMINALS, "--forever") as _line:
        stage.file("m", TERMINALS.replace("slave 0x1002", "startup 0x8000 1 01\nslave 0x1002"))
        wanted = "fault: slave 0 (0x1001): startup object 0x8000:1: no mailboxes\n1\n"
        yield "no mailboxes", wanted, last_lines(stage.ends(*words), 2)


@case
def startup_objects_are_written_to_a_slave_that_came_back(stage):
    """The service is started anew under a master: its slaves know nothing."""
    stage.file("m", STARTING)
    line = stage.serve(WRITABLE, "--forever")
    words = ("master", "m", "--at", both_ends(stage), "--every", "10000", "--recover", "--leave", "op")
    with stage.start(*words, stdin=subprocess.PIPE) as master:
        for wanted in OBJECTS_STARTED.splitlines(True):
            yield "start", wanted, master.line()
        line.process.terminate()
        line.process.wait()
        with stage.serve(WRITABLE, "--forever") as _line:
            ended = time.monotonic() + stage.limit
            seen = []
            while sum("brought to Op" in text for text in seen) < 3 and time.monotonic() < ended:
                seen.append(master.line())
            yield "brought", "3", str(sum("brought to Op" in text for text in seen))
            time.sleep(1)
            master.process.stdin.close()
            master.process.stdin = None
            yield "end", ITEMS + "0\n", last_lines(master.end(), 3)
            told_value = stage.ends("sdo", "m", "0x1002", "0x8000", "1", "--at", both_ends(stage))
            yield "written", "value 0x03e8\n0\n", told_value


@case
def a_line_elsewhere_is_asked(stage):
    with stage.serve(MACHINE, "--set-up", "--control", stdin=subprocess.PIPE) as line:
        stage.file("m", MACHINE)
        at = ("--at", both_ends(stage))
        wanted = "at A after 0, at B after 3\nwhole\n0\n"
        yield "where", wanted, stage.ends("where", "m", *at)
        line.process.stdin.write(b"link 1 down\n")
        line.line()
        between = "link 1 down: between slave 0 (0x1001) and slave 1 (0x1002)\n1\n"
        yield "a break", "at A after 1, at B after 2\n" + between, stage.ends("where", "m", *at)
        line.process.stdin.write(b"link 1 up\n")
        line.line()
        managers = (
            "sm 0 0x1800 32 mailbox-write sm 1 0x1880 32 mailbox-read sm 2 0x1000 1 write sm 3 0x1100 1 read"
        )
        fmmus = "fmmu 0 0x000{0:05x} 1 0 7 0x1000 0 write fmmu 1 0x000{0:05x} 1 0 7 0x1100 0 read"
        slaves = "".join(
            f"slave {k} station {0x1001 + k:#x} state Init {managers} {fmmus.format(0x10000 + k)}\n"
            for k in range(3)
        )
        yield "scan", "slaves 3\nring whole\n" + slaves + "0\n", stage.ends("scan", *at, *PATIENCE)
        command(line, "link 0 down")
        command(line, "link 3 down")
        nothing = "nobody answers at A\n1\n"
        yield "scan of nothing", nothing, stage.ends("scan", *at)
        command(line, "link 0 up")
        command(line, "link 3 up")
        line.process.stdin.write(b"state 1 2\n")
        line.line()
        words = ("sdo", "m", "0x1002", "0x1018", "2", *at)
        yield "sdo", "value 0x00000101\n0\n", stage.ends(*words)
        yield "surely", "value 0x00000101\n0\n", stage.ends(*words, "--surely")
        yield "no slave", "fault NoSlave\n1\n", stage.ends("sdo", "m", "0x2002", "0x1018", "2", *at)


@case
def slaves_that_leave_op_are_told(stage):
    """A drive that leaves Op is named though all cycles are good, and so it is when it is there again."""
    with machine_and_master(stage) as (line, master):
        for wanted in STARTED.splitlines(True):
            yield "start", wanted, master.line()
        command(line, "state 1 2")
        yield "out of Op", "cycle N: not all in Op\n", next_told(master)
        yield "who", "cycle N: slave 1 (0x1002) is in Pre-Op\n", next_told(master)
        command(line, "state 1 8")
        yield "in Op", "cycle N: all in Op again after M cycles\n", next_told(master)
        command(line, "state 2 4")
        yield "out of Op again", "cycle N: not all in Op\n", next_told(master)
        yield "who else", "cycle N: slave 2 (0x1003) is in Safe-Op\n", next_told(master)
        master.process.stdin.close()
        master.process.stdin = None
        end = timed(master.end())
        yield "left", LEFT, end.splitlines(True)[0]
        yield "status", "1\n", last_lines(end, 1)
        line.process.stdin.write(b"line\n")
        states = [line.line() for _ in range(4)]
        yield "states", "3", str(sum("state 1" in text for text in states))


@case
def slaves_are_left_where_it_is_told(stage):
    with stage.serve(MACHINE, "--forever") as _line:
        stage.file("m", MACHINE)
        at = ("master", "m", "--at", both_ends(stage), "--cycles", "2", *PATIENCE)
        for word, state in (("init", "Init"), ("pre-op", "Pre-Op"), ("safe-op", "Safe-Op")):
            wanted = f"left in {state}\n" + sums(2) + ITEMS + "0\n"
            yield word, wanted, timed(last_lines(stage.ends(*at, "--leave", word), 6))
        wanted = STARTED + sums(2) + ITEMS + "0\n"
        yield "op", wanted, timed(stage.ends(*at, "--leave", "op"))


@case
def another_product_in_a_slaves_place_is_told(stage):
    with stage.serve(MACHINE, "--forever") as _line:
        stage.file("m", MACHINE.replace("ro 257", "ro 258"))
        words = ("master", "m", "--at", both_ends(stage), "--cycles", "5", *PATIENCE)
        why = "fault: slave 1 (0x1002): object 0x1018:2 is 0x00000101, wanted 0x00000102\n1\n"
        yield "another", "all in Pre-Op\n" + why, last_lines(stage.ends(*words), 3)


@case
def a_master_names_an_output_or_a_log_that_fails(stage):
    with stage.serve(MACHINE, "--forever") as _line:
        stage.file("m", MACHINE)
        words = ("master", "m", "--at", both_ends(stage), "--cycles", "5", *PATIENCE)
        wanted = STARTED + LEFT + sums(1) + ITEMS + "log: Write\n3\n"
        yield "log", wanted, timed(stage.ends(*words, "--log", "/dev/full", "--log-or-stop"))
        with open("/dev/full", "wb") as full:
            yield "output", "output: Write\n3\n", stage.ends(*words, stdout=full)


@case
def a_full_log_is_told_and_the_cycles_go_on(stage):
    with stage.serve(MACHINE, "--forever") as _line:
        stage.file("m", MACHINE)
        words = ("master", "m", "--at", both_ends(stage), "--cycles", "50", "--log", "/dev/full", *PATIENCE)
        with stage.start(*words) as master:
            out, err = (text.decode("latin-1") for text in master.process.communicate(timeout=stage.limit))
            yield "output", STARTED + LEFT + sums(50) + ITEMS, timed(out)
            yield "told once", "1", str(err.count("No space left on device"))
            yield "status", "3", str(master.process.returncode)


def without_late(text):
    """What a master prints, without what it says of copies that came late: a loaded machine has some."""
    return re.sub(r"(?m)^(cycle \d+: a copy of|late copies) .*\n", "", timed(text))


def left_out(what, text):
    """How many lines were left out there, as a master tells it."""
    found = re.search(f"^{what}: nobody read it, so lines were left out: (\\d+)$", text, flags=re.M)
    return int(found[1]) if found else 0


@contextlib.contextmanager
def small_pipe(stage):
    """A pipe of this name that holds some 4,000 bytes, and is not read yet."""
    path = os.path.join(stage.folder, "pipe")
    os.mkfifo(path)
    with os.fdopen(os.open(path, os.O_RDONLY | os.O_NONBLOCK), "rb", buffering=0) as pipe:
        fcntl.fcntl(pipe, fcntl.F_SETPIPE_SZ, 8192)
        yield pipe


def held_by(pipe):
    """How many bytes a pipe holds."""
    return struct.unpack("i", fcntl.ioctl(pipe, termios.FIONREAD, bytes(4)))[0]


def taken_of(pipe):
    """What a pipe holds."""
    return (pipe.read() or b"").decode("latin-1")


@case
def a_log_that_nobody_reads_keeps_no_cycle_waiting(stage):
    """The log is a pipe that is read behind the last cycle: it has whole lines, and the others are
    counted."""
    cycles = 1000
    with stage.serve(MACHINE, "--forever"), small_pipe(stage) as pipe:
        stage.file("m", MACHINE)
        words = ("master", "m", "--at", both_ends(stage), "--cycles", str(cycles), "--log", "pipe", *PATIENCE)
        end = without_late(stage.ends(*words))
        count = left_out("log", end)
        told = f"log: nobody read it, so lines were left out: {count}\n0\n"
        yield "master", STARTED + LEFT + sums(cycles) + ITEMS + told, end
        rows = re.sub(" unsure .*", "", taken_of(pipe))
        yield "log", "".join(f"cycle {k} good counts 9 3\n" for k in range(cycles - count)), rows
        yield "left out", "True", str(0 < count < cycles)


@case
def a_capture_that_nobody_reads_keeps_no_cycle_waiting(stage):
    """The capture is a pipe that is read behind the last cycle: it has whole packets, and others are
    counted."""
    cycles = 1000
    with stage.serve(MACHINE, "--forever"), small_pipe(stage) as pipe:
        stage.file("m", MACHINE)
        words = ("--cycles", str(cycles), "--pcap", "pipe", "--force", *PATIENCE)
        end = without_late(stage.ends("master", "m", "--at", both_ends(stage), *words))
        found = re.search(r"^pcap: nobody read it, so packets were left out: (\d+)$", end, flags=re.M)
        count = int(found[1]) if found else 0
        told = f"pcap: nobody read it, so packets were left out: {count}\n0\n"
        yield "master", STARTED + LEFT + sums(cycles) + ITEMS + told, end
        with open(os.path.join(stage.folder, "kept"), "wb") as kept:
            kept.write(pipe.read() or b"")
    packets = [packet for _, packet in packets_of(stage, "kept")]
    yield "whole packets", "True", str({packet[12:14] for packet in packets} == {b"\x88\xa4"})
    yield "left out", "True", str(len(packets) > 20 and count > 2 * cycles)


@case
def the_sums_of_a_master_that_stops_wait_for_their_reader(stage):
    """Its output is full when a cycle is the last one, and is read a third of a second later."""
    with controlled(stage, MACHINE) as line:
        stage.file("m", MACHINE)
        words = ("master", "m", "--at", both_ends(stage), "--stop", "--every", "50000", *PATIENCE)
        with stage.start(*words, stdin=subprocess.PIPE) as master:
            for wanted in STARTED.splitlines(True):
                yield "start", wanted, master.line()
            output = master.process.stdout.fileno()
            fcntl.fcntl(output, fcntl.F_SETPIPE_SZ, 8192)
            filler = os.open(f"/proc/{master.process.pid}/fd/1", os.O_WRONLY | os.O_NONBLOCK)
            os.write(filler, b"x" * 4999 + b"\n")
            os.close(filler)
            yield "state", "ok\n", command(line, "state 1 4")
            time.sleep(0.3)
            end = master.end()
        told_behind = end[end.index("\n") + 1:]
        yield "sums", "True", "True" if re.match(LEFT + r"cycles \d+ good", told_behind) else told_behind


@case
def a_log_goes_on_where_it_is_read_again(stage):
    """Its reader stops, and takes what there is once lines have been left out, three times over."""

    def packets():
        told = command(line, "counts")
        line.line()
        return int(told.split()[1])

    def waits_for(enough):
        until = time.monotonic() + stage.limit
        while not enough() and time.monotonic() < until:
            time.sleep(0.01)

    with controlled(stage, MACHINE) as line, small_pipe(stage) as pipe:
        stage.file("m", MACHINE)
        words = ("master", "m", "--at", both_ends(stage), "--every", "1000", "--log", "pipe", *PATIENCE)
        with stage.start(*words, stdin=subprocess.PIPE) as master:
            rows = ""
            for _ in range(3):
                waits_for(lambda: held_by(pipe) > 4000)
                before = packets()
                waits_for(lambda: packets() > before + 200)
                rows += taken_of(pipe)
            master.process.stdin.close()
            master.process.stdin = None
            end = master.end()
            rows = (rows + taken_of(pipe)).splitlines(True)
        whole = [row for row in rows if re.fullmatch(r"cycle \d+ (\w+ )+counts \d+ \d+.*\n", row)]
        yield "whole lines", str(len(rows)), str(len(whole))
        numbers = [int(row.split()[1]) for row in rows]
        yield "in order", str(sorted(set(numbers))), str(numbers)
        made = re.search(r"^cycles (\d+) ", end, flags=re.M)[1]
        yield "each cycle", made, str(len(rows) + left_out("log", end))
        yield "left out", "True", str(left_out("log", end) > 0)


@case
def a_terminal_that_is_full_keeps_no_cycle_waiting(stage):
    """It takes less at a time than a line has."""
    with stage.serve(MACHINE, "--forever"), terminal() as (_written, screen):
        stage.file("m", MACHINE)
        log = os.ttyname(screen.fileno())
        words = ("master", "m", "--at", both_ends(stage), "--cycles", "3000", "--log", log, *PATIENCE)
        end = stage.ends(*words)
        yield "left out", "True", str(left_out("log", end) > 0)
        yield "status", "0\n", last_lines(end, 1)


@case
def a_terminal_that_is_held_keeps_no_cycle_waiting(stage):
    """Control-S holds it and Control-Q lets it go on. Each cable that breaks or is mended is a line."""

    def goes_on(log):
        log.seek(0, os.SEEK_END)
        at, until = log.tell(), time.monotonic() + stage.limit
        while log.tell() < at + 1000 and time.monotonic() < until:
            time.sleep(0.01)
            log.seek(0, os.SEEK_END)
        return log.tell() >= at + 1000

    with controlled(stage, MACHINE) as line, terminal() as (written, screen):
        stage.file("m", MACHINE)
        words = ("master", "m", "--at", both_ends(stage), "--every", "1000", "--log", "log", *PATIENCE)
        with stage.start(*words, stdin=subprocess.PIPE, stdout=screen) as master:
            seen = seen_on(written, stage.limit, lambda text: "all in Op\n" in text.replace("\r", ""))
            yield "start", STARTED, "".join(seen.replace("\r", "").splitlines(True)[:7])
            os.write(written.fileno(), b"\x13")
            with open(os.path.join(stage.folder, "log"), "rb") as log:
                for way in ("down", "up") * 3:
                    yield way, "ok\n", command(line, f"link 1 {way}")
                    yield f"{way}: cycles", "True", str(goes_on(log))
            os.write(written.fileno(), b"\x11")
            master.process.stdin.close()
            master.process.stdin = None
            end = master.end()
            seen = seen_on(written, stage.limit, lambda text: "item 1 " in text).replace("\r", "")
            yield "sums", "item 1 BRD data 0800 wkc 3 of 3 adp 3\n", last_lines(seen, 1)
            yield "left out", "True", str(left_out("output", end) >= 6)
            yield "status", "0\n", last_lines(end, 1)


@case
def a_master_of_so_many_cycles_leaves_its_input_alone(stage):
    """Unless it is told to end with it: it ends with whichever comes first."""
    with stage.serve(MACHINE, "--forever"):
        stage.file("m", MACHINE)
        words = ("master", "m", "--at", both_ends(stage), *PATIENCE, "--cycles")
        five = STARTED + LEFT + sums(5) + ITEMS + "0\n"
        yield "at its end", five, timed(stage.ends(*words, "5"))
        with stage.start(*words, "5", "--until-end", stdin=subprocess.PIPE) as master:
            yield "open", five, timed(stage_end(master))
        log = os.path.join(stage.folder, "log")
        words = (*words, "4294967295", "--until-end", "--log", "log")
        with stage.start(*words, stdin=subprocess.PIPE) as master:
            for wanted in STARTED.splitlines(True):
                yield "start", wanted, master.line()
            until = time.monotonic() + stage.limit
            while os.path.getsize(log) == 0 and time.monotonic() < until:
                time.sleep(0.01)
            master.process.stdin.close()
            master.process.stdin = None
            yield "ended", LEFT + ITEMS + "0\n", re.sub(r"(?m)^cycle.*\n", "", without_late(master.end()))


def stage_end(running):
    """What is left of a program whose input stays open."""
    kept, running.process.stdin = running.process.stdin, None
    try:
        return running.end()
    finally:
        running.process.stdin = kept


@case
def a_busy_master_cycles_as_another_one(stage):
    with stage.serve(MACHINE, "--forever"):
        stage.file("m", MACHINE)
        words = ("master", "m", "--at", both_ends(stage), "--cycles", "20", "--busy", *PATIENCE)
        for more in ((), ("--every", "50000")):
            end = without_late(stage.ends(*words, *more))
            yield "start", STARTED, "".join(end.splitlines(True)[:7])
            yield "cycles", "cycles 20 good 20", " ".join(re.search(r"(?m)^cycles .*$", end)[0].split()[:4])
            yield "end", ITEMS + "0\n", last_lines(end, 3)


@case
def nobody_who_answers_a_scan_is_told(stage):
    wanted = "nobody answers at A\nport A failed (Connection refused)\n1\n"
    yield "nobody", wanted, stage.ends("scan", "--at", f"127.0.0.1:{stage.port}")


@case
def a_start_to_which_nobody_listens_says_why_no_copy_comes(stage):
    stage.file("m", MACHINE)
    refused = "port A failed (Connection refused)\nport B failed (Connection refused)\n"
    nobody = "slaves 0, wanted 3\nno copy came back: nothing known\n"
    wanted = f"{nobody}{refused}fault: another number of slaves\n1\n"
    yield "master", wanted, stage.ends("master", "m", "--at", both_ends(stage), "--cycles", "1")


@case
def ports_in_the_other_order_are_told(stage):
    """By `where`, by `scan` and by the start of a master, which says what is to be done."""
    stage.file("m", MACHINE)
    at = ("--at", f"127.0.0.1:{stage.port + 1},127.0.0.1:{stage.port}")
    swapped = "ports A and B are swapped\n"
    with stage.serve(MACHINE, "--set-up", "--forever"):
        wanted = f"at A after 3, at B after 0\n{swapped}1\n"
        yield "where", wanted, stage.ends("where", "m", *at)
        seen = stage.ends("scan", *at, *PATIENCE)
        yield "scan", f"slaves 3\n{swapped}", "".join(seen.splitlines(True)[:2])
        fault = "fault: ports A and B are swapped: name them in the other order\n"
        ended = stage.ends("master", "m", *at, "--cycles", "1", *PATIENCE)
        yield "master", f"slaves 3\n{swapped}{fault}1\n", ended


@case
def a_master_of_one_port_is_told_of_no_lost_redundancy(stage):
    """Its line ends at the port that it does not name, and slaves behind a broken link are missing."""
    stage.file("m", MACHINE)
    end = "link 3 down: between slave 2 (0x1003) and port B\n"
    with controlled(stage, MACHINE) as line:
        command(line, "link 3 down")
        words = ("master", "m", "--at", f"127.0.0.1:{stage.port}", "--every", "5000", *PATIENCE)
        with stage.start(*words, stdin=subprocess.PIPE) as master:
            for wanted in STARTED.replace("ring whole\n", end).splitlines(True):
                yield "start", wanted, master.line()
            seen, until = [], time.monotonic() + stage.limit

            def reads_on_to(words):
                while words not in "".join(seen) and time.monotonic() < until:
                    seen.append(master.line())

            command(line, "link 1 down")
            reads_on_to("came 3 of 9; link 1 is the first down")
            command(line, "link 1 up")
            reads_on_to(f": {end}")
            master.process.stdin.close()
            master.process.stdin = None
            seen.append(master.end())
    text = "".join(seen)
    behind = text.partition("good again after")[2]
    yield "told", "True", str(bool(re.search(f"cycle [0-9]+: {re.escape(end)}", behind)))
    yield "redundancy", "False", str("redundancy" in text)


@case
def an_object_is_read_again_and_again(stage):
    """Each run begins with the same counter of mails, which a slave takes for the same mail: only a run that
    goes on asking has an answer then."""
    with stage.serve(MACHINE, "--set-up", "--control", stdin=subprocess.PIPE) as line:
        stage.file("m", MACHINE)
        words = ("sdo", "m", "0x1002", "0x1018", "2", "--at", both_ends(stage))
        init = "slave 0x1002 is in Init, where it takes no mail; Pre-Op is wanted"
        yield "in Init", f"fault NoAnswer\n{init}\n1\n", stage.ends(*words)
        command(line, "state 1 2")
        for _ in range(10):
            yield "read", "value 0x00000101\n0\n", stage.ends(*words)
        missing = ("sdo", "m", "0x1002", "0x7000", "0", "--at", both_ends(stage))
        wanted = "abort 0x06020000\n0x06020000: object does not exist in the object dictionary\n1\n"
        yield "an abort", wanted, stage.ends(*missing)


# The scenes that people read.
SCENES = os.path.join(os.path.dirname(os.path.abspath(__file__)), "..", "scenes")

# Commands, and the KB of stack and of address space that each has to get by with: hardly more than it took
# before its works were lent from cycle to cycle, and of space what the program has grown by since. The system
# moves the top of a stack by up to 8 KB by chance.
ROOMS = [
    ("check check/accepted.scene", 104, 5680),
    ("cover cover/left_out.scene", 104, 5680),
    ("lint check/accepted.scene", 104, 5680),
    ("where where/one_link_down.scene", 104, 5680),
    ("run first.scene", 192, 5680),
    ("run first.scene --judge", 192, 5680),
    ("sweep sweep/two_slaves.scene", 320, 5680),
    ("sdo sdo/lost_answer.scene 0x1001 0x1018 1 --surely", 104, 5680),
    ("show startup.pcap", 104, 5680),
    ("list startup.pcap --stats", 104, 5680),
    ("learn startup.pcap", 104, 5680),
    ("judge startup.pcap", 104, 5680),
    ("replay startup.pcap serve/line.scene", 104, 5680),
    ("vectors", 512, 5680),
]


def within(stage, limits, words):
    """What a program leaves that runs under these limits of a shell."""
    begin = "".join(f"ulimit {limit} && " for limit in limits)
    command = ["/bin/sh", "-c", begin + 'exec "$0" "$@"', stage.ecat, *words]
    done = subprocess.run(
        command, env={}, cwd=SCENES, stdin=subprocess.DEVNULL, capture_output=True, timeout=stage.limit
    )
    return (done.stdout + done.stderr).decode("latin-1") + f"{done.returncode}\n"


@case
def commands_get_by_with_little_stack_and_memory(stage):
    for line, stack, space in ROOMS:
        words = line.split()
        ample = within(stage, [], words)
        yield f"{line}: stack", ample, within(stage, [f"-s {stack}"], words)
        yield f"{line}: memory", ample, within(stage, [f"-s {stack}", f"-v {space}"], words)


@case
def a_master_gets_by_with_little_stack(stage):
    stage.file("m", MACHINE)
    scene = os.path.join(stage.folder, "m")
    at = ("--at", both_ends(stage))
    with stage.serve(MACHINE, "--forever"):
        for words, stack in [
            (("master", scene, *at, "--cycles", "3", "--every", "50000"), 728),
            (("scan", *at), 208),
            (("where", scene, *at), 196),
        ]:
            ample, little = (last_lines(within(stage, limits, words), 1) for limits in ([], [f"-s {stack}"]))
            yield f"{words[0]}: stack", ample, little


# A capture of one frame that asks all slaves for their AL status, as `list` has it.
FRAME = bytes.fromhex("00000000 00000000 1e000000 1e000000 ffffffffffff 105240500000 88a4") + ASKED


@case
def list_of_a_live_pipe_comes_at_once(stage):
    """Each packet is listed though the input goes on, as `tcpdump -w - | ecat list -` wants it."""
    with stage.start("list", "-", stdin=subprocess.PIPE) as listing:
        listing.process.stdin.write(CAPTURE)
        for number in range(1, 4):
            listing.process.stdin.write(FRAME)
            row = f"{number} 0.000000 10:52:40:50:00:00 0 BRD 0x0000:0x0130 2 wkc 0 0000\n"
            yield "line", row, listing.line()
        listing.process.stdin.close()
        listing.process.stdin = None
        yield "end", "0\n", listing.end()


@case
def list_and_scan_are_well_where_nobody_reads_on(stage):
    """Whoever reads may close the output, as `head` does."""
    stage.file("c", (CAPTURE + FRAME).decode("latin-1"))
    words = ("list", "c"), ("list", "c", "--csv"), ("list", "c", "--stats"), ("scan", "--at", "127.0.0.1:9")
    for line in words:
        ours, theirs = os.pipe()
        os.close(ours)
        with os.fdopen(theirs, "wb") as closed:
            yield " ".join(line), "0\n", stage.ends(*line, stdout=closed)


@contextlib.contextmanager
def terminal():
    """What a program writes to a terminal, and that terminal."""
    outer, inner = pty.openpty()
    with os.fdopen(outer, "rb", buffering=0) as written, os.fdopen(inner, "wb", buffering=0) as screen:
        yield written, screen


def seen_on(written, limit, is_enough):
    """What is written to a terminal until it is enough, or the time is over."""
    text, until = "", time.monotonic() + limit
    while not is_enough(text) and time.monotonic() < until:
        if select.select([written], [], [], 0.1)[0]:
            text += os.read(written.fileno(), 4096).decode("latin-1")
    return text


@case
def list_tells_a_terminal_how_far_it_is(stage):
    """Every 100,000 packets, on standard error alone."""
    stage.file("c", (CAPTURE + RECORD * 200001).decode("latin-1"))
    with terminal() as (written, screen):
        yield "output", "0\n", stage.ends("list", "c", stderr=screen)
        os.write(screen.fileno(), b"end")
        told = seen_on(written, stage.limit, lambda text: "end" in text)
        yield "error", "100000 packets\r200000 packets\rend", told
    with terminal() as (written, screen):
        yield "no terminal", "0\n", stage.ends("list", "c", stdout=screen)


# A line of progress of a master, and the greatest time of a cycle that it tells.
PROGRESS = (
    r"cycles \d+ good \d+ short \d+ over 0 fault 0 not-in-op 0, "
    r"cycle time least \d+ mean \d+ greatest (\d+) microseconds, \d+ a second(?:, missed \d+)?\r\n"
)


@case
def a_master_tells_a_terminal_of_each_second_anew(stage):
    """The times are those of the cycles since the last line: a long cycle is in one line alone. Where
    standard output is the terminal and standard error is none, nothing is told."""
    def greatest(text):
        return [int(micros) for micros in re.findall(PROGRESS, text)]

    def has_a_long_one(text):
        return any(micros >= 600000 for micros in greatest(text))

    def has_none(text):
        return any(micros < 600000 for micros in greatest(text))

    with controlled(stage, MACHINE) as line:
        stage.file("m", MACHINE)
        words = ("master", "m", "--at", both_ends(stage))
        with terminal() as (written, screen):
            more = {"stdin": subprocess.PIPE, "stderr": screen}
            with stage.start(*words, "--progress", "lines", "--limit", "10000000", **more) as master:
                for wanted in STARTED.splitlines(True):
                    yield "start", wanted, master.line()
                # By then the look behind the first cycle is over, which may take the late copy too.
                seen = seen_on(written, stage.limit, greatest)
                yield "late", "ok\n", command(line, "late B 600 1")
                seen = seen_on(written, stage.limit, has_a_long_one)
                yield "a long one", "", "" if has_a_long_one(seen) else seen
                seen = seen_on(written, stage.limit, has_none)
                yield "none", "", "" if has_none(seen) else seen
        with terminal() as (_written, screen):
            words = (*words, "--every", "20000", "--cycles", "80", "--leave", "op", *PATIENCE)
            yield "no terminal", "0\n", stage.ends(*words, stdout=screen)


@case
def a_scan_waits_as_long_as_it_is_told(stage):
    """Each copy is late by more than what a scan waits that is not told."""
    with controlled(stage, "slave 7\n", "--set-up") as line:
        for end in "AB":
            yield "late", "ok\n", command(line, f"late {end} 40 100000")
        yield "scan", "slaves 1\nring whole\nslave 0 station 0x0007 state Init\n0\n", stage.ends(
            "scan", "--at", both_ends(stage), *PATIENCE
        )


@case
def a_copy_is_waited_for_20_milliseconds(stage):
    """Where nothing else is said. That it is not less is seen by how long so many trips take to which nobody
    answers, of each of which one packet comes."""
    with stage.master() as silent:
        at = f"127.0.0.1:{silent.getsockname()[1]}"
        began = time.monotonic()
        yield "scan", "nobody answers at A\n1\n", stage.ends("scan", "--at", at)
        took, trips = time.monotonic() - began, 0
        while select.select([silent], [], [], 0)[0]:
            silent.recv(2000)
            trips += 1
        yield "trips", "True", str(trips > 1)
        yield "time", "True", str(took > trips * 0.019)


@case
def a_master_stops_though_it_recovers(stage):
    """Of `--stop` and `--recover` neither takes the other away."""
    with controlled(stage, MACHINE) as line:
        stage.file("m", MACHINE)
        words = ("master", "m", "--at", both_ends(stage), "--stop", "--recover", "--every", "50000", *PATIENCE)
        with stage.start(*words, stdin=subprocess.PIPE) as master:
            for wanted in STARTED.splitlines(True):
                yield "start", wanted, master.line()
            yield "state", "ok\n", command(line, "state 1 4")
            yield "out of Op", "cycle N: not all in Op\n", next_told(master)
            yield "who", "cycle N: slave 1 (0x1002) is in Safe-Op\n", next_told(master)
            yield "left", LEFT, master.line()
            yield "not in Op", "not-in-op 1\n", master.line()[-12:]
            yield "status", "1", str(master.process.wait(stage.limit))


@case
def a_log_has_lines_of_more_than_4096_bytes(stage):
    """A frame of 124 datagrams, each of which has a text of some 40 bytes."""
    datagrams = [bytes.fromhex("00000000 0000 0080 0000 0000") for _ in range(124)]
    datagrams[-1] = bytes.fromhex("00000000 0000 0000 0000 0000")
    packet = (12 * 124 | 0x1000).to_bytes(2, "little") + b"".join(datagrams)
    with stage.serve("slave 1\n", "--log", "--packets", "1") as line, stage.master() as master:
        yield "answer", packet.hex(), asked(master, stage.port, packet)
        texts = ["NOP adp 0000 ado 0000 length 0 counter 0>0"] * 124
        speaker = f"speaker A 127.0.0.1:{master.getsockname()[1]}\n"
        told = f"{speaker}packet 0 A size {len(packet)} frame {', '.join(texts)} left A\n"
        yield "end", f"packets 1 frames 1 dropped 0\n{told}0\n", line.end()


def packets_of(stage, name):
    """Of each packet of a capture the microseconds since the epoch, and the bytes."""
    with open(os.path.join(stage.folder, name), "rb") as file:
        capture = file.read()
    at = 24
    while at < len(capture):
        seconds, micros, length, _whole = struct.unpack_from("<IIII", capture, at)
        yield 1000000 * seconds + micros, capture[at + 16:at + 16 + length]
        at += 16 + length


@case
def captures_have_the_time_of_day(stage):
    """To the microsecond, of a master and of a line that is served."""
    with stage.serve(MACHINE, "--forever", "--pcap", "of_line") as line:
        stage.file("m", MACHINE)
        before = time.time_ns() // 1000
        words = ("master", "m", "--at", both_ends(stage), "--cycles", "20", "--pcap", "of_master", *PATIENCE)
        yield "master", "0", stage.ends(*words).splitlines()[-1]
        after = time.time_ns() // 1000
        line.process.terminate()
        line.process.wait(stage.limit)
    for name in ("of_master", "of_line"):
        times = [moment for moment, _ in packets_of(stage, name)]
        yield f"{name}: packets", "True", str(len(times) > 80)
        yield f"{name}: in order", "True", str(times == sorted(times))
        yield f"{name}: times", "True", str(before <= times[0] and times[-1] <= after)


@case
def capture_of_a_service_has_what_leaves_its_master_and_what_arrives_there(stage):
    """What comes in at an end has left the master's port there, and what leaves an end arrives at it."""
    with stage.serve("slave 1\n", "--packets", "3", "--pcap", "c") as line:
        with stage.master() as one, stage.master() as other:
            yield "at A", ONE, asked(one, stage.port)
            other.sendto(ASKED, ("127.0.0.1", stage.port + 1))
            yield "from B, at A", ASKED.hex(), one.recv(2000).hex()
            one.sendto(ASKED, ("127.0.0.1", stage.port))
            yield "from A, at B", ONE, other.recv(2000).hex()
            yield "end", "packets 3 frames 3 dropped 0\n0\n", line.end()
    left_a, came_a, left_b, came_b = (f"{byte}:52:4d:50:00:0{end}" for end in "ab" for byte in ("10", "12"))
    asks, tells = "0 BRD 0x0000:0x0130 2 wkc 0 0000", "0 BRD 0x0001:0x0130 2 wkc 1 0100"
    wanted = [f"{left_a} {asks}", f"{came_a} {tells}", f"{left_b} {asks}", f"{came_a} {asks}"]
    wanted += [f"{left_a} {asks}", f"{came_b} {tells}"]
    rows = stage.ends("list", "c").splitlines()
    yield "status", "0", rows.pop()
    yield "packets", "\n".join(wanted), "\n".join(row.split(" ", 2)[2] for row in rows)


@case
def places_of_an_open_ring_are_not_learned(stage):
    """The third slave is the second one behind the break: no station may be told at the place of another."""
    with stage.serve(MACHINE + "link 1 down\n", "--forever") as _line:
        stage.file("m", MACHINE)
        words = ("master", "m", "--at", both_ends(stage), "--cycles", "20", "--pcap", "c", *PATIENCE)
        yield "master", "0", stage.ends(*words).splitlines()[-1]
    rows = stage.ends("learn", "c").splitlines()
    yield "status", "1", rows.pop()
    wanted = ["slave ?"] * 3
    yield "slaves", "\n".join(wanted), "\n".join(row for row in rows if row.startswith("slave"))
    wanted = "# not told: what datagrams by place did over an open ring, "
    yield "why", "True", str(any(row.startswith(wanted) for row in rows))


@case
def packet_sockets_of_another_type_or_of_no_interface_are_refused(stage):
    """Where no packet socket can be had there is nothing to see."""
    stage.file("s", "slave 1\n")
    bound_elsewhere = "raw: no packet socket of type 0x88A4 for end A\n"
    who = "tools/raw A [B] -- COMMAND.. opens them at interfaces, as descriptors 10 and 11\n"
    for what, interface, number in (("another type", "lo", 0x88A5), ("no interface", None, 0x88A4)):
        try:
            packets = socket.socket(socket.AF_PACKET, socket.SOCK_RAW, socket.htons(number))
        except (AttributeError, OSError):
            return
        with packets:
            if interface:
                packets.bind((interface, number))
            given = {"pass_fds": (packets.fileno(),)}
            for words in (("scan",), ("serve", "s", "--forever")):
                told = stage.ends(*words, "--raw", str(packets.fileno()), **given)
                yield f"{words[0]}: {what}", f"{bound_elsewhere}{who}3\n", told


# Runs a program at the loopback of a network of its own, through a packet socket whose descriptor stands in
# the place of {}. It prints what that printed, its status, how many packets it sent and how many microseconds
# lay between two of them at the least, by the stamp that the system puts on each (SO_TIMESTAMPNS).
AT_LOOPBACK = """
import fcntl, socket, struct, subprocess, sys
with socket.socket(type=socket.SOCK_DGRAM) as any_one:
    fcntl.ioctl(any_one, 0x8914, struct.pack("16sh14x", b"lo", 1))
used, watching = (socket.socket(socket.AF_PACKET, socket.SOCK_RAW, socket.htons(0x88A4)) for _ in range(2))
watching.setsockopt(socket.SOL_SOCKET, 35, 1)
for one in used, watching:
    one.bind(("lo", 0x88A4))
words = [word.replace("{}", str(used.fileno())) for word in sys.argv[1:]]
done = subprocess.run(words, pass_fds=[used.fileno()], stdout=subprocess.PIPE, stderr=subprocess.STDOUT, text=True)
watching.setblocking(False)
sent = []
try:
    while True:
        sent.append(struct.unpack("qq", watching.recvmsg(2000, 200)[1][0][2]))
except BlockingIOError:
    pass
sent = [1000000 * seconds + nanoseconds // 1000 for seconds, nanoseconds in sent]
print(f"{done.stdout}{done.returncode}\\n{len(sent)} {min((b - a for a, b in zip(sent, sent[1:])), default=0)}")
"""


@case
def a_limit_below_a_millisecond_is_waited_for(stage):
    """Over a packet socket too, whose waits are of whole milliseconds. Where no network of its own can be had
    there is nothing to see."""
    apart = ["unshare", "-rn", sys.executable, "-c", AT_LOOPBACK]
    if not shutil.which("unshare") or subprocess.run([*apart, "true"], capture_output=True).returncode:
        return
    words = [stage.ecat, "scan", "--raw", "{}", "--limit", "900"]
    told = subprocess.run([*apart, *words], stdout=subprocess.PIPE, text=True, timeout=stage.limit).stdout
    *rows, trips = told.splitlines()
    yield "scan", "nobody answers at A\n1", "\n".join(rows)
    count, least = (int(number) for number in trips.split())
    yield "trips", "True", str(count > 1)
    yield "time between two", "True", str(least >= 900)


def has_faults():
    """Can faults be injected into what a program calls? It takes strace, and leave to trace."""
    quiet = {"stderr": subprocess.DEVNULL}
    return bool(shutil.which("strace")) and not subprocess.run([*NO_WAITS, "true"], **quiet).returncode


def unsent(stage, when, words):
    """What a program prints of whose packets these cannot be sent, and its status."""
    fault = f"inject=sendto,sendmsg:error=ENETDOWN:when={when}"
    fails = ["strace", "-qq", "-o", "/dev/null", "-e", "trace=sendto,sendmsg", "-e", fault, stage.ecat]
    streams = {"stdin": subprocess.DEVNULL, "stdout": subprocess.PIPE, "stderr": subprocess.STDOUT}
    done = subprocess.run([*fails, *words], cwd=stage.folder, timeout=stage.limit, text=True, **streams)
    return f"{done.stdout}{done.returncode}\n"


@case
def a_port_that_fails_has_the_status_of_a_failure(stage):
    """Of the packets of a master the first two ask for nothing, with two the slaves are counted, and with two
    the cable is looked at. Where strace is not to be had there is nothing to see."""
    if not has_faults():
        return
    stage.file("m", MACHINE)
    words = ("master", "m", "--at", both_ends(stage), "--cycles", "5", *PATIENCE)
    with stage.serve(MACHINE, "--forever"):
        down = "port A failed (Network is down)\nport B failed (Network is down)\n"
        yield "slaves are counted", f"{down}fault: Port\n3\n", unsent(stage, "3+", words)
        yield "the cable is looked at", f"slaves 3\n{down}fault: Port\n3\n", unsent(stage, "5+", words)
        station = f"slaves 3\nring whole\n{down}fault: slave 0 (0x1001): station: Port\n3\n"
        yield "a station is given", station, unsent(stage, "7+", words)
        yield "scan", f"{down}cycle: Port\n3\n", unsent(stage, "3+", ("scan", "--at", both_ends(stage)))


@case
def a_packet_that_cannot_be_sent_is_a_missing_copy(stage):
    """One packet of all cannot be sent, of a cycle: the start takes fewer. Where strace is not to be had
    there is nothing to see."""
    if not has_faults():
        return
    stage.file("m", MACHINE)
    words = ("master", "m", "--at", both_ends(stage), "--cycles", "600", "--log", "log", *PATIENCE)
    with stage.serve(MACHINE, "--forever"):
        seen = unsent(stage, "1000", words).removeprefix(STARTED).splitlines(True)
    told = "cycle N: redundancy lost: port P failed (Network is down)\ncycle N: port P works again\n"
    rows = [re.sub("port [AB]", "port P", re.sub(r"^cycle \d+", "cycle N", row)) for row in seen[:2]]
    yield "told", told, "".join(rows)
    failed = [row for row in seen if re.fullmatch(r"port A failed [01] times, port B [01]\n", row)]
    yield "counted", "1", str(len(failed))
    end = LEFT + sums(600) + ITEMS + "0\n"
    yield "end", end, timed("".join(row for row in seen[2:] if row not in failed))
    with open(os.path.join(stage.folder, "log"), encoding="latin-1") as log:
        yield "log", "good counts 9 3\n" * 600, "".join(re.sub(r"^cycle \d+ ", "", row) for row in log)


@case
def a_service_that_is_gone_is_no_failure_of_a_port(stage):
    """What was sent to nobody is a lost copy, which is told of the port, and the cycles are good again once
    somebody serves the line."""
    stage.file("m", TERMINALS)
    words = ("master", "m", "--at", both_ends(stage), "--every", "20000", "--recover", "--limit", "20000")
    line = stage.serve(TERMINALS, "--forever")
    with stage.start(*words, stdin=subprocess.PIPE) as master:
        for wanted in STARTED.splitlines(True):
            yield "start", wanted, master.line()
        line.process.terminate()
        line.process.wait(stage.limit)
        seen, until = [], time.monotonic() + stage.limit
        while "came 0 of" not in "".join(seen) and time.monotonic() < until:
            seen.append(master.line())
        time.sleep(0.2)
        with stage.serve(TERMINALS, "--forever"):
            while "good again" not in "".join(seen) and time.monotonic() < until:
                seen.append(master.line())
            yield "good again", "True", str("good again" in "".join(seen))
            master.process.stdin.close()
            master.process.stdin = None
            seen.append(master.end())
    text = "".join(seen)
    for port in "AB":
        for words in (f"port {port} failed (Connection refused)\n", f"port {port} works again\n"):
            yield "told once", "1", str(text.count(words))
    yield "sums", "fault 0", (re.search("fault [0-9]+", text) or [""])[0]


@case
def each_slave_that_cannot_be_brought_up_again_is_told_once(stage):
    """The service is started anew, with two slaves that are others by now and go to Safe-Op no more: of each
    it is told once."""
    stage.file("m", MACHINE)
    one, *others = re.split("(?=slave)", MACHINE)[1:]
    anew = one + "".join(others).replace("areas 1 1\n", "")
    words = ("master", "m", "--at", both_ends(stage), "--every", "10000", "--recover", *PATIENCE)
    line = stage.serve(MACHINE, "--forever")
    with stage.start(*words, stdin=subprocess.PIPE) as master:
        for wanted in STARTED.splitlines(True):
            yield "start", wanted, master.line()
        line.process.terminate()
        line.process.wait(stage.limit)
        why = "Safe-Op: refused 0x001d invalid output configuration\n"
        wanted = [f"cycle N: slave {k} ({0x1001 + k:#x}): {why}" for k in (1, 2)]
        with stage.serve(anew, "--forever"):
            seen, until = set(), time.monotonic() + stage.limit
            while not seen.issuperset(wanted) and time.monotonic() < until:
                seen.add(told(master.line()))
            yield "told", "".join(wanted), "".join(text for text in wanted if text in seen)
            time.sleep(0.3)  # Each is looked at again meanwhile, in turn.
            yield "once", "0", str(master.end().count(why))


A, B = 0, 1
LRW = 12


class Between:
    """What stands between both ports of a master and the line that the stage serves: it hands on each packet,
    and gives its answer back, or what else is wanted in its place.

    A trip begins with each packet that the master sends from port A. Its place is the number of the cycle, -1
    before the first, and how many trips had begun since: (7, 0) is the trip of cycle 7, and (7, 1) the look
    behind it. `begins(place)` is called before it is handed on; `gives(place, sent, leaves, packet)` answers
    what is given in the place of an answer that leaves at a port, of what was sent from a port: the packets,
    each behind its port."""

    def __init__(self, stage, gives, begins=lambda place: None):
        self.limit, self.begins, self.gives = stage.limit, begins, gives
        self.near, self.far = ([stage.master() for _ in (A, B)] for _ in (A, B))
        for end in (A, B):
            self.far[end].connect(("127.0.0.1", stage.port + end))
        self.speakers, self.cycle, self.trips, self.places = [None, None], -1, -1, []

    def __enter__(self):
        return self

    def __exit__(self, *_fault):
        for one in self.near + self.far:
            one.close()

    def ends(self):
        """Where its ends lie, in the words of a master."""
        return ",".join(f"127.0.0.1:{one.getsockname()[1]}" for one in self.near)

    def until_the_end_of(self, master):
        """Hands on until the master ends, and answers what that printed, and its status."""
        until = time.monotonic() + self.limit
        while master.process.poll() is None and time.monotonic() < until:
            ready = select.select(self.near, [], [], 0.05)[0]
            if ready:
                self.take(self.near.index(ready[0]))
        return master.end()

    def take(self, sent):
        """Hands on what comes from a port, and behind what comes from port A what port B sends with it. What
        both give is given at once, so that no copy is late because the machine had something else to do."""
        given = self.answers(sent)
        if sent == A and select.select([self.near[B]], [], [], 0.1)[0]:
            given += self.answers(B)
        for port, packet in given:
            self.near[port].sendto(packet, self.speakers[port])

    def answers(self, sent):
        """Hands on the next packet from a port, and answers what is to be given in return, each with its
        port."""
        packet, self.speakers[sent] = self.near[sent].recvfrom(2000)
        if sent == A:
            self.cycle, self.trips = (self.cycle + 1, 0) if packet[2] == LRW else (self.cycle, self.trips + 1)
            self.places.append((self.cycle, self.trips))
            self.begins(self.places[-1])
        self.far[sent].send(packet)
        ready = select.select(self.far, [], [], self.limit)[0]
        left = [(self.far.index(one), one.recv(2000)) for one in ready]
        return [one for leaves, packet in left for one in self.gives(self.places[-1], sent, leaves, packet)]


@contextlib.contextmanager
def master_behind(stage, cycles, *words, **acts):
    """A master that makes so many cycles on the machine, somebody who stands between, and the machine."""
    with controlled(stage, MACHINE) as line:
        stage.file("m", MACHINE)
        with Between(stage, **acts) as between:
            words = ("master", "m", "--at", between.ends(), "--cycles", str(cycles), *words)
            with stage.start(*words) as master:
                yield line, between, master


@case
def lost_copies_are_asked_for_again_at_the_start(stage):
    """Twice while the slaves are counted, and twice while the cable is looked at."""
    def gives(place, sent, leaves, packet):
        return [] if sent == A and place in ((-1, 1), (-1, 2), (-1, 4), (-1, 5)) else [(leaves, packet)]

    with master_behind(stage, 1, "--limit", "300000", gives=gives) as (_line, between, master):
        end = between.until_the_end_of(master)
        yield "start", STARTED, "".join(end.splitlines(True)[:7])


@case
def a_slave_is_brought_up_by_one_frame_behind_each_cycle(stage):
    """A slave that falls to Init while a look at it is not due is asked one question behind each cycle, also
    where copies are lost and the cable is looked at: no cycle has more than one."""
    def gives(place, sent, leaves, packet):
        is_lost = sent == A and place[0] % 10 == 9 and place[1] == 0
        return [] if is_lost else [(leaves, packet)]

    def begins(place):
        if place == (3, 0):
            command(line, "state 1 1")

    # Each of the twenty cycles that lose a copy waits for it.
    words = ("--recover", "--leave", "op", "--limit", "300000")
    with master_behind(stage, 200, *words, gives=gives, begins=begins) as (line, between, master):
        end = between.until_the_end_of(master)
        yield "brought", "1", str(end.count("slave 1 (0x1002) was in Init, brought to Op"))
        behind = collections.Counter(cycle for cycle, _ in between.places if cycle >= 0)
        asked = [trips - 1 for cycle, trips in sorted(behind.items()) if cycle < 199]
        yield "most", "1", str(max(asked))
        # Two for each of three states, four for each of eight sync managers, two for each of eight FMMUs; and
        # behind each lost copy a look at the cable, and one more.
        yield "questions", "True", str(sum(asked) >= 54 + 19)


@case
def a_state_is_read_as_often_as_is_said(stage):
    """From cycle 3 on a slave says for ever that it is in Init: Pre-Op is asked for in a cycle, AL status is
    read behind each of the next three, and then the slave is told."""
    asked, read = [], []

    def gives(place, _sent, leaves, packet):
        if place[0] >= 3 and packet[4:8] == bytes.fromhex("0210 2001") and packet[12] % 16 == 2:
            asked.append(place[0])
        if place[0] >= 3 and packet[4:8] == bytes.fromhex("0210 3001"):
            read.append(place[0])
            packet = packet[:12] + b"\1" + packet[13:]
        return [(leaves, packet)]

    def begins(place):
        if place == (3, 0):
            command(line, "state 1 1")

    words = ("--recover", "--tries", "3", "--leave", "op", *PATIENCE)
    with master_behind(stage, 100, *words, gives=gives, begins=begins) as (line, between, master):
        rows = between.until_the_end_of(master).splitlines()
        told_of = [row for row in rows if row.endswith("slave 1 (0x1002): Pre-Op: NoAnswer")]
        yield "told", "cycle", " ".join(row.split()[0] for row in told_of)
        behind = [cycle - first for first in asked[:1] for cycle in range(first, first + 5) if cycle in read]
        yield "reads", "[1, 2, 3]", str(behind)


def two_short_cycles(fifth, sixth):
    """What a master prints of ten cycles, of which the fifth and the sixth are told so."""
    return STARTED + (
        f"cycle 5: item 0: {fifth}\n"
        f"cycle 6: item 0: {sixth}; not good since cycle 5\n"
        "cycle 7: good again after 2 cycles\n"
    ) + LEFT + "cycles 10 good 8 short 2 over 0 fault 0 not-in-op 0\ncycle time N\n" + ITEMS + "0\n"


@case
def a_look_that_found_something_new_is_made_again(stage):
    """A link is down while the cable is looked at behind a cycle that lost a copy, and in no cycle. The next
    cycle shows just what this one did, and tells the cable anew."""
    commands = {(5, 1): "link 1 down", (6, 0): "link 1 up"}

    def gives(place, sent, leaves, packet):
        return [] if sent == A and place in ((5, 0), (6, 0)) else [(leaves, packet)]

    def begins(place):
        if place in commands:
            command(line, commands[place])

    with master_behind(stage, 10, *PATIENCE, gives=gives, begins=begins) as (line, between, master):
        fifth = "came 0 of 9; link 1 down: between slave 0 (0x1001) and slave 1 (0x1002)"
        wanted = two_short_cycles(fifth, "came 0 of 9; ring whole, nothing came at port B")
        yield "master", wanted, timed(between.until_the_end_of(master))


@case
def another_count_is_told_though_the_cable_is_the_same(stage):
    """A cycle whose item was counted three times less is told, and so is the next one, where it was six times
    less."""
    less = {(5, 0): 3, (6, 0): 6}

    def gives(place, sent, leaves, packet):
        if sent == B or place not in less:
            return [(leaves, packet)]
        counter = int.from_bytes(packet[15:17], "little") - less[place]
        return [(leaves, packet[:15] + counter.to_bytes(2, "little") + packet[17:])]

    with master_behind(stage, 10, *PATIENCE, gives=gives) as (_line, between, master):
        wanted = two_short_cycles("came 6 of 9; ring whole", "came 3 of 9; ring whole")
        yield "master", wanted, timed(between.until_the_end_of(master))


@case
def late_packets_are_dropped_before_a_trip(stage):
    """Of two cycles the copy at port A is lost, and what comes at port B is all that is wanted. With the
    second one more packets come than a port passes over: none is in the way of the next cycle, of which both
    copies are taken. So there the cable is looked at once more, and at no other cycle behind the first
    loss."""
    for noisy in (A, B):
        noise = 200 * [(noisy, b"late")]

        def gives(place, sent, leaves, packet):
            if sent == B and place in ((5, 0), (6, 0)):
                return []
            if place != (6, 0):
                return [(leaves, packet)]
            # The master waits at port A first, and then here at B: all has come before the trip is over.
            return noise + [(leaves, packet)] if noisy == A else [(leaves, packet)] + noise

        with master_behind(stage, 10, "--log", "log", *PATIENCE, gives=gives) as (_line, between, master):
            yield "status", "0", between.until_the_end_of(master).splitlines()[-1]
            looks = [place for place in between.places if place[0] >= 5 and place[1] == 1]
            yield "looks", "[(5, 1), (7, 1)]", str([place for place in looks if place[0] < 9])
        with open(os.path.join(stage.folder, "log"), encoding="latin-1") as log:
            yield "log", "".join(f"cycle {k} good counts 9 3\n" for k in range(10)), log.read()


@case
def cycles_out_of_op_are_counted_until_all_are_in_op_again(stage):
    """A slave is out of Op in the cycles 5, 6 and 7."""
    commands = {(5, 0): "state 1 2", (8, 0): "state 1 8"}

    def begins(place):
        if place in commands:
            command(line, commands[place])

    with master_behind(stage, 10, *PATIENCE, gives=as_it_came, begins=begins) as (line, between, master):
        rows = between.until_the_end_of(master).splitlines(True)[len(STARTED.splitlines()):]
        yield "out of Op", "cycle 5: not all in Op\n", rows[0]
        yield "in Op", "cycle 8: all in Op again after 3 cycles\n", "".join(row for row in rows if "again" in row)
        sums_told = "cycles 10 good 10 short 0 over 0 fault 0 not-in-op 3\n"
        yield "sums", sums_told, "".join(row for row in rows if row.startswith("cycles"))


def as_it_came(_place, _sent, leaves, packet):
    """Each answer is given back where it leaves."""
    return [(leaves, packet)]


@case
def a_port_is_told_at_which_nothing_came_for_100_cycles(stage):
    """In the cycle 2, and from the cycle 5 on, the copy from port A comes back there, as where the last link
    is down, and what is given at port B is no copy; from the cycle 110 on copies come there again. In the
    cycle 50 none comes at either port, which tells nothing of one of them."""
    def gives(place, sent, leaves, packet):
        if place == (50, 0):
            return [(leaves, b"late")]
        if place[1] == 0 and (place[0] == 2 or 5 <= place[0] < 110):
            return [(A, packet)] if sent == A else [(B, b"late")]
        return [(leaves, packet)]

    with master_behind(stage, 112, *PATIENCE, gives=gives) as (_line, between, master):
        told_of = "cycle 105: nothing came at port B for 100 cycles\ncycle 110: copies come at port B again\n"
        rows = between.until_the_end_of(master).splitlines(True)
        yield "ports", told_of, "".join(row for row in rows if " at port B" in row)


@case
def times_that_are_seldom_are_among_99_of_100(stage):
    """Of a hundred cycles four take 200 milliseconds and one takes 400: the 99th is one of the four. On a
    machine that is loaded others may take as long, so there are three tries."""
    def begins(place):
        if place[0] in range(10, 15) and place[1] == 0:
            time.sleep(0.4 if place[0] == 12 else 0.2)

    acts = {"gives": as_it_came, "begins": begins}
    ends, is_one = [], False
    while len(ends) < 3 and not is_one:
        with master_behind(stage, 100, *PATIENCE, **acts) as (_line, between, master):
            ends.append(between.until_the_end_of(master))
        times = re.search(r"^cycle time .* greatest (\d+) .* 99% (\d+), 99.9% \d+$", ends[-1], re.M)
        is_one = times is not None and 200000 <= int(times[2]) < int(times[1])
    yield "within", "True", "True" if is_one else "".join(ends)


@case
def a_cycle_that_takes_long_does_not_hurry_those_behind_it(stage):
    """The master stands still in cycle 1 for as long as fifteen others take. Those behind it begin no sooner
    one after the other."""
    began, processes = {}, []

    def begins(place):
        began[place] = time.monotonic()
        if place == (1, 0):
            processes[0].send_signal(signal.SIGSTOP)
            time.sleep(0.6)
            processes[0].send_signal(signal.SIGCONT)

    words = ("--every", "40000", *PATIENCE)
    with master_behind(stage, 16, *words, gives=as_it_came, begins=begins) as (_line, between, master):
        processes.append(master.process)
        end = between.until_the_end_of(master)
        yield "status", "0", end.splitlines()[-1]
        # It is 13 times 40 milliseconds, and three quarters of it on a machine that is loaded.
        yield "apart", "True", str(began[(15, 0)] - began[(2, 0)] >= 0.39)


@case
def an_error_of_a_slave_in_init_is_no_other_state(stage):
    """A slave that was asked for Op in Init shows an error there, and takes no mail all the same."""
    with stage.serve(MACHINE, "--set-up", "--forever") as _line, stage.master() as master:
        stage.file("m", MACHINE)
        asked(master, stage.port, bytes.fromhex("0e10 0500 0210 2001 0200 0000 0800 0000"))
        status = bytes.fromhex("1210 0400 0210 3001 0600 0000 000000000000 0000")
        yield "an error", "110000001100", asked(master, stage.port, status)[24:36]
        words = ("sdo", "m", "0x1002", "0x1018", "2", "--at", both_ends(stage))
        init = "slave 0x1002 is in Init, where it takes no mail; Pre-Op is wanted"
        yield "sdo", f"fault NoAnswer\n{init}\n1\n", stage.ends(*words)


# A slave that is set up: its station and alias, its state, and its first sync manager.
SET_UP = (
    "slave 0x1001\nalias 0x1234\nstate 4\nsm 0 0x1800 32 mailbox-write\nsm 1 0x1880 32 mailbox-read\n"
    "fmmu 0 0x10000 1 0 7 0x1000 0 write\nmem 0x1100 5a\n"
)


@case
def a_device_begins_as_one_that_was_just_switched_on(stage):
    """It is in Init, has its alias and no station, no sync manager and no FMMU; with --set-up, and where it
    is no device, it is as its scene sets it up. What is loaded is there."""
    begins = {
        (): ("00003412", "0100", "0000000000000000", "0000000000000000"),
        ("--set-up",): ("01103412", "0400", "0018200006000100", "0000010001000007"),
        ("--plain",): ("01100000", "0400", "0018200006000100", "0000010001000007"),
    }
    for words, (station, state, manager, fmmu) in begins.items():
        with stage.serve(SET_UP, *words, "--packets", "5") as _line, stage.master() as master:
            for name, address, wanted in (
                ("station and alias", "1000", station),
                ("state", "3001", state),
                ("sync manager", "0008", manager),
                ("FMMU", "0006", fmmu),
                ("loaded", "0011", "5a"),
            ):
                count = len(wanted) // 2
                head = f"{12 + count:02x}10 0100 0000 {address} {count:02x}00 0000"
                packet = bytes.fromhex(head) + bytes(count + 2)
                yield f"{name} {words}", f"{wanted}0100", asked(master, stage.port, packet)[24:]


# What stands in an EEPROM: an alias, vendor 2, product 0x100, revision 0x10000, serial 7.
EEPROM = bytes.fromhex("0000 0000 0000 0000 3412 0000 0000 3000 02000000 00010000 00000100 07000000")


@case
def eeproms_of_a_folder_are_those_of_the_slaves(stage):
    """The second slave has a file, and tells its alias; the first one's EEPROM is made of the scene."""
    os.mkdir(os.path.join(stage.folder, "of"))
    with open(os.path.join(stage.folder, "of", "1.bin"), "wb") as file:
        file.write(EEPROM)
    line = "slave 0x1001\nsimple\nslave 0x1002\nsimple\nidentity 9 9 9 9\n"
    with stage.serve(line, "--sii", "of", "--packets", "6") as _line, stage.master() as master:
        for place, alias, vendor in (("0000", "0000", "a7ec0000"), ("ffff", "3412", "02000000")):
            read = bytes.fromhex(f"0e10 0100 {place} 1200 0200 0000 0000 0000")
            yield f"alias {place}", f"{alias}0100", asked(master, stage.port, read)[24:]
            ask = bytes.fromhex(f"1210 0200 {place} 0205 0600 0000 0001 08000000 0000")
            yield f"asked {place}", "0100", asked(master, stage.port, ask)[36:]
            given = bytes.fromhex(f"1010 0100 {place} 0805 0400 0000 00000000 0000")
            yield f"vendor {place}", f"{vendor}0100", asked(master, stage.port, given)[24:]


@case
def folders_without_eeproms_are_named(stage):
    stage.file("s", "slave 0x1001\n")
    words = ("serve", "s", "--port", str(stage.port), "--packets", "1", "--sii")
    none = "no file of a slave of the line; 0.bin is that of the first one"
    yield "no folder", f"sii: NoFile\nnone: {none}\n1\n", stage.ends(*words, "none")
    os.makedirs(os.path.join(stage.folder, "of", "0.bin"))
    yield "a folder", "file: Read\n3\n", stage.ends(*words, "of")
    os.rmdir(os.path.join(stage.folder, "of", "0.bin"))
    with open(os.path.join(stage.folder, "of", "0.bin"), "wb") as file:
        file.write(bytes(0x20001))
    yield "too long", "sii: TooLong\nof/0.bin: more than 131072 bytes\n1\n", stage.ends(*words, "of")


@case
def a_master_that_sets_up_no_mailbox_is_refused(stage):
    """A device that was just switched on has none, and says so; one that its scene set up has."""
    scene = SET_UP.replace("state 4\n", "")
    to_pre_op = bytes.fromhex("0e10 0200 0000 2001 0200 0000 0200 0000")
    status = bytes.fromhex("1210 0100 0000 3001 0600 0000 000000000000 0000")
    for words, wanted in (((), "110000001600"), (("--set-up",), "020000000000")):
        with stage.serve(scene, *words, "--packets", "2") as _line, stage.master() as master:
            asked(master, stage.port, to_pre_op)
            yield f"status {words}", wanted, asked(master, stage.port, status)[24:36]


@case
def a_command_comes_behind_32_packets_in_a_row(stage):
    """A hundred packets and a command wait when the service goes on."""
    with controlled(stage, "slave 1\n") as line, stage.master() as master:
        stop(line.process)
        for _ in range(100):
            master.sendto(b"no frame", ("127.0.0.1", stage.port))
        line.process.stdin.write(b"counts\n")
        line.process.send_signal(signal.SIGCONT)
        yield "counts", "packets 32 frames 0 dropped 32\n", line.line()
        yield "ok", "ok\n", line.line()


@case
def a_scan_writes_who_the_slaves_are(stage):
    """The entries 1 and 2 of the object 0x1018, of which a slave that was brought up tells."""
    with stage.serve(MACHINE, "--forever") as _line:
        scan = ("scan", "--at", both_ends(stage), *PATIENCE, "--scene", "found")
        yield from brought_up_and_scanned(stage, scan)
    objects = [(0x1018, sub, 4, value) for k in range(3) for sub, value in ((1, 2), (2, 0x100 + k))]
    with open(os.path.join(stage.folder, "found"), encoding="latin-1") as found:
        rows = [row.split() for row in found.read().splitlines() if row.startswith("object")]
    seen = [tuple(int(word, 0) for word in (*row[1:4], row[5])) for row in rows]
    yield "objects", str(objects), str(seen)


@case
def an_answer_of_two_slaves_is_told_though_the_ring_is_whole(stage):
    """A slave more counts on each read of a station: that is told, and no broken cable is to blame."""
    def gives(_place, sent, leaves, packet):
        if sent == B or packet[2] != 1 or packet[6:8] != b"\x10\x00":
            return [(leaves, packet)]
        counter = int.from_bytes(packet[14:16], "little") + 1
        return [(leaves, packet[:14] + counter.to_bytes(2, "little") + packet[16:])]

    with controlled(stage, MACHINE) as _line, Between(stage, gives) as between:
        with stage.start("scan", "--at", between.ends(), *PATIENCE) as scan:
            wanted = "slaves 3\nring whole\n" + "".join(f"slave {k} BadAnswer\n" for k in range(3)) + "1\n"
            yield "scan", wanted, between.until_the_end_of(scan)


@case
def copies_of_a_run_are_kept_as_the_weather_has_them_come(stage):
    """Copy B comes first, which passes no slave on a whole ring."""
    stage.file("s", "slave 1\nbrd 0x0130 0000\nweather - - - b\n")
    told = "good\nitem 0 BRD data 0100 wkc 1 of 1 adp 1\n0\n"
    yield "run", told, stage.ends("run", "s", "--pcap", "p")
    asks, tells = "0 BRD 0x0000:0x0130 2 wkc 0 0000", "0 BRD 0x0001:0x0130 2 wkc 1 0100"
    wanted = [("10", "b", asks), ("12", "a", asks), ("10", "a", asks), ("12", "b", tells)]
    rows = "".join(
        f"{k + 1} 0.00000{k} {byte}:52:4d:50:00:0{end} {row}\n" for k, (byte, end, row) in enumerate(wanted)
    )
    yield "list", rows + "0\n", stage.ends("list", "p")


@case
def capture_of_a_service_has_what_comes_while_a_copy_waits(stage):
    again = ASKED.replace(b"\x07\x07", b"\x07\x08")
    with controlled(stage, "slave 1\n", "--pcap", "c") as line, stage.master() as master:
        yield "late", "ok\n", command(line, "late A 1500 1")
        master.sendto(ASKED, ("127.0.0.1", stage.port))
        yield "the next one", ONE.replace("0707", "0708"), asked(master, stage.port, again)
        yield "the late one", ONE, master.recv(2000).hex()
        yield "quit", "ok\n", command(line, "quit")
        yield "end", "packets 2 frames 2 dropped 0\n0\n", line.end()
    rows = [row.split()[2] for row in stage.ends("list", "c").splitlines()[:-1]]
    wanted = 2 * ["10:52:4d:50:00:0a"] + 2 * ["12:52:4d:50:00:0a"]
    yield "packets", str(wanted), str(rows)


@case
def an_object_that_two_start_ups_write_is_learned_of_the_last_one(stage):
    """The second start-up writes what the first one wrote, or another value, and nothing else: the line is
    that of the second one."""
    def scene(value):
        written = f"object 0x8000 1 2 rw 0\nstartup 0x8000 1 {value}\n"
        return MACHINE.replace("object 0x1018 2 4 ro 257\n", written)

    for capture, last in (("same", "e803"), ("other", "d107")):
        with stage.serve(scene("e803"), "--forever", "--pcap", capture) as _line:
            words = ("master", "m", "--at", both_ends(stage), "--cycles", "3", *PATIENCE)
            for value in ("e803", last):
                stage.file("m", scene(value))
                yield f"{capture}: master", "0", stage.ends(*words).splitlines()[-1]
        told, *rows = [row for row in stage.ends("learn", capture).splitlines() if "start" in row] or [""]
        yield f"{capture}: start-ups", "the line is that of start-up 2", told.split("; ")[-1]
        yield f"{capture}: startup", f"startup 0x8000 1 {last}", " ".join(" ".join(rows).split())


def capture_of_reads(groups, counter):
    """A capture of logical reads without data, of groups that are told apart by their addresses, as many in a
    frame as may be."""
    capture = CAPTURE
    for first in range(0, len(groups), 124):
        addresses = groups[first:first + 124]
        more = [0x8000] * (len(addresses) - 1) + [0]
        heads = (struct.pack("<BBIHHH", 10, 0, 16 * k, bit, 0, counter) for k, bit in zip(addresses, more))
        frame = b"".join(heads)
        packet = bytes.fromhex("ffffffffffff 020000000001 88a4") + struct.pack("<H", 0x1000 | len(frame)) + frame
        capture += struct.pack("<IIII", 1000, first, len(packet), len(packet)) + packet
    return capture.decode("latin-1")


@case
def datagrams_of_too_many_groups_are_counted_together(stage):
    """The first group, which is told apart, is counted behind the further ones too."""
    stage.file("c", capture_of_reads([*range(4098), 0], 0))
    rows = stage.ends("list", "c", "--stats").splitlines()
    first = "LRD 0x00000000 0 bytes: 2 sent, 0 back, 2 on the way"
    last = "LRD 0x0000fff0 0 bytes: 1 sent, 0 back, 1 on the way"
    yield "groups", f"4096 {first} {last}", f"{len(rows) - 5} {rows[2]} {rows[-4]}"
    yield "left out", "2 datagrams of further groups left out", rows[-3]
    one_way = "one way of the line alone is in this capture: mergecap joins it with one of the other way"
    yield "one way", f"{one_way} 0", " ".join(rows[-2:])


@case
def groups_past_the_1024th_are_not_told_apart(stage):
    stage.file("s", "slave 1\nlrd 0x10000 00\n")
    item = "item 0 LRD 0x00010000 1 bytes: sent 0 good 0 short 0 over 0 lost 0\n"
    for last, groups in ((0, "1024"), (1024, "more than 1024")):
        stage.file("c", capture_of_reads([*range(1024), last], 1))
        guess = "guess: what was sent had the counters 0, since nothing of it was captured\n"
        wanted = f"{item}{guess}not in the scene: {groups} groups, 1025 datagrams\njudge: NoItems\n1\n"
        yield groups, wanted, stage.ends("judge", "c", "s")


def capture_of_objects(slaves, longer):
    """A capture of a master that gives so many slaves their stations and mailboxes, and reads of each slave
    32 objects, one after the other: so many of all of them by a subindex of two digits, the others of one."""
    packets = []

    def trip(command, sent, back, counter, data, came):
        index = len(packets) // 2 % 256
        for source, address, count, row in (("00", sent, 0, data), ("02", back, counter, came)):
            head = struct.pack("<BBHHHH", command, index, *address, len(row), 0)
            datagram = head + row + struct.pack("<H", count)
            ethernet = bytes.fromhex(f"ffffffffffff {source}0105100000 88a4")
            packets.append(ethernet + struct.pack("<H", 0x1000 | len(datagram)) + datagram)

    trip(7, (0, 0), (slaves, 0), slaves, bytes(1), b"\x11")
    for k in range(slaves):
        station = struct.pack("<H", 0x1001 + k)
        trip(2, (-k % 65536, 0x10), (slaves - k, 0x10), 1, station, station)
    mailboxes = bytes.fromhex("0018 1000 26 00 01 00 8018 1000 22 00 01 00")
    for k in range(slaves):
        station = 0x1001 + k
        trip(5, (station, 0x800), (station, 0x800), 1, mailboxes, mailboxes)
        for number in range(32):
            name = struct.pack("<HB", 0x2000 + number, 10 if 32 * k + number < longer else 1)
            request = bytes.fromhex("0a0000000013002040") + name + bytes(4)
            trip(5, (station, 0x1800), (station, 0x1800), 1, request, request)
            answer = bytes.fromhex("0a0000000013003043") + name + struct.pack("<I", number)
            trip(4, (station, 0x1880), (station, 0x1880), 1, bytes(16), answer)
    records = [struct.pack("<IIII", 1000, k, len(one), len(one)) + one for k, one in enumerate(packets)]
    return (CAPTURE + b"".join(records)).decode("latin-1")


@case
def a_scene_that_is_learned_has_as_many_objects_as_it_has_room_for(stage):
    """A scene has 65,536 bytes at the most. First the comments are left out, and then the objects, from the
    last slave on."""
    def learned(slaves, longer):
        """How many bytes the text has, whether it has comments, and how many objects each slave has."""
        stage.file("c", capture_of_objects(slaves, longer))
        text = stage.ends("learn", "c").rsplit("\n", 2)[0] + "\n"
        return len(text), "#" in text, [slave.count("\nobject ") for slave in text.split("slave ")[1:]]

    for slaves, comments, fewer in ((55, True, [32] * 55), (59, False, [32] * 58 + [0])):
        room = 65536 - learned(slaves, 0)[0]
        yield f"{slaves} slaves", str((65536, comments, [32] * slaves)), str(learned(slaves, room))
        yield f"{slaves} slaves, a byte more", str((False, fewer)), str(learned(slaves, room + 1)[1:])
    yield "64 slaves", str((False, [32] * 59 + [0] * 5)), str(learned(64, 0)[1:])


# A line of two slaves whose stations a frame asks for: as it is sent, as both answer it, and as the first one
# alone does; and a packet that is no frame.
TWO_SLAVES = "slave 0x1001\nslave 0x1002\n"
STATIONS = bytes.fromhex("0e10 0707 0000 1000 0200 0000 0000 0000")
BY_BOTH = "0e100707020010000200000003100200"
BY_FIRST = "0e100707010010000200000001100100"
NO_FRAME = b"\xff" * 16


class Peers:
    """Those who speak to the ends of a line, and what each step brings them: a command, or a packet that
    somebody sends to an end. A packet that waits is served before the command behind it."""

    def __init__(self, stage, line, count):
        self.stage, self.line, self.masters = stage, line, [stage.master() for _ in range(count)]

    def __enter__(self):
        return self

    def __exit__(self, *_fault):
        for master in self.masters:
            master.close()

    def send(self, end, peer, packet=STATIONS):
        self.masters[peer - 1].sendto(packet, ("127.0.0.1", self.stage.port + "AB".index(end)))

    def served(self):
        """Waits until the service has seen to what was sent, and answers its counts."""
        counts = command(self.line, "counts")
        self.line.line()
        return counts.split(maxsplit=1)[1].rstrip("\n")

    def heard(self):
        """What has come by now: from which end, to whom, and its bytes."""
        told = []
        for number, master in enumerate(self.masters, 1):
            while select.select([master], [], [], 0)[0]:
                packet, (_, port) = master.recvfrom(2000)
                told.append(f"{'AB'[port - self.stage.port]} {number} {packet.hex()}")
        return " ".join(told)

    def step(self, *words):
        """What comes of a command, or of a packet at an end from somebody."""
        if len(words) == 1:
            return command(self.line, words[0])
        self.send(*words)
        self.served()
        return self.heard()

    def port(self, peer):
        return self.masters[peer - 1].getsockname()[1]

    @contextlib.contextmanager
    def at_once(self):
        """What is sent in this block comes while the service stands still."""
        stop(self.line.process)
        yield
        self.line.process.send_signal(signal.SIGCONT)


@contextlib.contextmanager
def spoken_to(stage, scene, count, *words):
    """Serves a scene under commands, to whose ends so many speak."""
    with controlled(stage, scene, "--set-up", *words) as line, Peers(stage, line, count) as peers:
        yield line, peers


@case
def log_lines_a_line_for_each_packet(stage):
    two = "1910 0c07 00000100 0180 0000 00 0000 0208 ffff2001 0000 0000 0000"
    ethernet = bytes.fromhex(f"ffffffffffff 020000000001 88a4 {two}")
    with spoken_to(stage, "slave 0x1001\n", 3, "--log") as (line, peers):
        peers.step("A", 1, ASKED)
        peers.step("A", 2, ASKED + b"\0")
        peers.step("B", 3, ethernet)
        peers.step("A", 1, b"")
        yield "quit", "ok\n", peers.step("quit")
        told = ["packets 4 frames 1 dropped 3", f"speaker A 127.0.0.1:{peers.port(1)}"]
        told += ["packet 0 A size 16 frame BRD adp 0000 ado 0130 length 2 counter 0>1 left A"]
        told += ["packet 1 A size 17 dropped Trailing at 16 padded"]
        told += ["packet 2 B size 41 dropped BadType at 1 ethernet", "packet 3 A size 0 dropped Short at 0"]
        yield "end", "\n".join(told + ["0", ""]), line.end()


@case
def log_lines_each_datagram_is_told(stage):
    two = bytes.fromhex("1910 0c07 00000100 0180 0000 00 0000 0208 ffff2001 0000 0000 0000")
    with spoken_to(stage, "slave 0x1001\n", 1, "--log") as (line, peers):
        yield "answer", "", peers.step("B", 1, two)
        yield "quit", "ok\n", peers.step("quit")
        told = ["packets 1 frames 1 dropped 0", f"speaker B 127.0.0.1:{peers.port(1)}"]
        told += ["packet 0 B size 27 frame LRW log 00010000 length 1 counter 0>0, "
                 "APWR adp ffff ado 0120 length 0 counter 0>0 nobody at A"]
        yield "end", "\n".join(told + ["0", ""]), line.end()


@case
def log_lines_a_new_speaker_is_told_and_so_is_what_is_lost(stage):
    frame = "A size 16 frame BRD adp 0000 ado 0130 length 2 counter 0>"
    with spoken_to(stage, "slave 0x1001\n", 2, "--log") as (line, peers):
        yield "lose", "ok\n", peers.step("lose A 1")
        yield "lost", "", peers.step("A", 1, ASKED)
        yield "left", f"A 2 {ONE}", peers.step("A", 2, ASKED)
        for text in ("unplug A", "link 0 down"):
            yield text, "ok\n", peers.step(text)
        yield "nowhere", "", peers.step("A", 2, ASKED)
        yield "quit", "ok\n", peers.step("quit")
        other = f"speaker A 127.0.0.1:{peers.port(2)}"
        told = ["packets 3 frames 3 dropped 0", f"speaker A 127.0.0.1:{peers.port(1)}"]
        told += [f"packet 0 {frame}1 lost at A", other, f"packet 1 {frame}1 left A"]
        told += [other, f"packet 2 {frame}- left nowhere"]
        yield "end", "\n".join(told + ["0", ""]), line.end()


@case
def log_lines_a_fault_of_the_writer_is_passed_over(stage):
    with open("/dev/full", "wb") as full:
        with stage.serve("slave 0x1001\n", "--log", "--packets", "2", stderr=full) as line:
            with stage.master() as master:
                yield "answer", ONE, asked(master, stage.port)
                master.sendto(ASKED + b"\0", ("127.0.0.1", stage.port))
                yield "end", "packets 2 frames 1 dropped 1\n0\n", line.end()


@case
def serve_real_a_frame_gets_its_answer_and_rubbish_none(stage):
    with spoken_to(stage, TWO_SLAVES, 1) as (_line, peers):
        with peers.at_once():
            peers.send("A", 1, NO_FRAME)
            peers.send("A", 1)
        yield "counts", "2 frames 1 dropped 1", peers.served()
        yield "heard", f"A 1 {BY_BOTH}", peers.heard()


@case
def serve_real_frames_at_both_ends_take_turns(stage):
    with spoken_to(stage, TWO_SLAVES + "link 1 down\n", 2, "--log") as (line, peers):
        with peers.at_once():
            peers.send("A", 1)
            peers.send("A", 1)
            peers.send("B", 2, NO_FRAME)
        yield "counts", "3 frames 2 dropped 1", peers.served()
        yield "heard", f"A 1 {BY_FIRST} A 1 {BY_FIRST}", peers.heard()
        yield "quit", "ok\n", peers.step("quit")
        yield "turns", "A B A", " ".join(re.findall(r"^packet \d (.)", line.end(), re.M))


@case
def serve_real_ends_lie_where_they_are_asked_for_or_nowhere(stage):
    with spoken_to(stage, TWO_SLAVES, 0) as (line, _peers):
        words = ("serve", "s", "--port", str(stage.port))
        yield "a port is bound once", unbound(stage.port), stage.ends(*words)
        here = f"serving A 127.0.0.2:{stage.port} B 127.0.0.2:{stage.port + 1}\n"
        ended = "packets 0 frames 0 dropped 0\n"
        ended += "input: ended; with --forever or --packets N it is left alone\n0\n"
        yield "at another address", here + ended, stage.ends(*words, "--bind", "127.0.0.2")
        yield "at that of another machine", "socket: Bind\n", stage.ends(*words, "--bind", "192.0.2.1")[:13]
        for port in ("0", "65535"):
            yield port, "argument: BadNumber\n", stage.ends("serve", "s", "--port", port)[:20]
        yield "the first one", "ok\n", command(line, "quit")


@case
def serve_waiting_the_ends_wait_and_tell_what_came_in_turn(stage):
    with spoken_to(stage, TWO_SLAVES, 2, "--log") as (line, peers):
        yield "from A, at A", f"A 1 {BY_BOTH}", peers.step("A", 1)
        yield "from B, at A", f"A 1 {STATIONS.hex()}", peers.step("B", 2)
        yield "from A, at B", f"B 2 {BY_BOTH}", peers.step("A", 1)
        for port in (stage.port, stage.port + 1):
            with socket.socket(type=socket.SOCK_DGRAM) as beside:
                beside.bind(("127.0.0.2", port))
        # where both have something, the end that was served last is served last
        for ends in ("B", "AB", "A", "AB"):
            with peers.at_once():
                for end in ends:
                    peers.send(end, "AB".index(end) + 1, NO_FRAME)
            peers.served()
        yield "quit", "ok\n", peers.step("quit")
        yield "turns", "A B A B A B A B A", " ".join(re.findall(r"^packet \d (.)", line.end(), re.M))


@case
def serve_waiting_the_ends_wait_and_tell_what_came_in_turn_before_the_input_ends(stage):
    with stage.serve(TWO_SLAVES, "--set-up", stdin=subprocess.PIPE) as line, stage.master() as master:
        line.process.stdin.write(b"\n" * 1000)
        yield "answer", BY_BOTH, asked(master, stage.port, STATIONS)
        stop(line.process)
        line.process.stdin.close()
        line.process.stdin = None
        for port in (stage.port, stage.port + 1):
            master.sendto(STATIONS, ("127.0.0.1", port))
        line.process.send_signal(signal.SIGCONT)
        told = "input: ended; with --forever or --packets N it is left alone\n0\n"
        yield "end", "packets 3 frames 3 dropped 0\n" + told, line.end()


@case
def serve_waiting_the_ends_wait_and_tell_what_came_in_turn_where_one_cannot_wait(stage):
    stage.file("input", "one\n")
    with open(os.path.join(stage.folder, "input"), "rb") as file:
        with stage.serve(TWO_SLAVES, stdin=file) as line:
            told = "input: ended; with --forever or --packets N it is left alone\n0\n"
            yield "end", "packets 0 frames 0 dropped 0\n" + told, line.end()


@case
def serve_console_lines_come_beside_packets(stage):
    with spoken_to(stage, TWO_SLAVES, 1) as (line, peers):
        with peers.at_once():
            for _ in range(34):
                peers.send("A", 1, NO_FRAME)
            line.process.stdin.write(b"counts\n")
        yield "after 32 packets", "packets 32 frames 0 dropped 32\n", line.line()
        yield "ok", "ok\n", line.line()
        yield "all of them", "34 frames 0 dropped 34", peers.served()
        line.process.stdin.write(b"one\ntwo\nthr")
        line.process.stdin.close()
        line.process.stdin = None
        counts = "packets 34 frames 0 dropped 34\n0\n"
        yield "lines", 3 * f"{REFUSED_WORD}\n" + counts, line.end()
    stage.file("commands", "one\n")
    with open(os.path.join(stage.folder, "commands"), "rb") as commands:
        with stage.serve(TWO_SLAVES, "--control", stdin=commands) as line:
            yield "of a file", f"{REFUSED_WORD}\npackets 0 frames 0 dropped 0\n0\n", line.end()


@case
def serve_bench_a_line_is_worked_on_between_its_packets(stage):
    whole_at_a, whole_at_b = f"A 1 {BY_BOTH}", f"B 2 {BY_BOTH}"
    no_link = "refused: OutOfRange, wanted a link of the line, 0 to its number of slaves\n"
    rows = {
        "a cable breaks and is mended": [
            ("A", 1, whole_at_a), ("link 1 down", "ok\n"), ("A", 1, f"A 1 {BY_FIRST}"),
            ("link 3 down", no_link), ("link 1 up", "ok\n"), ("A", 1, whole_at_a),
        ],
        # where nobody has spoken at end B yet, the answer comes back to end A; later it arrives at end B
        "so many copies are lost at an end and no more": [
            ("lose A 1", "ok\n"), ("lose A 1", "ok\n"), ("lose B 1", "ok\n"), ("A", 1, ""),
            ("B", 2, ""), ("B", 2, f"A 1 {STATIONS.hex()}"), ("A", 1, ""), ("A", 1, whole_at_b),
        ],
        "at an unplugged end nobody has spoken": [
            ("B", 2, ""), ("A", 1, whole_at_b), ("unplug B", "ok\n"), ("A", 1, whole_at_a),
            ("unplug A", "ok\n"), ("B", 2, ""),
        ],
    }
    for name, steps in rows.items():
        with spoken_to(stage, TWO_SLAVES, 2) as (_line, peers):
            for *words, wanted in steps:
                yield name, wanted, peers.step(*words)


@case
def serve_applications_a_counter_counts_each_packet_also_one_that_is_dropped(stage):
    def inputs(station, counter, data):
        return f"0e100400{station}10001102000000{data}{counter}"

    scene = TWO_SLAVES + "sm 3 0x1100 2 read\ncount 3\n"
    with spoken_to(stage, scene, 1) as (_line, peers):
        yield "a packet", f"A 1 {BY_BOTH}", peers.step("A", 1)
        yield "one that is dropped", "", peers.step("A", 1, NO_FRAME)
        rows = {"behind two": ("02", "0200"), "behind three": ("02", "0300"), "another slave": ("01", "0000")}
        for name, (station, data) in rows.items():
            read = bytes.fromhex(inputs(station, "0000", "0000"))
            yield name, f"A 1 {inputs(station, '0100', data)}", peers.step("A", 1, read)


@case
def captures_of_a_served_line_are_answered_alike_by_it(stage):
    """What a master sent in its start and its cycles, kept at the line and at the master, is sent once more."""
    with stage.serve(MACHINE, "--forever", "--pcap", "of_line") as line:
        stage.file("m", MACHINE)
        words = ("master", "m", "--at", both_ends(stage), "--cycles", "20", "--pcap", "of_master", *PATIENCE)
        yield "master", "0", stage.ends(*words).splitlines()[-1]
        line.process.terminate()
        line.process.wait(stage.limit)
    stage.file("other", MACHINE[:MACHINE.index("slave 0x1003")])
    for kept in ("of_line", "of_master"):
        *found, sums, status = stage.ends("replay", kept, "m").splitlines()
        yield f"{kept}: found", "1", str(len(found))
        alike = re.fullmatch(r"datagrams (\d+) alike \1 of clocks 0 not alike 0", sums)
        yield f"{kept}: alike", "True", str(alike is not None)
        yield f"{kept}: status", "0", status
        told = stage.ends("replay", kept, "other").splitlines()
        yield f"{kept}: other status", "1", told[-1]


# A line of as many slaves as there may be, whose inputs are one item.
LONGEST = "".join(
    f"slave {0x1001 + k:#x}\nsimple\nareas 0 1\nsm 3 0x1100 1 read\nfmmu 0 {0x10000 + k:#x} 1 0 7 0x1100 0 read\n"
    for k in range(256)
) + f"lrd 0x10000 {'00' * 256}\nbrd 0x0130 0000\n"


def packets_pass(line, count):
    """Waits until so many packets have come to a line that is served under commands."""
    def come():
        told = command(line, "counts")
        line.line()
        return int(told.split()[1])

    first = come()
    while come() < first + count and line.process.poll() is None:
        time.sleep(0.01)


@case
def who_leaves_op_of_256_slaves_is_named_three_cycles_later(stage):
    """A frame asks 100 of them, from the first one on, and the one that is found is looked at behind the next
    cycle; and so it is where another one leaves Op behind that."""
    with controlled(stage, LONGEST) as line:
        stage.file("m", LONGEST)
        words = ("master", "m", "--at", both_ends(stage), "--cycles", "5000", "--every", "20000", "--leave", "op")
        with stage.start(*words, *PATIENCE) as master:
            rows = [master.line()]
            while rows[-1] and not rows[-1].startswith("all in Op"):
                rows.append(master.line())
            # Behind the first cycles the cable is looked at.
            packets_pass(line, 100)
            for place, state in (("255", "4"), ("255", "8"), ("1", "4")):
                command(line, f"state {place} {state}")
                wanted = "all in Op again" if state == "8" else f"slave {place} "
                while rows[-1] and wanted not in rows[-1]:
                    rows.append(master.line())
    fell = [int(row.split(":")[0].split()[1]) for row in rows if "not all in Op" in row]
    named = [int(row.split(":")[0].split()[1]) for row in rows if " is in Safe-Op" in row]
    yield "the last one, and the second one", "[3, 1]", str([late - first for first, late in zip(fell, named)])
