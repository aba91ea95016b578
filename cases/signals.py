"""The cases of what signals do to `serve` and `master` by the launcher: `tools/until_signal`.

Each is a function of a `Stage`, whose program is ./ecat of a small repository (a `Clone` of `launcher.py`)
that runs the program that is tried, as one that was built there. What is started is a session of its own,
and nothing of it may be left.
"""
import os
import pty
import re
import signal
import subprocess
import time

from install import install
from launcher import Clone, copy
from live import ITEMS, LEFT, MACHINE, PATIENCE, STARTED, Running, Stage
from live import asked, both_ends, timed, without_late

CASES = []

INT, TERM, HUP = signal.SIGINT, signal.SIGTERM, signal.SIGHUP

# What began these cases in the background may have them ignore signals, and a shell can take no notice of
# those that it ignores from its beginning on.
for ignored in (INT, TERM, HUP, signal.SIGQUIT):
    if signal.getsignal(ignored) == signal.SIG_IGN:
        signal.signal(ignored, signal.SIG_DFL)

# A service without a packet, and what it says on standard error where its input ended.
SERVED = "packets 0 frames 0 dropped 0\n"
ENDED = "input: ended; with --forever or --packets N it is left alone\n"

# A program that tells its process and its words; one that no end of input ends.
TELLS = '#!/bin/sh\necho $$ "$@"\n'
STAYS = "#!/bin/sh\necho here\nexec sleep 60\n"

# One that tells which descriptors it has, but for that of its script.
DESCRIPTORS = """#!/usr/bin/env bash
open=
for n in {0..254}; do [ ! -e "/dev/fd/$n" ] || open+=" $n"; done
echo ${open# }
"""

# Opens a terminal as standard input in a session that has none, which makes it that of the session; and runs
# without a standard input.
AT_TERMINAL = 'tty=$1; shift; exec "$@" <"$tty"'
CLOSED = 'exec "$@" <&-'


class Signalled:
    """A case of this file."""

    def __init__(self, function, limit):
        self.name, self.function, self.limit = "signals_" + function.__name__, function, limit

    def run(self, ecat, folder, port):
        clone = Clone(folder, self.limit)
        os.makedirs(clone.at("crates/ecat/out"))
        copy(ecat, clone.at("crates/ecat/out/ecat"))
        yield from self.function(Launching(clone, ecat, port))


def cases(limit):
    return [Signalled(function, limit) for function in CASES]


def case(function):
    CASES.append(function)
    return function


class Launching:
    """A launcher, the program that it runs, two free ports and scenes."""

    def __init__(self, clone, ecat, port):
        self.clone, self.port, self.limit = clone, port, clone.limit
        self.direct = Stage(ecat, clone.folder, port, clone.limit)
        self.direct.file("s", "slave 1\n")
        self.direct.file("m", MACHINE)
        self.master = ("master", "m", "--at", both_ends(self.direct), "--log", "log", *PATIENCE)
        clone.env["TMPDIR"] = clone.home("tmp")

    def program(self, script):
        """Puts another program in the place of the one that is tried."""
        self.clone.file("crates/ecat/out/ecat", script)

    def start(self, *words, **streams):
        return self.session(self.clone.at("ecat"), words, **{"stdin": subprocess.PIPE} | streams)

    def by_shell(self, script, *words):
        """Starts by a script of a shell, which gets these words."""
        return self.session("/bin/sh", ("-c", script, "sh", *words))

    def session(self, program, words, **streams):
        settings = {"cwd": self.clone.folder, "env": self.clone.env, "start_new_session": True}
        return Session(self.limit, program, words, **settings | streams)

    def serve(self, *words, **streams):
        """Serves a scene of one slave; its first line of output has been read."""
        running = self.start("serve", "s", "--port", str(self.port), *words, **streams)
        running.line()
        return running

    def brought_to_op(self, master):
        """What a master prints that begins, once it has cycled."""
        started = "".join(master.line() for _ in STARTED.splitlines())
        log, until = os.path.join(self.clone.folder, "log"), time.monotonic() + self.limit
        while os.path.getsize(log) == 0 and time.monotonic() < until:
            time.sleep(0.01)
        os.remove(log)
        return started

    def at_terminal(self, *words):
        """Starts at a terminal, and answers what was started and the terminal's other side."""
        outer, inner = pty.openpty()
        running = self.by_shell(AT_TERMINAL, os.ttyname(inner), self.clone.at("ecat"), *words)
        os.close(inner)
        return running, os.fdopen(outer, "wb", buffering=0)


class Session(Running):
    """A launcher that leads a session."""

    def left(self):
        """The processes that are left of the session."""
        return str([f"{pid} {name}" for pid, name in of_session(self.process.pid)])

    def end(self):
        """The rest of the output, the error text and the status, while the input stays open."""
        kept, self.process.stdin = self.process.stdin, None
        try:
            return super().end()
        finally:
            self.process.stdin = kept

    def __exit__(self, *fault):
        """Whatever is left would keep the output open."""
        for pid, _ in of_session(self.process.pid):
            try:
                os.kill(pid, signal.SIGKILL)
            except ProcessLookupError:
                pass
        super().__exit__(*fault)


def of_session(session):
    """The processes of a session that have not ended, and their names."""
    for pid in filter(str.isdigit, os.listdir("/proc")):
        try:
            with open(f"/proc/{pid}/stat", encoding="latin-1") as file:
                name, rest = file.read().split("(", 1)[1].rsplit(") ", 1)
        except OSError:
            continue
        state, _parent, _group, of = rest.split()[:4]
        if int(of) == session and state not in "ZX":
            yield int(pid), name


@case
def a_service_ends_by_a_signal_as_by_its_end_of_input(stage):
    for number in (INT, TERM, HUP):
        for words, told in [
            ((), SERVED + ENDED),
            (("--control",), SERVED),
            (("--forever",), SERVED),
            (("--forever", "--control", "--log"), SERVED),
            (("--packets", "3"), SERVED),
        ]:
            what = f"{number.name} {' '.join(words)}"
            with stage.serve(*words) as line:
                line.process.send_signal(number)
                yield what, told + "0\n", line.end()
                yield f"{what}: left", "[]", line.left()
    yield "temporary files", "[]", str(os.listdir(stage.clone.env["TMPDIR"]))


@case
def a_signal_to_all_its_processes_is_one_to_the_launcher(stage):
    for number in (INT, TERM, HUP):
        for words, told in [((), SERVED + ENDED), (("--control",), SERVED), (("--forever",), SERVED)]:
            what = f"{number.name} {' '.join(words)}"
            with stage.serve(*words) as line:
                os.killpg(line.process.pid, number)
                yield what, told + "0\n", line.end()
                yield f"{what}: left", "[]", line.left()


@case
def a_master_ends_by_a_signal_as_by_its_end_of_input(stage):
    with stage.direct.serve(MACHINE, "--forever"):
        for number in (INT, TERM, HUP):
            with stage.start(*stage.master) as master:
                yield "start", STARTED, stage.brought_to_op(master)
                master.process.send_signal(number)
                yield number.name, sums(ITEMS + "0\n"), without_counts(without_late(master.end()))
                yield f"{number.name}: left", "[]", master.left()


@case
def a_master_of_so_many_cycles_ends_by_a_signal_too(stage):
    """It leaves its own input alone, whatever becomes of that."""
    words = (*stage.master, "--cycles")
    with stage.direct.serve(MACHINE, "--forever"):
        for number in (INT, TERM, HUP):
            with stage.start(*words, "4294967295", stdin=subprocess.DEVNULL) as master:
                yield "start", STARTED, stage.brought_to_op(master)
                master.process.send_signal(number)
                yield number.name, sums(ITEMS + "0\n"), without_counts(without_late(master.end()))
                yield f"{number.name}: left", "[]", master.left()
        script = ("-c", '"$@"; cat', "sh", stage.clone.at("ecat"), *words, "5")
        with stage.session("/bin/sh", script, stdin=subprocess.PIPE) as master:
            master.process.stdin.write(b"not read\n")
            master.process.stdin.close()
            master.process.stdin = None
            wanted = STARTED + sums(ITEMS + "not read\n0\n")
            yield "five", wanted, without_counts(without_late(master.end()))


def sums(rest):
    """The end of a master whose cycles were all good."""
    return LEFT + "cycles N good N short 0 over 0 fault 0 not-in-op 0\ncycle time N\n" + rest


def without_counts(text):
    return re.sub(r"^cycles (\d+) good \1 ", "cycles N good N ", timed(text), flags=re.M)


@case
def a_terminal_ends_them_too(stage):
    """Control-C is a signal for all processes at the terminal, Control-D the end of the input. Somebody has
    begun to type a line."""
    served = ("serve", "s", "--port", str(stage.port))
    for key, typed in [("Control-C", b"lin\x03"), ("twice", b"\x03\x03"), ("Control-D", b"\x04")]:
        for words, told in [((), SERVED + ENDED), (("--control",), SERVED)]:
            line, terminal = stage.at_terminal(*served, *words)
            with line, terminal:
                line.line()
                terminal.write(typed)
                what = f"{key} {' '.join(words)}"
                yield what, told + "0\n", line.end()
                yield f"{what}: left", "[]", line.left()
    line, terminal = stage.at_terminal(*served, "--control")
    with line, terminal:
        line.line()
        terminal.write(b"counts\nquit\nlin")
        yield "commands", SERVED + "ok\nok\n" + SERVED + "0\n", line.end()
        yield "commands: left", "[]", line.left()
    with stage.direct.serve(MACHINE, "--forever"):
        master, terminal = stage.at_terminal(*stage.master)
        with master, terminal:
            yield "start", STARTED, stage.brought_to_op(master)
            terminal.write(b"\x03")
            yield "master", sums(ITEMS + "0\n"), without_counts(without_late(master.end()))
            yield "master: left", "[]", master.left()


@case
def commands_are_answered_at_once_while_the_input_is_open(stage):
    with stage.serve("--control") as line:
        for _ in range(3):
            line.process.stdin.write(b"counts\n")
            yield "counts", SERVED + "ok\n", line.line() + line.line()
        line.process.stdin.write(b"quit\n")
        yield "quit", "ok\n" + SERVED + "0\n", line.end()
        yield "left", "[]", line.left()


@case
def a_service_ends_by_itself_while_the_input_is_open(stage):
    with stage.serve("--packets", "1") as line, stage.direct.master() as master:
        asked(master, stage.port)
        yield "packets", "packets 1 frames 1 dropped 0\n0\n", line.end()
        yield "left", "[]", line.left()


@case
def the_end_of_the_input_ends_them(stage):
    words = (stage.clone.at("ecat"), "serve", "s", "--port", str(stage.port))
    for what, script in [("none", 'exec "$@"'), ("closed", CLOSED)]:
        with stage.by_shell(script, *words) as line:
            line.line()
            yield what, SERVED + ENDED + "0\n", line.end()
            yield f"{what}: left", "[]", line.left()
        with stage.by_shell(script, *words, "--forever") as line:
            line.line()
            time.sleep(0.2)
            yield f"{what}, forever", "None", str(line.process.poll())
            line.process.terminate()
            yield f"{what}, forever: end", SERVED + "0\n", line.end()
    with stage.serve() as line:
        line.process.stdin.write(b"not the end\n")
        line.process.stdin.close()
        line.process.stdin = None
        yield "pipe", SERVED + ENDED + "0\n", line.end()


@case
def a_later_signal_kills(stage):
    """Of a program that does not end. Two signals at once are one: so `timeout` sends them."""
    stage.program(STAYS)
    with stage.start("serve", "s") as line:
        yield "line", "here\n", line.line()
        begun = time.monotonic()
        line.process.terminate()
        line.process.terminate()
        while line.process.poll() is None and time.monotonic() < begun + stage.limit:
            time.sleep(0.5)
            line.process.terminate()
        yield "not at once", "True", str(time.monotonic() - begun >= 1)
        yield "killed", "137\n", line.end()
        yield "left", "[]", line.left()
    with stage.start("serve", "s") as line:
        yield "line", "here\n", line.line()
        # A shell that is just about to wait may miss a signal.
        until = time.monotonic() + stage.limit
        while line.process.poll() is None and time.monotonic() < until:
            line.process.send_signal(signal.SIGQUIT)
            time.sleep(0.5)
        yield "SIGQUIT", "137\n", line.end()
        yield "SIGQUIT: left", "[]", line.left()


@case
def nothing_outlives_a_launcher_that_was_killed(stage):
    for words in ((), ("--control",), ("--forever",)):
        with stage.serve(*words) as line:
            line.process.kill()
            line.process.wait()
            until = time.monotonic() + stage.limit
            while line.left() != "[]" and time.monotonic() < until:
                time.sleep(0.01)
            yield " ".join(words), "[]", line.left()


@case
def what_no_end_of_input_ends_is_the_process_itself(stage):
    """Which words the launcher runs in its own place, and which words a child gets."""
    stage.program(TELLS)
    for line in (
        "run s",
        "scan --at x",
        "help serve",
        "serve --help",
        "master /dev/stdin --at x --cycles 5",
        "master - --at x --cycles 5",
        "master s --at x --cycles",
        "master s --at x --cycles 5 --unknown",
        "master s t --at x --cycles 5",
        "serve s --cycles 5",
        "serve /dev/stdin --forever",
        "serve - --forever",
        "serve --forever",
        "serve s t --packets 3",
        "serve s --forever --unknown",
        "serve s --forever --port",
        "serve s --packets --log",
    ):
        with stage.start(*line.split()) as running:
            yield line, f"{running.process.pid} {line}\n0\n", running.end()
    for line, given in [
        ("master s --at x", "master s --at x"),
        ("master s --at x --cycles 5", "master --until-end s --at x --cycles 5"),
        ("master s --at x --cycles=5", "master --until-end s --at x --cycles=5"),
        ("master s --cycles 5 --clock utc", "master --until-end s --cycles 5 --clock utc"),
        ("master s --cycles 5 --until-end", "master s --cycles 5 --until-end"),
        ("master s --cycles 5 --control", "master s --cycles 5 --control"),
        (
            "master --raw 10,11 s --cycles 5 --every=9 --busy --log l --log-images --log-or-stop --stop",
            "master --until-end --raw 10,11 s --cycles 5 --every=9 --busy --log l --log-images --log-or-stop"
            " --stop",
        ),
        ("serve s", "serve s"),
        ("serve s --control --packets 5", "serve s --control --packets 5"),
        ("serve s --forever", "serve --control s --forever"),
        ("serve --log --packets=5 --port 7000 s", "serve --control --log --packets=5 --port 7000 s"),
        ("serve --packets 5 s --raw 10,11 --force", "serve --control --packets 5 s --raw 10,11 --force"),
        ("serve s --forever --pcap c --bind 127.0.0.1", "serve --control s --forever --pcap c --bind 127.0.0.1"),
    ]:
        with stage.start(*line.split()) as running:
            process, words = running.end().split(" ", 1)
            yield f"{line}: a child", "True", str(int(process) != running.process.pid)
            yield line, f"{given}\n0\n", words


@case
def descriptors_of_packet_sockets_stay_the_programs(stage):
    """As `tools/raw` opens them; of the launcher's own descriptors the program gets none."""
    stage.program(DESCRIPTORS)
    opened = ("bash", "-c", 'exec 10</dev/null 11<&10; "$@"', "bash", stage.clone.at("ecat"))
    for words in (("serve", "s"), ("serve", "s", "--forever"), ("run", "s")):
        with stage.by_shell('exec "$@"', *opened, *words) as line:
            yield " ".join(words), "0 1 2 10 11\n0\n", line.end()


@case
def what_is_installed_does_the_same(stage):
    to = os.path.join(stage.clone.folder, "to")
    install(stage.direct.ecat, stage.clone.folder, "install", f"PREFIX={to}")
    words = ("serve", "s", "--port", str(stage.port), "--forever")
    with stage.session(os.path.join(to, "bin/ecat"), words) as line:
        line.line()
        line.process.terminate()
        yield "end", SERVED + "0\n", line.end()
        yield "left", "[]", line.left()


@case
def a_command_that_was_stopped_goes_on(stage):
    with stage.serve("--control") as line:
        os.killpg(line.process.pid, signal.SIGSTOP)
        line.process.stdin.write(b"counts\n")
        os.killpg(line.process.pid, signal.SIGCONT)
        yield "counts", SERVED + "ok\n", line.line() + line.line()
        line.process.terminate()
        yield "end", SERVED + "0\n", line.end()


@case
def refused_words_are_told_as_the_program_tells_them(stage):
    for line in (
        "serve",
        "serve --forever",
        "serve s --forever --bogus",
        "serve s --forever=1",
        "serve s --port 1",
        "serve none --forever",
        "serve s --forever --forever",
        "master s",
        "master s --at 127.0.0.1:9,no end",
        "master s --at 127.0.0.1:9 --cycles 5 --bogus",
        "master s --at 127.0.0.1:9 --cycles 0",
        "master s --cycles 5",
    ):
        with stage.direct.start(*line.split()) as program, stage.start(*line.split()) as launcher:
            yield line, program.end(), launcher.end()
