"""The cases of the page that a master draws on a terminal, beside those of live.py."""
import contextlib
import os
import re
import select
import signal
import subprocess
import time

from live import LEFT, MACHINE, PATIENCE, both_ends, case, command, controlled, terminal

# What the page of MACHINE says below its counts.
WHOLE = "ring whole"
LINE = "A-O-O-O-B"


class Glass:
    """What somebody sees of a terminal of so many rows and columns: the commands that a page is drawn by."""

    def __init__(self, rows=24, columns=80):
        self.rows, self.columns = rows, columns
        self.cells = [[" "] * columns for _ in range(rows)]
        self.row, self.column, self.wraps = 0, 0, True
        self.rest = ""

    def take(self, text):
        text = self.rest + text
        whole = re.match(r"(?:[^\x1b]|\x1b\[\??[0-9;]*[A-Za-z])*", text).end()
        self.rest = text[whole:]
        parts = re.findall(r"(\x1b\[(\??[0-9;]*)([A-Za-z]))|([^\x1b])", text[:whole])
        for command, number, kind, letter in parts:
            if command:
                self.do(number, kind)
            else:
                self.put(letter)

    def do(self, number, kind):
        if kind == "H":
            row, column = (int(it) for it in (number or "1;1").split(";"))
            self.row, self.column = min(row, self.rows) - 1, min(column, self.columns) - 1
        elif kind == "K":
            self.cells[self.row][self.column :] = " " * (self.columns - self.column)
        elif kind == "J" and number == "2":
            self.cells = [[" "] * self.columns for _ in range(self.rows)]
        elif kind == "J":
            self.do("", "K")
            self.cells[self.row + 1 :] = [[" "] * self.columns for _ in range(self.rows - self.row - 1)]
        elif (number, kind) in (("?7", "h"), ("?7", "l")):
            self.wraps = kind == "h"
        else:
            raise AssertionError(f"no command of a page: {number}{kind}")

    def put(self, letter):
        if letter == "\r":
            self.column = 0
        elif letter == "\n":
            self.feed()
        else:
            if self.column == self.columns and self.wraps:
                self.column = 0
                self.feed()
            self.cells[self.row][min(self.column, self.columns - 1)] = letter
            self.column = min(self.column + 1, self.columns)

    def feed(self):
        if self.row + 1 == self.rows:
            self.cells = self.cells[1:] + [[" "] * self.columns]
        else:
            self.row += 1

    def lines(self):
        return ["".join(row).rstrip() for row in self.cells]


def looked(glass, written, limit, is_enough):
    """What is seen once that is enough, or the time is over."""
    until = time.monotonic() + limit
    while not is_enough(glass.lines()) and time.monotonic() < until:
        if select.select([written], [], [], 0.1)[0]:
            glass.take(os.read(written.fileno(), 4096).decode("latin-1"))
    return glass.lines()


def without_numbers(text):
    """A text with N for each of its numbers."""
    return re.sub(r"\d+", "N", text)


@contextlib.contextmanager
def watched(stage, *words, rows=24, columns=80, both=False):
    """A service of MACHINE that takes commands, a master on it that draws a page, and what is seen of it."""
    with controlled(stage, MACHINE) as line, terminal() as (written, screen):
        stage.file("m", MACHINE)
        more = {"stdin": subprocess.PIPE, "stderr": screen}
        if both:
            more["stdout"] = screen
        words = ("master", "m", "--at", both_ends(stage), "--every", "2000", *words, *PATIENCE)
        with stage.start(*words, **more) as master:
            yield line, master, written, Glass(rows, columns)


@case
def a_page_has_the_line_and_its_cycles(stage):
    """The counts, how fast they grow, the cable, the line and how long cycles take; no row of it goes on."""
    with watched(stage) as (_line, _master, written, glass):
        seen = looked(glass, written, stage.limit, lambda lines: "all in Op" in lines)
        yield "started", "True", str("all in Op" in seen)
        is_drawn_again = lambda lines: lines[3] == LINE and " 0 a second" not in lines[1]
        seen = looked(glass, written, stage.limit, is_drawn_again)
        yield "counts", "cycles N good N short N over N fault N not-in-op N", without_numbers(seen[0])
        yield "rate", "N s, N a second, missed N", without_numbers(seen[1])
        yield "cable", WHOLE, seen[2]
        yield "line", LINE, seen[3]
        legend = "O Op  S Safe-Op  P Pre-Op  I Init  E error  . no answer  x link down"
        yield "letters", legend, seen[4]
        times = next((it for it, line in enumerate(seen) if line.startswith("cycle time")), 0)
        yield "times", "cycle time N to N microseconds", without_numbers(seen[times])
        bars = [line for line in seen[times + 1 :] if line]
        shown = all(re.fullmatch(r"(below|from) +\d+ us +\d+( #+)?", line) for line in bars)
        yield "bars", "True", str(bool(bars) and shown)


@case
def a_page_draws_a_broken_link_and_tells_it(stage):
    """The mark of the link, and the line that tells it among the last ones; both go with the break."""
    with watched(stage) as (line, _master, written, glass):
        looked(glass, written, stage.limit, lambda lines: lines[3] == LINE)
        yield "down", "ok\n", command(line, "link 1 down")
        seen = looked(glass, written, stage.limit, lambda lines: lines[3] == "A-OxO-O-B")
        yield "line", "A-OxO-O-B", seen[3]
        yield "cable", "link 1 down: between slave 0 (0x1001) and slave 1 (0x1002)", seen[2]
        told = any(re.match(r"cycle \d+: .*link 1 down: ", line) and len(line) <= 79 for line in seen)
        yield "told", "True", str(told)
        yield "up", "ok\n", command(line, "link 1 up")
        seen = looked(glass, written, stage.limit, lambda lines: lines[3] == LINE)
        yield "whole", WHOLE, seen[2]


@case
def a_page_names_a_slave_that_left_op(stage):
    """Its letter is that of its state, and a row says more; of the others no cycle tells the state then."""
    with watched(stage) as (line, _master, written, glass):
        looked(glass, written, stage.limit, lambda lines: lines[3] == LINE)
        yield "leaves", "ok\n", command(line, "state 1 4")
        seen = looked(glass, written, stage.limit, lambda lines: lines[3] == "A-?-S-?-B")
        if seen[3] != "A-?-S-?-B":
            yield "line", "A-?-S-?-B", seen[3]
        yield "row", "True", str("slave 1 (0x1002) is in Safe-Op" in seen)


@case
def a_page_leaves_the_terminal_as_it_was(stage):
    """Whichever signal ends the master: lines wrap again, the cursor stands below the page, at the margin."""
    for number in (signal.SIGINT, signal.SIGTERM, signal.SIGHUP, signal.SIGQUIT, signal.SIGKILL):
        with watched(stage) as (_line, master, written, glass):
            looked(glass, written, stage.limit, lambda lines: lines[3] == LINE)
            master.process.send_signal(number)
            master.process.wait()
            seen = looked(glass, written, 0.3, lambda lines: False)
            yield "wraps", "True", str(glass.wraps)
            yield "margin", "0", str(glass.column)
            yield "below", "True", str(not any(seen[glass.row :]))


@case
def a_page_fits_a_terminal_of_any_size(stage):
    """What is wider is cut off, and what is longer stays on the last row: the rows above are not moved."""
    for rows, columns in ((4, 20), (8, 132), (60, 40)):
        with watched(stage, rows=rows, columns=columns) as (_line, _master, written, glass):
            seen = looked(glass, written, stage.limit, lambda lines: WHOLE in lines[2])
            seen = looked(glass, written, 0.6, lambda lines: False)
            yield "cable", WHOLE, seen[2]
            yield "counts", "cycles", seen[0][:6]


@case
def a_page_and_lines_on_one_terminal(stage):
    """While the page is drawn lines stand on it alone; behind it they go on below."""
    with watched(stage, "--cycles", "400", both=True) as (_line, master, written, glass):
        looked(glass, written, stage.limit, lambda lines: LINE in lines)
        seen = looked(glass, written, stage.limit, lambda lines: LEFT.strip() in lines)
        page = seen.index(LINE) if LINE in seen else -1
        yield "page", "True", str(page >= 0)
        behind = [without_numbers(line) for line in seen[page:]]
        yield "sums", "True", str("left in Init" in behind)
        yield "status", "0", str(master.process.wait())


@case
def progress_is_told_as_words_say(stage):
    """Without a terminal as well; a word that says nothing is refused."""
    with controlled(stage, MACHINE):
        stage.file("m", MACHINE)
        words = ("master", "m", "--at", both_ends(stage), "--every", "2000", "--cycles", "700", *PATIENCE)
        page = r"\x1b\[\?7l\x1b\[2J\x1b\[1;1Hcycles "
        for progress, wanted in (("screen", page), ("lines", "cycles "), ("none", "")):
            with stage.start(*words, "--progress", progress, stderr=subprocess.PIPE) as master:
                _out, told = master.process.communicate(timeout=stage.limit)
                is_so = re.match(wanted, told.decode()) if wanted else not told
                yield progress, "True", str(bool(is_so))
        wrong = "argument: --progress wants screen, lines or none\n"
        yield "wrong", f"{wrong}2\n", stage.ends(*words, "--progress", "bars", stderr=subprocess.STDOUT)
