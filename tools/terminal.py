"""Terminals that a script types into, as a person does: bash with job control, several in one network.

Ctrl-C, `&` and `kill %1` do there what they do at a terminal, and what reads it in the background is stopped.
What a command prints goes into files, its standard output and its standard error apart.
"""
import os
import pathlib
import signal
import subprocess
import tempfile
import termios
import time

# A shell says at each prompt with which status the command before it ended.
START = 'exec bash --norc --noprofile --noediting -i <"$0" >"$1" 2>&1'
MARK = "PAGES_TRY"


def soon(see, limit):
    """What is seen once it counts as true, or else at the end of so many seconds."""
    end = time.monotonic() + limit
    while not (seen := see()) and time.monotonic() < end:
        time.sleep(0.02)
    return seen


def kill_marked(mark):
    """Kills each process whose environment bears the mark, which all that it starts inherit."""
    wanted = f"{MARK}={mark}".encode()
    for place in pathlib.Path("/proc").glob("[0-9]*"):
        try:
            if any(word.startswith(wanted) for word in (place / "environ").read_bytes().split(b"\0")):
                os.kill(int(place.name), signal.SIGKILL)
        except OSError:
            pass  # It has ended, or is of somebody else.


class Network:
    """A network of its own, with a loopback alone, in which each port is free, as long as its keeper runs.

    `words` stand before a command that runs there: none where the machine does not give a network.
    """

    def __init__(self, wanted=True):
        self.words, self.keeper = [], None
        keep = "ip link set lo up && echo up && exec cat"
        pipes = {"stdin": subprocess.PIPE, "stdout": subprocess.PIPE, "stderr": subprocess.DEVNULL}
        try:
            self.keeper = subprocess.Popen(["unshare", "-rn", "sh", "-c", keep if wanted else ":"], **pipes)
            if self.keeper.stdout.readline() == b"up\n":
                into = ["--preserve-credentials", "-U", "-n", "-t", str(self.keeper.pid)]
                subprocess.run(["nsenter", *into, "true"], check=True, stderr=subprocess.DEVNULL)
                self.words = ["nsenter", *into]
        except (OSError, subprocess.CalledProcessError):
            pass

    def close(self):
        if self.keeper:
            self.keeper.communicate()


class Terminal:
    """A terminal and the commands that were typed there; `room` is a folder for what they print."""

    def __init__(self, network, room, folder, environment, limit):
        self.room, self.limit, self.command = pathlib.Path(tempfile.mkdtemp(dir=room)), limit, None
        self.count, self.prompts = 0, self.room / "prompts"
        self.prompts.touch()
        self.ours, theirs = os.openpty()
        modes = termios.tcgetattr(theirs)
        modes[3] &= ~termios.ECHO
        termios.tcsetattr(theirs, termios.TCSANOW, modes)
        prompt = {"PS1": "", "PS2": "", "PROMPT_COMMAND": f"echo $? >>'{self.prompts}'", "HISTFILE": ""}
        self.process = subprocess.Popen(
            [*network.words, "bash", "-c", START, os.ttyname(theirs), self.room / "shell"],
            cwd=folder,
            env={**environment, **prompt},
            start_new_session=True,  # So the terminal that it opens is its own.
        )
        soon(self.is_free, limit)
        os.close(theirs)

    def type(self, text):
        os.write(self.ours, f"{text}\n".encode())

    def run(self, command):
        """Types a command."""
        self.count, self.command = self.count + 1, command
        self.out, self.err = (self.room / f"{self.count}.{name}" for name in ("out", "err"))
        self.out.touch()
        self.err.touch()
        self.type(f"{{ {command}\n}} >'{self.out}' 2>'{self.err}'")

    def statuses(self):
        """With which each command ended, and behind them a line that is not whole yet."""
        return self.prompts.read_text().split("\n")

    def is_free(self):
        return len(self.statuses()) - 1 > self.count

    def ends(self):
        """Whether there is a prompt again, in time."""
        return soon(self.is_free, self.limit)

    def status(self):
        """With which the last command ended; None as long as it runs."""
        return int(self.statuses()[-2]) if self.is_free() else None

    def interrupt(self):
        """Ctrl-C; whether there is a prompt then."""
        os.write(self.ours, b"\x03")
        return self.ends()

    def folder(self):
        """Where its shell stands."""
        return os.readlink(f"/proc/{self.process.pid}/cwd")

    def close(self):
        """Hangs up: the shell ends, and its jobs do."""
        os.close(self.ours)
        try:
            self.process.wait(self.limit)
        except subprocess.TimeoutExpired:
            self.process.kill()
            self.process.wait()
