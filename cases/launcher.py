"""The cases of the launcher, ./ecat: which program it runs, what it says, and what it costs.

Each is a function of a `Clone`, a small repository in a folder of its own, with the real launcher and tools,
two crates of a line each, and a program of release/ that prints what it was given. The first word of what it
prints tells which program ran. `rt` is none or a script, whatever the machine has. It gives what `cases/try`
compares: a name, what is wanted, what is seen.
"""
import gzip
import hashlib
import lzma
import os
import re
import shutil
import signal
import subprocess
import tarfile
import time

CASES = []

ROOT = os.path.dirname(os.path.dirname(os.path.abspath(__file__)))

# What the launcher and its tools call.
TOOLS = "awk bash basename cat chmod cmp cp cut dirname env find git grep gzip mkdir mv printf readlink realpath rm"
TOOLS += " sed sh sha256sum sleep sort stat tar timeout tr true xargs xz"

RELEASES = "rattle-kit-1a logic 00ff"
OTHER = "rattle-kit-2b logic 11ee"
OTHER_RUNS = f"ecat: the released program runs, built by '{RELEASES}'; "
OTHER_RUNS += f"rt here is '{OTHER}' (./ecat --build takes that)\n"
TAKES = "proving and building the program takes some 20 minutes on four processors, "
TAKES += "and more on fewer or slower ones"
CHANGED = "crates/ is not what release/ was built from"

# A toolchain: it tells its version, and "proves" and builds the clone where it stands.
RT = """#!/bin/sh
if [ "$1" = version ]; then echo '{version}'; exit; fi
sleep {seconds}
echo "rt: low proved"
mkdir -p crates/ecat/out
printf '#!/bin/sh\\necho built "$@"\\n' >crates/ecat/out/ecat
chmod +x crates/ecat/out/ecat
"""

# The beginning of one, which tells its version and builds nothing.
VERSION = f"""#!/bin/sh
if [ "$1" = version ]; then echo '{OTHER}'; exit; fi
"""


def toolchain(version, seconds=0):
    return RT.format(version=version, seconds=seconds)


def copy(path, to):
    """Copies a file that will be run. Another process does it: cases run side by side, and a file that one
    has open for writing while another one starts a process cannot be run."""
    subprocess.run(["cp", path, to], check=True)


class Clone:
    """A small repository, commands that it is tried with, and a home."""

    def __init__(self, folder, limit):
        os.chmod(folder, 0o755)
        self.folder, self.limit = folder, limit
        self.top, self.bin = os.path.join(folder, "clone"), os.path.join(folder, "bin")
        self.env = {"PATH": self.bin, "HOME": os.path.join(folder, "home")}
        self.user = {}
        os.mkdir(self.bin)
        for tool in TOOLS.split():
            found = shutil.which(tool)
            if not found:
                raise FileNotFoundError(f"no {tool} here, which the launcher's cases want")
            os.symlink(found, os.path.join(self.bin, tool))
        for name in ("ecat", "tools/sources", "tools/build", "tools/until_signal"):
            os.makedirs(os.path.dirname(self.at(name)), exist_ok=True)
            copy(os.path.join(ROOT, name), self.at(name))
        self.file("HANDLES", "Handles allowed: none.\n")
        self.file("crates.txt", "# Crates.\nlow:\necat: low\nlow_tests: low\n")
        self.file("crates/low/src/lib.rt", "// low\n")
        self.file("crates/low/specs/Low.antt", "-- low\n")
        self.file("crates/low_tests/src/lib.rt", "// tests\n")
        self.file("crates/ecat/src/main.rt", "// ecat\n")
        self.file("crates/ecat/args", "run\n")
        self.release(b'#!/bin/sh\necho packed "$@"\n', self.sum())

    def at(self, name):
        return os.path.join(self.top, name)

    def file(self, name, text):
        os.makedirs(os.path.dirname(self.at(name)), exist_ok=True)
        with open(self.at(name), "w", encoding="latin-1") as file:
            file.write(text)

    def release(self, program, sources):
        """Packs a program as that of these sources."""
        os.makedirs(self.at("release"), exist_ok=True)
        with open(self.at("release/ecat.xz"), "wb") as packed:
            packed.write(lzma.compress(program))
        digest = hashlib.sha256(program).hexdigest()
        self.file("release/sums", f"sources {sources}\nprogram {digest}\ntoolchain {RELEASES}\n")

    def rt(self, script):
        """Puts this rt on PATH, or none."""
        path = os.path.join(self.bin, "rt")
        if os.path.exists(path):
            os.remove(path)
        if script:
            put = ["install", "-m", "755", "/dev/stdin", path]
            subprocess.run(put, input=script.encode("latin-1"), check=True)

    def run(self, *command, **more):
        """What a command leaves: its output, its error text, and its status, as three."""
        settings = {"cwd": self.folder, "env": self.env, "timeout": self.limit} | self.user | more
        done = subprocess.run(
            command, stdin=subprocess.DEVNULL, capture_output=True, text=True, check=False, **settings
        )
        return done.stdout, done.stderr, f"{done.returncode}\n"

    def ecat(self, *words, **more):
        return "".join(self.run(self.at("ecat"), *words, **more))

    def sum(self, **more):
        return self.run(self.at("tools/sources"), **more)[0].strip()

    def forget(self):
        """Takes away what was unpacked."""
        shutil.rmtree(self.at("release/out"), ignore_errors=True)

    def read_only(self):
        """Nothing can be written in the clone from here on. Root may write anywhere, so another user runs
        what is run then; and where there is none, files lie in the way of the folders."""
        for folder, _, names in os.walk(self.top):
            os.chmod(folder, 0o555)
            for name in names:
                os.chmod(os.path.join(folder, name), 0o555)
        if os.geteuid() == 0:
            self.user = {"user": 65534, "group": 65534, "extra_groups": []}
            try:
                self.run("true")
            except OSError:
                self.user = {}
                self.file("release/out", "")
                self.file("target", "")

    def writable(self):
        """The clone can be taken away again."""
        for folder, _, _ in os.walk(self.top):
            os.chmod(folder, 0o755)
        self.user = {}

    def home(self, name):
        """A folder of the user who runs what is run."""
        path = os.path.join(self.folder, name)
        os.mkdir(path)
        if self.user:
            os.chown(path, self.user["user"], self.user["group"])
        return path


class Launched:
    """A case of this file."""

    def __init__(self, function, limit):
        self.name, self.function, self.limit = "launcher_" + function.__name__, function, limit

    def run(self, _ecat, folder, _port):
        clone = Clone(folder, self.limit)
        try:
            yield from self.function(clone)
        finally:
            clone.writable()


def cases(limit):
    return [Launched(function, limit) for function in CASES]


def case(function):
    CASES.append(function)
    return function


@case
def runs_the_released_program_whatever_rt_is_here(clone):
    yield "no rt", "packed run x\n0\n", clone.ecat("run", "x")
    clone.forget()
    clone.rt(toolchain(RELEASES))
    yield "the release's rt", "packed run x\n0\n", clone.ecat("run", "x")
    clone.forget()
    clone.rt(toolchain(OTHER))
    yield "another rt, at first", f"packed run x\n{OTHER_RUNS}0\n", clone.ecat("run", "x")
    yield "another rt, from then on", "packed run x\n0\n", clone.ecat("run", "x")


@case
def runs_the_released_program_where_rt_is_something_else(clone):
    for name, script in [
        ("fails", "#!/bin/sh\necho 'rt: no such ticket' >&2\nexit 1\n"),
        ("says nothing", "#!/bin/sh\n"),
        ("waits", "#!/bin/sh\nexec sleep 60\n"),
        ("cannot be started", "#!/no/such/program\n"),
    ]:
        clone.forget()
        clone.rt(script)
        yield f"rt {name}", "packed\n0\n", clone.ecat()


@case
def tells_which_program_it_is(clone):
    told = f"packed --version\nsources {clone.sum()}\ntoolchain {RELEASES}\n"
    told += "proved, and released with these sources\n"
    yield "no rt", told + "0\n", clone.ecat("--version")
    clone.rt(toolchain(RELEASES))
    yield "the release's rt", told + "0\n", clone.ecat("--version")
    clone.rt(toolchain(OTHER))
    yield "another rt", f"{told}{OTHER_RUNS}0\n", clone.ecat("--version")
    clone.forget()
    yield "another rt, once", f"{told}{OTHER_RUNS}0\n", clone.ecat("--version")
    clone.file("crates/low/src/lib.rt", "// changed\n")
    none = f"ecat: no program of these sources ({CHANGED}): ./ecat --build makes one\n3\n"
    yield "changed", none, clone.ecat("--version")
    clone.ecat("--build")
    told = f"built --version\nsources {clone.sum()}\ntoolchain {OTHER}\nproved and built here\n0\n"
    yield "built", told, clone.ecat("--version")


@case
def strays_change_nothing(clone):
    before = clone.sum()
    for name in [
        "crates/foo.swp",
        "crates/low/src/lib.rt~",
        "crates/low/src/.lib.rt.swp",
        "crates/low/src/#lib.rt#",
        "crates/low/src/lib.orig.rt",
        "crates/low/src/lib (copy).rt",
        "crates/low/src/4913",
        "crates/low/notes.md",
        "crates/low/out/lib.rt",
        "crates/low/must-fail/worse.edit",
        "crates/low_tests/src/lib.rt",
        "crates/elsewhere/src/lib.rt",
    ]:
        clone.file(name, "// stray\n")
        yield name, before, clone.sum()
    os.symlink("lib.rt", clone.at("crates/low/src/.#lib.rt"))
    yield "an editor's lock", before, clone.sum()
    yield "run", "packed\n0\n", clone.ecat()
    names = ["crates/low/src/more.rt", "crates/low/specs/Low.antt", "crates/ecat/args", "crates.txt"]
    names += [f"crates/ecat/{name}" for name in ("stdin", "stdout", "status", "BUILD.bazel")]
    for name in names:
        with open(clone.at(name), "a", encoding="latin-1") as file:
            file.write("# changed\n")
        yield f"{name} counts", "True", str(clone.sum() not in ("", before))
        before = clone.sum()


@case
def the_sum_is_of_names_and_bytes_alone(clone):
    before = clone.sum()
    for locale in ("C", "C.UTF-8", "en_US.UTF-8", "tr_TR.UTF-8"):
        yield locale, before, clone.sum(env=clone.env | {"LC_ALL": locale})
    yield "umask", before, clone.sum(umask=0o077)
    os.utime(clone.at("crates/low/src/lib.rt"), (1, 1))
    os.chmod(clone.at("crates/ecat/src/main.rt"), 0o755)
    yield "time and mode", before, clone.sum()
    os.symlink(clone.at("tools/sources"), os.path.join(clone.folder, "sum"))
    yield "through a symlink", before, clone.run(os.path.join(clone.folder, "sum"))[0].strip()
    clone.env["CDPATH"] = "/"
    yield "CDPATH", before, clone.run("tools/sources", cwd=clone.top)[0].strip()


@case
def changed_sources_want_a_toolchain(clone):
    clone.file("crates/low/src/lib.rt", "// changed\n")
    reason = f"to build the program: {CHANGED}"
    yield "no rt", f"ecat: no rt here {reason}\n3\n", clone.ecat("run", "x")
    clone.rt("#!/bin/sh\necho RT 5.0\n")
    other = f"{clone.bin}/rt is another program, and its version is 'RT 5.0'"
    yield "not rt", f"ecat: no toolchain here {reason}: {other}\n3\n", clone.ecat("run", "x")
    os.remove(clone.at("release/sums"))
    clone.rt(None)
    none = "ecat: no rt here to build the program: there is no release/sums\n3\n"
    yield "no sums", none, clone.ecat("run", "x")
    yield "asked to build", "ecat: no rt here to build the program\n3\n", clone.ecat("--build")
    shutil.rmtree(clone.at("crates/low"))
    error = clone.run(clone.at("ecat"), "run")[1].splitlines(keepends=True)
    yield "no crate", "ecat: the sources below crates/ cannot be read\n", error[-1]
    os.mkdir(clone.at("crates/low"))
    yield "unproved", "ecat: no rt here to compile the program\n3\n", clone.ecat("--unproved", "x")


@case
def changed_sources_are_built_and_that_is_said(clone):
    clone.rt(toolchain(OTHER))
    clone.file("crates/low/src/lib.rt", "// changed\n")
    output, error, status = clone.run(clone.at("ecat"), "run", "x")
    lines = error.splitlines(keepends=True)
    yield "run", "built run x\n0\n", output + status
    yield "said first", f"ecat: {CHANGED}: {TAKES}\n", lines[0]
    far = re.sub("[0-9]+( of| s)", r"N\1", lines[1])
    yield "how far", "building ecat: N of 2 crates proved, N s\n", far
    yield "built already", "built\n0\n", clone.ecat()
    os.utime(clone.at("crates/low/src/lib.rt"))
    clone.file("crates/low/src/lib.rt~", "// stray\n")
    yield "touched", "built\n0\n", clone.ecat()
    clone.file("crates/low/src/lib.rt", "// low\n")
    yield "changed back", "packed\n0\n", clone.ecat().replace(OTHER_RUNS, "")
    clone.file("crates/low/src/lib.rt", "// changed once more\n")
    told = clone.run(clone.at("ecat"))[1].splitlines(keepends=True)
    yield "changed anew", f"ecat: {CHANGED}: {TAKES}\n", told[0]


@case
def unproved_hands_files_over_by_their_names(clone):
    clone.rt(VERSION + 'echo "$PWD $*"\n')
    clone.file("some/folder/line.scene", "slave 1\n")
    scene = clone.at("some/folder/line.scene")
    words = ("--unproved", "run", scene, "--judge")
    output, error, status = clone.run(clone.at("ecat"), *words)
    given = f"try --data line.scene={scene} -- run line.scene --judge"
    yield "words", f"{clone.at('crates/ecat')} {given}\n0\n", output + status
    yield "said", "ecat: not proved: the sources as they stand\n", error


@case
def build_is_what_build_does(clone):
    clone.rt(VERSION)
    nothing = "tools/build: rt ci passed and left nothing of ecat; "
    nothing += f"{clone.top}/target/build/log has what it said\n"
    error = clone.run(clone.at("ecat"), "--build")[1].splitlines(keepends=True)
    yield "no program comes of it", nothing, error[-1]
    clone.rt(VERSION + "echo refused\nexit 1\n")
    yield "the released one runs", f"packed run\n{OTHER_RUNS}0\n", clone.ecat("run")
    yield "it fails", "refused\n3\n", clone.ecat("--build")[-10:]
    clone.rt(toolchain(OTHER))
    error = clone.run(clone.at("ecat"), "--build")[1]
    yield "said", f"ecat: {TAKES}\n", error.splitlines(keepends=True)[0]
    yield "run", "built\n0\n", clone.ecat()
    yield "path", clone.at("crates/ecat/out/ecat") + "\n0\n", clone.ecat("--path")


@case
def a_program_that_something_else_built_has_to_be_newer(clone):
    clone.file("crates/ecat/out/ecat", '#!/bin/sh\necho here "$@"\n')
    os.chmod(clone.at("crates/ecat/out/ecat"), 0o755)
    for name in ("crates.txt", "crates/ecat/args", "crates/ecat/src/main.rt", "crates/low/src/lib.rt"):
        os.utime(clone.at(name), (1000, 1000))
    os.utime(clone.at("crates/low/specs/Low.antt"), (1000, 1000))
    yield "newer", "here\n0\n", clone.ecat()
    clone.file("crates/low/src/lib.rt.swp", "")
    os.utime(clone.at("crates/low/src/lib.rt.swp"), (3000000000, 3000000000))
    yield "newer than sources", "here\n0\n", clone.ecat()
    os.utime(clone.at("crates/low/src/lib.rt"), (3000000000, 3000000000))
    yield "older", "packed\n0\n", clone.ecat()


@case
def runs_from_anywhere(clone):
    link, linked = os.path.join(clone.folder, "link"), os.path.join(clone.folder, "linked")
    os.symlink(clone.at("ecat"), link)
    os.symlink(clone.top, linked)
    yield "a symlink", "packed a\n0\n", "".join(clone.run(link, "a"))
    os.symlink("../link", os.path.join(clone.bin, "ecat-of-a-link"))
    yield "a link of a link on PATH", "packed b\n0\n", "".join(clone.run("sh", "-c", "ecat-of-a-link b"))
    yield "a folder's symlink", "packed c\n0\n", "".join(clone.run(os.path.join(linked, "ecat"), "c"))
    yield "from within", "packed d\n0\n", "".join(clone.run("./ecat", "d", cwd=clone.top))
    yield "by bash", "packed e\n0\n", "".join(clone.run("bash", "clone/ecat", "e"))
    clone.env["CDPATH"] = clone.folder
    yield "CDPATH", "packed f\n0\n", "".join(clone.run("clone/ecat", "f"))


@case
def a_clone_that_cannot_be_written_to_unpacks_elsewhere(clone):
    with open(clone.at("release/sums"), encoding="ascii") as sums:
        digest = sums.read().split()[3]
    clone.read_only()
    home, kept = clone.home("home"), clone.home("kept")
    yield "HOME", f"{home}/.cache/ecat/{digest}/ecat\n0\n", clone.ecat("--path")
    yield "run", "packed a\n0\n", clone.ecat("a")
    clone.env["XDG_CACHE_HOME"] = kept
    yield "XDG_CACHE_HOME", f"{kept}/ecat/{digest}/ecat\n0\n", clone.ecat("--path")
    clone.env["XDG_CACHE_HOME"] = "kept"
    yield "relative", f"{home}/.cache/ecat/{digest}/ecat\n0\n", clone.ecat("--path")
    clone.env["XDG_CACHE_HOME"] = "/proc/none"
    place = f"nothing can be written or run in {clone.top}/release/out"
    none = f"ecat: no place to unpack the program: {place} or in /proc/none/ecat\n3\n"
    yield "no cache", none, clone.ecat()
    del clone.env["HOME"], clone.env["XDG_CACHE_HOME"]
    none = f"ecat: {place}, and neither XDG_CACHE_HOME nor HOME names another place to unpack the program\n"
    yield "no HOME", none + "3\n", clone.ecat()
    clone.env["HOME"] = home
    clone.rt(toolchain(OTHER))
    none = f"tools/build: {clone.top}/target/build cannot be written, and the work is done there\n"
    yield "build", f"ecat: {TAKES}\n{none}3\n", clone.ecat("--build")


# Longer than the two seconds, by a clock of whole ones, for which what was changed is not noted.
SETTLED = 3.5


def noted(clone, name):
    """A clone in a folder of its own which is left alone for a while, so that its program can be noted."""
    folder = os.path.join(clone.folder, name)
    os.mkdir(folder)
    made = Clone(folder, clone.limit)
    made.ecat()
    return made


def change(path, old, new):
    """Puts other bytes into a file, with its times as they were."""
    told = os.stat(path)
    with open(path, "r+b") as file:
        content = file.read()
        file.seek(0)
        file.write(content.replace(old, new))
    os.utime(path, ns=(told.st_atime_ns, told.st_mtime_ns))


def replaced(path, old, new):
    """Puts another file in the place of one, as git does, with its time and its size."""
    shutil.copy2(path, path + "~")
    change(path + "~", old, new)
    os.replace(path + "~", path)


def moved_in(made):
    """A folder with a source that lay elsewhere."""
    folder = os.path.join(made.folder, "more")
    os.mkdir(folder)
    shutil.copy2(made.at("crates/low/src/lib.rt"), os.path.join(folder, "more.rt"))
    os.rename(folder, made.at("crates/low/src/more"))


CHANGES = {
    "a byte of a source, with its time put back": lambda made: change(
        made.at("crates/low/src/lib.rt"), b"low", b"lov"),
    "a source that is another file": lambda made: replaced(made.at("crates/low/specs/Low.antt"), b"low", b"lov"),
    "a source that is gone": lambda made: os.remove(made.at("crates/low/specs/Low.antt")),
    "a source that has another name": lambda made: os.rename(
        made.at("crates/low/src/lib.rt"), made.at("crates/low/src/lob.rt")),
    "a source that came": lambda made: os.rename(
        made.at("crates/low_tests/src/lib.rt"), made.at("crates/ecat/src/lib.rt")),
    "a folder that came": moved_in,
    "a folder that has another name": lambda made: os.rename(made.at("crates/low/src"), made.at("crates/low/specs/src")),
    "a crate that came": lambda made: (
        change(made.at("crates.txt"), b"low_tests:", b"low_teste:"),
        os.rename(made.at("crates/low_tests"), made.at("crates/low_teste"))),
    "what a source is": lambda made: change(made.at("tools/sources"), b"[A-Za-z0-9_]+'", b"[A-Zd-z0-9_]+'"),
    "the sums": lambda made: change(made.at("release/sums"), b"sources ", b"sources 0"),
}


@case
def what_is_noted_is_forgotten_with_any_change(clone):
    clones = {name: noted(clone, str(number)) for number, name in enumerate(CHANGES)}
    time.sleep(SETTLED)
    none = f"ecat: no rt here to build the program: {CHANGED}\n3\n"
    for name, made in clones.items():
        made.ecat()
        os.remove(os.path.join(made.bin, "sha256sum"))
        yield f"no sums are taken: {name}", "packed x\n0\n", made.ecat("x")
        os.symlink(shutil.which("sha256sum"), os.path.join(made.bin, "sha256sum"))
        CHANGES[name](made)
        yield name, none, made.ecat("x")


@case
def a_noted_program_is_the_one_that_was_summed(clone):
    clones = [noted(clone, name) for name in ("program", "built", "mode", "whose", "place", "fresh")]
    time.sleep(SETTLED)
    for made in clones:
        made.ecat()
        yield "noted", "True", str(os.path.exists(made.at("release/out/noted")))
    program, built, mode, whose, place, fresh = clones
    change(program.at("release/out/ecat"), b"packed", b"hacked")
    yield "a program that was changed", "packed x\n0\n", program.ecat("x")
    built.rt(toolchain(OTHER))
    built.ecat("--build")
    yield "one that was built since", "built x\n0\n", built.ecat("x")
    os.chmod(mode.at("release/out/ecat"), 0o644)
    yield "one that cannot be run", "packed x\n0\n", mode.ecat("x")
    os.rename(place.top, place.top + "-moved")
    yield "a clone that was moved", "packed x\n0\n", "".join(place.run(place.top + "-moved/ecat", "x"))
    fresh.file("crates/low/src/lib.rt~", "// A stray changes its folder.\n")
    os.remove(fresh.at("release/out/noted"))
    fresh.ecat()
    yield "what may still change", "False", str(os.path.exists(fresh.at("release/out/noted")))
    # Whoever may write the note of another user does not say what he runs.
    if os.geteuid() == 0:
        other = os.path.join(whose.folder, "other")
        whose.file("../other", "#!/bin/sh\necho other\n")
        os.chmod(other, 0o755)
        told = whose.run("stat", "-L", "-c", "%.9Z %s %i %d %n", other)[0]
        whose.file("release/out/watched", other + "\n")
        whose.file("release/out/noted", f"{other}\n{told}")
        yield "one's own note", "other\n0\n", whose.ecat()
        for name in ("watched", "noted"):
            os.chown(whose.at(f"release/out/{name}"), 65534, 65534)
        yield "somebody else's note", "packed\n0\n", whose.ecat()


# A program that tells its words, and what it reads where it is given standard input.
READS = b"""#!/bin/sh
echo "read $*"
case "$*" in *' -'* | *stdin*) cat ;; esac
exit 7
"""


@case
def a_packed_capture_is_unpacked(clone):
    clone.release(READS, clone.sum())
    capture = bytes.fromhex("d4c3b2a1020004") + b"of packets"
    files = {"plain.gz": capture, "c.gz": gzip.compress(capture), "packed": gzip.compress(capture)}
    if shutil.which("zstd"):
        os.symlink(shutil.which("zstd"), os.path.join(clone.bin, "zstd"))
        files["c.zst"] = subprocess.run(["zstd", "-qc"], input=capture, capture_output=True, check=True).stdout
    for name, content in files.items():
        with open(os.path.join(clone.folder, name), "wb") as file:
            file.write(content)
    for name in set(files) - {"plain.gz"}:
        for words, wanted in [
            ("list F", "list -"), ("list --csv F", "list --csv -"), ("show F", "show /dev/stdin"),
            ("learn --at 3 F --data", "learn --at 3 - --data"), ("judge F line", "judge - line"),
            ("judge --limit 3 F line", "judge --limit 3 - line"), ("list --at=3 F", "list --at=3 -"),
        ]:
            seen = clone.ecat(*words.replace("F", name).split(), errors="replace")
            yield f"{words}, {name}", f"read {wanted}\n{capture.decode(errors='replace')}7\n", seen
    for words in ("list plain.gz", "judge c.gz", "judge --limit 3 c.gz", "check c.gz", "learn --at c.gz",
                  "list nowhere.gz", "list plain.gz c.gz", "list -h"):
        yield words, f"read {words}\n7\n", clone.ecat(*words.split())
    os.remove(os.path.join(clone.bin, "gzip"))
    yield "no gzip", "read list c.gz\n7\n", clone.ecat("list", "c.gz")


@case
def what_cannot_be_unpacked_is_told(clone):
    clone.release(READS.replace(b"exit 7", b""), clone.sum())
    packed = gzip.compress(b"packets and packets\n")
    told = "ecat: c.gz: gzip did not unpack all of it\n"
    for name, content, wanted in [
        ("whole", packed, "0\n"),
        ("cut", packed[:-6], told + "3\n"),
        ("a wrong sum", packed[:-8] + b"1234" + packed[-4:], told + "3\n"),
        ("nothing but the magic", packed[:2], told + "3\n"),
    ]:
        with open(os.path.join(clone.folder, "c.gz"), "wb") as file:
            file.write(content)
        seen = clone.ecat("list", "c.gz").removeprefix("read list -\n").removeprefix("packets and packets\n")
        yield name, wanted, re.sub("gzip: .*\n|\n(?=gzip)|^\n+", "", seen)
    clone.release(b"#!/bin/sh\nexit 1\n", clone.sum())
    clone.forget()
    with open(os.path.join(clone.folder, "c.gz"), "wb") as file:
        file.write(gzip.compress(os.urandom(1 << 20)))
    yield "a program that reads nothing", "1\n", clone.ecat("list", "c.gz")


@case
def signals_end_a_command_on_a_packed_capture(clone):
    clone.release(b"#!/bin/sh\necho begun\nexec sleep 60\n", clone.sum())
    clone.ecat("--path")
    with open(os.path.join(clone.folder, "c.gz"), "wb") as file:
        file.write(gzip.compress(os.urandom(1 << 20)))
    for number in (signal.SIGINT, signal.SIGTERM, signal.SIGHUP, signal.SIGQUIT):
        process = subprocess.Popen([clone.at("ecat"), "list", "c.gz"], cwd=clone.folder, env=clone.env,
                                   stdin=subprocess.DEVNULL, stdout=subprocess.PIPE, start_new_session=True)
        process.stdout.readline()
        process.send_signal(number)
        status = process.wait(clone.limit)
        yield number.name, f"{128 + number}", str(status)
        yield f"{number.name}: nobody is left", "", process.stdout.read().decode()
        process.stdout.close()


# A program that signals who runs it, before that one need know which process it is, and then waits.
SIGNALS_FIRST = """#!/bin/bash
kill -{} $PPID
exec sleep 60
"""


@case
def a_signal_is_not_lost_while_a_packed_capture_is_opened(clone):
    with open(os.path.join(clone.folder, "c.gz"), "wb") as file:
        file.write(gzip.compress(os.urandom(1 << 20)))
    for number in (signal.SIGINT, signal.SIGTERM, signal.SIGHUP, signal.SIGQUIT):
        clone.release(SIGNALS_FIRST.format(number.value).encode(), clone.sum())
        clone.forget()
        clone.ecat("--path")
        for _ in range(5):
            yield number.name, f"{128 + number}\n", clone.ecat("list", "c.gz")


@case
def what_is_missing_or_damaged_is_named(clone):
    clone.ecat()
    os.remove(os.path.join(clone.bin, "xz"))
    yield "unpacked before", "packed\n0\n", clone.ecat()
    clone.forget()
    yield "no xz", "ecat: no xz here to unpack release/ecat.xz\n3\n", clone.ecat()
    os.symlink(shutil.which("xz"), os.path.join(clone.bin, "xz"))
    clone.file("release/out/ecat", "rubbish")
    os.chmod(clone.at("release/out/ecat"), 0o755)
    yield "what was unpacked is damaged", "packed\n0\n", clone.ecat()
    clone.forget()
    with open(clone.at("release/ecat.xz"), "rb") as packed:
        whole = packed.read()
    damaged = "ecat: release/ecat.xz is damaged: what it holds is not what release/sums says\n3\n"
    for name, content in [
        ("empty", b""),
        ("cut", whole[: len(whole) // 2]),
        ("changed", whole[:30] + bytes([whole[30] ^ 1]) + whole[31:]),
        ("another", lzma.compress(b"#!/bin/sh\necho another\n")),
    ]:
        with open(clone.at("release/ecat.xz"), "wb") as packed:
            packed.write(content)
        yield name, damaged, clone.ecat()
        left = [name for _, _, names in os.walk(clone.at("release/out")) for name in names]
        yield f"{name}: left", "[]", str(left)
    os.remove(clone.at("release/ecat.xz"))
    gone = "ecat: release/ecat.xz, the packed program, is not there or cannot be read\n3\n"
    yield "gone", gone, clone.ecat()


@case
def cases_say_what_they_wait_for(clone):
    os.mkdir(clone.at("cases"))
    scripts = "live commanded named through scanned screened followed objects launcher install made signals".split()
    for name in ("try", *(f"{name}.py" for name in scripts)):
        copy(os.path.join(ROOT, "cases", name), clone.at(f"cases/{name}"))
    os.symlink(shutil.which("python3"), os.path.join(clone.bin, "python3"))
    clone.rt(toolchain(OTHER, seconds=3))
    clone.file("crates/low/src/lib.rt", "// changed\n")
    output, error, status = clone.run(clone.at("cases/try"), "of no such name")
    yield "run", "0 passed, 0 failed\n0\n", output + status
    waits = "waits for ./ecat --path, which builds the program; ECAT=PROGRAM names one that is there"
    told = error.splitlines(keepends=True)
    yield "said first", f"ecat: {CHANGED}: {TAKES}\n", told[0]
    yield "said", "True", str(f"cases/try: {waits}\n" in told)


@case
def these_sources_are_the_same_in_a_clone_and_an_archive(clone):
    """The sources of this checkout: copied file by file as they lie here, and out of an archive."""
    wanted = clone.run(os.path.join(ROOT, "tools/sources"))[0].strip()
    archive = os.path.join(clone.folder, "archive.tar")
    with tarfile.open(archive, "w") as tar:
        for name in ("ecat", "tools", "crates.txt", "HANDLES"):
            tar.add(os.path.join(ROOT, name), name)
        for folder, inner, names in os.walk(os.path.join(ROOT, "crates")):
            inner[:] = [name for name in inner if name not in ("out", "must-fail")]
            for name in names:
                path = os.path.join(folder, name)
                tar.add(path, os.path.relpath(path, ROOT), filter=dated)
    shutil.rmtree(clone.top)
    os.mkdir(clone.top)
    with tarfile.open(archive) as tar:
        tar.extractall(clone.top)
    yield "sum", wanted, clone.sum()
    clone.release(b'#!/bin/sh\necho packed "$@"\n', wanted)
    for name, script in [("no", None), ("the release's", toolchain(RELEASES)), ("another", toolchain(OTHER))]:
        clone.rt(script)
        took = []
        while len(took) < 5 and (not took or min(took) >= 1):
            clone.forget()
            begun = time.monotonic()
            output = clone.run(clone.at("ecat"), "vectors")[0]
            took.append(time.monotonic() - begun)
        yield f"{name} rt", "packed vectors\n", output
        yield f"{name} rt: within a second", "True", str(min(took) < 1) if min(took) < 1 else str(took)


def dated(member):
    """As another person's archive has it: other times, other modes."""
    member.mtime, member.mode = 1000000000, 0o600
    return member
