"""The cases of `make install` and `make uninstall`, into a folder of their own, and of what has to agree.

What a machine lacks to look at what was installed (a C compiler, man) is told on standard error.
"""
import gzip
import os
import shutil
import subprocess
import sys

from launcher import OTHER, RELEASES, Clone, toolchain

CASES = []

ROOT = os.path.dirname(os.path.dirname(os.path.abspath(__file__)))

FILES = """bin/ecat
lib/ecat/ecat
lib/ecat/until_signal
lib/librummymaple.a
lib/pkgconfig/rummymaple.pc
include/rummymaple.h
include/rummymaple_help.h
include/rummymaple_net.h
share/man/man1/ecat.1
share/bash-completion/completions/ecat
share/rummymaple/examples/master.c
share/rummymaple/examples/cycle.c
share/rummymaple/examples/cycle.cpp
share/rummymaple/examples/loop.c
share/rummymaple/examples/start.c
share/rummymaple/examples/bench.scene
share/rummymaple/examples/line.scene
"""

PROGRAM = """#include <rummymaple.h>
#include <stdio.h>
int main(void) {
    return printf("%s %d\\n", RMP_VERSION, (int)rmp_cycle_begin(RMP_UDP).state) < 0;
}
"""

# A shell that completes: the words in front, then what is asked for.
COMPLETE = """. "$1"
shift
COMP_WORDS=("$@") COMP_CWORD=$(($# - 1))
_ecat
echo "${COMPREPLY[@]}"
"""


class Installed:
    """A case of this file."""

    def __init__(self, function, limit):
        self.name, self.function, self.limit = "install_" + function.__name__, function, limit

    def run(self, ecat, folder, _port):
        yield from self.function(ecat, folder, self.limit)


def cases(limit):
    return [Installed(function, limit) for function in CASES]


def case(function):
    CASES.append(function)
    return function


def has(tool, for_what):
    """Is a tool here? Where it is not, that is told."""
    if shutil.which(tool):
        return True
    print(f"cases/try: no {tool} here: {for_what}", file=sys.stderr)
    return False


def left(*words, limit=20, **more):
    """What a command leaves: its output and error text, and its status."""
    done = subprocess.run(
        words, stdin=subprocess.DEVNULL, capture_output=True, text=True, timeout=limit, check=False, **more
    )
    return f"{done.stdout}{done.stderr}{done.returncode}\n"


def files_below(folder):
    found = [os.path.join(where, name) for where, _, names in os.walk(folder) for name in names]
    return "".join(sorted(os.path.relpath(path, folder) + "\n" for path in found))


def install(ecat, folder, *words):
    """Installs this program, and the released library, whatever their sources are."""
    library = os.path.join(folder, "library")
    os.makedirs(library, exist_ok=True)
    left(os.path.join(ROOT, "tools/release"), "--library", library)
    env = os.environ | {"ECAT": ecat, "RUMMYMAPLE_LIB": library}
    return left("make", "-s", "-C", ROOT, *words, env=env)


@case
def what_is_installed_works_and_goes(ecat, folder, _limit):
    to = os.path.join(folder, "to")
    sorted_files = "".join(sorted(FILES.splitlines(keepends=True)))
    told = "".join(f"{to}/{name}\n" for name in FILES.split())
    yield "install", told + "0\n", install(ecat, folder, "install", f"PREFIX={to}")
    yield "files", sorted_files, files_below(to)
    with open(os.path.join(ROOT, "VERSION"), encoding="ascii") as file:
        version = file.read().strip()
    program = os.path.join(to, "bin/ecat")
    yield "program", left(ecat, "help"), left(program, "help")
    os.symlink(program, os.path.join(folder, "link"))
    yield "through a symlink", left(ecat, "help"), left(os.path.join(folder, "link"), "help")
    capture = os.path.join(ROOT, "scenes/startup.pcap")
    with open(capture, "rb") as file, open(os.path.join(folder, "c.gz"), "wb") as packed:
        packed.write(gzip.compress(file.read()))
    if has("gzip", "no packed capture is listed"):
        yield "a packed capture", left(ecat, "list", capture), left(program, "list", os.path.join(folder, "c.gz"))
    said = lines_of(to, "lib/pkgconfig/rummymaple.pc", "Version")
    yield "what pkg-config says", f"Version: {version}\n", said
    if has("cc", "nothing is compiled with the installed library"):
        yield "a program in C", f"{version} 0\n0\n", compiled(to, folder)
        for name in ("cycle", "loop"):
            yield f"an example in C: {name}", "0\n", compiled_example(to, folder, name)
    page = os.path.join(to, "share/man/man1/ecat.1")
    if has("groff", "the man page is not formatted"):
        yield "man page: warnings", "0\n", left("groff", "-man", "-Tutf8", "-ww", "-z", page)
    if has("man", "the man page is not shown"):
        env = os.environ | {"MANWIDTH": "80", "MANPAGER": "cat", "LC_ALL": "C.UTF-8"}
        shown = left("man", "--nj", "-l", page, env=env)
        for words in ("ecat - an EtherCAT master", "--surely", "EXIT STATUS", f"ecat {version}"):
            yield f"man page: {words}", words, words if words in shown else shown
    told = "".join(f"removed {to}/{name}\n" for name in FILES.split())
    yield "uninstall", told + "0\n", install(ecat, folder, "uninstall", f"PREFIX={to}")
    yield "nothing is left", "", files_below(to)
    for name in ("lib/ecat", "share/rummymaple"):
        yield f"nor a folder of its own: {name}", "False", str(os.path.exists(os.path.join(to, name)))


def lines_of(folder, name, begin):
    with open(os.path.join(folder, name), encoding="utf-8") as file:
        return "".join(line for line in file if line.startswith(begin))


def compiled(to, folder):
    """What a program says that was compiled with the installed header and library."""
    source, program = os.path.join(folder, "program.c"), os.path.join(folder, "program")
    with open(source, "w", encoding="ascii") as file:
        file.write(PROGRAM)
    subprocess.run(compiling(to, source, program), check=True, timeout=60)
    return left(program)


def compiled_example(to, folder, name):
    """What the compiler says of an installed example."""
    source = os.path.join(to, f"share/rummymaple/examples/{name}.c")
    return left(*compiling(to, source, os.path.join(folder, name)), limit=60)


def compiling(to, source, program):
    """How a program is compiled with what is installed."""
    place = os.path.join(to, "lib/pkgconfig")
    if shutil.which("pkg-config"):
        env = os.environ | {"PKG_CONFIG_PATH": place}
        asked = ["pkg-config", "--cflags", "--libs", "rummymaple"]
        flags = subprocess.run(asked, env=env, capture_output=True, text=True, check=True).stdout.split()
    else:
        with open(os.path.join(place, "rummymaple.pc"), encoding="utf-8") as file:
            text = file.read().replace("${libdir}", f"{to}/lib").replace("${includedir}", f"{to}/include")
        said = dict(line.split(": ", 1) for line in text.splitlines() if ": " in line)
        flags = f"{said['Cflags']} {said['Libs']}".split()
    return ["cc", "-std=c11", "-Wall", "-Wextra", "-Werror", "-o", program, source, *flags]


@case
def what_is_installed_lies_below_destdir(ecat, folder, _limit):
    to = os.path.join(folder, "to")
    told = "".join(f"{to}/usr/{name}\n" for name in FILES.split())
    yield "install", told + "0\n", install(ecat, folder, "install", "PREFIX=/usr", f"DESTDIR={to}")
    modes = "".join(f"{os.stat(f'{to}/usr/{name}').st_mode & 0o777:o} {name}\n" for name in FILES.split())
    programs = ("bin/ecat", "lib/ecat/ecat")
    wanted = "".join(f"{755 if name in programs else 644} {name}\n" for name in FILES.split())
    yield "modes", wanted, modes
    prefix = lines_of(to, "usr/lib/pkgconfig/rummymaple.pc", "prefix=")
    yield "prefix", "prefix=/usr\n", prefix
    place = os.path.join(to, "usr/share/bash-completion/completions/ecat")
    for words, wanted in [
        (("sw",), "sweep"),
        (("-",), "--help --version -V"),
        (("--v",), "--version"),
        (("help", "sc"), "scan"),
        (("list", "--"), "--csv --faults --stats --index --json --help"),
        (("master", "x.scene", "--re"), "--recover"),
        (("run", "sc"), ""),
    ]:
        yield " ".join(words), f"{wanted}\n0\n", left("bash", "-c", COMPLETE, "bash", place, "ecat", *words)
    told = "".join(f"removed {to}/usr/{name}\n" for name in FILES.split())
    yield "uninstall", told + "0\n", install(ecat, folder, "uninstall", "PREFIX=/usr", f"DESTDIR={to}")


@case
def nothing_is_built_to_be_installed(_ecat, folder, limit):
    clone = Clone(folder, limit)
    for name in ("tools/install", "tools/release", "tools/man", "tools/completion", "VERSION"):
        shutil.copy(os.path.join(ROOT, name), clone.at(name))
    for tool in ("install", "mktemp", "head"):
        if not os.path.exists(os.path.join(clone.bin, tool)):
            os.symlink(shutil.which(tool), os.path.join(clone.bin, tool))
    clone.rt(toolchain(OTHER))
    clone.file("crates/low/src/lib.rt", "// changed\n")
    to = os.path.join(folder, "to")
    reason = "crates/ is not what release/ was built from"
    none = f"ecat: no program of these sources ({reason}): ./ecat --build makes one\n"
    none += "tools/install: nothing is installed, and nothing built\n3\n"
    yield "changed sources", none, "".join(clone.run(clone.at("tools/install"), to))
    clone.ecat("--build")
    none = "tools/install: no library of these sources, so nothing is installed: "
    none += "(cd crates/rummymaple && rt lib) makes one\n3\n"
    yield "no library", none, "".join(clone.run(clone.at("tools/install"), to))
    yield "nothing", "", files_below(to)


@case
def the_version_is_one(ecat, _folder, _limit):
    with open(os.path.join(ROOT, "VERSION"), encoding="ascii") as file:
        version = file.read()
    yield "version", version + "0\n", left(os.path.join(ROOT, "tools/version"), ecat)


@case
def another_version_is_named_by_its_place(_ecat, folder, _limit):
    places = ["include/rummymaple.h", "bindings/rust/Cargo.toml", "CHANGELOG.md", "crates/ecat/src/main.rt"]
    for name in ["tools/version", "VERSION", *places]:
        os.makedirs(os.path.dirname(os.path.join(folder, name)), exist_ok=True)
        shutil.copy(os.path.join(ROOT, name), os.path.join(folder, name))
    version = lines_of(folder, "VERSION", "").strip()
    for place in places:
        text = lines_of(folder, place, "")
        found = version if version in text else version.removesuffix(".0")
        with open(os.path.join(folder, place), "w", encoding="utf-8") as file:
            file.write(text.replace(found, "77.7", 1) if place != "CHANGELOG.md" else "## 77.7\n" + text)
        told = f"{place} has version '77.7', and VERSION '{version}'\n1\n"
        yield place, told, left(os.path.join(folder, "tools/version"))
        with open(os.path.join(folder, place), "w", encoding="utf-8") as file:
            file.write(text)
    yield "as they are", f"{version}\n0\n", left(os.path.join(folder, "tools/version"))


@case
def the_released_program_is_compared_with_one_that_was_built(_ecat, folder, limit):
    clone = Clone(folder, limit)
    shutil.copy(os.path.join(ROOT, "tools/release"), clone.at("tools/release"))
    clone.file("same", '#!/bin/sh\necho packed "$@"\n')
    clone.file("other", '#!/bin/sh\necho other "$@"\n')
    clone.rt(toolchain(RELEASES))
    for name, told in [
        ("same", "the released program is the one that was built\n0\n"),
        ("other", "the released program is not the one that was built\n1\n"),
    ]:
        yield name, told, "".join(clone.run(clone.at("tools/release"), "--compare", clone.at(name)))
    clone.rt(toolchain(OTHER))
    told = "the released program was made by another toolchain\n77\n"
    yield "another toolchain", told, "".join(clone.run(clone.at("tools/release"), "--compare", clone.at("same")))


@case
def the_picture_of_the_house_is_of_these_crates(_ecat, _folder, _limit):
    told = "docs/house.svg is of crates.txt\n0\n"
    yield "picture", told, left(os.path.join(ROOT, "tools/house"), "--check")
