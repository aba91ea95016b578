"""Captures that are made, the same ones in each run, with packets on both sides of every limit of a listing,
and their cases: what a listing hands on at once, what it tells where its file, its source or its output ends
early, and that a stream has the sums of its file. tools/refuse/commands lists them with memory refused."""
import fcntl
import os
import resource
import socket
import struct
import subprocess
import threading

# How many captures are made of packets of every kind, how many packets each has, of how many captures of
# each sort the sums are compared, and of how many each front is listed.
MIXED, PACKETS, SUMMED, FRONTS = 36, 40, 12, 3
# How many captures are made of cycles and of short lines, with numbers behind those.
CYCLES, STEPPED = 30, 72
# How many datagrams have a group of their own where there are more than are told apart, and how many a frame
# has of them.
MANY, IN_A_FRAME = 4160, 104
# The forms of a listing of packets.
FORMS = ((), ("--csv",), ("--faults",))
# What is said of a source that fails.
FAILED_READ = b"file: Read\n"
# Where an output fails: at once, within the first lines, and on both sides of a piece.
ROOMS = (0, 1, 2, 62, 63, 64, 65, 100, 1000, 65_535, 65_536, 65_537, 70_000, 131_072)
# A listing hands on so many bytes at once, but for the last ones.
PIECE = 65_536
# Room for what one write hands on.
ROOM = 1 << 20
# Lengths of data on both sides of what is spelt at a time, sixteen bytes and once 64, and the greatest one.
LENGTHS = (0, 1, 15, 16, 17, 31, 32, 33, 47, 48, 49, 63, 64, 65, 127, 128, 129)
LONG = (1486, 1485, 1473, 1472, 1471)
# Working counters on both sides of a digit more, and the halves of addresses.
COUNTERS = (0, 1, 9, 10, 99, 100, 999, 1000, 9999, 65535)
PLACES = (0, 1, 0x7FFF, 0x8000, 0x8001, 0xFFFE, 0xFFFF, 0x1001)
REGISTERS = (0, 0x0130, 0x0910, 0x2345, 0x678A, 0xBCDE, 0xFFFF)
# When the first packet of a capture may come, and how far another one may be from it, in ticks.
BEGINNINGS = (0, 5, 999_999, 1_700_000_000_000_000, 4_294_967_295_999_999)
DISTANCES = (
    0, 1, 9, 10, 999, 1000, 99_999, 100_000, 999_999, 1_000_000, 1_000_001, 9_999_999, 10_000_000,
    999_999_999, 1_000_000_000, 1_000_000_001, 123_456_789_012, 4_000_000_000_000_000,
)
RESOLUTIONS = (6, 9, 3, 0x94)
ADDRESSES = bytes.fromhex("010105040000029af00fbcde")
APRD = bytes.fromhex("01010504000002010510000088a40c100109feff3001000000000000").ljust(48, b"\0")
# What damages the frame of that packet, and what makes of a UDP packet something else, each with its place.
FAULTS = (
    (14, "0c20"), (14, "0c40"), (14, "0c50"), (14, "0c18"), (14, "0010"), (14, "db15"),
    (14, "0510"), (14, "0d10"), (16, "0f09"), (22, "0008"), (22, "ff07"), (22, "0080"),
)
PIECES = ((20, "2000"), (20, "00b9"), (14, "4400"), (38, "0007"))
MICROSECONDS, NANOSECONDS, BLOCKS = range(3)
# What the listings of the captures of packets of every kind have to have, so that they try what they are made
# for; and a sum of their bytes, by which they are those that these words were looked up in.
WORDS = (
    " NOP 0x", " APRD -", " APWR 0:", " APRW 32767:", " ARMW -32768:", " FPRD 0x", " FPWR 0x", " FPRW 0x",
    " FRMW 0x", " BRD 0x", " BWR 0x", " BRW 0x", " LRD 0x", " LWR 0x", " LRW 0x", " - short\n",
    " - - short\n", " bad length\n", " fragment\n", " type 4\n", " type 5\n", " fault Short at ",
    " fault BadType at 1\n", " fault Reserved at ", " fault Empty at 0\n", " fault TooLong at 0\n",
    " fault BadCommand at ", " fault Overrun at ", " fault MoreAtEnd at ", " fault LeftOver at ",
    " fault Trailing at ", " 1486 wkc ", " 123 ",
)
TIMES = (
    " - 02:", " 0.000000 ", " 0.000000000 ", " 0.000001 ", " 0.999999 ", " 1.000000 ", " 1.000001 ",
    " 0.999999999 ", " 1.000000000 ", " -0.", " -1.",
)
SUM = 0x3BEA_050C_A057_0F81
CASES = []


class Chance:
    """Numbers that look drawn by lot: a linear congruential generator."""

    def __init__(self, seed):
        self.state = seed * 0x9E3779B97F4A7C15 % 2**64

    def draw(self):
        self.state = (self.state * 6_364_136_223_846_793_005 + 1_442_695_040_888_963_407) % 2**64
        return self.state >> 32

    def below(self, bound):
        return self.draw() % bound

    def pick(self, table):
        return table[self.below(len(table))]

    def once_in(self, times):
        return self.below(times) == 0

    def counter(self):
        return self.draw() % 65536 if self.once_in(4) else self.pick(COUNTERS)


# ---- frames and packets

def of_parts(chance, parts):
    """A frame of datagrams, each (code, index, address, length, counter), with data by chance."""
    frame = struct.pack("<H", 0x1000 + sum(12 + part[3] for part in parts) % 2048)
    for k, (code, index, address, length, counter) in enumerate(parts):
        more = 0x8000 if k + 1 < len(parts) else 0
        frame += struct.pack("<BBIHH", code, index, address, length + more, 0)
        frame += bytes(chance.draw() % 256 for _ in range(length)) + struct.pack("<H", counter)
    return frame


def of_lengths(chance, count, lengths):
    """A frame of so many datagrams of any kind, whose lengths are of a table."""
    parts = []
    for _ in range(count):
        length = chance.pick(lengths)
        address = chance.pick(PLACES) | chance.pick(REGISTERS) << 16
        if chance.once_in(4):
            address = chance.draw()
        parts.append((chance.draw() % 15, chance.draw() % 256, address, length, chance.counter()))
    return of_parts(chance, parts)


def few(chance):
    return of_lengths(chance, 1 + chance.below(6), LENGTHS)


def many(chance):
    """As many datagrams as a frame may have, or a hundred with a byte each."""
    return of_lengths(chance, 124, (0,)) if chance.once_in(2) else of_lengths(chance, 100, (1,))


def ethernet(frame):
    return (ADDRESSES + b"\x88\xa4" + frame).ljust(60, b"\0")


def in_udp(chance, version):
    """A frame in UDP over IPv4 or IPv6, once in four times with bytes behind it."""
    frame = few(chance)
    if chance.once_in(4):
        frame += b"\0\1"
    size = min(len(frame), 2000) + 8
    if version == 4:
        head = b"\x08\0\x45\0" + struct.pack(">H", size + 20) + bytes.fromhex("000700004011" + "0000")
        head += bytes([192, 168, 0, 1, 192, 168, 0, 2])
    else:
        head = b"\x86\xdd\x60\0\0\0" + struct.pack(">H", size) + bytes([17, 64]) + b"\xfe" * 32
    return ADDRESSES + head + b"\xc0\0\x88\xa4" + struct.pack(">HH", size, 0) + frame


def changed(packet, at, with_):
    """A packet with other bytes from a place on, where there are so many."""
    return packet[:at] + with_ + packet[at + len(with_):] if at + len(with_) <= len(packet) else packet


def any_packet(chance):
    """A packet: whole, long, behind a tag, in UDP, a piece, faulty, damaged, cut, or no EtherCAT."""
    kind = chance.below(16)
    if kind < 6:
        return ethernet(few(chance))
    if kind == 6:
        return ethernet(of_lengths(chance, 1, LONG))
    if kind == 7:
        return ethernet(many(chance))
    if kind == 8:
        return ADDRESSES + bytes.fromhex("8100e00588a4") + few(chance)
    if kind in (9, 10):
        return in_udp(chance, 4 if kind == 9 else 6)
    if kind == 11:
        packet = in_udp(chance, 4)
        at, with_ = chance.pick(PIECES)
        return changed(packet, at, bytes.fromhex(with_))
    if kind == 12:
        at, with_ = chance.pick(FAULTS)
        return changed(APRD, at, bytes.fromhex(with_))
    if kind == 13:
        packet = ethernet(few(chance))
        at = 14 + chance.below(40)
        return changed(packet, at, bytes([chance.draw() % 256]))
    if kind == 14:
        packet = ethernet(few(chance))
        return packet[:chance.below(30)]
    return ADDRESSES + b"\x08\x06" + b"\2" * 46


# ---- files

def words(*numbers):
    return struct.pack(f"<{len(numbers)}I", *numbers)


class File:
    """A capture: by turns its times are in microseconds, in nanoseconds, and in blocks of four interfaces."""

    def __init__(self, chance, layout):
        self.chance, self.layout = chance, layout
        if layout == BLOCKS:
            self.bytes = bytes.fromhex("0a0d0d0a1c0000004d3c2b1a01000000ffffffffffffffff1c000000")
            for resolution in RESOLUTIONS:
                options = bytes([9, 0, 1, 0, resolution, 0, 0, 0, 0, 0, 0, 0])
                self.bytes += words(1, 32, 1, 0) + options + words(32)
        else:
            magic = 0xA1B2C3D4 if layout == MICROSECONDS else 0xA1B23C4D
            self.bytes = words(magic, 0x00040002, 0, 0, 0x00040000, 1)
        self.begins = chance.pick(BEGINNINGS)

    def time(self):
        """A time behind the beginning or before it, or rarely the first or the last one of all."""
        distance, kind = self.chance.pick(DISTANCES), self.chance.below(16)
        if kind < 2:
            return (0, 2**64 - 1)[kind]
        return max(self.begins - distance, 0) if kind < 6 else self.begins + distance

    def put(self, time, packet):
        size, padded = len(packet), packet + bytes(-len(packet) % 4)
        if self.layout != BLOCKS:
            second, ticks = divmod(time, 10**9 if self.layout == NANOSECONDS else 10**6)
            when = (second, ticks) if second < 2**32 else (2**32 - 1, 2**32 - 1)
            self.bytes += words(*when, size, size) + packet
        elif self.chance.once_in(8):
            self.bytes += words(3, len(padded) + 16, size) + padded + words(len(padded) + 16)
        else:
            head = words(6, len(padded) + 32, self.chance.draw() % 4, time >> 32, time % 2**32, size, size)
            self.bytes += head + padded + words(len(padded) + 32)


def mixed(number):
    """A capture of packets of every kind, the first at its beginning; one in five is cut."""
    chance = Chance(number)
    file = File(chance, number % 3)
    for k in range(PACKETS):
        packet = any_packet(chance)
        file.put(file.time() if k else file.begins, packet)
    return file.bytes[:len(file.bytes) - chance.below(100)] if number % 5 == 4 else file.bytes


def long_lines():
    """A capture whose lines are the longest."""
    chance = Chance(0)
    file = File(chance, MICROSECONDS)
    for _ in range(PACKETS):
        packet = ethernet(of_lengths(chance, 1, LONG[:1]))
        file.put(file.time(), packet)
    return file.bytes


def part_of(group):
    """The datagram of a group, which in one thing alone is another than that of its neighbour."""
    step = group // 4 % 64
    code, index, address, length = 12, 7, 0x00010000, 4
    if group % 4 == 0:
        address += step
    elif group % 4 == 1:
        index += 1 + step
    elif group % 4 == 2:
        length += 1 + step
    else:
        code = step % 12
    return code, index, address, length


def group_at(chance, order, cycle, place, count):
    """Which group comes at a place of a cycle, or none: in one order, with some missed, turned, to and fro,
    or by chance."""
    if order == 1:
        return None if chance.once_in(4) else place
    if order == 2:
        return (place + cycle) % count
    if order == 3:
        return place if cycle % 2 == 0 else count - place - 1
    return place if order == 0 else chance.draw() % count


def cycles(number):
    """A capture of cycles of one to nineteen datagrams, of which now and then one has another counter."""
    chance = Chance(number)
    file = File(chance, number % 3)
    count = 1 + chance.draw() % 19
    for cycle in range(24):
        parts = []
        for place in range(count):
            group = group_at(chance, number % 5, cycle, place, count)
            if group is not None:
                counter = chance.counter() if chance.once_in(3) else 3
                parts.append((*part_of(group), counter))
        packet = ethernet(of_parts(chance, parts))
        file.put(file.begins + 1000 * cycle + chance.below(200), packet)
    return file.bytes


def one_of_many(packet, place):
    """Which of many groups comes at a place of a packet: all in one order, the last that is told apart and
    the first by turns, all in that order again, and then some far from each other."""
    if packet in (40, 41):
        return place % 2 * 4095
    if packet < 82:
        return packet % 42 * IN_A_FRAME + place
    return (place * 4095 + packet) % MANY


def many_groups():
    """A capture of more groups than are told apart, by their addresses."""
    chance = Chance(0)
    file = File(chance, NANOSECONDS)
    for number in range(100):
        parts = [(10, 0, one_of_many(number, k), 0, chance.counter()) for k in range(IN_A_FRAME)]
        file.put(file.begins + number * 1001, ethernet(of_parts(chance, parts)))
    return file.bytes


def stepped(number):
    """A capture of a few packets with two short lines each, of which the first is a byte longer than that of
    the number before, by a digit of its counter or by two of its data. So from one number to the next the end
    of the memory that a text has goes a byte back among the columns of the second, which is of a place on the
    line, of a station or of a logical address by turns; 72 numbers have all lengths."""
    chance = Chance(number)
    file = File(chance, MICROSECONDS)
    longer = (4, 0, 0x01301001, number // 2 % 36, 10 if number % 2 else 1)
    short = (*((1, 1, 0x0130FFFE), (5, 1, 0x01201001), (12, 1, 0x00010000))[number % 3], 3, 3)
    for k in range(4):
        file.put(file.begins + k * 1001, ethernet(of_parts(chance, (longer, short))))
    return file.bytes


def captures():
    """All captures that are made, each with its name."""
    for number in range(MIXED):
        yield f"mixed {number}", mixed(number)
    for number in range(MIXED, MIXED + CYCLES):
        yield f"cycles {number}", cycles(number)
    for number in range(MIXED + CYCLES, MIXED + CYCLES + STEPPED):
        yield f"stepped {number}", stepped(number)
    yield "long lines", long_lines()
    yield "many groups", many_groups()


def fronts_of(capture):
    """Where the header of a capture ends, or its section, and each packet or block behind it that is whole;
    and how many packets stand before."""
    classic = capture[:4] != bytes.fromhex("0a0d0d0a")
    at, packets = 24 if classic else 28, 0
    while at <= len(capture):
        yield at, packets
        if len(capture) < at + 16:
            return
        kind, size, captured = struct.unpack_from("<III", capture, at)
        packets += classic or kind in (3, 6)
        at += 16 + captured if classic else size


def there_and_back(layout, times):
    """A capture of a datagram that is sent and comes back, again and again: when each, in ticks."""
    chance = Chance(0)
    file = File(chance, layout)
    for number, (sent, back) in enumerate(times):
        for time, source, counter in ((sent, "001105040000", 0), (back, "021105040000", 3)):
            frame = of_parts(chance, ((12, number % 256, 0x00010000, 4, counter),))
            file.put(time, ADDRESSES[:6] + bytes.fromhex(source) + ethernet(frame)[12:])
    return file.bytes


# ---- cases

class Made:
    """A case of this file."""

    def __init__(self, function, limit):
        self.name, self.function, self.limit = function.__name__, function, limit

    def run(self, ecat, folder, _port):
        yield from self.function(ecat, os.path.join(folder, "c"), self.limit)


def cases(limit):
    return [Made(function, limit) for function in CASES]


def case(function):
    CASES.append(function)
    return function


def keep(path, capture):
    with open(path, "wb") as file:
        file.write(capture)


def handed_on(ecat, path, limit, live):
    """What each write of a listing hands on, of the file or, live, of standard input."""
    ours, theirs = socket.socketpair(socket.AF_UNIX, socket.SOCK_SEQPACKET)
    theirs.setsockopt(socket.SOL_SOCKET, socket.SO_SNDBUF, ROOM)
    pieces = []

    def take():
        while piece := ours.recv(ROOM):
            pieces.append(piece)

    taker = threading.Thread(target=take)
    taker.start()
    with ours, open(path, "rb") as source:
        listed = [ecat, "list", "-" if live else path]
        subprocess.run(listed, stdin=source, stdout=theirs, stderr=subprocess.DEVNULL, timeout=limit)
        theirs.close()
        taker.join()
    return pieces


def fault_of(pieces, live):
    """What is wrong with how lines are handed on, if anything: live those of each packet by themselves, else
    in pieces of 64 KiB at least, but for the last."""
    if any(not piece.endswith(b"\n") for piece in pieces):
        return "a piece ends within a line"
    if live:
        of_one = (len({line.split()[0] for line in piece.splitlines()}) == 1 for piece in pieces)
        return "" if all(of_one) else "lines of two packets at once"
    return "a short piece is not the last" if any(len(piece) < PIECE for piece in pieces[:-1]) else ""


@case
def list_fronts_lines_are_handed_on_whole(ecat, path, limit):
    for name, capture in [*((f"{k}", mixed(k)) for k in range(MIXED)), ("of long lines", long_lines())]:
        keep(path, capture)
        whole, live = (handed_on(ecat, path, limit, way) for way in (False, True))
        yield f"capture {name}", "", fault_of(whole, False) or fault_of(live, True)
        yield f"capture {name} live", b"".join(whole).decode(), b"".join(live).decode()
    yield "several pieces of long lines", "True", f"{1 < len(whole)}"


def packets_of(text, packets):
    """The lines of the first packets, with the names of the columns where there are some."""
    def is_among(line):
        number = line.replace(b",", b" ").split()[0]
        return not number.isdigit() or int(number) <= packets

    return b"".join(line for line in text.splitlines(True) if is_among(line))


def listed(ecat, path, form, limit):
    """How a listing of a file ended, its last line on standard error as far as a colon, and what it wrote."""
    done = subprocess.run([ecat, "list", *form, path], capture_output=True, timeout=limit)
    return done.returncode, done.stderr[:done.stderr.find(b":") + 1], done.stdout


@case
def list_fronts_of_a_capture_that_ends_early_the_packets_before_are_listed(ecat, path, limit):
    faults = []
    for capture in map(mixed, range(FRONTS)):
        keep(path, capture)
        wholes = [listed(ecat, path, form, limit)[2] for form in FORMS]
        fronts = list(fronts_of(capture))
        for (at, packets), (behind, _) in zip(fronts, fronts[1:]):
            for end in sorted({at, at + 1, (at + behind) // 2, behind - 1}):
                keep(path, capture[:end])
                ended = (0, b"") if end == at else (1, b"capture:")
                for form, whole in zip(FORMS, wholes):
                    if listed(ecat, path, form, limit) != (*ended, packets_of(whole, packets)):
                        faults.append(f"{packets} packets and {end - at} bytes {' '.join(form)}")
    yield "fronts", "", "\n".join(faults)


def with_room(room):
    """Lets a process write so many bytes into a file."""
    return lambda: resource.setrlimit(resource.RLIMIT_FSIZE, (room, room))


def rooms(ecat, path, limit):
    """The listings of long lines, and of faults, in rooms on both sides of a piece: what each is, its words,
    its room, and what it writes where it has room enough."""
    for form, capture in zip(FORMS, (long_lines(), long_lines(), mixed(0))):
        keep(path, capture)
        whole = listed(ecat, path, form, limit)[2]
        for room in ROOMS:
            for where in (path, "-"):
                words = [ecat, "list", *form, where]
                yield f"{' '.join(words[2:])} {room} bytes", words, room, whole


@case
def list_fronts_an_output_that_fails_has_a_front_of_what_is_told(ecat, path, limit):
    out = f"{path}.out"
    for what, words, room, whole in rooms(ecat, path, limit):
        with open(path, "rb") as source, open(out, "wb") as file:
            streams = {"stdin": source, "stdout": file, "stderr": subprocess.PIPE, "timeout": limit}
            # A process that is stopped for its file's size is told so instead where the signal is ignored.
            done = subprocess.run(words, **streams, preexec_fn=with_room(room), restore_signals=False)
        ended = (0, b"") if len(whole) <= room else (3, b"output: Write\n")
        with open(out, "rb") as file:
            yield what, f"{ended} True", f"{(done.returncode, done.stderr)} {file.read() == whole[:room]}"


@case
def list_fronts_an_output_that_is_closed_has_a_front_of_what_is_told(ecat, path, limit):
    for what, words, room, whole in rooms(ecat, path, limit):
        ours, theirs = os.pipe()
        fcntl.fcntl(ours, fcntl.F_SETPIPE_SZ, 4096)
        with open(path, "rb") as source:
            process = subprocess.Popen(words, stdin=source, stdout=theirs, stderr=subprocess.PIPE)
        os.close(theirs)
        seen = b""
        while len(seen) < room and (piece := os.read(ours, room - len(seen))):
            seen += piece
        os.close(ours)
        said = process.communicate(timeout=limit)[1]
        yield what, "(0, b'') True", f"{(process.returncode, said)} {seen == whole[:room]}"


def of_a_stream_that_fails(words, capture, limit):
    """How a command ended whose input is a stream that brings so much and then fails, and what it wrote."""
    with socket.create_server(("127.0.0.1", 0)) as server:
        ours = socket.create_connection(server.getsockname())
        theirs, _ = server.accept()
    with ours, theirs:
        process = subprocess.Popen(words, stdin=theirs, stdout=subprocess.PIPE, stderr=subprocess.PIPE)
        ours.sendall(capture)
        # A stream that is closed so has failed for who reads it, behind what was sent.
        ours.setsockopt(socket.SOL_SOCKET, socket.SO_LINGER, struct.pack("ii", 1, 0))
    out, said = process.communicate(timeout=limit)
    return process.returncode, said, out


@case
def list_fronts_of_a_source_that_fails_the_packets_before_are_told(ecat, path, limit):
    capture = mixed(0)
    for at, packets in (front for front in fronts_of(capture) if front[1] in (0, 1, 7, 39)):
        keep(path, capture[:at])
        for form in (*FORMS, ("--stats",)):
            wanted = listed(ecat, path, form, limit)[2]
            seen = of_a_stream_that_fails([ecat, "list", *form, "-"], capture[:at + 5], limit)
            yield f"{packets} packets {' '.join(form)}", f"{(3, FAILED_READ, wanted)}", f"{seen}"


@case
def list_fronts_made_captures_have_packets_of_every_kind(ecat, path, limit):
    text, total = "", 0
    for capture in map(mixed, range(MIXED)):
        keep(path, capture)
        text += subprocess.run([ecat, "list", path], capture_output=True, timeout=limit).stdout.decode()
        for byte in capture:
            total = (total * 1_099_511_628_211 + byte) % 2**64
    for word in WORDS + TIMES:
        yield f"listings with {word!r}", "True", f"{word in text}"
    yield "sum", f"{SUM:x}", f"{total:x}"


@case
def list_stats_alike_a_stream_has_the_sums_of_the_file(ecat, path, limit):
    captures = [(f"{k}", mixed(k)) for k in range(SUMMED)]
    captures += [(f"{k} of cycles", cycles(k)) for k in range(SUMMED)]
    for name, capture in captures:
        keep(path, capture)
        for options in ((), ("--index",)):
            summed = [ecat, "list", "--stats", *options]
            twice = subprocess.run([*summed, path], capture_output=True, timeout=limit)
            once = subprocess.run([*summed, "-"], input=capture, capture_output=True, timeout=limit)
            for what, wanted, seen in (
                ("output", twice.stdout.decode(), once.stdout.decode()),
                ("error", twice.stderr.decode(), once.stderr.decode()),
                ("status", f"{twice.returncode}", f"{once.returncode}"),
            ):
                yield f"capture {name} {' '.join(options)} {what}", wanted, seen


def seconds(nanoseconds, fine):
    """A time as it is told: to the microsecond, or to the nanosecond."""
    whole, part = divmod(nanoseconds, 10**9)
    return f"{whole}.{part:09}" if fine else f"{whole}.{part // 1000:06}"


def told_of_times(label, times, fine):
    """What is told of times: the least, the mean and the greatest; of a hundred and more also in which time
    shares of them are, and how many are up to each power of two. A time is told by its four highest binary
    digits; the longest ones, which have a bucket or a power in common, by the greatest."""
    def upper(time, digits):
        low = max(time.bit_length() - digits, 0)
        is_in_last = time >> 36 >= (15 if digits == 4 else 8)
        return greatest if is_in_last else min(((time >> low) + 1 << low) - 1, greatest)

    greatest, mean = max(times), sum(times) // len(times)
    text = f"  {label} " + " ".join(seconds(it, fine) for it in (min(times), mean, greatest)) + " s\n"
    if len(times) < 100:
        return text
    bounds = sorted(upper(time, 4) for time in times)
    shares = " ".join(seconds(bounds[-1 - len(times) // many], fine) for many in (2, 10, 100, 1000))
    powers = [max(upper(time, 1), min(7, greatest)) for time in times]
    counts = (f"{powers.count(power)} up to {seconds(power, fine)}" for power in sorted(set(powers)))
    return f"{text}  {label} at most {shares} s in 50 90 99 99.9 of 100\n  {label} {', '.join(counts)} s\n"


@case
def list_stats_shares_of_times_are_told(ecat, path, limit):
    steps = {
        "of a millisecond": (MICROSECONDS, [1000 + k % 7 for k in range(1000)] + [5000]),
        "of nanoseconds": (NANOSECONDS, list(range(1, 300)) + [2**k for k in range(9, 30)]),
        "of each power of two": (NANOSECONDS, [2**k + j for k in range(46) for j in (-1, 0, 1)][3:]),
        "that are too few": (MICROSECONDS, [1000] * 98 + [3000]),
        "that are just enough": (MICROSECONDS, [1000] * 99 + [3000]),
    }
    for name, (layout, gaps) in steps.items():
        fine, now, times = layout == NANOSECONDS, 10**9, []
        unit = 1 if fine else 1000
        for gap in [1, *gaps]:
            now += 2 * gap
            times.append((now, now + gap // 2))
        every = [(after[0] - before[0]) * unit for before, after in zip(times, times[1:])]
        back = [(it[1] - it[0]) * unit for it in times]
        keep(path, there_and_back(layout, times))
        wanted = f"LRW 0x00010000 4 bytes: {len(times)} sent, {len(times)} back of wkc 3\n"
        wanted += told_of_times("every", every, fine) + told_of_times("back in", back, fine)
        yield f"times {name}", wanted, listed(ecat, path, ("--stats",), limit)[2].decode().split("\n", 2)[2]
