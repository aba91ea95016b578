#!/usr/bin/env python3
"""Makes startup.pcap, the start-up of one slave and three cycles as a sniffer at the master's port sees them,
and startup.out, the lines that `ecat show` prints of it. Each telegram stands twice: as it is sent, and as it
comes back."""
import pathlib
import struct

NAMES = "NOP APRD APWR APRW FPRD FPWR FPRW BRD BWR BRW LRD LWR LRW ARMW FRMW".split()
MASTER = bytes.fromhex("ffffffffffff" "020000000001")
PASSED = bytes.fromhex("ffffffffffff" "030000000001")


def datagram(name, index, adp, ado, data, counter=0, more=False):
    head = struct.pack("<BBHHHH", NAMES.index(name), index, adp, ado, len(data) | (0x8000 if more else 0), 0)
    return head + data + struct.pack("<H", counter)


def frame(*parts):
    body = b"".join(datagram(*part, more=k + 1 < len(parts)) for k, part in enumerate(parts))
    return struct.pack("<H", 0x1000 | len(body)) + body


def line(name, index, adp, ado, data, counter=0):
    where = f"log {ado:04x}{adp:04x}" if name in ("LRD", "LWR", "LRW") else f"adp {adp:04x} ado {ado:04x}"
    return f"  {name} index {index} {where} length {len(data)} irq 0000 counter {counter} data {data.hex() or '-'}"


packets, lines = [], []


def telegram(sent, received):
    for source, parts in ((MASTER, sent), (PASSED, received)):
        payload = frame(*parts)
        packets.append(source + b"\x88\xa4" + payload.ljust(46, b"\0"))
        lines.append(f"packet {len(packets) - 1} datagrams {len(parts)}")
        lines.extend(line(*part) for part in parts)


def exchange(name, index, adp, ado, data, answer=None, counter=1, adp_back=None):
    back = adp if adp_back is None else adp_back
    telegram([(name, index, adp, ado, data)], [(name, index, back, ado, data if answer is None else answer, counter)])


ZERO = b"\0\0"
exchange("BRD", 0, 0, 0x0130, ZERO, b"\x01\0", adp_back=1)
exchange("APWR", 1, 0, 0x0010, b"\x01\x10", adp_back=1)
exchange("FPWR", 2, 0x1001, 0x0810, bytes.fromhex("0010010004000100"))
exchange("FPWR", 3, 0x1001, 0x0818, bytes.fromhex("0011010000000100"))
exchange("FPWR", 4, 0x1001, 0x0600, bytes.fromhex("00000100010000070010000201000000"))
exchange("FPWR", 5, 0x1001, 0x0610, bytes.fromhex("00000100010000070011000101000000"))
for index, state in ((6, 2), (8, 4), (10, 8)):
    exchange("FPWR", index, 0x1001, 0x0120, bytes([0x10 | state, 0]))
    exchange("FPRD", index + 1, 0x1001, 0x0130, bytes(6), bytes([state, 0, 0, 0, 0, 0]))
for output, measured in ((0x5A, 0x12), (0xA5, 0x13), (0xFF, 0x14)):
    telegram([("LRW", 0, 0, 1, bytes([output])), ("BRD", 1, 0, 0x0130, ZERO)],
             [("LRW", 0, 0, 1, bytes([measured]), 3), ("BRD", 1, 1, 0x0130, b"\x08\0", 1)])
packets.append(bytes.fromhex("ffffffffffff0200000000010806") + bytes(46))
lines.append(f"packet {len(packets) - 1} ethertype 0806")

here = pathlib.Path(__file__).parent
with open(here / "startup.pcap", "wb") as capture:
    capture.write(struct.pack("<IHHiIII", 0xA1B2C3D4, 2, 4, 0, 0, 65535, 1))
    for k, packet in enumerate(packets):
        capture.write(struct.pack("<IIII", 1_700_000_000, 250 * k, len(packet), len(packet)) + packet)
(here / "startup.out").write_text("\n".join(lines) + "\n")
