#!/usr/bin/env python3
"""A control task: counts in the first byte of the outputs, one up in each cycle, and prints the inputs.

    ecat master SCENE --at 127.0.0.1:34980,127.0.0.1:34981 --every 1000 --io 127.0.0.1:34990
    examples/task.py HOST PORT OUTPUTS CYCLES

OUTPUTS is how many bytes of outputs a cycle has, as `ecat master` tells at its start. docs/IO.md says what
stands in the packets.
"""
import select
import socket
import struct
import sys

ORDER, REPORT = struct.Struct("<4sBBHQ"), struct.Struct("<4sBBHQQBBHIQ")
ENDS = ["good", "short", "over", "port failed", "stranger"]
NONE = 2**64 - 1

host, port, count, cycles = sys.argv[1], *map(int, sys.argv[2:5])
line = socket.socket(type=socket.SOCK_DGRAM)
line.connect((host, port))
line.settimeout(1)
seen, inputs = NONE, b""
for number in range(cycles):
    outputs = (number.to_bytes(8, "little") + bytes(count))[:count]
    line.send(ORDER.pack(b"EcIO", 1, 1, count, seen) + outputs)
    packet = line.recv(65535)
    while select.select([line], [], [], 0)[0]:  # who was slow goes on with the last cycle
        packet = line.recv(65535)
    _, _, _, length, seen, time, end, flags, item, late, inputs_of = REPORT.unpack_from(packet)
    if packet[REPORT.size :] != inputs or ENDS[end] != "good":
        inputs = packet[REPORT.size :]
        print(f"cycle {seen} {ENDS[end]}{' not all in Op' if flags & 1 else ''}: inputs {inputs.hex()}")
