#!/usr/bin/env python3
"""perf_data.py TEXT NAME PERF.DATA: a recording that `perf script` prints as this branch text, for machines that
record no branches. A load of the file NAME, from 0x401000 on, stands in front.

Source: linux/perf_event.h; perf's perf.data-file-format.txt.
"""
import struct
import sys

IP, TID, BRANCH_STACK = 1 << 0, 1 << 1, 1 << 11
SAMPLE_ID_ALL = 1 << 18
PROCESS = struct.pack("<II", 7, 7)


def record(kind, body):
    body += bytes(-len(body) % 8)
    return struct.pack("<IHH", kind, 2, 8 + len(body)) + body


def load(name):
    ids = struct.pack("<QQQIIQQII", 0x401000, 0x1000, 0x1000, 8, 2, 5, 0, 5, 2)
    path = name.encode() + b"\0"
    return record(10, PROCESS + ids + path + bytes(-len(path) % 8) + PROCESS)


def entry(field):
    source, target, missed, _, _, cycles = field.split("/")[:6]
    flags = {"M": 1, "P": 2}.get(missed, 0) | int(cycles) << 4
    return struct.pack("<QQQ", int(source, 16), int(target, 16), flags)


def sample(line):
    pointer, *fields = line.split()
    body = struct.pack("<Q", int(pointer, 16)) + PROCESS + struct.pack("<Q", len(fields))
    return record(9, body + b"".join(map(entry, fields)))


def main():
    text, name, out = sys.argv[1:]
    comm = record(3, PROCESS + b"words\0\0\0" + PROCESS)
    with open(text) as lines:
        data = comm + load(name) + b"".join(sample(line) for line in lines if line.strip())
    kinds = IP | TID | BRANCH_STACK
    event = struct.pack("<IIQQQQQIIQQQ", 0, 112, 0, 4999, kinds, 0, 1 | SAMPLE_ID_ALL, 0, 0, 0, 0, 1)
    event += bytes(112 - len(event))
    start = 104 + 128
    head = b"PERFILE2" + struct.pack("<QQQQQQQQ", 104, 128, 104, 128, start, len(data), 0, 0) + bytes(32)
    with open(out, "wb") as file:
        file.write(head + event + bytes(16) + data)


main()
