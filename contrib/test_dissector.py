"""Compares what tshark prints for datagrams, with the dissector s10.lua, with what `s10 show` prints.

    S10=/path/to/s10 python3 test_dissector.py [FILE.pcap]

The datagrams are valid ones of each kind, and valid ones cut, lengthened or changed by a seeded choice. They are written
to a file of packets, FILE.pcap if it is given, which tshark reads. Without S10 the program `s10` of the PATH is used.
"""

import os
import random
import shutil
import struct
import subprocess
import sys
import tempfile
from pathlib import Path

PROGRAM = os.environ.get("S10") or shutil.which("s10") or sys.exit("no program: set S10, or put s10 on the PATH")
PORT, OTHER_PORT = 4711, 40000
COUNT = 2000

ID, OTHER_ID = b"RA000000014GB", b"RA000000005GB"


def right_ones():
    """Returns each kind of request, and each reply with each outcome that fits it."""
    def head(kind, customer=7, number=1):
        return struct.pack(">2sBBII", b"S1", 2 if kind & 0x7f >= 5 else 1, kind, customer, number)

    number = struct.Struct(">I").pack
    bodies = {1: number(7) + b"RAGB" + number(0) + number(99999999), 2: b"RAGB", 3: ID, 4: ID,
              5: b"RAGB\2", 6: number(1)}
    refusals = {1: (1, 2, 3, 9), 2: (4, 5, 9), 3: (6, 7, 8, 9), 4: (6, 9), 5: (4, 5, 9), 6: (1, 9, 10, 11)}
    done = {1: [number(1), number(2**32 - 1)], 2: [number(20000) + OTHER_ID], 3: [b""],
            4: [b"\0" + number(0), b"\1" + number(0), b"\2" + number(20030), b"\3" + number(2**32 - 1)],
            5: [number(20000) + OTHER_ID + ID], 6: [b""]}
    found = []
    for kind, body in bodies.items():
        found.append(head(kind) + body)
        found.append(head(kind, 2**32 - 1, 2**32 - 1) + body)
        found += [head(kind | 0x80) + body + bytes([code]) for code in refusals[kind]]
        found += [head(kind | 0x80) + body + b"\0" + rest for rest in done[kind]]
    return found


def changed(datagram, choose):
    """Returns the datagram with a few bytes changed, or cut, or lengthened."""
    data = bytearray(datagram)
    way = choose.randrange(8)
    if way == 0:
        del data[choose.randrange(len(data)):]
    elif way == 1:
        data += bytes(choose.choice((1, 1, 2, 40, 200)))
    else:
        for _ in range(choose.choice((1, 1, 1, 2))):
            data[choose.randrange(2 if choose.random() < 0.9 else 0, len(data))] = choose.choice((
                choose.randrange(256), choose.randrange(12), choose.randrange(0x30, 0x3a), choose.randrange(0x41, 0x5b)))
    return bytes(data)


def write_packets(path, datagrams):
    """Writes a pcap file of IPv4 packets without a link layer. Replies go the other way."""
    def checksum(data):
        total = sum(struct.unpack(f">{len(data) // 2}H", data))
        total = (total & 0xffff) + (total >> 16)
        return ~((total & 0xffff) + (total >> 16)) & 0xffff

    with open(path, "wb") as file:
        file.write(struct.pack("<IHHiIII", 0xa1b2c3d4, 2, 4, 0, 0, 65535, 101))
        for at, data in enumerate(datagrams):
            is_reply = len(data) >= 4 and data[3] >= 0x80
            ports = (PORT, OTHER_PORT) if is_reply else (OTHER_PORT, PORT)
            header = struct.pack(">BBHHHBBH4s4s", 0x45, 0, 28 + len(data), at & 0xffff, 0, 64, 17, 0,
                                 bytes([127, 0, 0, 1]), bytes([127, 0, 0, 1]))
            header = header[:10] + struct.pack(">H", checksum(header)) + header[12:]
            packet = header + struct.pack(">HHHH", *ports, 8 + len(data), 0) + data
            file.write(struct.pack("<IIII", 1700000000 + at, 0, len(packet), len(packet)) + packet)


def main():
    """Compares, and prints how many were compared."""
    if "with Lua" not in subprocess.run(["tshark", "--version"], capture_output=True, text=True, check=True).stdout:
        print("skipped: tshark with Lua")
        return 0
    choose = random.Random(1)
    rights = right_ones()
    datagrams = rights + [changed(choose.choice(rights), choose) for _ in range(COUNT)]
    datagrams = [data for data in datagrams if data]
    with tempfile.TemporaryDirectory() as folder:
        path = sys.argv[1] if len(sys.argv) > 1 else os.path.join(folder, "datagrams.pcap")
        write_packets(path, datagrams)
        printed = subprocess.run(
            ["tshark", "-X", f"lua_script:{Path(__file__).parent / 's10.lua'}", "-d", f"udp.port=={PORT},s10",
             "-r", path, "-T", "fields", "-e", "_ws.col.Info"],
            capture_output=True, text=True, check=True).stdout.splitlines()
    assert len(printed) == len(datagrams), (len(printed), len(datagrams))
    wrong, kinds = 0, {}
    for data, line in zip(datagrams, printed):
        shown = subprocess.run([PROGRAM, "show", data.hex()], capture_output=True, text=True, check=False).stdout.strip()
        word = " ".join(shown.split()[:2])
        kinds[word] = kinds.get(word, 0) + 1
        if shown != line:
            wrong += 1
            print(f"{data.hex()}\n  s10     {shown}\n  tshark  {line}")
    print(f"{len(datagrams)} datagrams, {wrong} shown otherwise: "
          + ", ".join(f"{word} {count}" for word, count in sorted(kinds.items())))
    return wrong != 0


if __name__ == "__main__":
    sys.exit(main())
