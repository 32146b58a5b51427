"""Writes monday.mrt and tuesday.mrt, two small tables of TABLE_DUMP_V2 (RFC 6396).

days.py FOLDER

The collector has two peers, the ASes 30 and 40. Each route is of a prefix of its own, 10.0.0.0/24 and so on.
"""
import struct
import sys

BOTH = [
    [30, 10, 40, 50],
    [30, 20, 40, 50],
    [40, 50, 10, 30],
    [40, 50, 20, 30],
]
DAYS = {
    "monday": BOTH,
    "tuesday": BOTH + [
        [40, 50, 10, 60],  # 10 has a new customer
        [40, 10, 30, 20],  # a leak: 30 passes the route of its provider 20 to its provider 10
    ],
}
PEERS = [30, 40]


def record(subtype, body):
    return struct.pack(">IHHI", 0, 13, subtype, len(body)) + body


def peer_table():
    peers = [struct.pack(">B4s4BI", 2, bytes([10, 0, 0, place]), 192, 0, 2, place, peer) for place, peer in enumerate(PEERS, 1)]
    return record(1, struct.pack(">4BHH", 192, 0, 2, 0, 0, len(PEERS)) + b"".join(peers))


def route(place, path):
    segment = struct.pack(f">BB{len(path)}I", 2, len(path), *path)
    attributes = bytes([0x40, 1, 1, 0]) + struct.pack(">BBB", 0x40, 2, len(segment)) + segment
    entry = struct.pack(">HIH", PEERS.index(path[0]), 0, len(attributes)) + attributes
    return record(2, struct.pack(">IB3BH", place, 24, 10, 0, place, 1) + entry)


def main():
    for day, paths in DAYS.items():
        with open(f"{sys.argv[1]}/{day}.mrt", "wb") as file:
            file.write(peer_table() + b"".join(route(place, path) for place, path in enumerate(paths)))


main()
