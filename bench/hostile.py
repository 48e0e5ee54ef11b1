#!/usr/bin/env python3
"""Writes a hostile list of lines, drawn from a seed, for `pair`, or for `station sim` and the small station.
usage: bench/hostile.py pair|sim KIND LINES [SEED]

openings  a client that is made anew again and again, each time with openings of its own; losses of old and new ones, losses
          that come twice, damaged and late deliveries
copies    the same with few clocks and numbers, so that each opening has thousands of equal copies"""
import functools, itertools, random, struct, sys

MASK = 0xFFFFFFFF
STANDARD = (0x67452301, 0xEFCDAB89, 0x98BADCFE, 0x10325476)
ROUNDS = (
    (lambda x, y, z: (x & y) | (~x & z), 0, list(range(16)), (3, 7, 11, 19)),
    (lambda x, y, z: (x & y) | (x & z) | (y & z), 0x5A827999, [i % 4 * 4 + i // 4 for i in range(16)], (3, 5, 9, 13)),
    (lambda x, y, z: x ^ y ^ z, 0x6ED9EBA1, [0, 8, 4, 12, 2, 10, 6, 14, 1, 9, 5, 13, 3, 11, 7, 15], (3, 9, 11, 15)),
)


def md4(text):
    padded = text + b"\x80" + b"\0" * (-(len(text) + 9) % 64) + struct.pack("<Q", 8 * len(text))
    state = STANDARD
    for block in range(0, len(padded), 64):
        words = struct.unpack("<16I", padded[block : block + 64])
        a, b, c, d = state
        for mix, constant, order, turns in ROUNDS:
            for step, k in enumerate(order):
                a = (a + (mix(b, c, d) & MASK) + words[k] + constant) & MASK
                turn = turns[step % 4]
                a, b, c, d = d, (a << turn | a >> (32 - turn)) & MASK, b, c
        state = tuple((x + y) & MASK for x, y in zip(state, (a, b, c, d)))
    return struct.pack("<4I", *state)


def pdu(kind, receiver, sender, number, confirmed, stamp, returned, payload=b""):
    head = struct.pack("<HHIIIIII", 36 + len(payload), kind, receiver, sender, number, confirmed, stamp & MASK, returned & MASK)
    return head + payload + md4(head + payload)[:8]


@functools.lru_cache(100)
def opening(server, number, stamp):
    """The connection request of the client to a server of this identity."""
    return pdu(6200, server, 1, number, 0, stamp, 0, b"0303" + struct.pack("<H", 20) + bytes(8))


def damaged(draw, text):
    """One bit is turned."""
    place = draw.randrange(8 * len(text))
    return text[: place // 8] + bytes([text[place // 8] ^ 1 << place % 8]) + text[place // 8 + 1 :]


def openings(draw, client, servers, numbers):
    """Its openings take the client three lines; between them stand other events."""
    sent = []
    while True:
        clock = draw.randrange(numbers)
        number = draw.randrange(numbers)
        yield f"restart {client} {clock} {number}"
        yield "time 6000000"
        yield f"tick {client}"
        sent += [(server, opening(identity, number, clock + 6000)) for server, identity in servers.items()]
        for _ in range(draw.randrange(4)):
            (server, old), (newest, new) = draw.choice(sent), sent[-1]
            yield draw.choice((
                f"lose {old.hex()}",
                f"lose {old.hex()}",
                f"lose {new.hex()}",
                f"deliver {newest} {new.hex()}",
                f"deliver {server} {old.hex()}",
                f"deliver {server} {damaged(draw, old).hex()}",
                f"restart {server} {clock} {number}",
                f"tick {server}",
                "time 700",
            ))


# the client, and the servers with their identities
PROGRAMS = {"pair": ("C", {"S": 2}), "sim": ("IXL1", {"S1": 2, "S3": 3, "S4": 4, "P1": 10, "D1": 20})}
# below which number clocks and first sequence numbers are drawn
KINDS = {"openings": 1 << 32, "copies": 4}


def main():
    if len(sys.argv) not in (4, 5) or sys.argv[1] not in PROGRAMS or sys.argv[2] not in KINDS:
        sys.exit(__doc__)
    client, servers = PROGRAMS[sys.argv[1]]
    draw = random.Random(int(sys.argv[4]) if len(sys.argv) == 5 else 1)
    for line in itertools.islice(openings(draw, client, servers, KINDS[sys.argv[2]]), int(sys.argv[3])):
        print(line)


if __name__ == "__main__":
    main()
