#!/usr/bin/env python3
"""Makes the stores of the first version that src/old_stores.rt has, and one tag of the tests of `test_stores`, from the
definition of that form alone: `python3 old_stores.py` prints the arrays. Numbers are big-endian, and a tag is the first 8 bytes of the SHA-256 digest of all bytes before it."""
import hashlib

# the words of the stripes of packets 0 to 5 of the example session, as its datagram file has them
WORDS = """
0000000012010007000000000000112201b80001084401b7010000000000
00040000120102070f00000401b3112232b80001084401b7541067196f77
00080000120104071e0000080366112267b80001084401b7452b026dfce5
000c0000120106071100000c02d5112254b80001084401b7103b217f9392
00100000120108073c00001006cc1122cdb80001084401b70167046861ed
0014000012010a0733000014077f1122feb80001084401b75477eb400e9a
""".split()
SESSION = bytes.fromhex("a5ac9461b03bcf36")
LAYERS = [(46, 2), (7, 3), (15, 5)]


def tagged(text):
    return text + hashlib.sha256(text).digest()[:8]


def frame(groups, packets, number, layers, words):
    head = b"PET1" + SESSION + groups.to_bytes(4, "big") + bytes(4) + packets.to_bytes(2, "big") + number.to_bytes(2, "big")
    table = b"".join(length.to_bytes(4, "big") + need.to_bytes(2, "big") for length, need in layers)
    return tagged(head + bytes([len(layers)]) + table + words)


def store(frames):
    entries = b"".join(len(f).to_bytes(2, "big") + f for f in frames)
    return tagged(b"PETS" + SESSION + len(frames).to_bytes(4, "big") + entries)


def array(kind, name, doc, data):
    print(f"/// {doc}\n{kind} {name}: [u8; {len(data)}] = [")
    for at in range(0, len(data), 16):
        print("    " + " ".join(f"0x{byte:02X}," for byte in data[at:at + 16]))
    print("];\n")


PACKETS = [frame(1, 6, number, LAYERS, bytes.fromhex(words)) for number, words in enumerate(WORDS)]
WIDE = frame(1, 1, 0, [(64960, 1)], bytes(64960))
assert len(WIDE) == 64999
array("static", "OLD", "The store of packets 0 to 5.", store(PACKETS))
array("pub const", "OLD_EMPTY_STORE", "The store of no packet, in the first version.", store([]))
array("const", "WIDE_TAG", "The tag of a packet of 64,999 bytes, all of whose words are 0.", WIDE[-8:])
array("const", "WIDE_STORE_TAG", "The tag of the store of that packet alone.", store([WIDE])[-8:])
TWO_GROUPS = frame(2, 6, 1, LAYERS, bytes.fromhex(WORDS[1]))
array("const", "OLD_TWO_GROUPS", "The tag of packet 1 as of a session of two groups.", TWO_GROUPS[-8:])
