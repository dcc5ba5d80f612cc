"""Captures for Wireshark: each packet is a terminal's command to a SIM with the card's answer, as GSMTAP over UDP, in a classic pcap file."""

import struct

PORT, UDP, RAW_IP = 4729, 17, 101
VERSION, WORDS, SIM = 2, 4, 4
THIS_MACHINE = bytes([127, 0, 0, 1])
ADDRESSES = THIS_MACHINE * 2
IN_ONE_PIECE = 0x4000
LONGEST = 65535
TOOLKIT_CLASS = 0x80
PROFILE, FETCH, RESPONSE, ENVELOPE = 0x10, 0x12, 0x14, 0xC2
DONE, WAITING, WRONG_LENGTH, WRONG_DATA, NOT_NOW = 0x9000, 0x9100, 0x6700, 0x6A80, 0x6985


def checksum(data):
    """The internet checksum: the complement of the sum of 16-bit words, carries added at the low end."""
    total = sum(struct.unpack(f">{(len(data) + 1) // 2}H", data + bytes(len(data) % 2)))
    while total > 0xFFFF:
        total = (total >> 16) + (total & 0xFFFF)
    return 0xFFFF - total


def datagram(payload):
    length = 8 + len(payload)
    covered = ADDRESSES + struct.pack(">6H", UDP, length, PORT, PORT, length, 0) + payload
    return struct.pack(">4H", PORT, PORT, length, checksum(covered) or 0xFFFF) + payload


def packet(apdu):
    inner = datagram(struct.pack(">BBB13x", VERSION, WORDS, SIM) + apdu)
    head = struct.pack(">BBHHHBB", 0x45, 0, 20 + len(inner), 0, IN_ONE_PIECE, 64, UDP)
    return head + struct.pack(">H", checksum(head + ADDRESSES)) + ADDRESSES + inner


def capture(commands):
    """The file for commands given as (second, instruction, data, status word)."""
    whole = [struct.pack("<IHHiIII", 0xA1B2C3D4, 2, 4, 0, 0, LONGEST, RAW_IP)]
    for second, instruction, data, status in commands:
        sent = packet(bytes([TOOLKIT_CLASS, instruction, 0, 0, len(data)]) + data + status.to_bytes(2, "big"))
        whole.append(struct.pack("<4I", second, 0, len(sent), len(sent)) + sent)
    return b"".join(whole)
