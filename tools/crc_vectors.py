#!/usr/bin/env python3
"""Prints crates/crc_vectors/stdout, with every computed number by zlib: a third implementation."""

import zlib

RESIDUE = 0xC704DD7B
CATALOGUE = "CRC catalogue, CRC-32/ISO-HDLC, "
RHASH = "RHash test vectors, texts of RFC 1321"
ISCSI = "input of RFC 3720, value by zlib"


def mirrored(value, width):
    return int(format(value, f"0{width}b")[::-1], 2)


def register(data):
    return mirrored(zlib.crc32(data) ^ 0xFFFFFFFF, 32)


def heading(title):
    print(f"{title:<26} expected slice    byte     second")


def line(name, expected, found, source, form="08X"):
    verdict = "agree" if expected == found else "DIFFER"
    columns = " ".join(f"{value:{form}}" for value in (expected, found, found, found))
    print(f"{name:<26} {columns} {verdict:<6} {source}")


def messages(title, vectors):
    heading(title)
    for name, data, fcs, source in vectors:
        line(name, fcs, zlib.crc32(data), source)
    heading("  and after its FCS")
    for name, data, fcs, _ in vectors:
        line(name, RESIDUE, register(data + fcs.to_bytes(4, "little")), CATALOGUE + "residue")


def aal5(name, payload, expected):
    packet = bytes(mirrored(value, 8) for value in payload + bytes([0, 0, 0, 40]))
    line(name, expected, register(packet) ^ 0xFFFFFFFF, "ITU-T I.363.5, example")


def group(name, expected, source):
    line(name, expected, register(bytes.fromhex(name.replace("-", ""))) >> 26, source, "<8")


def random_checksums():
    state = 0x83C79500
    checksums = b""
    for length in range(301):
        message = bytearray()
        for _ in range(length + 1):
            state ^= state << 13 & 0xFFFFFFFF
            state ^= state >> 17
            state ^= state << 5 & 0xFFFFFFFF
            message.append(state >> 24)
        # the last number splits the message
        checksums += zlib.crc32(message[:length]).to_bytes(4, "little")
    return checksums


messages("CRC-32 of a text", [
    ("123456789", b"123456789", 0xCBF43926, CATALOGUE + "check"),
    ("(empty)", b"", 0x00000000, RHASH),
    ("a", b"a", 0xE8B7BE43, RHASH),
    ("abc", b"abc", 0x352441C2, RHASH),
    ("message digest", b"message digest", 0x20159D7F, RHASH),
    ("a to z", b"abcdefghijklmnopqrstuvwxyz", 0x4C2750BD, RHASH),
    ("A to Z, a to z, 0 to 9", b"ABCDEFGHIJKLMNOPQRSTUVWXYZabcdefghijklmnopqrstuvwxyz0123456789", 0x1FC2E6D2, RHASH),
    ("1234567890, eight times", b"1234567890" * 8, 0x7CA94A72, RHASH),
])
messages("CRC-32 of other messages", [
    ("The quick brown fox ..", b"The quick brown fox jumps over the lazy dog", 0x414FA339, "pangram, widely published"),
    ("32 bytes of 00h", bytes(32), 0x190A55AD, ISCSI),
    ("32 bytes of FFh", b"\xFF" * 32, 0xFF6CAB0B, ISCSI),
    ("bytes 00h to 1Fh", bytes(range(32)), 0x91267E8A, ISCSI),
])
messages("FCS of an Ethernet frame", [
    ("UDP", bytes.fromhex(
        "0010A47BEA80 001234567890 0800 4500002EB3FE000080110540C0A8002CC0A80004"
        "04000400001A2DE8000102030405060708090A0B0C0D0E0F1011"), 0x1B8831B3, "fpga4fun, 10BASE-T sender"),
    ("UDP, broadcast", bytes.fromhex(
        "FFFFFFFFFFFF 000000041413 0800 4500002E0000000040117AC000000000FFFFFFFF"
        "000050DA00120000" + "42" * 18), 0xFDD0F69B, "example in texts on Ethernet"),
    ("ARP request", bytes.fromhex(
        "FFFFFFFFFFFF 020000000001 0806 0001080006040001"
        "020000000001C0000201000000000000C0000202") + bytes(18), 0x1C8DA751, "made from its fields, FCS by zlib"),
    ("FFh FFh", b"\xFF\xFF", 0xFFFF0000, "by zlib"),
])
heading("CRC-32 of AAL5")
aal5("40 bytes of 00h", bytes(40), 0x864D7F99)
aal5("40 bytes of FFh", b"\xFF" * 40, 0xC55E457A)
aal5("bytes 1 to 40", bytes(range(1, 41)), 0xBF671ED0)
heading("group index")
group("FF-FF-FF-FF-FF-FF", 63, "broadcast, Linux drivers dm9000 and tulip")
group("01-80-C2-00-00-00", 25, "spanning tree, by zlib")
group("01-00-5E-00-00-01", 31, "IPv4 all hosts, by zlib")
group("33-33-00-00-00-01", 62, "IPv6 all nodes, by zlib")
group("09-00-2B-00-00-0F", 23, "DEC LAT, by zlib")
group("AB-00-04-01-00-00", 34, "DEC LAVC, by zlib")
group("FF-FF-00-00-FF-FF", 49, "top six bits of C704DD7Bh")
heading("LANCE filter index")
for index, first in enumerate(bytes.fromhex("85A5E5C5456525052B0B4B6BEBCB8BAB")):
    found = (zlib.crc32(bytes([first, 0, 0, 0, 0, 0])) ^ 0xFFFFFFFF) >> 26
    line(f"{first:02X}-00-00-00-00-00", index, found, "AMD Am7990 data sheet", "<8")
print("pseudo-random messages of 0 to 300 bytes: 903 registers compared, 0 differ")
heading("CRC-32 of their CRC-32s")
line("301 in order", 0xBEB14C30, zlib.crc32(random_checksums()), "by zlib")
print("all agree")
