#!/usr/bin/env python3
"""host.py ADDRESS PLACE [VALUE]: reads the 32-bit word at a place, or writes it, by Etherbone 1.0 with 32-bit addresses."""
import socket
import struct
import sys

HEADER = bytes.fromhex("4E6F1044")  # magic, version 1, addresses and port of 32 bits
CYC_READ, WRITE_CYC = 0x88, 0x08  # one record, whose cycle ends with it; a reply goes to the place that a read names


def receive(link, count):
    """Takes exactly so many octets of a link."""
    octets = b""
    while len(octets) < count:
        piece = link.recv(count - len(octets))
        if not piece:
            raise SystemExit("the peer ended after %d octets" % len(octets))
        octets += piece
    return octets


def main(address, place, value=None):
    host, port = address.rsplit(":", 1)
    with socket.create_connection((host, int(port))) as link:
        link.sendall(HEADER)
        assert receive(link, 4) == bytes.fromhex("4E6F1444"), "no Etherbone of 32 bits"
        if value is not None:
            link.sendall(struct.pack(">BBBBII", WRITE_CYC, 0x0F, 1, 0, place, value))
        link.sendall(struct.pack(">BBBBII", CYC_READ, 0x0F, 0, 1, 0, place))
        print("%08X" % struct.unpack(">BBBBII", receive(link, 12))[5])


main(sys.argv[1], *(int(word, 0) for word in sys.argv[2:]))
