#!/usr/bin/env python3
"""Sends one Join/Prune message that joins a flow (RFC 7761 section 4.9.5): `pim_join.py SOURCE GROUP NEIGHBOUR OWN`.

NEIGHBOUR is the router's own address on the link, and OWN that of the customer's router, which is this host.
"""

import socket
import struct
import sys

source, group, neighbour, own = map(socket.inet_aton, sys.argv[1:])


def checksum(octets):
    total = sum(struct.unpack(f'>{len(octets) // 2}H', octets))
    while total > 0xffff:
        total = (total & 0xffff) + (total >> 16)
    return struct.pack('>H', 0xffff - total)


holdtime, ipv4, sparse = 210, b'\1\0', 4
body = ipv4 + neighbour + b'\0\1' + struct.pack('>H', holdtime)
body += ipv4 + bytes([0, 32]) + group + struct.pack('>HH', 1, 0) + ipv4 + bytes([sparse, 32]) + source
router = socket.socket(socket.AF_INET, socket.SOCK_RAW, 103)
router.setsockopt(socket.IPPROTO_IP, socket.IP_MULTICAST_IF, own)
router.sendto(b'\x23\0' + checksum(b'\x23\0\0\0' + body) + body, ('224.0.0.13', 0))
