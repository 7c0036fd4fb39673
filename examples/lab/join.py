#!/usr/bin/env python3
"""Joins a group of one source by IGMPv3, and counts what comes: `join.py SOURCE GROUP PORT OWN SECONDS`. OWN is the host's address."""

import socket
import sys
import time

source, group, port, own, seconds = sys.argv[1:]
end = time.time() + float(seconds)
receiver = socket.socket(socket.AF_INET, socket.SOCK_DGRAM)
receiver.bind((group, int(port)))
# the fields of struct ip_mreq_source as Linux orders them
fields = b''.join(map(socket.inet_aton, (group, own, source)))
receiver.setsockopt(socket.IPPROTO_IP, getattr(socket, 'IP_ADD_SOURCE_MEMBERSHIP', 39), fields)
count = 0
while (left := end - time.time()) > 0:
    receiver.settimeout(left)
    try:
        receiver.recv(2048)
        count += 1
    except TimeoutError:
        break
print(f'{own} got {count} datagrams from {source} to {group}')
