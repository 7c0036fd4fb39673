#!/usr/bin/env python3
"""Sends datagrams, ten a second, every other one a long one: `send.py OWN GROUP PORT TTL COUNT TEXT`."""

import socket
import sys
import time

own, group, port, ttl, count, text = sys.argv[1:]
sender = socket.socket(socket.AF_INET, socket.SOCK_DGRAM)
sender.setsockopt(socket.IPPROTO_IP, socket.IP_MULTICAST_IF, socket.inet_aton(own))
sender.setsockopt(socket.IPPROTO_IP, socket.IP_MULTICAST_TTL, int(ttl))
sender.bind((own, 0))
for number in range(int(count)):
    payload = f'{text} {number} '.encode()
    sender.sendto(payload * 50 if number % 2 else payload, (group, int(port)))
    time.sleep(0.1)
