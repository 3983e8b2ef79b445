"""Tells everyone on the link of eth0 that an address is here now (RFC 5227, section 1.1): announce.py ADDRESS."""

import socket
import struct
import sys

ETHERNET, ARP, IPV4 = 1, 0x0806, 0x0800
ALL = b"\xff" * 6
raw = socket.socket(socket.AF_PACKET, socket.SOCK_RAW, socket.htons(ARP))
raw.bind(("eth0", 0))
me, address = raw.getsockname()[4], socket.inet_aton(sys.argv[1])
for operation in [1, 2]:
    head = struct.pack("!HHBBH", ETHERNET, IPV4, 6, 4, operation)
    raw.send(ALL + me + struct.pack("!H", ARP) + head + me + address + ALL + address)
