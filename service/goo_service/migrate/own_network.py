"""A network that a thread has for itself, with loopback alone.

What the thread starts is in that network too. Nobody else on the host reaches what listens there.
"""
import ctypes
import fcntl
import socket
import struct

CLONE_NEWNET = 0x40000000           # <sched.h>
SIOCSIFFLAGS = 0x8914               # <linux/sockios.h>
IFF_UP = 1                          # <net/if.h>


def enter() -> bool:
    """Gives the calling thread a network of its own; whether it has the right to one (root)."""
    if ctypes.CDLL(None).unshare(CLONE_NEWNET):
        return False
    with socket.socket() as any_one:
        fcntl.ioctl(any_one, SIOCSIFFLAGS, struct.pack('16sH22x', b'lo', IFF_UP))
    return True
