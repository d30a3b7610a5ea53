"""Sends datagrams to an address, when they are due: a module of pace and live-send, which stand beside it."""
import re
import socket
import time


def connected(target):
    """A socket that sends to an address."""
    host, _, port = target.rpartition(":")
    if not host or not re.fullmatch("[0-9]{1,5}", port) or not 0 < int(port) < 65536:
        raise ValueError(f"{target} is no HOST:PORT; one is 10.0.0.7:4000")
    family, kind, protocol, _, address = socket.getaddrinfo(host.strip("[]"), int(port), type=socket.SOCK_DGRAM)[0]
    link = socket.socket(family, kind, protocol)
    link.setsockopt(socket.SOL_SOCKET, socket.SO_BROADCAST, 1)
    link.connect(address)
    return link


def send(link, data):
    """Sends a datagram. That nobody listens there is told of an earlier one, and no failure: then it is sent again."""
    try:
        link.send(data)
    except ConnectionRefusedError:
        link.send(data)


def wait_until(due):
    """Waits, and gives the time."""
    while (now := time.monotonic()) < due:
        time.sleep(min(due - now, 60))
    return now
