#!/usr/bin/env python3
"""A network that loses, repeats and reorders: passes datagrams between netdump's clients and a server.

Usage: lossy.py SERVER_PID LOSS SEED

It listens at port 20023 of 127.0.0.1 in its own network, for the clients, and speaks from the network of the process
SERVER_PID to the server at port 20023 there. Of 100 datagrams in each direction it loses LOSS, repeats 10, and holds back 20
until some later ones have passed. It runs until it is killed.
"""
import ctypes
import random
import selectors
import socket
import sys
import time

server_pid, loss, seed = sys.argv[1], int(sys.argv[2]), int(sys.argv[3])
random.seed(seed)
libc = ctypes.CDLL(None, use_errno=True)
own, other = open("/proc/self/ns/net"), open(f"/proc/{server_pid}/ns/net")
CLONE_NEWNET = 0x40000000


def bound(network, port=0):
    """A socket in one of the two networks."""
    if libc.setns(network.fileno(), CLONE_NEWNET):
        raise OSError(ctypes.get_errno(), "setns")
    made = socket.socket(socket.AF_INET, socket.SOCK_DGRAM)
    made.setsockopt(socket.SOL_SOCKET, socket.SO_RCVBUF, 1 << 22)
    made.bind(("127.0.0.1", port))
    made.setblocking(False)
    if libc.setns(own.fileno(), CLONE_NEWNET):
        raise OSError(ctypes.get_errno(), "setns")
    return made


watched = selectors.DefaultSelector()
# For each client its socket in the server's network, and for each of those and a port of the server the socket that stands
# for that port in the clients' network.
outward, inward = {}, {}
# What is held back: when it goes at the latest, how many others go first, and the datagram.
held = []


def go(sender, data, to):
    try:
        sender.sendto(data, to)
    except OSError:
        pass


def pass_on(sender, data, to):
    for waiting in held:
        waiting[1] -= 1
    chance = random.randrange(100)
    if chance >= loss:
        if random.randrange(100) < 20:
            held.append([time.monotonic() + 0.01, random.randrange(1, 8), (sender, data, to)])
        else:
            go(sender, data, to)
        if random.randrange(100) < 10:
            held.append([time.monotonic() + 0.01, random.randrange(1, 8), (sender, data, to)])
    let_go()


def let_go():
    now = time.monotonic()
    for waiting in [it for it in held if it[1] <= 0 or it[0] <= now]:
        held.remove(waiting)
        go(*waiting[2])


def from_client(here, port):
    data, client = here.recvfrom(65536)
    if client not in outward:
        outward[client] = bound(other)
        watched.register(outward[client], selectors.EVENT_READ, ("server", client))
    pass_on(outward[client], data, ("127.0.0.1", port))


def from_server(there, client):
    data, server = there.recvfrom(65536)
    if (client, server[1]) not in inward:
        inward[client, server[1]] = bound(own)
        watched.register(inward[client, server[1]], selectors.EVENT_READ, ("client", server[1]))
    pass_on(inward[client, server[1]], data, client)


watched.register(bound(own, 20023), selectors.EVENT_READ, ("client", 20023))
print("ready", flush=True)
while True:
    for key, _ in watched.select(0.001 if held else None):
        side, which = key.data
        try:
            (from_client if side == "client" else from_server)(key.fileobj, which)
        except BlockingIOError:
            pass
    let_go()
