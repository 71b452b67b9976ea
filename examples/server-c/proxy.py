#!/usr/bin/env python3
"""A UDP proxy on 127.0.0.1 that drops, delays and reorders packets.

    proxy.py PORT SERVER_PORT SECONDS SEED

PORT is 0 for any port, which it prints. It ends after SECONDS, or on SIGTERM, and prints what it
did. Decisions are those of a random generator with this seed, for each packet in the order in which
they come; packets both ways are treated alike.
"""
import heapq
import random
import selectors
import signal
import socket
import sys
import time

DROPPED = 0.05  # of all packets
DELAY = 0.010  # seconds: each packet is delayed by up to this, so neighbours change places
LATE = 0.05  # of all packets are delayed further, so others overtake them
LATE_BY = 0.060  # seconds, up to this
WAITING = 20_000  # packets that are delayed at once; more are dropped
LOCAL = "127.0.0.1"


class Proxy:
    def __init__(self, port, server_port, seed):
        self.random = random.Random(seed)
        self.server = (LOCAL, server_port)
        self.selector = selectors.DefaultSelector()
        self.front = self.open(port)
        self.clients = {}  # by the address of a client: the socket for it
        self.waiting = []  # (when, number, socket, packet, address)
        self.came = self.dropped = self.late = 0

    def open(self, port, client=None):
        """Opens a socket. `client` is whom its packets are for; None: the server."""
        new = socket.socket(socket.AF_INET, socket.SOCK_DGRAM)
        new.setsockopt(socket.SOL_SOCKET, socket.SO_RCVBUF, 4 << 20)
        new.setblocking(False)
        new.bind((LOCAL, port))
        self.selector.register(new, selectors.EVENT_READ, client)
        return new

    def receive(self, source, client):
        """Takes the packets that a socket has."""
        for _ in range(64):
            try:
                packet, address = source.recvfrom(65536)
            except (BlockingIOError, ConnectionRefusedError):
                return
            if client is not None:
                self.plan(self.front, packet, client)
                continue
            if address not in self.clients:
                self.clients[address] = self.open(0, address)
            self.plan(self.clients[address], packet, self.server)

    def plan(self, through, packet, address):
        """Drops a packet, or says when it is sent."""
        self.came += 1
        dropped, late = self.random.random() < DROPPED, self.random.random() < LATE
        delay = self.random.uniform(0, DELAY) + late * self.random.uniform(0, LATE_BY)
        if dropped or len(self.waiting) >= WAITING:
            self.dropped += 1
            return
        self.late += late
        when = time.monotonic() + delay
        heapq.heappush(self.waiting, (when, self.came, through, packet, address))

    def send(self):
        """Sends what is due, and returns the seconds until the next packet is."""
        while self.waiting:
            left = self.waiting[0][0] - time.monotonic()
            if left > 0:
                return left
            _, _, through, packet, address = heapq.heappop(self.waiting)
            try:
                through.sendto(packet, address)
            except OSError:
                self.dropped += 1
        return 1.0

    def run(self, seconds):
        end = time.monotonic() + seconds
        while (left := end - time.monotonic()) > 0:
            for key, _ in self.selector.select(min(left, self.send())):
                self.receive(key.fileobj, key.data)


def main():
    port, server_port, seconds, seed = map(int, sys.argv[1:5])
    proxy = Proxy(port, server_port, seed)
    signal.signal(signal.SIGTERM, lambda *_: sys.exit(0))
    print(f"proxy at {proxy.front.getsockname()[1]}", flush=True)
    try:
        proxy.run(seconds)
    finally:
        print(f"{proxy.came} packets, {proxy.dropped} dropped, {proxy.late} late", flush=True)


main()
