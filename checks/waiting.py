#!/usr/bin/env python3
"""Lets clients and a server be slow, over real connections, and looks how long each is waited for (docs/FORMATS.md, `serve`).

  checks/waiting.py PROGRAM..

All of it goes on at once, for all programs, and takes some fifteen seconds. checks/serve calls it. It prints what isn't as expected, and the
status is 1 then.
"""
import os
import socket
import struct
import subprocess
import sys
import threading
import time

sys.path.insert(0, os.path.dirname(os.path.abspath(__file__)))
import peers

EMPTY = peers.spelled(2, b"home") + peers.spelled(3, b"home") + peers.spelled(6, b"9")
failures = []


def head(length, token=b"local"):
    return b"POST /sync/sync HTTP/1.1\r\nX-ACTUAL-TOKEN: %s\r\nContent-Length: %d\r\n\r\n" % (token, length)


REQUEST = head(len(EMPTY)) + EMPTY


class Wrong(Exception):
    """Something isn't as expected."""


class Server:
    """A server over memory for so many connections, at a free port."""

    # a port is free until the next one who looks has it
    turn = threading.Lock()

    def __init__(self, program, count):
        with Server.turn:
            for _ in range(5):
                if self.listens(program, count):
                    return
        raise Wrong("the server does not listen")

    def listens(self, program, count):
        with socket.socket() as free:
            free.bind(("127.0.0.1", 0))
            self.place = free.getsockname()
        words = [program, "serve", "--listen", "%s:%d" % self.place, "--count", str(count)]
        self.process = subprocess.Popen(words, stdout=subprocess.PIPE, stderr=subprocess.PIPE)
        for _ in range(200):
            with open("/proc/net/tcp", encoding="ascii") as file:
                if ":%04X 00000000:0000 0A" % self.place[1] in file.read():
                    return True
            if self.process.poll() is not None:
                break
            time.sleep(0.05)
        self.process.kill()
        self.process.communicate()
        return False

    def connect(self):
        stream = socket.create_connection(self.place)
        stream.settimeout(60)
        return stream

    def ended(self, lines):
        """It ends with status 0, and has written these lines."""
        output, errors = self.process.communicate(timeout=60)
        if self.process.returncode != 0 or output != lines or errors:
            raise Wrong("status %d, %r, %r" % (self.process.returncode, output, errors))


def rest(stream):
    """What still comes until the other side ends."""
    came = b""
    try:
        while piece := stream.recv(1 << 16):
            came += piece
    except OSError:
        pass
    return came


def trickle(stream, data, pause=1.0, goes_on=False):
    """Sends a byte at a time until the other side has ended, or, where this one goes on, until it takes no more, and gives what came."""
    came = b""
    stream.settimeout(pause)
    for byte in data:
        try:
            stream.send(bytes([byte]))
            piece = stream.recv(1 << 16)
        except TimeoutError:
            continue
        except OSError:
            break
        if not piece:
            if not goes_on:
                break
            time.sleep(pause)
        came += piece
    return came


def within(began, least, most, what):
    passed = time.monotonic() - began
    if not least <= passed <= most:
        raise Wrong("%s takes %.1f seconds" % (what, passed))


def asks(server, meant):
    """A request that waits until others are served, and is answered."""
    with server.connect() as stream:
        stream.sendall(REQUEST)
        came = rest(stream)
    if not came.startswith(meant):
        raise Wrong("the one that waited is answered %r" % came[:100])


def slow_head(program):
    """A byte of a head each second: it is let go behind ten seconds, and the next one is served."""
    server = Server(program, 2)
    began = time.monotonic()
    with server.connect() as stream:
        if came := trickle(stream, REQUEST[:60]):
            raise Wrong("a slow head is answered %r" % came[:100])
    within(began, 9, 14, "a slow head")
    asks(server, b"HTTP/1.1 200 ")
    within(began, 9, 15, "the one behind a slow head")
    server.ended(b"1 cut\n2 200\n")


def slow_parting(program):
    """A byte of a refused body each second: the answer is there at once, and the connection is over behind ten seconds. One that is given up
    meanwhile, before it is let in, ends nothing."""
    server = Server(program, 3)
    began = time.monotonic()
    with server.connect() as stream, server.connect() as other:
        stream.sendall(head(1000, b"other"))
        stream.settimeout(5)
        came = stream.recv(1 << 16)
        within(began, 0, 5, "a refusal")
        other.setsockopt(socket.SOL_SOCKET, socket.SO_LINGER, struct.pack("ii", 1, 0))
        other.close()
        waiting = threading.Thread(target=told, args=(program, lambda _program: asks(server, b"HTTP/1.1 200 ")))
        waiting.start()
        came += trickle(stream, bytes(20), goes_on=True)
    waiting.join()
    within(began, 9, 15, "a slow parting")
    if came != peers.refusal(b"token-not-found"):
        raise Wrong("a wrong token is answered %r" % came[:200])
    server.ended(b"1 401\n2 cut\n3 200\n")


def slow_line(program):
    """A body of 400 kB over a line of 40 kB a second comes through."""
    messages = b"".join(peers.written(b"2024-01-05T10:00:%02d.%03dZ-0000-00000000000000aa" % divmod(number, 1000), (b"notes", b"n", b"note", b"S:" + 100 * b"x")) for number in range(2000))
    body = messages + EMPTY
    data = head(len(body)) + body
    server = Server(program, 1)
    with server.connect() as stream:
        for at in range(0, len(data), 4000):
            stream.sendall(data[at:at + 4000])
            time.sleep(0.1)
        came = rest(stream)
    if not came.startswith(b"HTTP/1.1 200 "):
        raise Wrong("a slow line is answered %r" % came[:100])
    server.ended(b"1 200\n")


def long_body(program):
    """A client that sends all of a long body before it reads gets its answer."""
    server = Server(program, 1)
    with server.connect() as stream:
        stream.sendall(head(32 << 20, b"other"))
        for _ in range(32):
            stream.sendall(bytes(1 << 20))
            time.sleep(0.05)
        came = rest(stream)
    if came != peers.refusal(b"token-not-found"):
        raise Wrong("a long body is answered %r" % came[:200])
    server.ended(b"1 401\n")


def slow_reply(program):
    """A server that sends a byte a second: a device lets it go behind ten of them."""
    with socket.create_server(("127.0.0.1", 0)) as listener:
        words = [program, "device", "--node", "aa", "--peer", "127.0.0.1:%d" % listener.getsockname()[1]]
        device = subprocess.Popen(words, stdin=subprocess.PIPE, stdout=subprocess.PIPE, stderr=subprocess.PIPE)
        device.stdin.write(b"sync\n")
        device.stdin.flush()
        began = time.monotonic()
        stream, _ = listener.accept()
        with stream:
            stream.settimeout(5)
            stream.recv(1 << 16)
            trickle(stream, b"HTTP/1.1 200 OK\r\nContent-Length: 12\r\n\r\n")
        within(began, 9, 15, "a slow reply")
        output, errors = device.communicate(timeout=60)
    if output != b"refused E29 sync-failed link\n" or errors or device.returncode != 1:
        raise Wrong("a slow reply comes to %r, %r, status %d" % (output, errors, device.returncode))


def told(program, check):
    try:
        check(program)
    except (Wrong, OSError, subprocess.TimeoutExpired) as fault:
        failures.append("%s: %s: %s" % (program, (check.__doc__ or "a request behind others").split(":")[0], fault))


def main():
    checks = slow_head, slow_parting, slow_line, long_body, slow_reply
    threads = [threading.Thread(target=told, args=(program, check)) for program in sys.argv[1:] for check in checks]
    for thread in threads:
        thread.start()
    for thread in threads:
        thread.join()
    for failure in failures:
        print("checks/waiting.py: %s" % failure, file=sys.stderr)
    return 1 if failures else 0


if __name__ == "__main__":
    sys.exit(main())
