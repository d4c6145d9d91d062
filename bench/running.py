"""A running device, a running server, and runs from beginning to end, for the measurements beside this file."""
import hashlib
import os
import shlex
import socket
import subprocess
import sys
import time


def processor_time(process):
    """The CPU time that a running process has taken, in nanoseconds."""
    with open("/proc/%d/schedstat" % process.pid) as file:
        return int(file.read().split()[0])


class Device:
    """A running program, and the CPU time that it has taken."""

    def __init__(self, words):
        self.process = subprocess.Popen(words, stdin=subprocess.PIPE, stdout=subprocess.PIPE)

    def tell(self, lines):
        """Tells lines a thousand at a time, and reads their replies; all must be accepted."""
        for at in range(0, len(lines), 1000):
            piece = lines[at:at + 1000]
            writer = os.fork()
            if writer == 0:
                self.process.stdin.write("".join(piece).encode())
                self.process.stdin.flush()
                os._exit(0)
            for line in piece:
                head = self.process.stdout.readline()
                if not head.startswith(b"ok "):
                    sys.exit("%r was answered %r" % (line, head))
                for _ in range(int(head[3:])):
                    self.process.stdout.readline()
            os.waitpid(writer, 0)

    def ask(self, line):
        """Tells one line, which must be accepted, and returns the lines of its reply."""
        self.process.stdin.write(line.encode())
        self.process.stdin.flush()
        head = self.process.stdout.readline()
        if not head.startswith(b"ok "):
            sys.exit("%r was answered %r" % (line, head))
        return [self.process.stdout.readline().decode().rstrip("\n") for _ in range(int(head[3:]))]

    def nanoseconds(self):
        return processor_time(self.process)

    def cost(self, lines):
        before = self.nanoseconds()
        self.tell(lines)
        return (self.nanoseconds() - before) / 1000 / len(lines)

    def end(self):
        self.process.stdin.close()
        if self.process.wait() != 0:
            sys.exit("the program ended with status %d" % self.process.returncode)


def serving(program):
    """A running server, and its address."""
    with socket.socket() as probe:
        probe.bind(("127.0.0.1", 0))
        port = probe.getsockname()[1]
    address = "127.0.0.1:%d" % port
    server = subprocess.Popen([program, "serve", "--listen", address, "--count", "1000000"], stdout=subprocess.DEVNULL)
    for _ in range(200):
        try:
            socket.create_connection(("127.0.0.1", port)).close()
            return server, address
        except ConnectionRefusedError:
            time.sleep(0.05)
    sys.exit("%s doesn't listen" % program)


def run(words, source, out):
    """CPU seconds, peak memory in MiB, status, and a digest of the output."""
    with open(source, "rb") as reads, open(out, "wb") as writes:
        child = os.posix_spawn(words[0], words, os.environ, file_actions=[
            (os.POSIX_SPAWN_DUP2, reads.fileno(), 0), (os.POSIX_SPAWN_DUP2, writes.fileno(), 1)])
        _, status, used = os.wait4(child, 0)
    with open(out, "rb") as file:
        digest = hashlib.file_digest(file, "sha256").hexdigest()
    return used.ru_utime + used.ru_stime, used.ru_maxrss / 1024, os.waitstatus_to_exitcode(status), digest


def measure(programs, source, out, repetitions):
    """The programs take turns, so that a slow spell of the machine falls on each of them."""
    runs = {who: [] for who in programs}
    for _ in range(repetitions):
        for who, words in programs.items():
            runs[who].append(run(words, source, out))
    return {who: (min(r[0] for r in of), max(r[1] for r in of), of[0][2], of[0][3]) for who, of in runs.items()}


def words_of(text):
    words = shlex.split(text)
    words[0] = os.path.abspath(words[0]) if os.path.exists(words[0]) else words[0]
    return words
