"""Many short runs of one program: a library of a few lines (`fork_server.c`), which `cc` compiles and which stands before the C library, forks a child for each run.

So a run costs neither the start of a process nor that of its libraries. Each child begins where `main` does, with its own copy of a memory that no
run has touched, its input in a file that lies in memory, and its streams into memory. Its requests for memory are counted, and one of them may be
refused, alone or with all behind it: malloc, calloc, realloc, aligned_alloc and posix_memalign, as the program makes them of the C library.
"""
import collections
import itertools
import os
import socket
import struct
import subprocess

LIBRARY = os.path.join(os.path.dirname(os.path.abspath(__file__)), "fork_server.c")
ORDER, TOLD = struct.Struct("=16s5Q"), struct.Struct("=4q")
# The longest command, in whose place the others are written.
LONGEST = "transform"
UNLIMITED = 2**64 - 1
# How a run ended: its status, or the number of a signal below zero; what it wrote; its processor seconds, the bytes that it held at once, and how
# many requests for memory it met.
Run = collections.namedtuple("Run", "status out err seconds held requests")


def compile_library(folder):
    """Compiles the library."""
    made = os.path.join(folder, "serve.so")
    subprocess.run(["cc", "-shared", "-fPIC", "-O1", "-fno-builtin", "-fno-omit-frame-pointer", "-o", made, LIBRARY], check=True)
    return made


class ForkServer:
    """Runs a program on one input after another, over the library that `compile_library` made."""

    def __init__(self, program, library, *kept, word=None, folder=None):
        """`kept` are files that stay open in the runs. With `word` this is the one word of each run, which reads what it needs in `folder`."""
        self.input, *self.streams = (os.memfd_create(name) for name in ("input", "out", "err"))
        self.orders, theirs = socket.socketpair()
        words = [program, word] if word else [program, LONGEST, f"/proc/self/fd/{self.input}"]
        env = {**os.environ, "LD_PRELOAD": library, "FORK_SERVER": str(theirs.fileno())}
        out, err = self.streams
        files = [self.input, theirs.fileno(), *kept]
        self.server = subprocess.Popen(words, env=env, cwd=folder, stdin=subprocess.DEVNULL, stdout=out, stderr=err, pass_fds=files)
        theirs.close()

    def run(self, command, text, most_bytes=UNLIMITED, most_seconds=UNLIMITED, refused=0, behind=False, calls=0):
        """Runs a command on a text, with so much address space and so many processor seconds; `refused` is the number of the request that is refused."""
        os.ftruncate(self.input, 0)
        os.pwrite(self.input, text, 0)
        for stream in self.streams:
            os.ftruncate(stream, 0)
            os.lseek(stream, 0, os.SEEK_SET)
        self.orders.sendall(ORDER.pack(command.encode(), most_bytes, most_seconds, refused, behind, calls))
        status, microseconds, held, met = TOLD.unpack(self.orders.recv(TOLD.size, socket.MSG_WAITALL))
        return Run(status, *(os.pread(stream, os.fstat(stream).st_size, 0) for stream in self.streams), microseconds / 1e6, held, met)

    def refuse_each(self, command, outcome):
        """How many requests a command without an input makes, and how often its runs ended in which way: each has one request refused, alone and with all behind it."""
        found, requests = collections.Counter(), 0
        for behind in (False, True):
            for number in itertools.count(1):
                ran = self.run(command, b"", refused=number, behind=behind)
                if ran.requests < number:
                    break
                found[outcome(ran)] += 1
                requests = max(requests, number)
        return requests, found
