"""Runs the program once per image, and the oracle on many images at once.

    run(program, data, feed, seconds)     what one fresh process answers, as an Answer
    ask(oracle, images)                   the oracle's texts, None where it gave none
"""

import array
import collections
import fcntl
import os
import resource
import select
import signal
import subprocess
import sys
import termios
import time

sys.path.insert(0, os.path.join(os.path.dirname(os.path.abspath(__file__)), "..", "gen"))

from words import from_stream, to_stream

# Exit status (minus the signal that ended it, or None if it took too long), both outputs, seconds.
Answer = collections.namedtuple("Answer", "status out err seconds")

# How an image comes to standard input: from a file, through a pipe that holds it whole, or through a pipe
# in pieces, so that a read gives less than was asked for.
FILE, PIPE, PIECES = "file", "pipe", "pipe in pieces"

# The most that a program may write, in bytes, so that a wild one doesn't fill the memory.
MOST = 1 << 24


# Limits what this process and its children write to one file.
# The outputs of the program are kept in files in memory.
def limit_output():
    _, hard = resource.getrlimit(resource.RLIMIT_FSIZE)
    resource.setrlimit(resource.RLIMIT_FSIZE, (MOST, hard))


# A file in memory with these bytes, to be read from its start.
# The caller closes it.
def memory_file(name, data=b""):
    fd = os.memfd_create(name)
    if data:
        os.write(fd, data)
        os.lseek(fd, 0, os.SEEK_SET)
    return fd


# A pipe that takes `size` bytes without a reader, as (read end, write end), or None if the system won't.
# Nothing can then block, whatever the program does with its input.
def roomy_pipe(size):
    read, write = os.pipe()
    try:
        if fcntl.fcntl(write, fcntl.F_GETPIPE_SZ) < size:
            fcntl.fcntl(write, fcntl.F_SETPIPE_SZ, size)
        return read, write
    except OSError:
        os.close(read)
        os.close(write)
        return None


# Writes an image in three pieces, each when the program has read the one before, then closes the pipe.
# It gives up when the program has ended or the time is over.
def write_pieces(source, write, data, ended, until):
    try:
        start = 0
        for cut in (len(data) // 3, len(data) // 3 + 5, len(data)):
            if cut > start:
                os.write(write, data[start:cut])
                start = cut
            while waiting(source) and not ended(0.0003) and time.monotonic() < until:
                pass
    finally:
        os.close(write)


# How many bytes stand in a pipe, not yet read.
# The reader may be slow to start.
def waiting(source):
    count = array.array("i", [0])
    fcntl.ioctl(source, termios.FIONREAD, count)
    return count[0]


# All bytes of a file in memory.
# The outputs of a program that has ended.
def contents(fd):
    parts, at = [], 0
    while True:
        part = os.pread(fd, 1 << 20, at)
        if not part:
            return b"".join(parts)
        parts.append(part)
        at += len(part)


# Starts the program with the given three files as its input and outputs.
# Signals that Python ignores are as a shell would leave them.
def spawn(program, standard):
    actions = [(os.POSIX_SPAWN_DUP2, fd, number) for number, fd in enumerate(standard)]
    return os.posix_spawn(program, [program], os.environ, file_actions=actions,
                          setsigdef=[signal.SIGPIPE, signal.SIGXFSZ])


# A function that waits at most so many seconds for a process and says whether it has ended.
# Waiting costs nothing and ends at once, so that the measured time is right.
def watch(handle):
    poll = select.poll()
    poll.register(handle, select.POLLIN)
    return lambda seconds: bool(poll.poll(max(0.0, seconds) * 1000))


# Feeds a started process, if it is fed in pieces, waits for its end, and gives its status.
# When the time is over it is killed, and the status is None.
def see_through(pid, data, pipe, seconds):
    handle = os.pidfd_open(pid)
    try:
        ended, until = watch(handle), time.monotonic() + seconds
        if pipe is not None:
            write_pieces(*pipe, data, ended, until)
        in_time = ended(until - time.monotonic())
        if not in_time:
            signal.pidfd_send_signal(handle, signal.SIGKILL)
        _, status = os.waitpid(pid, 0)
        return os.waitstatus_to_exitcode(status) if in_time else None
    finally:
        os.close(handle)


# Runs the program once with an image on standard input.
# The time is that from the start of the process to its end.
def run(program, data, feed=FILE, seconds=10.0):
    pipe = None if feed == FILE else roomy_pipe(2 * len(data) + 4096)
    if pipe is None:
        source = memory_file("in", data)
    else:
        source, write = pipe
        if feed == PIPE:
            os.write(write, data)
            os.close(write)
            pipe = None
    out, err = memory_file("out"), memory_file("err")
    try:
        begun = time.perf_counter()
        pid = spawn(program, [source, out, err])
        status = see_through(pid, data, pipe, seconds)
        return Answer(status, contents(out), contents(err), time.perf_counter() - begun)
    finally:
        for fd in (source, out, err):
            os.close(fd)


# The oracle's texts for some images in one process, or None if it didn't answer all of them.
# Its own complaints go nowhere: what matters is in the texts.
def ask_together(oracle, images):
    try:
        done = subprocess.run([oracle, "--batch", "image"], input=to_stream(images), stdout=subprocess.PIPE,
                              stderr=subprocess.DEVNULL, timeout=60 + len(images))
        answers = from_stream(done.stdout)
    except (subprocess.TimeoutExpired, ValueError):
        return None
    return answers if done.returncode == 0 and len(answers) == len(images) else None


# The oracle's texts for some images, in their order; None for one that it doesn't answer.
# If a batch fails, each image is asked alone, so that the guilty one is found.
def ask(oracle, images):
    if not images:
        return []
    answers = ask_together(oracle, images)
    if answers is not None:
        return answers
    return [(ask_together(oracle, [data]) or [None])[0] for data in images]
