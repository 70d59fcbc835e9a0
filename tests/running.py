"""Runs a program on an input that is there whole before the start, or that comes in pieces."""
import fcntl
import os
import subprocess
import termios
import time

from sites import misreported

PIPE_HOLDS = 60000
RUN_SECONDS = 60           # a program that takes longer has given no answer
MOMENT = 0.002             # between two looks at whether a piece was read


def memory(content=b''):
    file = open(os.memfd_create('memory'), 'r+b', buffering=0)
    file.write(content)
    file.seek(0)
    return file


def pipe():
    reading, writing = os.pipe()
    return open(reading, 'rb', buffering=0), writing


def lent(given):
    """The input as a pipe, so that what is left in it shows; as a file if a pipe cannot hold it."""
    if len(given) > PIPE_HOLDS:
        return memory(given)
    file, writing = pipe()
    os.write(writing, given)
    os.close(writing)
    return file


def fault(program, status, given, file, printed):
    """What a program did that it must not: end with another status than 0, as listing ("nothing after it read") read past
    its line, or as rooms print an answer that is wrong by itself."""
    if status:
        return f'ended with status {status}'
    if program == 'listing' and len(given) <= PIPE_HOLDS and len(file.read()) < len(given.partition(b'\n')[2]):
        return 'read past its line'
    return misreported(given, printed) if program == 'rooms' else ''


def hand_over(running, file, writing, pieces):
    """Writes each piece when the one before it was read, so that no read brings more than one; at once if the program has ended."""
    end = time.monotonic() + RUN_SECONDS
    for piece in pieces:
        os.write(writing, piece)
        while unread(file) and running.poll() is None and time.monotonic() < end:
            time.sleep(MOMENT)
    os.close(writing)


def unread(file):
    return int.from_bytes(fcntl.ioctl(file, termios.FIONREAD, bytes(4)), 'little')


def answer(program, path, pieces):
    """What the program prints, and its fault or none. Of several pieces, all together no more than a pipe holds, each comes when the one
    before it was read; a single one is there before the start."""
    given = b''.join(pieces)
    file, writing = (lent(given), None) if len(pieces) == 1 else pipe()
    with file, memory() as out, subprocess.Popen([path], stdin=file, stdout=out, stderr=subprocess.DEVNULL) as running:
        if writing is not None:
            hand_over(running, file, writing, pieces)
        try:
            status = running.wait(RUN_SECONDS)
        except subprocess.TimeoutExpired:
            running.kill()
            return b'', f'no answer in {RUN_SECONDS} seconds'
        out.seek(0)
        printed = out.read()
        return printed, fault(program, status, given, file, printed)


def failed(path, stdin, stdout):
    """Whether a program with such an input and output ends with status 1 and a word on standard error."""
    done = subprocess.run([path], stdin=stdin, stdout=stdout, stderr=subprocess.PIPE, timeout=RUN_SECONDS, check=False)
    return done.returncode == 1 and done.stderr != b''
