"""A port of 127.0.0.1 that passes the messages of its connections and datagrams on to one run of a program, and the replies back."""

import contextlib
import functools
import socket
import struct
import subprocess
import threading

ONE_AT_A_TIME = threading.Lock()


def answer_of(program, frame):
    with ONE_AT_A_TIME:
        program.stdin.write(frame)
        program.stdin.flush()
        length = program.stdout.read(2)
        if len(length) < 2:
            raise EOFError("the program ended")
        return length + program.stdout.read(*struct.unpack("!H", length))


def pass_frames(connection, answer):
    # (ValueError: the program's input is closed)
    with connection, contextlib.suppress(OSError, EOFError, ValueError), connection.makefile("rb") as frames:
        while len(length := frames.read(2)) == 2:
            connection.sendall(answer(length + frames.read(*struct.unpack("!H", length))))


def pass_connections(listener, answer):
    while True:
        try:
            connection, _ = listener.accept()
        except OSError:
            return
        threading.Thread(target=pass_frames, args=(connection, answer), daemon=True).start()


def pass_datagrams(datagrams, answer):
    with contextlib.suppress(OSError, EOFError, ValueError):
        while True:
            octets, client = datagrams.recvfrom(65535)
            datagrams.sendto(answer(struct.pack("!H", len(octets)) + octets)[2:], client)


@contextlib.contextmanager
def passed(answer):
    """The port whose messages this function answers: from a frame to a frame."""
    with socket.create_server(("127.0.0.1", 0)) as listener, socket.socket(type=socket.SOCK_DGRAM) as datagrams:
        port = listener.getsockname()[1]
        datagrams.bind(("127.0.0.1", port))
        for passes, side in ((pass_connections, listener), (pass_datagrams, datagrams)):
            threading.Thread(target=passes, args=(side, answer), daemon=True).start()
        yield port
        listener.shutdown(socket.SHUT_RDWR)


@contextlib.contextmanager
def served(words, first):
    """The port where a program answers, which these words start; the first frame is asked before any client."""
    program = subprocess.Popen(words, stdin=subprocess.PIPE, stdout=subprocess.PIPE)
    # (clients don't wait as long as loading may take)
    answer_of(program, first)
    with passed(functools.partial(answer_of, program)) as port:
        yield port
    program.stdin.close()
    program.wait()
