"""Calls of a program whose streams fail, and the pieces in which it writes."""
import resource
import socket
import subprocess
import tempfile


def broken_stream(text):
    """A stream that gives a text, and then fails: the other side is closed with bytes that it did not read."""
    ours, theirs = socket.socketpair()
    theirs.sendall(b"unread")
    ours.sendall(text)
    ours.close()
    return theirs


def cut_short(program, words, text, size, stream):
    """Status, notes and output of a call of which one stream goes to a file that may not grow above a size."""
    with tempfile.TemporaryFile() as file:
        ran = subprocess.run(
            [program, *words],
            input=text,
            **{"stdout": subprocess.PIPE, "stderr": subprocess.PIPE} | {stream: file},
            timeout=60,
            restore_signals=False,
            preexec_fn=lambda: resource.setrlimit(resource.RLIMIT_FSIZE, (size, size)),
        )
        file.seek(0)
        taken = file.read()
    return (ran.returncode, ran.stderr, taken) if stream == "stdout" else (ran.returncode, taken, ran.stdout)


def pieces_of(program, words, text):
    """What a call writes, write by write, on its output and on its notes."""
    ours, theirs = zip(*(socket.socketpair(socket.AF_UNIX, socket.SOCK_SEQPACKET) for _ in range(2)))
    with tempfile.TemporaryFile() as file:
        file.write(text)
        file.seek(0)
        child = subprocess.Popen([program, *words], stdin=file, stdout=theirs[0], stderr=theirs[1])
    for end in theirs:
        end.close()
    pieces = tuple(list(iter(lambda: end.recv(1 << 20), b"")) for end in ours)
    for end in ours:
        end.close()
    return child.wait(), *pieces
