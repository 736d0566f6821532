"""A feed to a program in pieces of one length."""
import socket
import subprocess
import threading

# The map is a piece of its own.
MAP_LENGTH = 128


def run_in_pieces(command, source, piece, **streams):
    """Runs it with a socket as standard input that keeps messages apart: a read gets one of them and no more, so the program gets exactly
    these pieces however the two take turns. When all are read, a read gets nothing, as at the end of a file."""
    ours, its = socket.socketpair(socket.AF_UNIX, socket.SOCK_SEQPACKET)

    def send():
        with ours:
            ours.send(source.read(MAP_LENGTH))
            while part := source.read(piece):
                ours.send(part)

    with its:
        child = subprocess.Popen(command, stdin=its, **streams)
    sender = threading.Thread(target=send)
    sender.start()
    said, faults = child.communicate()
    sender.join()
    if child.returncode:
        raise subprocess.CalledProcessError(child.returncode, command)
    return subprocess.CompletedProcess(command, 0, said, faults)
