"""Sixteen clients ask a port for one path at one moment. One line: the replies that are the file's bytes, the moments of the
first and the last client's first byte of a body, and of the first and the last client's last byte, in milliseconds.
"""
import socket
import sys
import threading
import time

PORT, PATH = int(sys.argv[1]), sys.argv[2]
with open(sys.argv[3], "rb") as file:
    WANTED = file.read()
CLIENTS = 16
gate = threading.Barrier(CLIENTS)
firsts, lasts, whole = [], [], []


def client():
    with socket.create_connection(("127.0.0.1", PORT)) as link:
        link.settimeout(20)
        gate.wait()
        begun = time.monotonic()
        link.sendall(b"GET %s HTTP/1.1\r\nHost: a\r\nConnection: close\r\n\r\n" % PATH.encode())
        got = bytearray()
        first = None
        while piece := link.recv(1 << 18):
            got += piece
            if first is None and not got.endswith(b"\r\n\r\n") and b"\r\n\r\n" in got:
                first = time.monotonic() - begun
    lasts.append(time.monotonic() - begun)
    firsts.append(first or lasts[-1])
    whole.append(got.partition(b"\r\n\r\n")[2] == WANTED)


threads = [threading.Thread(target=client) for _ in range(CLIENTS)]
for thread in threads:
    thread.start()
for thread in threads:
    thread.join()
times = [1e3 * moment for moment in (min(firsts), max(firsts), min(lasts), max(lasts))] if lasts else [0] * 4
print("%d of %d whole; first byte at %.0f to %.0f ms, last byte at %.0f to %.0f ms" % (sum(whole), CLIENTS, *times))
