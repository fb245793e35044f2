"""So many clients ask a port for one large path again and again for two seconds, each on one connection, and throw the bodies away
as they come, uncopied. One line as that of report.lua: whole replies, bytes, microseconds, failures.
"""
import re
import socket
import sys
import threading
import time

PORT, PATH, CLIENTS = int(sys.argv[1]), sys.argv[2], int(sys.argv[3])
counts, failures = [], []
begun = time.monotonic()


def read_head(link):
    got = b""
    while b"\r\n\r\n" not in got:
        piece = link.recv(4096)
        if not piece:
            raise OSError("no head")
        got += piece
    head, _, body = got.partition(b"\r\n\r\n")
    return int(re.search(rb"\r\nContent-Length: (\d+)", head)[1]) - len(body), len(body)


def client():
    room = bytearray(1 << 20)
    whole = taken = 0
    with socket.create_connection(("127.0.0.1", PORT)) as link:
        while time.monotonic() - begun < 2:
            link.sendall(b"GET %s HTTP/1.1\r\nHost: a\r\n\r\n" % PATH.encode())
            left, count = read_head(link)
            taken += count
            while left > 0 and time.monotonic() - begun < 2:
                count = link.recv_into(room, min(left, len(room)), socket.MSG_TRUNC)
                if not count:
                    failures.append(left)
                    return
                left -= count
                taken += count
            whole += left == 0
    counts.append((whole, taken))


threads = [threading.Thread(target=client) for _ in range(CLIENTS)]
for thread in threads:
    thread.start()
for thread in threads:
    thread.join()
lost = CLIENTS - len(counts)
print("run %d %d %d %d" % (sum(c[0] for c in counts), sum(c[1] for c in counts), 1e6 * (time.monotonic() - begun), lost))
