"""Starts the program that the words behind a port and a path name, and asks the port for the path until a reply comes. Prints the
milliseconds up to it, and the greatest memory by then.
"""
import socket
import subprocess
import sys
import time

PORT, PATH = int(sys.argv[1]), sys.argv[2]


def reply():
    try:
        with socket.create_connection(("127.0.0.1", PORT)) as link:
            link.sendall(b"GET %s HTTP/1.1\r\nHost: a\r\nConnection: close\r\n\r\n" % PATH.encode())
            return link.recv(12)
    except OSError:
        return b""


begun = time.monotonic()
with subprocess.Popen(sys.argv[3:]) as program:
    while program.poll() is None and reply() != b"HTTP/1.1 200" and time.monotonic() - begun < 60:
        time.sleep(0.001)
    taken = time.monotonic() - begun
    with open("/proc/%d/status" % program.pid) as status:
        peak = [int(line.split()[1]) for line in status if line.startswith("VmHWM")]
    program.terminate()
print("ready %d %d" % (1e3 * taken, peak[0] if peak else 0))
