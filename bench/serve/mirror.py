"""A mirror on a free port of the loopback, which it prints. It serves the files of a folder. One whose name begins with `slow`
comes in 32 pieces, one each 50 ms. Each request is a line of the file `asked` beside the folder.
"""
import http.server
import os
import shutil
import sys
import time

FOLDER = sys.argv[1]


class Handler(http.server.BaseHTTPRequestHandler):
    def do_GET(self):
        with open(os.path.join(os.path.dirname(FOLDER), "asked"), "a") as asked:
            asked.write(self.path + "\n")
        with open(FOLDER + self.path, "rb") as body:
            size = os.fstat(body.fileno()).st_size
            self.send_response(200)
            self.send_header("Content-Length", str(size))
            self.end_headers()
            if self.path.startswith("/slow"):
                self.send_slowly(body, size)
            else:
                shutil.copyfileobj(body, self.wfile, 1 << 20)

    def send_slowly(self, body, size):
        for _ in range(32):
            self.wfile.write(body.read((size + 31) // 32))
            time.sleep(0.05)

    def log_message(self, *words):
        pass


server = http.server.ThreadingHTTPServer(("127.0.0.1", 0), Handler)
print(server.server_port, flush=True)
server.serve_forever()
