"""A server that gives the same bytes to each request, for `bench/dav`.

    gives.py FILE

It listens on a free port of 127.0.0.1, and prints its number. To whatever comes first over a connection it gives the bytes of FILE, all
at once. It serves one connection after the other until it is ended.
"""

import socket
import sys

with open(sys.argv[1], "rb") as file:
    given = file.read()
listener = socket.create_server(("127.0.0.1", 0))
print(listener.getsockname()[1], flush=True)
while True:
    peer, _ = listener.accept()
    with peer:
        if peer.recv(65_536):
            peer.sendall(given)
