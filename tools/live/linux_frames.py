#!/usr/bin/python3
"""Linux's own echo in the place of `sqlive frames`: frames by standard input and output, and the kernel of a namespace of its own between them."""
import contextlib
import ipaddress
import os
import select
import socket
import threading

import tun
from frames import HEAD, SERVER
from wire import new_namespace


def serve(client):
    with client:
        while data := client.recv(65536):
            client.sendall(data)
        client.shutdown(socket.SHUT_WR)


def accept(listener):
    while True:
        threading.Thread(target=serve, args=(listener.accept()[0],), daemon=True).start()


def main():
    new_namespace()
    device, now, came = tun.open_device("linux0"), 0, bytearray()
    tun.set_up("linux0", ipaddress.ip_interface(SERVER + "/24"), 1500)
    threading.Thread(target=accept, args=(socket.create_server((SERVER, 7), backlog=512),), daemon=True).start()
    os.set_blocking(0, False)
    while True:
        for ready in select.select([0, device], [], [])[0]:
            data = os.read(ready, 1 << 20)
            if ready == 0 and not data:
                return
            if ready == device:
                frame = HEAD.pack(len(data), now) + data
                while frame:
                    frame = frame[os.write(1, frame):]
                continue
            came += data
            while len(came) >= HEAD.size:
                length, now = HEAD.unpack_from(came)
                if len(came) < HEAD.size + length:
                    break
                if length:
                    with contextlib.suppress(OSError):
                        os.write(device, came[HEAD.size:HEAD.size + length])
                del came[:HEAD.size + length]


if __name__ == "__main__":
    main()
