"""Starts the program that is named, and sends a MiB to port 7 of 10.9.0.2: it must come back. Status 77: there is no device here."""
import os
import socket
import subprocess
import sys
import threading
import time


def main():
    server = subprocess.Popen([sys.argv[1]])
    try:
        for _ in range(100):
            time.sleep(0.05)
            if server.poll() is not None:
                return print("the device can't be made here") or 77
            with socket.socket() as end:
                end.settimeout(0.2)
                if end.connect_ex(("10.9.0.2", 7)) == 0:
                    return 0 if echoed() else 1
        return 1
    finally:
        server.kill()
        server.wait()


def echoed():
    text = os.urandom(1 << 20)
    with socket.create_connection(("10.9.0.2", 7), timeout=20) as end:
        def send():
            end.sendall(text)
            end.shutdown(socket.SHUT_WR)

        sender = threading.Thread(target=send)
        sender.start()
        back = bytearray()
        while piece := end.recv(65_536):
            back += piece
        sender.join()
    return bytes(back) == text


sys.exit(main())
