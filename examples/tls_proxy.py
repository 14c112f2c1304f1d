#!/usr/bin/env python3
"""Lets `workflow` call an https service: takes plain HTTP on a port of this machine, and hands it on to HOST over TLS.

    python3 examples/tls_proxy.py PORT HOST [--to NAME:PORT] [--authority FILE] [--fields COMMAND]
    workflow run --source FILE --journal JOURNAL --route HOST=127.0.0.1:PORT

HOST is the name that the certificate must be of; calls go to its port 443, or to NAME:PORT. FILE has certificates to trust in place of the system's.

COMMAND is run by a shell, at most once in five minutes, when a call comes. The lines that it prints are fields, such as `Authorization: Bearer ..`,
and go into each request. So a token stands neither on a command line nor in a journal, and a fresh one is taken when it is needed. Where COMMAND
fails the call's connection is closed, and the workflow sees a ConnectionError.

Each call is one connection, so bytes are handed on as they come, both ways, until either side ends.
"""

import argparse
import select
import socket
import ssl
import subprocess
import sys
import threading
import time

FRESH = 300


class Fields:
    """The fields that a command prints, kept for a while."""

    def __init__(self, command):
        self.command, self.kept, self.made, self.lock = command, b"", None, threading.Lock()

    def lines(self):
        with self.lock:
            if self.command and (self.made is None or time.monotonic() - self.made > FRESH):
                told = subprocess.run(["sh", "-c", self.command], stdout=subprocess.PIPE, check=True, timeout=60).stdout
                self.kept = b"".join(line.strip() + b"\r\n" for line in told.splitlines() if line.strip())
                self.made = time.monotonic()
            return self.kept


def first_piece(connection):
    """What comes first, up to the end of the first line at least. Nothing where the connection ends before that."""
    begun = b""
    while b"\r\n" not in begun:
        piece = connection.recv(65536)
        if not piece:
            return b""
        begun += piece
    return begun


def read_now(service):
    """What the service has sent by now: nothing yet is None, and its end is empty."""
    service.settimeout(0)
    try:
        return service.recv(65536)
    except ssl.SSLWantReadError:
        return None
    finally:
        service.settimeout(None)


def exchange(connection, service):
    """Hands bytes on both ways until either side ends. One thread does both: two may not use one TLS connection at a time."""
    while True:
        ready, _, _ = select.select([connection, service], [], [])
        if service in ready:
            while (piece := read_now(service)) is not None:
                if not piece:
                    return
                connection.sendall(piece)
        if connection in ready:
            piece = connection.recv(65536)
            if not piece:
                return
            service.sendall(piece)


def serve(connection, host, address, context, fields):
    """Serves one call. A fault is told, and closes the connection."""
    with connection:
        try:
            line, end, rest = first_piece(connection).partition(b"\r\n")
            if not end:
                return
            begun = line + end + fields.lines() + rest
            plain = socket.create_connection(address, 30)
            plain.settimeout(None)
            with context.wrap_socket(plain, server_hostname=host) as service:
                service.sendall(begun)
                exchange(connection, service)
                connection.shutdown(socket.SHUT_WR)
        except (OSError, subprocess.SubprocessError) as fault:
            print(f"tls_proxy: {host}: {fault}", file=sys.stderr, flush=True)


def words_of():
    words = argparse.ArgumentParser(description=__doc__, formatter_class=argparse.RawDescriptionHelpFormatter)
    words.add_argument("port", type=int, metavar="PORT")
    words.add_argument("host", metavar="HOST")
    words.add_argument("--to", metavar="NAME:PORT")
    words.add_argument("--authority", metavar="FILE")
    words.add_argument("--fields", metavar="COMMAND")
    return words.parse_args()


def main():
    words = words_of()
    name, _, port = (words.to or f"{words.host}:443").rpartition(":")
    context, fields = ssl.create_default_context(cafile=words.authority), Fields(words.fields)
    with socket.create_server(("127.0.0.1", words.port)) as door:
        while True:
            connection, _ = door.accept()
            threading.Thread(target=serve, args=(connection, words.host, (name, int(port)), context, fields), daemon=True).start()


if __name__ == "__main__":
    main()
