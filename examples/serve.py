#!/usr/bin/env python3
"""Stands in for the service of an example, so that the example can be run by hand.

    python3 examples/serve.py NAME [--port PORT] [--tls CERTIFICATE KEY]

prints the command that runs examples/NAME.yaml against it, and then answers until it is ended (Ctrl-C). Each request that comes is told on standard
error. Any `--id` will do: of a request only the first line and the body are looked at. With `--tls` it speaks TLS, so something between must too,
such as tls_proxy.py beside it.
"""

import argparse
import json
import os
import shlex
import signal
import ssl
import sys

HERE = os.path.dirname(os.path.realpath(__file__))
sys.dont_write_bytecode = True
sys.path.insert(0, os.path.join(HERE, "..", ".ci"))
from service import Service


def essence(request):
    """What a request asks: its first line and its body."""
    head, _, body = request.partition(b"\r\n\r\n")
    return head.split(b"\r\n")[0], body


class StandIn:
    """The service of an example: of equal requests each gets the next answer, and the last answer stays."""

    def __init__(self, calls):
        self.calls = [(essence(call["sent"].encode()), call["answer"].encode()) for call in calls]
        self.asked = []

    def answer(self, request, connection):
        asked = essence(request)
        answers = [answer for known, answer in self.calls if known == asked]
        before = self.asked.count(asked)
        self.asked.append(asked)
        head = request.partition(b"\r\n\r\n")[0].decode(errors="replace")
        print("serve: " + head.replace("\r\n", "\n    "), file=sys.stderr, flush=True)
        if answers:
            connection.sendall(answers[min(before, len(answers) - 1)])
        else:
            print("serve: the example doesn't send this", file=sys.stderr, flush=True)
            connection.sendall(b"HTTP/1.1 404 Not Found\r\nContent-Length: 0\r\n\r\n")


def words_of():
    words = argparse.ArgumentParser(description=__doc__, formatter_class=argparse.RawDescriptionHelpFormatter)
    words.add_argument("name", metavar="NAME")
    words.add_argument("--port", type=int, default=0, metavar="PORT")
    words.add_argument("--tls", nargs=2, metavar=("CERTIFICATE", "KEY"))
    return words.parse_args()


def main():
    words = words_of()
    with open(f"{HERE}/{words.name}.service.json", encoding="utf-8") as file:
        told = json.load(file)
    context = None
    if words.tls:
        context = ssl.SSLContext(ssl.PROTOCOL_TLS_SERVER)
        context.load_cert_chain(*words.tls)
    service = Service(StandIn(told["calls"]).answer, words.port, context)
    further = []
    if os.path.exists(f"{HERE}/{words.name}.args"):
        with open(f"{HERE}/{words.name}.args", encoding="utf-8") as file:
            further = file.read().splitlines()
    route = f"{told['host']}=127.0.0.1:{service.port}"
    line = ["workflow", "run", "--source", f"examples/{words.name}.yaml", "--journal", f"{words.name}.journal", *further, "--route", route]
    print(shlex.join(line), flush=True)
    try:
        signal.pause()
    except KeyboardInterrupt:
        service.close()


if __name__ == "__main__":
    main()
