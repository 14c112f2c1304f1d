"""An HTTP service on loopback for the scripts beside it, by sockets and threads: it answers as it is told, and keeps what it was sent."""

import socket
import struct
import threading
import time

LONGEST_WAIT = 60


class Visit:
    """A connection that was made, and what came on it."""

    def __init__(self, service, connection, peer):
        self.service, self.connection, self.peer, self.sent = service, connection, peer, bytearray()
        self.thread = threading.Thread(target=self.serve, daemon=True)

    def serve(self):
        """Reads a request and answers it. A connection that ends or breaks before that is none's fault: the other side was killed, or has heard
        enough."""
        try:
            with self.connection, self.opened() as connection:
                while not is_whole(self.sent):
                    piece = connection.recv(65_536)
                    if not piece:
                        return
                    self.sent += piece
                self.service.answer(bytes(self.sent), connection)
        except OSError:
            return
        except Exception as fault:
            self.service.faults.append(repr(fault))

    def opened(self):
        """The connection as it is spoken on."""
        self.connection.setsockopt(socket.IPPROTO_TCP, socket.TCP_NODELAY, 1)
        return self.service.tls.wrap_socket(self.connection, server_side=True) if self.service.tls else self.connection


class Service:
    """Listens on a port of 127.0.0.1, or one that the system chose, until it is closed or the script ends. `answer` is called with each whole
    request and the connection that it came on, in a thread of its own; the connection is closed behind it. With `tls`, an `ssl.SSLContext`, it
    speaks TLS."""

    def __init__(self, answer, port=0, tls=None):
        self.answer, self.tls, self.visits, self.faults, self.news = answer, tls, [], [], threading.Condition()
        self.listener = socket.create_server(("127.0.0.1", port), backlog=128)
        self.port = self.listener.getsockname()[1]
        threading.Thread(target=self.accept, daemon=True).start()

    def accept(self):
        while True:
            try:
                visit = Visit(self, *self.listener.accept())
            except OSError:
                return
            with self.news:
                self.visits.append(visit)
                visit.thread.start()
                self.news.notify_all()

    def settle(self):
        """Waits until each connection that was made so far has ended, and gives what came on each, in the order in which they were made. Nobody
        may keep one open."""
        with socket.create_connection(("127.0.0.1", self.port)) as own:
            name = own.getsockname()
            with self.news:
                assert self.news.wait_for(lambda: any(it.peer == name for it in self.visits), LONGEST_WAIT), "no connection is taken"
        for visit in self.visits:
            visit.thread.join(LONGEST_WAIT)
            assert not visit.thread.is_alive(), "a connection doesn't end"
        assert not self.faults, self.faults
        self.visits = [it for it in self.visits if it.peer != name]
        return [bytes(it.sent) for it in self.visits]

    def close(self):
        self.listener.shutdown(socket.SHUT_RDWR)
        self.listener.close()


def is_whole(request):
    """Whether bytes are a whole request: a head, and as many bytes behind it as it says."""
    head, end, body = bytes(request).partition(b"\r\n\r\n")
    lengths = [line.split(b":")[1] for line in head.lower().split(b"\r\n") if line.startswith(b"content-length:")]
    return bool(end) and len(body) >= (int(lengths[0]) if lengths else 0)


def wait_for_close(connection):
    """Waits until the other side has closed a connection."""
    while connection.recv(65_536):
        pass


def reset(connection):
    """Ends a connection so that the other side hears of a break."""
    connection.setsockopt(socket.SOL_SOCKET, socket.SO_LINGER, struct.pack("ii", 1, 0))
    connection.close()


def send_in_pieces(connection, data, size, seconds=0.0):
    """Sends so many bytes at a time, and waits a while behind each."""
    for at in range(0, len(data), size):
        connection.sendall(data[at : at + size])
        time.sleep(seconds)
