"""A desk that serves a database over the loopback, and the texts that are sent to it and come back.

What is wanted of it are the texts of the documented requests and replies.
"""
import contextlib
import json
import socket
import sqlite3
import subprocess
import time

from helpers.trying import expect

SECONDS = 60
REASONS = {200: "OK", 202: "Accepted", 400: "Bad Request", 404: "Not Found", 409: "Conflict", 410: "Gone",
           422: "Unprocessable Entity", 500: "Internal Server Error", 503: "Service Unavailable"}
# The status that says the same as an answer.
STATUSES = {"done": 200, "skip": 200, "tick": 200, "old": 200, "import": 200, "parked": 202, "bad_number": 400,
            "bad_moment": 400, "no_panel": 404, "differs": 409, "too_far": 409, "skipped": 410, "forgotten": 410,
            "refused": 422, "import_refused": 422}
TABLES = ("desk", "panel", "command", "place", "shown", "imported")


def response(status, body, content="application/json"):
    head = f"HTTP/1.1 {status} {REASONS[status]}\r\nContent-Type: {content}\r\nContent-Length: {len(body)}\r\nConnection: close\r\n\r\n"
    return head.encode() + body


def answered(reply):
    """The response whose body is a reply to a delivery."""
    return response(STATUSES[json.loads(reply)["answer"]], reply.encode())


def refused(fault):
    return response(400, f'{{"answer":"bad_request","fault":"{fault}"}}'.encode())


def post(target, body, fields=""):
    return f"POST {target} HTTP/1.1\r\n{fields}Content-Length: {len(body)}\r\n\r\n".encode() + body


def get(target):
    return f"GET {target} HTTP/1.1\r\nHost: desk\r\n\r\n".encode()


class Server:
    """A desk that serves a database of the folder, for so many connections."""

    def __init__(self, program, folder, requests, *more):
        with socket.create_server(("127.0.0.1", 0)) as free:
            self.port = free.getsockname()[1]
        self.address = f"127.0.0.1:{self.port}"
        words = [program, "serve", "building.toml", "desk.db", self.address, "--requests", str(requests), *more]
        self.ran = subprocess.Popen(words, cwd=folder, stdout=subprocess.PIPE, stderr=subprocess.PIPE)
        expect(self.ran.stdout.readline(), f"listening {self.address}\n".encode())

    def connect(self):
        return socket.create_connection(("127.0.0.1", self.port), timeout=SECONDS)

    def ask(self, *pieces):
        """What is answered to the pieces of a request, which are sent one after the other."""
        with self.connect() as connection:
            connection.setsockopt(socket.IPPROTO_TCP, socket.TCP_NODELAY, 1)
            # the server may have answered before it took all
            with contextlib.suppress(OSError):
                for place, piece in enumerate(pieces):
                    if place:
                        time.sleep(0.002)
                    connection.sendall(piece)
                connection.shutdown(socket.SHUT_WR)
            return read_all(connection)

    def end(self, status=0, reported=b""):
        out, err = self.ran.communicate(timeout=SECONDS)
        expect((self.ran.returncode, out, err), (status, b"", reported))

    def stop(self):
        self.ran.kill()
        self.ran.communicate()


def read_all(connection):
    found = b""
    with contextlib.suppress(ConnectionResetError):
        while piece := connection.recv(65_536):
            found += piece
    return found


@contextlib.contextmanager
def serving(program, folder, requests, *more):
    server = Server(program, folder, requests, *more)
    try:
        yield server
    finally:
        server.stop()


def rows(folder, statement):
    with contextlib.closing(sqlite3.connect(folder / "desk.db")) as connection:
        return connection.execute(statement).fetchall()


def all_rows(folder):
    """The rows of each table, as the C library reads them."""
    return {name: rows(folder, f"SELECT * FROM {name} ORDER BY 1, 2") for name in TABLES}
