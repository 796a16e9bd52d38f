"""Streams of HTTP requests at random, scripts that play them, and what was sent to them."""

import socket
from dataclasses import dataclass
from urllib.parse import quote_plus

TYPES = {200: b"text/csv; charset=utf-8", "shape": b"application/json", "other": b"text/plain; charset=utf-8"}


@dataclass
class Ask:
    """A line of `ask`, and the bytes that ask the same over HTTP."""

    line: bytes
    request: bytes
    has_body: bool  # whether its reply has one


# ---- requests

def target_of(line):
    """The path, and the text that it is asked with."""
    if line == b"shape":
        return "/v1/shape", None
    if line.startswith(b"witness "):
        return "/v1/witness", line[len(b"witness "):]
    return "/v1/query", line


def make_ask(rng, line, last):
    """One of the ways to ask a line; only the last of a connection may close it."""
    path, text = target_of(line)
    form = f"q={quote_plus(text)}" if text is not None else ""
    method = rng.choice(("GET", "GET", "HEAD", "POST" if form else "GET"))
    fields = [rng.choice(("Host: cube", "host:cube")), "Accept: */*"]
    if rng.random() < 0.1:
        path = "http://cube" + path
    body = ""
    if method == "POST":
        body = rng.choice(("", "a=b&")) + form
        fields.append(f"Content-Length: {len(body)}")
    elif form:
        path += "?" + form
    version = "1.1"
    if last:
        version = rng.choice(("1.1", "1.0"))
        fields += ["Connection: close"] * (rng.random() < 0.5)
    end = rng.choice(("\r\n", "\n"))
    head = end.join([f"{method} {path} HTTP/{version}", *fields, "", ""])
    return Ask(line, (rng.choice(("", end)) + head + body).encode(), method != "HEAD")


# ---- scripts

def pieces(rng, stream):
    """The stream, cut anyhow."""
    longest = rng.choice((1, 7, 100, 60_000))
    at = 0
    while at < len(stream):
        end = at + rng.randint(1, longest)
        yield stream[at:end]
        at = end


def data_line(connection, piece):
    return f"data {connection} {piece.hex()}\n"


def script_of(rng, stream, connection=0):
    """A script of one connection."""
    lines = [data_line(connection, piece) for piece in pieces(rng, stream)]
    return "".join([f"open {connection}\n", *lines, f"close {connection}\n"]).encode()


def mixed_script(rng, connections):
    """A script that plays connections side by side, each a list of asks, and all asks in the order of their ends."""
    lines = [f"open {number}\n" for number in range(len(connections))]
    left = {number: list(pieces(rng, b"".join(ask.request for ask in asks))) for number, asks in enumerate(connections)}
    waiting = {number: list(asks) for number, asks in enumerate(connections)}
    sent = dict.fromkeys(left, 0)
    order = []
    while any(left.values()):
        number = rng.choice([number for number, rest in left.items() if rest])
        piece = left[number].pop(0)
        lines.append(data_line(number, piece))
        sent[number] += len(piece)
        while waiting[number] and sent[number] >= len(waiting[number][0].request):
            sent[number] -= len(waiting[number][0].request)
            order.append((number, waiting[number].pop(0)))
    return "".join(lines).encode(), order


def read_log(text):
    """What a log says was sent on each connection."""
    sent, at = {}, 0
    while at < len(text):
        end = text.index(b"\n", at)
        word, connection, *length = text[at:end].split(b" ")
        at = end + 1
        if word == b"sent":
            size = int(length[0])
            number = int(connection)
            sent[number] = sent.get(number, b"") + text[at:at + size]
            at += size + 1
    return sent


def exchange(address, stream):
    """What comes back over a socket, and whether it came to its end."""
    got = b""
    with socket.create_connection(address, timeout=60) as connection:
        try:
            for piece in stream:
                connection.sendall(piece)
            connection.shutdown(socket.SHUT_WR)
            while piece := connection.recv(65_536):
                got += piece
        except (ConnectionResetError, BrokenPipeError):
            return got, False
    return got, True


def take_response(stream, has_body):
    """The status, the type and the body of the first response of a stream, and the rest of it."""
    head, _, rest = stream.partition(b"\r\n\r\n")
    first, *lines = head.split(b"\r\n")
    fields = dict(line.split(b": ", 1) for line in lines)
    length = int(fields[b"Content-Length"])
    size = length if has_body else 0
    return int(first.split(b" ")[1]), fields[b"Content-Type"], length, rest[:size], rest[size:]
