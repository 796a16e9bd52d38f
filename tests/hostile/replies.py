"""The replies that the rows of streams.py expect, as docs/FORMATS.md writes them."""

from dataclasses import dataclass, replace

TEXT = "text/plain; charset=utf-8"
PHRASES = {
    200: "OK",
    400: "Bad Request",
    404: "Not Found",
    405: "Method Not Allowed",
    411: "Length Required",
    413: "Payload Too Large",
    431: "Request Header Fields Too Large",
    503: "Service Unavailable",
}


@dataclass(frozen=True)
class Reply:
    """A reply, whether the connection closes behind it, and whether its body is sent."""

    status: int
    body: str
    kind: str = TEXT
    allow: str = ""
    closes: bool = False
    has_body: bool = True

    def sends(self):
        fields = [f"Content-Type: {self.kind}", f"Content-Length: {len(self.body.encode())}"]
        fields += [f"Allow: {self.allow}"] * (self.allow != "") + ["Connection: close"] * self.closes
        head = [f"HTTP/1.1 {self.status} {PHRASES[self.status]}", *fields, "", ""]
        return ["\r\n".join(head).encode()] + [self.body.encode()] * self.has_body


class Leave:
    """What is sent to a client that waits for leave to send a body."""

    closes = False

    def sends(self):
        return [b"HTTP/1.1 100 Continue\r\n\r\n"]


def closing(reply):
    """The same reply, behind which the connection closes."""
    return replace(reply, closes=True)


def bare(reply):
    """The same reply to HEAD."""
    return replace(reply, has_body=False)


def syntax(at):
    return Reply(400, f"syntax at byte {at}\n")


def not_allowed(methods):
    return Reply(405, "method not allowed\n", allow=methods)


# how many facts the cube of play.py has, and how many of them are in Lyon; and its public shape
COUNT = Reply(200, "count\n5\n", "text/csv; charset=utf-8")
COUNT_OF_LYON = Reply(200, "count\n2\n", "text/csv; charset=utf-8")
SHAPE = Reply(
    200,
    '{"dimensions":[{"levels":["city","area"],"name":"region","paths":[["Lyon","South"],["Nice","South"],["Paris","North"]]}]'
    ',"facts":5,"measures":[{"decimals":0,"method":"open","name":"pay"}],"points":3}',
    "application/json",
)

# faults of a text
NO_MEASURE = Reply(404, "unknown measure at byte 5\n")
NOT_PROTECTED = Reply(404, "not protected\n")

# replies that leave the connection open
NO_Q = Reply(400, "no parameter q\n")
NOT_FOUND = Reply(404, "not found\n")
NO_GROUP = Reply(404, "unknown group\n")
NOT_BY_FORM = not_allowed("GET, HEAD, POST")
NOT_BY_GET = not_allowed("GET, HEAD")
CONTINUE = Leave()

# replies to a head that is refused
BAD = closing(Reply(400, "bad request\n"))
NO_LENGTH = closing(Reply(411, "length required\n"))
TOO_LARGE = closing(Reply(413, "too large\n"))
HEAD_TOO_LARGE = closing(Reply(431, "head too large\n"))

# the reply to a connection too many
BUSY = closing(Reply(503, "too many connections\n"))

# the stream ends within a request, of which nothing is said
WAITS = None
