"""What is sent over HTTP, and what is said to it, by docs/FORMATS.md ("HTTP").

A row has a name, the bytes of a connection, and the replies in their order. GROUPS at the end has the rows by their group.
"""

from replies import (
    BAD,
    CONTINUE,
    COUNT,
    COUNT_OF_LYON,
    HEAD_TOO_LARGE,
    NOT_BY_FORM,
    NOT_BY_GET,
    NOT_FOUND,
    NOT_PROTECTED,
    NO_GROUP,
    NO_LENGTH,
    NO_MEASURE,
    NO_Q,
    SHAPE,
    TOO_LARGE,
    WAITS,
    bare,
    closing,
    syntax,
)

HOST = b"Host: cube\r\n"
LINE = b"GET /v1/query?q=cell+count HTTP/1.1\r\n"
END = b"\r\n"
GET = LINE + HOST + END
FORM = b"q=cell+count"
MOST_HEAD = 16_384
MOST_BODY = 65_536
MOST_FIELDS = 64


# ---- how requests are put together

def with_field(field):
    """A GET with one more field."""
    return LINE + HOST + field + b"\r\n" + END


def get(target, host=HOST):
    return b"GET " + target + b" HTTP/1.1\r\n" + host + END


def form(text):
    return get(b"/v1/query?" + text)


def posted(fields, body):
    return b"POST /v1/query HTTP/1.1\r\n" + HOST + fields + END + body


def post(length, body=FORM):
    """A POST with this value of Content-Length."""
    return posted(b"Content-Length: " + length + b"\r\n", body)


def sized_post(body):
    return post(b"%d" % len(body), body)


def sized_get(size):
    """A GET whose head has so many bytes."""
    return with_field(b"A: " + b"a" * (size - len(with_field(b"A: "))))


def with_fields(count):
    """A GET with so many fields."""
    return LINE + HOST + b"A: b\r\n" * (count - 1) + END


def by_method(method, path):
    """A request by any method; a POST has to say that it has no body."""
    length = b"Content-Length: 0\r\n" if method == b"POST" else b""
    return method + b" " + path + b" HTTP/1.1\r\n" + HOST + length + END


# ---- the lines of a head

LINES = [
    ("a plain request", GET, COUNT),
    ("LF ends each line", b"GET /v1/query?q=cell+count HTTP/1.1\nHost: cube\n\n", COUNT),
    ("LF ends some lines", LINE + b"Host: cube\n\r\n", COUNT),
    ("LF ends the empty line", LINE + HOST + b"\n", COUNT),
    ("line ends before a request", b"\r\n\n\r\n" + GET, COUNT),
    ("bare CRs before a request", b"\r\r\r\n\r" + GET, COUNT),
    ("line ends alone", b"\r\n\r\n\n\n"),
    ("a blank before a request", b" " + GET, BAD),
    ("a NUL before a request", b"\x00" + GET, BAD),
    ("a byte order mark before a request", b"\xef\xbb\xbf" + GET, BAD),
    ("a head that has not ended", LINE + HOST, WAITS),
    ("a bad head that has not ended", b"GET\x00/ HTTP/9.9\r\n: \r\n", WAITS),
    ("a folded field", with_field(b"A: b\r\n c"), BAD),
    ("a field folded by a tab", with_field(b"A: b\r\n\tc"), BAD),
    ("a folded Host", LINE + b"Host:\r\n cube\r\n" + END, BAD),
    ("a blank before the first field", LINE + b" Host: cube\r\n" + END, BAD),
    ("a line of blanks", LINE + HOST + b"  \r\n" + END, BAD),
    ("a bare CR in a value", with_field(b"A: b\rc"), BAD),
    ("a bare CR that parts two fields", LINE + HOST + b"A: b\rC: d\r\n" + END, BAD),
    ("a bare CR behind the request line", b"GET /v1/query?q=cell+count HTTP/1.1\rHost: cube\r\n\r\n", BAD),
    ("two CRs before an LF", LINE + b"Host: cube\r\r\n" + END, BAD),
    ("two CRs before the last LF", LINE + HOST + b"\r\r\n" + END, BAD),
    ("CR alone for the empty line", LINE + HOST + b"\r", WAITS),
    ("a NUL in a value", with_field(b"A: b\x00c"), BAD),
    ("a NUL in a name", with_field(b"A\x00: b"), BAD),
    ("a NUL in Host", LINE + b"Host: cu\x00be\r\n" + END, BAD),
    ("a control byte in a value", with_field(b"A: \x01"), BAD),
    ("a vertical tab in a value", with_field(b"A: \x0b"), BAD),
    ("an escape in a value", with_field(b"A: \x1b[2J"), BAD),
    ("a delete byte in a value", with_field(b"A: \x7f"), BAD),
    ("tabs in a value", with_field(b"A:\tb\tc\t"), COUNT),
    ("bytes past ASCII in a value", with_field(b"A: \x80\xff\xc3\xa9"), COUNT),
    ("a blank before a colon", with_field(b"A : b"), BAD),
    ("a tab before a colon", with_field(b"A\t: b"), BAD),
    ("a blank in a name", with_field(b"A B: c"), BAD),
    ("a field without a colon", with_field(b"A"), BAD),
    ("a field without a name", with_field(b": b"), BAD),
    ("a name past ASCII", with_field(b"\xc3\xa9: b"), BAD),
    ("a name with a bracket", with_field(b"A(: b"), BAD),
    ("a name of all other token bytes", with_field(b"!#$%&'*+-.^_`|~09azAZ: b"), COUNT),
    ("no blank behind a colon", with_field(b"A:b"), COUNT),
    ("a value of blanks", with_field(b"A:  \t "), COUNT),
    ("no value", with_field(b"A:"), COUNT),
    ("a value of colons", with_field(b"A::::"), COUNT),
]

# ---- the request line

REQUEST_LINES = [
    ("two blanks before the target", b"GET  /v1/query?q=cell+count HTTP/1.1\r\n" + HOST + END, BAD),
    ("two blanks behind the target", b"GET /v1/query?q=cell+count  HTTP/1.1\r\n" + HOST + END, BAD),
    ("a tab before the target", b"GET\t/v1/query?q=cell+count HTTP/1.1\r\n" + HOST + END, BAD),
    ("a blank in the target", b"GET /v1/query?q=cell count HTTP/1.1\r\n" + HOST + END, BAD),
    ("a blank behind the version", b"GET /v1/query?q=cell+count HTTP/1.1 \r\n" + HOST + END, BAD),
    ("no method", b" /v1/query?q=cell+count HTTP/1.1\r\n" + HOST + END, BAD),
    ("no target", b"GET HTTP/1.1\r\n" + HOST + END, BAD),
    ("an empty target", b"GET  HTTP/1.1\r\n" + HOST + END, BAD),
    ("no version", b"GET /v1/query?q=cell+count\r\n" + HOST + END, BAD),
    ("a method alone", b"GET\r\n\r\n", BAD),
    ("a method in lower case", b"get /v1/query?q=cell+count HTTP/1.1\r\n" + HOST + END, NOT_BY_FORM),
    ("a method in mixed case", b"Get /v1/shape HTTP/1.1\r\n" + HOST + END, NOT_BY_GET),
    ("a method of odd token bytes", b"!#$%&'*+-.^_`|~ /v1/shape HTTP/1.1\r\n" + HOST + END, NOT_BY_GET),
    ("a method of 1,000 letters", b"G" * 1_000 + b" /v1/shape HTTP/1.1\r\n" + HOST + END, NOT_BY_GET),
    ("a method with a bracket", b"GET( /v1/shape HTTP/1.1\r\n" + HOST + END, BAD),
    ("a NUL in the method", b"GET\x00 /v1/shape HTTP/1.1\r\n" + HOST + END, BAD),
    ("a NUL in the target", get(b"/v1/query?q=cell\x00count"), BAD),
    ("a control byte in the target", get(b"/v1/query?q=cell\x1fcount"), BAD),
    ("a delete byte in the target", get(b"/v1/query?q=cell\x7fcount"), BAD),
    ("a target that is no UTF-8", get(b"/v1/query?q=cell+%22\xc3%22"), BAD),
    ("a target with a surrogate", get(b"/v1/query?q=cell+%22\xed\xa0\x80%22"), BAD),
    ("a target that is UTF-8", get(b"/v1/query?q=cell+%22\xc3\xa9%22"), NO_MEASURE),
    ("quotes in a target", get(b'/v1/query?q=cell+"count"'), COUNT),
    ("a fragment behind the query", get(b"/v1/query?q=cell+count#top"), syntax(10)),
    ("a fragment behind another pair", get(b"/v1/query?q=cell+count&a=b#top"), COUNT),
    ("a fragment behind the path", get(b"/v1/shape#top"), NOT_FOUND),
    ("an absolute target", get(b"http://cube/v1/query?q=cell+count"), COUNT),
    ("an absolute target with another authority", get(b"http://other.example:81/v1/query?q=cell+count"), COUNT),
    ("an absolute target with a user", get(b"http://cube@other.example/v1/query?q=cell+count"), COUNT),
    ("an absolute target with an empty authority", get(b"http:///v1/query?q=cell+count"), COUNT),
    ("an absolute target with its scheme in capitals", get(b"HTTP://CUBE/v1/query?q=cell+count"), COUNT),
    ("an absolute target without Host", get(b"http://cube/v1/query?q=cell+count", b""), BAD),
    ("an absolute target without a path", get(b"http://cube"), NOT_FOUND),
    ("an absolute target without a path, with a query", get(b"http://cube?q=cell+count"), NOT_FOUND),
    ("an absolute target whose first slash stands in its query", get(b"http://cube?a=/v1/shape"), NOT_FOUND),
    ("an absolute target by https", get(b"https://cube/v1/shape"), NOT_FOUND),
    ("a scheme with one slash", get(b"http:/v1/shape"), NOT_FOUND),
    ("an absolute target behind a slash", get(b"/http://cube/v1/shape"), NOT_FOUND),
    ("the asterisk", by_method(b"OPTIONS", b"*"), NOT_FOUND),
    ("an authority", by_method(b"CONNECT", b"cube:80"), NOT_FOUND),
    ("HTTP/1.0 without Host", b"GET /v1/query?q=cell+count HTTP/1.0\r\n\r\n", closing(COUNT)),
    ("HTTP/1.0 with Host", b"GET /v1/query?q=cell+count HTTP/1.0\r\n" + HOST + END, closing(COUNT)),
    ("HTTP/1.0 with two Hosts", b"GET /v1/query?q=cell+count HTTP/1.0\r\n" + HOST * 2 + END, BAD),
    ("HTTP/1.0 with keep-alive", b"GET /v1/shape HTTP/1.0\r\nConnection: keep-alive\r\n\r\n", closing(SHAPE)),
    ("HTTP/1.0 on no path", b"GET / HTTP/1.0\r\n\r\n", closing(NOT_FOUND)),
    ("HTTP/1.2", b"GET /v1/query?q=cell+count HTTP/1.2\r\n" + HOST + END, BAD),
    ("HTTP/1.9", b"GET /v1/query?q=cell+count HTTP/1.9\r\n" + HOST + END, BAD),
    ("HTTP/1.10", b"GET /v1/query?q=cell+count HTTP/1.10\r\n" + HOST + END, BAD),
    ("HTTP/1.", b"GET /v1/query?q=cell+count HTTP/1.\r\n" + HOST + END, BAD),
    ("HTTP/1", b"GET /v1/query?q=cell+count HTTP/1\r\n" + HOST + END, BAD),
    ("HTTP/01.1", b"GET /v1/query?q=cell+count HTTP/01.1\r\n" + HOST + END, BAD),
    ("HTTP/0.9", b"GET /v1/query?q=cell+count HTTP/0.9\r\n" + HOST + END, BAD),
    ("HTTP/2.0", b"GET /v1/query?q=cell+count HTTP/2.0\r\n" + HOST + END, BAD),
    ("http/1.1 in lower case", b"GET /v1/query?q=cell+count http/1.1\r\n" + HOST + END, BAD),
    ("the preface of HTTP/2", b"PRI * HTTP/2.0\r\n\r\nSM\r\n\r\n", BAD),
    ("the hello of TLS, which has no empty line", b"\x16\x03\x01\x00\xa5\x01\x00\x00\xa1\x03\x03", WAITS),
]

# ---- Host

HOSTS = [
    ("no Host", LINE + END, BAD),
    ("no Host among fields", LINE + b"Hosts: cube\r\nX-Host: cube\r\n" + END, BAD),
    ("two Hosts", LINE + HOST * 2 + END, BAD),
    ("two different Hosts", LINE + HOST + b"Host: other\r\n" + END, BAD),
    ("two Hosts in two cases", LINE + HOST + b"A: b\r\nhOST: cube\r\n" + END, BAD),
    ("an empty Host", LINE + b"Host:\r\n" + END, COUNT),
    ("a Host of blanks", LINE + b"Host: \t \r\n" + END, COUNT),
    ("a Host of two names", LINE + b"Host: cube, other\r\n" + END, COUNT),
    ("a Host that is none", LINE + b"Host: :/@%\x80\r\n" + END, COUNT),
    ("a Host in another case", LINE + b"hOsT: cube\r\n" + END, COUNT),
    ("a Host with a blank before its colon", LINE + b"Host : cube\r\n" + END, BAD),
]

# ---- Transfer-Encoding

CHUNKED = b"c\r\nq=cell+count\r\n0\r\n\r\n"
CODINGS = [
    ("chunked", posted(b"Transfer-Encoding: chunked\r\n", CHUNKED), NO_LENGTH),
    ("chunked and a length", posted(b"Transfer-Encoding: chunked\r\nContent-Length: 12\r\n", CHUNKED), NO_LENGTH),
    ("a length and chunked", posted(b"Content-Length: 12\r\nTransfer-Encoding: chunked\r\n", CHUNKED), NO_LENGTH),
    ("chunked and a bad length", posted(b"Content-Length: x\r\nTransfer-Encoding: chunked\r\n", CHUNKED), NO_LENGTH),
    ("chunked and no Host", b"POST /v1/query HTTP/1.1\r\nTransfer-Encoding: chunked\r\n\r\n" + CHUNKED, BAD),
    ("chunked in HTTP/1.0", b"POST /v1/query HTTP/1.0\r\nTransfer-Encoding: chunked\r\n\r\n" + CHUNKED, NO_LENGTH),
    ("chunked on a GET", with_field(b"Transfer-Encoding: chunked"), NO_LENGTH),
    ("chunked on no path", b"PUT / HTTP/1.1\r\n" + HOST + b"Transfer-Encoding: chunked\r\n\r\n" + CHUNKED, NO_LENGTH),
    ("a blank behind chunked", posted(b"Transfer-Encoding: chunked \r\nContent-Length: 12\r\n", FORM), NO_LENGTH),
    ("a tab before chunked", posted(b"Transfer-Encoding:\tchunked\r\nContent-Length: 12\r\n", FORM), NO_LENGTH),
    ("a vertical tab before chunked", posted(b"Transfer-Encoding: \x0bchunked\r\nContent-Length: 12\r\n", FORM), BAD),
    ("xchunked", posted(b"Transfer-Encoding: xchunked\r\nContent-Length: 12\r\n", FORM), NO_LENGTH),
    ("CHUNKED", posted(b"TRANSFER-ENCODING: CHUNKED\r\nContent-Length: 12\r\n", FORM), NO_LENGTH),
    ('"chunked" in quotes', posted(b'Transfer-Encoding: "chunked"\r\nContent-Length: 12\r\n', FORM), NO_LENGTH),
    ("gzip, chunked", posted(b"Transfer-Encoding: gzip, chunked\r\nContent-Length: 12\r\n", FORM), NO_LENGTH),
    ("chunked, gzip", posted(b"Transfer-Encoding: chunked, gzip\r\nContent-Length: 12\r\n", FORM), NO_LENGTH),
    ("identity", posted(b"Transfer-Encoding: identity\r\nContent-Length: 12\r\n", FORM), NO_LENGTH),
    ("an empty coding", posted(b"Transfer-Encoding:\r\nContent-Length: 12\r\n", FORM), NO_LENGTH),
    ("two codings", posted(b"Transfer-Encoding: identity\r\n" * 2 + b"Content-Length: 12\r\n", FORM), NO_LENGTH),
    ("a folded coding", posted(b"Transfer-Encoding:\r\n chunked\r\nContent-Length: 12\r\n", FORM), BAD),
    ("a blank before its colon", posted(b"Transfer-Encoding : chunked\r\nContent-Length: 12\r\n", FORM), BAD),
    ("Transfer_Encoding", posted(b"Transfer_Encoding: chunked\r\nContent-Length: 12\r\n", FORM), COUNT),
    ("TE and Trailer", posted(b"TE: trailers\r\nTrailer: A\r\nContent-Length: 12\r\n", FORM), COUNT),
    ("Content-Encoding", posted(b"Content-Encoding: gzip\r\nContent-Length: 12\r\n", FORM), COUNT),
]

# ---- Content-Length

LENGTHS = [
    ("12", post(b"12"), COUNT),
    ("00012", post(b"00012"), COUNT),
    ("12 behind 1,000 zeros", post(b"0" * 1_000 + b"12"), COUNT),
    ("12 between blanks", post(b" \t12\t "), COUNT),
    ("12 in another case", posted(b"cONTENT-lENGTH: 12\r\n", FORM), COUNT),
    ("0", post(b"0", b""), NO_Q),
    ("none", posted(b"", FORM), NO_LENGTH),
    ("none, in HTTP/1.0", b"POST /v1/query HTTP/1.0\r\n\r\n" + FORM, NO_LENGTH),
    ("empty", post(b""), BAD),
    ("a blank", post(b" "), BAD),
    ("12, 12", post(b"12, 12"), BAD),
    ("12,", post(b"12,"), BAD),
    ("+12", post(b"+12"), BAD),
    ("-1", post(b"-1"), BAD),
    ("-0", post(b"-0"), BAD),
    ("0x0c", post(b"0x0c"), BAD),
    ("1 2", post(b"1 2"), BAD),
    ("12.0", post(b"12.0"), BAD),
    ("1e1", post(b"1e1"), BAD),
    ("12 in quotes", post(b'"12"'), BAD),
    ("12 and a NUL", post(b"12\x00"), BAD),
    ("12 in Arabic-Indic digits", post("١٢".encode()), BAD),
    ("12 in digits of full width", post("１２".encode()), BAD),
    ("a blank before its colon", posted(b"Content-Length : 12\r\n", FORM), BAD),
    ("twice the same", posted(b"Content-Length: 12\r\n" * 2, FORM), BAD),
    ("twice different", posted(b"Content-Length: 12\r\nContent-Length: 0\r\n", FORM), BAD),
    ("twice, once empty", posted(b"Content-Length: 12\r\nContent-Length:\r\n", FORM), BAD),
    ("65,537", post(b"65537"), TOO_LARGE),
    ("065537", post(b"065537"), TOO_LARGE),
    ("2^32 and 12", post(b"%d" % (2**32 + 12)), TOO_LARGE),
    ("2^63", post(b"%d" % 2**63), TOO_LARGE),
    ("2^64", post(b"%d" % 2**64), TOO_LARGE),
    ("2^64 and 12", post(b"%d" % (2**64 + 12)), TOO_LARGE),
    ("2^128 and 12", post(b"%d" % (2**128 + 12)), TOO_LARGE),
    ("1,000 nines", post(b"9" * 1_000), TOO_LARGE),
    ("2^64, twice", posted(b"Content-Length: %d\r\n" % 2**64 * 2, FORM), BAD),
    ("65,537 on a GET", with_field(b"Content-Length: 65537"), TOO_LARGE),
    ("a bad one on a GET", with_field(b"Content-Length: x"), BAD),
    ("Content_Length", posted(b"Content_Length: 12\r\n", FORM), NO_LENGTH),
]

# ---- bodies

BODIES = [
    ("a body as long as said", sized_post(FORM), COUNT),
    ("a body longer than said", post(b"12", FORM + GET), COUNT, COUNT),
    ("the rest of a body as the method of the next request", post(b"12", FORM + b"x" + get(b"/v1/shape")), COUNT, NOT_BY_GET),
    ("the rest of a body as a bad head", post(b"12", FORM + b"&a=b" + GET), COUNT, BAD),
    ("a body shorter than said, which takes the next request", post(b"%d" % len(FORM + GET), FORM + GET), syntax(14)),
    ("a body that has not ended", post(b"13"), WAITS),
    ("line ends behind a body", sized_post(FORM) + b"\r\n\n", COUNT),
    ("line ends in front of a body", sized_post(b"\r\n" + FORM), NO_Q),
    ("a body of line ends", sized_post(b"\r\n\r\n"), NO_Q),
    ("a body with heads in it", sized_post(b"a=" + GET + b"&" + FORM), COUNT),
    ("the body of a GET", with_field(b"Content-Length: 12") + FORM, COUNT),
    ("the body of a GET with a head in it", with_field(b"Content-Length: %d" % len(GET)) + GET, COUNT),
    ("the body of a GET that is not said", GET + FORM, COUNT, BAD),
    ("the body of a HEAD", b"HEAD" + with_field(b"Content-Length: 12")[3:] + FORM, bare(COUNT)),
    ("the body of a PUT", b"PUT" + with_field(b"Content-Length: 12")[3:] + FORM, NOT_BY_FORM),
    ("the body of a POST on no path", b"POST / HTTP/1.1\r\n" + HOST + b"Content-Length: 12\r\n\r\n" + FORM, NOT_FOUND),
    ("a body that is no UTF-8", sized_post(b"a=\xff\x00&" + FORM), COUNT),
    ("a body as JSON", sized_post(b'{"q":"cell count"}'), NO_Q),
    ("a form with another type", posted(b"Content-Type: application/json\r\nContent-Length: 12\r\n", FORM), COUNT),
    ("a line end behind the form", sized_post(FORM + b"\r\n"), syntax(10)),
    ("a POST with its text in the target", b"POST" + with_field(b"Content-Length: 0")[3:], NO_Q),
    ("a POST with a text in both", b"POST /v1/query?q=x HTTP/1.1\r\n" + HOST + b"Content-Length: 12\r\n\r\n" + FORM, COUNT),
    ("a GET with its text in the body", b"GET /v1/query HTTP/1.1\r\n" + HOST + b"Content-Length: 12\r\n\r\n" + FORM, NO_Q),
    ("a POST that closes", posted(b"Connection: close\r\nContent-Length: 12\r\n", FORM), closing(COUNT)),
]

EXPECT = b"Expect: 100-continue\r\n"
LENGTH = b"Content-Length: 12\r\n"
EXPECTATIONS = [
    ("100-continue", posted(EXPECT + LENGTH, FORM), CONTINUE, COUNT),
    ("100-continue, and no body comes", posted(EXPECT + LENGTH, b""), CONTINUE, WAITS),
    ("100-Continue in capitals", posted(b"EXPECT: 100-CONTINUE\r\n" + LENGTH, FORM), CONTINUE, COUNT),
    ("100-continue between blanks", posted(b"Expect: \t 100-continue \r\n" + LENGTH, FORM), CONTINUE, COUNT),
    ("100-continue behind the length", posted(LENGTH + EXPECT, FORM), CONTINUE, COUNT),
    ("100-continue on a GET with a body", LINE + HOST + EXPECT + LENGTH + END + FORM, CONTINUE, COUNT),
    ("100-continue on no path", b"PUT / HTTP/1.1\r\n" + HOST + EXPECT + LENGTH + END + FORM, CONTINUE, NOT_FOUND),
    ("100-continue and close", posted(EXPECT + b"Connection: close\r\n" + LENGTH, FORM), CONTINUE, closing(COUNT)),
    ("100-continue without a body", LINE + HOST + EXPECT + END, COUNT),
    ("100-continue and a length of 0", posted(EXPECT + b"Content-Length: 0\r\n", b""), NO_Q),
    ("100-continue in HTTP/1.0", b"POST /v1/query HTTP/1.0\r\n" + EXPECT + LENGTH + END + FORM, closing(COUNT)),
    ("100-continue twice", posted(EXPECT * 2 + LENGTH, FORM), COUNT),
    ("100-continue and something else", posted(b"Expect: 100-continue, a\r\n" + LENGTH, FORM), COUNT),
    ("100-continue with a parameter", posted(b"Expect: 100-continue;a\r\n" + LENGTH, FORM), COUNT),
    ("something else", posted(b"Expect: 200-ok\r\n" + LENGTH, FORM), COUNT),
    ("nothing", posted(b"Expect:\r\n" + LENGTH, FORM), COUNT),
    ("100-continue and no length", posted(EXPECT, FORM), NO_LENGTH),
    ("100-continue and too long a body", posted(EXPECT + b"Content-Length: 65537\r\n", FORM), TOO_LARGE),
    ("100-continue and chunked", posted(EXPECT + b"Transfer-Encoding: chunked\r\n", CHUNKED), NO_LENGTH),
    ("100-continue and no Host", b"POST /v1/query HTTP/1.1\r\n" + EXPECT + LENGTH + END + FORM, BAD),
    ("100-continue for a second request", GET + posted(EXPECT + LENGTH, FORM), COUNT, CONTINUE, COUNT),
]

# ---- what is long

LIMITS = [
    ("a head of the most bytes", sized_get(MOST_HEAD), COUNT),
    ("a head of one more", sized_get(MOST_HEAD + 1), HEAD_TOO_LARGE),
    ("a head of the most bytes behind 2,000 line ends", b"\r\n" * 2_000 + sized_get(MOST_HEAD), COUNT),
    ("a head of one more behind 2,000 line ends", b"\r\n" * 2_000 + sized_get(MOST_HEAD + 1), HEAD_TOO_LARGE),
    ("a head of the most bytes behind a request", GET + sized_get(MOST_HEAD), COUNT, COUNT),
    ("a head of one more behind a request", GET + sized_get(MOST_HEAD + 1), COUNT, HEAD_TOO_LARGE),
    ("a bad head of the most bytes", b"\x00" + sized_get(MOST_HEAD - 1), BAD),
    ("a bad head of one more", b"\x00" + sized_get(MOST_HEAD), HEAD_TOO_LARGE),
    ("letters without an end, one fewer than the most", b"a" * (MOST_HEAD - 1), WAITS),
    ("letters without an end, the most", b"a" * MOST_HEAD, HEAD_TOO_LARGE),
    ("a target of 16,000 bytes", form(FORM + b"&" + b"a" * 16_000), COUNT),
    ("as many fields as are allowed", with_fields(MOST_FIELDS), COUNT),
    ("one field more", with_fields(MOST_FIELDS + 1), BAD),
    ("1,000 fields", with_fields(1_000), BAD),
    ("65,535 line ends", b"\n" * 65_535),
]

LONG_BODIES = [
    ("a body of the most bytes", sized_post(FORM + b"&" + b"a" * (MOST_BODY - len(FORM) - 1)), COUNT),
    ("a text at the end of a body of the most bytes", sized_post(b"a" * (MOST_BODY - len(FORM) - 1) + b"&" + FORM), COUNT),
    ("a text of the most bytes", sized_post(FORM + b"+" * (MOST_BODY - len(FORM))), COUNT),
    ("a body of one more", sized_post(FORM + b"&" + b"a" * (MOST_BODY - len(FORM))), TOO_LARGE),
    ("the body of a GET of the most bytes", with_field(b"Content-Length: %d" % MOST_BODY) + bytes(MOST_BODY), COUNT),
]

# ---- requests behind one another

NO_PATH = get(b"/")
HEAD = b"HEAD" + GET[3:]
ROUNDS = 25
BEHIND = [
    ("100 requests", GET * 100, *[COUNT] * 100),
    (
        "100 requests of four kinds",
        (GET + NO_PATH + HEAD + sized_post(FORM)) * ROUNDS,
        *[COUNT, NOT_FOUND, bare(COUNT), COUNT] * ROUNDS,
    ),
    ("a request and a half", GET + LINE, COUNT, WAITS),
    ("close", with_field(b"Connection: close"), closing(COUNT)),
    ("Close", with_field(b"connection: Close"), closing(COUNT)),
    ("close without a blank", with_field(b"Connection:close"), closing(COUNT)),
    ("close between blanks", with_field(b"Connection: \tclose\t "), closing(COUNT)),
    ("keep-alive", with_field(b"Connection: keep-alive"), COUNT),
    ("Close in a list", with_field(b"Connection: keep-alive, Close"), closing(COUNT)),
    ("close before others", with_field(b"Connection: close,upgrade,TE"), closing(COUNT)),
    ("close between commas", with_field(b"Connection: ,, close ,"), closing(COUNT)),
    ("close in a second field", with_field(b"Connection: keep-alive\r\nConnection: close"), closing(COUNT)),
    ("closed", with_field(b"Connection: closed"), COUNT),
    ("x-close", with_field(b"Connection: x-close"), COUNT),
    ("close with a parameter", with_field(b"Connection: close;a"), COUNT),
    ("close in quotes", with_field(b'Connection: "close"'), COUNT),
    ("close between blanks in a word", with_field(b"Connection: please close"), COUNT),
    ("close in another field", with_field(b"Proxy-Connection: close"), COUNT),
    ("nothing", with_field(b"Connection:"), COUNT),
    ("an upgrade", with_field(b"Connection: upgrade\r\nUpgrade: h2c"), COUNT),
    ("three requests of which the second closes", GET + with_field(b"Connection: close") + GET, COUNT, closing(COUNT)),
    ("close on no path", b"GET / HTTP/1.1\r\n" + HOST + b"Connection: close\r\n\r\n", closing(NOT_FOUND)),
    ("close by HEAD", b"HEAD" + with_field(b"Connection: close")[3:], closing(bare(COUNT))),
    ("close by a method that is not allowed", b"PUT" + with_field(b"Connection: close")[3:], closing(NOT_BY_FORM)),
    ("HTTP/1.0 behind HTTP/1.1", GET + b"GET /v1/shape HTTP/1.0\r\n\r\n" + GET, COUNT, closing(SHAPE)),
    ("a refused head behind a request", GET + LINE + END + GET, COUNT, BAD),
    ("a refused head with a thousand bytes behind it", LINE + END + b"\r\n" * 500, BAD),
    ("a HEAD without Host, which is told with a body", b"HEAD" + LINE[3:] + END, BAD),
    ("replies that leave it open", NO_PATH + form(b"") + form(b"q=x") + GET, NOT_FOUND, NO_Q, syntax(0), COUNT),
]

# ---- the text of a form

FORMS = [
    ("no query", get(b"/v1/query"), NO_Q),
    ("an empty query", form(b""), NO_Q),
    ("another parameter", form(b"p=cell+count"), NO_Q),
    ("another parameter before it", form(b"p=x&q=cell+count"), COUNT),
    ("another parameter behind it", form(b"q=cell+count&p=x"), COUNT),
    ("Q in capitals", form(b"Q=cell+count"), NO_Q),
    ("q behind a blank", form(b"+q=cell+count"), NO_Q),
    ("q with brackets", form(b"q[]=cell+count"), NO_Q),
    ("q as %71", form(b"%71=cell+count"), COUNT),
    ("an empty q", form(b"q="), syntax(0)),
    ("q without an equals sign", form(b"q"), syntax(0)),
    ("two q", form(b"q=cell+count&q=x"), COUNT),
    ("two q, of which the second would do", form(b"q=x&q=cell+count"), syntax(0)),
    ("two q, of which the first is empty", form(b"q=&q=cell+count"), syntax(0)),
    ("empty pairs", form(b"&&&q=cell+count&&"), COUNT),
    ("a pair without a name", form(b"=x&q=cell+count"), COUNT),
    ("semicolons between pairs", form(b"a=b;q=cell+count"), NO_Q),
    ("two equals signs", form(b"q==cell+count"), syntax(0)),
    ("an equals sign in the text", form(b"q=cell+count+region.city=Lyon"), COUNT_OF_LYON),
    ("a second question mark", form(b"a?q=cell+count"), NO_Q),
    ("two question marks", form(b"?q=cell+count"), NO_Q),
    ("a question mark in the text", form(b"q=cell+count?"), syntax(10)),
    ("+ for blanks", form(b"q=++cell++count++"), COUNT),
    ("%20 for blanks", form(b"q=%20cell%20%20count%20"), COUNT),
    ("%09 for a blank", form(b"q=cell%09count"), COUNT),
    ("%2B is no blank", form(b"q=cell%2Bcount"), syntax(4)),
    ("%0A is no blank", form(b"q=cell%0Acount"), syntax(4)),
    ("%2520 is no blank", form(b"q=cell%2520count"), syntax(4)),
    ("letters in escapes", form(b"q=%63%65ll+c%6Fun%74"), COUNT),
    ("letters in escapes of small digits", form(b"q=%63%65ll+c%6fun%74"), COUNT),
    ("%00", form(b"q=cell+count%00"), syntax(10)),
    ("%00 in a name", form(b"q=cell+%22a%00%22"), syntax(7)),
    ("%7F in a name", form(b"q=cell+%22a%7F%22"), syntax(7)),
    ("%zz", form(b"q=cell+count%zz"), syntax(10)),
    ("%zz in a name", form(b"q=cell+%22%zz%22!"), syntax(10)),
    ("%4 cut short", form(b"q=cell+count%4"), syntax(10)),
    ("% cut short", form(b"q=cell+count%"), syntax(10)),
    ("%% before an escape", form(b"q=cell+%22%%41%22!"), syntax(9)),
    ("% alone", form(b"q=%"), syntax(0)),
    ("%26 is no separator", form(b"q=cell+count%26p"), syntax(10)),
    ("a letter past ASCII", form(b"q=cell+%22%C3%A9%22"), NO_MEASURE),
    ("a letter past ASCII has two bytes", form(b"q=cell+%22%c3%a9%22!"), syntax(9)),
    ("a letter cut in the middle is a mark of three bytes", form(b"q=cell+%22%C3%22!"), syntax(10)),
    ("two bytes of three are one mark", form(b"q=cell+%22%E2%82%22!"), syntax(10)),
    ("three bytes of four are one mark", form(b"q=cell+%22%F0%9F%98%22!"), syntax(10)),
    ("a cut letter at the end", form(b"q=cell+%22%E2%82"), syntax(9)),
    ("two cut letters are two marks", form(b"q=cell+%22%C3%C3%22!"), syntax(13)),
    ("an overlong slash is two marks", form(b"q=cell+%22%C0%AF%22!"), syntax(13)),
    ("a surrogate is three marks", form(b"q=cell+%22%ED%A0%80%22!"), syntax(16)),
    ("a byte order mark before the text", form(b"q=%EF%BB%BFcell+count"), syntax(0)),
    ("a text in quotes", form(b"q=%22cell+count%22"), syntax(0)),
    ("a name that nothing has", form(b"q=cell+x"), NO_MEASURE),
    ("the empty name", form(b"q=cell+%22%22"), NO_MEASURE),
    ("a text of a POST in escapes", sized_post(b"%71=%63ell%20count"), COUNT),
    ("two q in a POST", sized_post(b"q=cell+count&q=x"), COUNT),
    ("no q in a POST", sized_post(b"p=cell+count"), NO_Q),
]

# ---- paths and methods

QUERY = b"/v1/query?q=cell+count"
WITNESS = b"/v1/witness?q=cell+pay+region.city=Lyon"
METHODS = [b"PUT", b"DELETE", b"PATCH", b"OPTIONS", b"TRACE", b"CONNECT", b"head", b"post", b"QUERY"]
PATHS = [
    ("GET a query", by_method(b"GET", QUERY), COUNT),
    ("HEAD a query", by_method(b"HEAD", QUERY), bare(COUNT)),
    ("POST a query without a body", by_method(b"POST", QUERY), NO_Q),
    *((f"{method.decode()} a query", by_method(method, QUERY), NOT_BY_FORM) for method in METHODS),
    ("GET a witness", by_method(b"GET", WITNESS), NOT_PROTECTED),
    ("HEAD a witness", by_method(b"HEAD", WITNESS), bare(NOT_PROTECTED)),
    ("POST a witness without a body", by_method(b"POST", WITNESS), NO_Q),
    ("GET a witness without q", by_method(b"GET", b"/v1/witness"), NO_Q),
    *((f"{method.decode()} a witness", by_method(method, WITNESS), NOT_BY_FORM) for method in METHODS),
    ("GET the shape", by_method(b"GET", b"/v1/shape"), SHAPE),
    ("HEAD the shape", by_method(b"HEAD", b"/v1/shape"), bare(SHAPE)),
    ("POST the shape", by_method(b"POST", b"/v1/shape"), NOT_BY_GET),
    ("GET the shape with a query", by_method(b"GET", b"/v1/shape?q=x&%"), SHAPE),
    *((f"{method.decode()} the shape", by_method(method, b"/v1/shape"), NOT_BY_GET) for method in METHODS),
    *((f"{method.decode()} no path", by_method(method, b"/"), NOT_FOUND) for method in [b"GET", b"POST", *METHODS]),
    ("HEAD no path", by_method(b"HEAD", b"/"), bare(NOT_FOUND)),
    ("a method that is not allowed, without q", by_method(b"PUT", b"/v1/query"), NOT_BY_FORM),
    ("HEAD without q", by_method(b"HEAD", b"/v1/query"), bare(NO_Q)),
    *(
        (f"the path {path.decode()}", get(path + b"?q=cell+count"), NOT_FOUND)
        for name in (b"query", b"witness", b"shape")
        for path in (
            b"/v1/" + name + b"/",
            b"//v1/" + name,
            b"/v1//" + name,
            b"/V1/" + name,
            b"/v1/" + name.upper(),
            b"/v1/" + name.capitalize(),
            b"/v1/" + name + b"%20",
            b"/v1/" + name + b".csv",
            b"/v1/" + name + b";a",
            b"/v1/./" + name,
            b"/v1/../v1/" + name,
            b"/v1%2F" + name,
            b"/%761/" + name,
            b"\\v1\\" + name,
            b"v1/" + name,
            b"/v2/" + name,
            b"/" + name,
            name,
        )
    ),
    ("the path /v1", get(b"/v1?q=cell+count"), NOT_FOUND),
    ("the path /v1/", get(b"/v1/?q=cell+count"), NOT_FOUND),
    ("a question mark alone", get(b"?"), NOT_FOUND),
    ("an escaped question mark", get(b"/v1/query%3Fq=cell+count"), NOT_FOUND),
]

GROUP_PATHS = [
    ("a group", get(b"/g/a/v1/query?q=cell+count"), NO_GROUP),
    ("a group's witness", get(b"/g/a/v1/witness?q=cell+count"), NO_GROUP),
    ("a group's shape", get(b"/g/a/v1/shape"), NO_GROUP),
    ("a group by POST", b"POST /g/a/v1/query HTTP/1.1\r\n" + HOST + LENGTH + END + FORM, NO_GROUP),
    ("a group by HEAD", by_method(b"HEAD", b"/g/a/v1/shape"), bare(NO_GROUP)),
    ("a group without q", get(b"/g/a/v1/query"), NO_Q),
    ("a group by PUT", by_method(b"PUT", b"/g/a/v1/query"), NOT_BY_FORM),
    ("a group's shape by POST", by_method(b"POST", b"/g/a/v1/shape"), NOT_BY_GET),
    ("a name of 32 bytes", get(b"/g/" + b"aZ_-" * 8 + b"/v1/shape"), NO_GROUP),
    ("a name of 33 bytes", get(b"/g/" + b"aZ_-" * 8 + b"a/v1/shape"), NOT_FOUND),
    ("no name", get(b"/g//v1/shape"), NOT_FOUND),
    ("a name with a point", get(b"/g/a.b/v1/shape"), NOT_FOUND),
    ("a name with an escape", get(b"/g/%61/v1/shape"), NOT_FOUND),
    ("a name past ASCII", get(b"/g/\xc3\xa9/v1/shape"), NOT_FOUND),
    ("a group in a group", get(b"/g/a/g/b/v1/shape"), NOT_FOUND),
    ("a group and no path", get(b"/g/a/v1"), NOT_FOUND),
    ("a group alone", get(b"/g/a"), NOT_FOUND),
    ("a slash behind a group's path", get(b"/g/a/v1/shape/"), NOT_FOUND),
    ("a group and two slashes", get(b"/g/a//v1/shape"), NOT_FOUND),
    ("a group in capitals", get(b"/G/a/v1/shape"), NOT_FOUND),
]

GROUPS = {
    "lines of a head": LINES,
    "request lines": REQUEST_LINES,
    "Host": HOSTS,
    "Transfer-Encoding": CODINGS,
    "Content-Length": LENGTHS,
    "bodies": BODIES,
    "expectations": EXPECTATIONS,
    "limits of heads": LIMITS,
    "limits of bodies": LONG_BODIES,
    "requests behind one another": BEHIND,
    "texts of forms": FORMS,
    "paths and methods": PATHS,
    "paths of groups": GROUP_PATHS,
}
