"""Requests to a desk of the worked building, each with the response that is wanted."""
from helpers.serving import get, post, refused, response

COMMAND = b'{"number":1,"point":"R101-SET","priority":8,"value":2150}'
REQUEST = b"POST /panels/P1/commands HTTP/1.1\r\nHost: desk\r\nContent-Length: 57\r\n\r\n" + COMMAND
RESPONSE = (b"HTTP/1.1 200 OK\r\nContent-Type: application/json\r\nContent-Length: 56\r\nConnection: close\r\n\r\n"
            b'{"answer":"done","number":1,"present":2150,"priority":8}')
POINT = (b'{"answer":"point","places":[null,null,null,null,null,null,null,2150,null,null,null,null,null,null,null,null],'
         b'"point":"R101-SET","present":2150,"priority":8}')
ASKED = [
    (get("/points/R101-SET"), response(200, POINT)),
    (get("/points/NOPE"), response(404, b'{"answer":"no_point"}')),
    (b"GET /points/NOPE HTTP/1.0\r\n\r\n", response(404, b'{"answer":"no_point"}')),
    (get("/points/R101%2DSET"), response(404, b'{"answer":"no_point"}')),
    (b"PUT /tick HTTP/1.1\r\n\r\n", response(404, b'{"answer":"no_route"}')),
    (get("/tick"), response(404, b'{"answer":"no_route"}')),
    (get("/points/"), response(404, b'{"answer":"no_route"}')),
    (post("/panels/P9/commands", COMMAND), response(404, b'{"answer":"no_panel"}')),
    (post("/panels/P%209/commands", COMMAND), response(404, b'{"answer":"no_panel"}')),
    (post("/panels/P!/skip", b'{"upto":4}'), response(404, b'{"answer":"no_panel"}')),
    (b"POST /panels/P!/skip HTTP/1.1\r\n\r\n", refused("H6")),
    (post("/panels/P9/commands", b"{"), refused("H6")),
    (post("/panels/P1/commands", b'{"number":1,"panel":"P1","point":"LIGHT","value":1}'), refused("H6")),
    (b"POST /tick HTTP/1.1\r\nContent-Length: 8\r\nContent-Length: 8\r\n\r\n", refused("H2")),
    (b"POST /tick HTTP/1.1\r\ncontent-length: 8 8\r\n\r\n", refused("H2")),
    (b"POST /tick HTTP/1.1\r\nTransfer-Encoding: chunked\r\n\r\n0\r\n\r\n", refused("H2")),
    (b"POST /panels/P1/commands HTTP/1.1\r\nContent-Length: 65537\r\n\r\n", refused("H4")),
    (b"POST /imports HTTP/1.0\r\nContent-Length: 262145\r\n\r\n", refused("H4")),
    (b"POST /tick HTTP/1.1\r\nContent-Length: 9\r\n\r\n{\"at\":1}", refused("H5")),
    (b"POST /tick HTTP/1.1\r\n\r\n", refused("H6")),
    (b"GET /tick", refused("H1")),
    (b"GET\r\n\r\n", refused("H1")),
    (b"\0", refused("H1")),
    (get("/" + "a" * 8_192), refused("H1")),
    (get("/reports/2025-02-30"), response(404, b'{"answer":"no_day"}')),
    (get("/reports/2155-01-01"), response(404, b'{"answer":"no_day"}')),
    (get("/reports/2025-6-2"), response(404, b'{"answer":"no_day"}')),
]
NO_ROUTE, NO_POINT, NO_PANEL, NO_DAY = (
    response(404, f'{{"answer":"{word}"}}'.encode()) for word in ("no_route", "no_point", "no_panel", "no_day")
)
SKIP = b'{"upto":4}'
HEAD = b"GET /points/NOPE HTTP/1.1\r\n"


def head_of(size):
    """A head of so many bytes that no route has."""
    return b"GET /" + b"a" * (size - 18) + b" HTTP/1.1\r\n\r\n"


HEADS = [
    (b"", b""),
    (head_of(8_191), NO_ROUTE),
    (head_of(8_192), NO_ROUTE),
    (head_of(8_193), refused("H1")),
    (head_of(8_192) + b"body", NO_ROUTE),
    (HEAD + b"A: b\r\n" * 64 + b"\r\n", NO_POINT),
    (HEAD + b"A: b\r\n" * 65 + b"\r\n", refused("H1")),
    (HEAD + b"Host: desk\r\n", refused("H1")),
    (HEAD[:-2], refused("H1")),
    (b"GET /points/NOPE HTTP/2.0\r\n\r\n", refused("H1")),
    (b"GET /points/\xff HTTP/1.1\r\n\r\n", refused("H1")),
    (b"\x01", refused("H1")),
    (HEAD + b"Host: desk\r\n\r\nbody", NO_POINT),
]

# A method, a target and a body.
ROUTES = [
    ("POST", "/panels//commands", COMMAND, NO_ROUTE),
    ("POST", "/panels/P1/P2/commands", COMMAND, NO_ROUTE),
    ("POST", "/panels/P1/commands/", COMMAND, NO_ROUTE),
    ("POST", "/panels/P1", COMMAND, NO_ROUTE),
    ("POST", "/panels/commands", COMMAND, NO_ROUTE),
    ("POST", "/panels/skip/skip", SKIP, NO_PANEL),
    ("POST", "/panels/\u00e9/commands", COMMAND, NO_PANEL),
    ("POST", "/panels/P\u00e9/skip", SKIP, NO_PANEL),
    ("POST", "/", b"", NO_ROUTE),
    ("POST", "/tick/", b'{"at":1}', NO_ROUTE),
    ("POST", "/imports/1", b"calendar,entry", NO_ROUTE),
    ("POST", "/points/P1", b"", NO_ROUTE),
    ("POST", "/reports/2025-06-02", b"", NO_ROUTE),
    ("GET", "/points", b"", NO_ROUTE),
    ("GET", "/points/", b"", NO_ROUTE),
    ("GET", "/points/A/B", b"", NO_ROUTE),
    ("GET", "/points/LIGHT/", b"", NO_ROUTE),
    ("GET", "/points/A%2FB", b"", NO_POINT),
    ("GET", "/points/LIGHT?B=C", b"", NO_POINT),
    ("GET", "/points/light", b"", NO_POINT),
    ("GET", "/points/\u00e9", b"", NO_POINT),
    ("GET", "/reports/", b"", NO_ROUTE),
    ("GET", "/reports/\u00e9", b"", NO_DAY),
    ("GET", "/reports/2025-06-02/", b"", NO_ROUTE),
] + [
    (method, target, body, NO_ROUTE)
    for method in ("GET", "PUT", "post", "DELETE")
    for target, body in (("/tick", b'{"at":1}'), ("/imports", b"calendar,entry"), ("/panels/P1/commands", COMMAND), ("/panels/P1/skip", SKIP))
]


def request(method, target, body):
    return post(target, body).replace(b"POST", method.encode(), 1)
