"""Messages about chunks and trailers (RFC 9112 section 7.1)."""
from collections.abc import Iterator, Mapping

from support.smuggling.messages import CHUNKED, HIDDEN, LAST_CHUNK, Message, chunk, head, section

SIZE = b"%x" % len(HIDDEN)
# How the size of a chunk may be spelled.
SIZES = {
    "plus": b"+" + SIZE,
    "minus": b"-" + SIZE,
    "hexadecimal-mark": b"0x" + SIZE,
    "hexadecimal-mark-upper": b"0X" + SIZE,
    "hexadecimal-mark-after": SIZE + b"h",
    "leading-zero": b"0" + SIZE,
    "16-digits": SIZE.rjust(16, b"0"),
    "17-digits": SIZE.rjust(17, b"0"),
    "100-digits": SIZE.rjust(100, b"0"),
    "2000-digits": SIZE.rjust(2000, b"0"),
    "2^32-more": b"1" + SIZE.rjust(8, b"0"),
    "2^64-more": b"1" + SIZE.rjust(16, b"0"),
    "2^128-more": b"1" + SIZE.rjust(32, b"0"),
    "2^63": b"8" + b"0" * 15,
    "2^64-less-one": b"f" * 16,
    "all-ones-of-65-bits": b"1" + b"f" * 16,
    "space-before": b" " + SIZE,
    "tab-before": b"\t" + SIZE,
    "space-after": SIZE + b" ",
    "tab-after": SIZE + b"\t",
    "spaces-after": SIZE + b"   ",
    "space-inside": SIZE[:1] + b" " + SIZE[1:],
    "underscore": SIZE[:1] + b"_" + SIZE[1:],
    "comma": SIZE + b",",
    "point": SIZE + b".0",
    "quoted": b'"' + SIZE + b'"',
    "vertical-tab-before": b"\x0b" + SIZE,
    "vertical-tab-after": SIZE + b"\x0b",
    "form-feed-after": SIZE + b"\x0c",
    "nul-after": SIZE + b"\0",
    "nul-before": b"\0" + SIZE,
    "no-break-space-after": SIZE + b"\xa0",
    "letter-after": SIZE + b"g",
    "word-after": SIZE + b" bytes",
    "word": b"chunk",
    "empty": b"",
    "only-a-space": b" ",
    "only-an-extension": b";a",
    "two-sizes": SIZE + b" " + SIZE,
    "crlf-before": b"\r\n" + SIZE,
    "lf-before": b"\n" + SIZE,
    "cr-before": b"\r" + SIZE,
    "fullwidth-digits": "２４".encode(),
    "arabic-digits": "٢٤".encode(),
}
# What may follow the size of a chunk, before CR LF.
EXTENSIONS = {
    "name": b";a",
    "name-and-value": b";a=b",
    "quoted-value": b';a="b"',
    "quoted-semicolon": b';a="b;c"',
    "quoted-crlf": b';a="\r\n"',
    "quoted-lf": b';a="\n"',
    "quoted-pair": b';a="\\"',
    "open-quote": b';a="b',
    "no-name": b";",
    "no-value": b";a=",
    "two": b";a;b=c",
    "space-before": b" ;a",
    "space-after": b"; a",
    "tab-before": b"\t;a",
    "space-around-equals": b";a = b",
    "no-semicolon": b" a=b",
    "equals": b"=a",
    "bare-lf": b";\n",
    "bare-lf-after-name": b";a\n",
    "bare-lf-then-size": b";\n" + SIZE,
    "bare-cr": b";\r",
    "bare-cr-after-name": b";a\r",
    "bare-cr-then-byte": b";a\rx",
    "bare-cr-then-lf-later": b";\rx\nx",
    "nul": b";\0",
    "control-byte": b";\x01a",
    "byte-255": b";\xff",
    "delete": b";\x7f",
    "2000-bytes": b";" + b"a" * 2000,
    "9000-bytes": b";" + b"a" * 9000,
}
# How the line of a chunk's size may end.
LINE_ENDS = {
    "lf": b"\n",
    "cr": b"\r",
    "lf-cr": b"\n\r",
    "cr-cr-lf": b"\r\r\n",
    "cr-space-lf": b"\r \n",
    "cr-byte-lf": b"\rx\n",
    "crlf-lf": b"\r\n\n",
    "two-crlf": b"\r\n\r\n",
    "none": b"",
    "vertical-tab": b"\x0b",
    "next-line": b"\x85",
}
# How the data of a chunk may end.
DATA_ENDS = {
    "none": b"",
    "lf": b"\n",
    "cr": b"\r",
    "lf-cr": b"\n\r",
    "two-bytes": b"XX",
    "cr-byte": b"\rX",
    "byte-lf": b"X\n",
    "cr-cr-lf": b"\r\r\n",
    "two-crlf": b"\r\n\r\n",
    "space-crlf": b" \r\n",
    "a-byte-more": b"X\r\n",
}
# What may stand in the place of the last chunk and its end.
LAST_CHUNKS = {
    "two-zeros": b"00\r\n\r\n",
    "17-zeros": b"0" * 17 + b"\r\n\r\n",
    "extension": b"0;a=b\r\n\r\n",
    "space-after": b"0 \r\n\r\n",
    "space-before": b" 0\r\n\r\n",
    "minus": b"-0\r\n\r\n",
    "plus": b"+0\r\n\r\n",
    "hexadecimal-mark": b"0x0\r\n\r\n",
    "lf-lf": b"0\n\n",
    "crlf-lf": b"0\r\n\n",
    "lf-crlf": b"0\n\r\n",
    "cr-cr": b"0\r\r",
    "crlf-cr": b"0\r\n\r",
    "missing-last-crlf": b"0\r\n",
    "missing-both-crlf": b"0",
    "missing": b"",
    "empty-line": b"\r\n",
    "two-last-chunks": b"0\r\n\r\n0\r\n\r\n",
    "spaces-in-the-last-line": b"0\r\n \r\n",
    "two-bytes-in-the-place-of-crlf": b"0\r\nXX",
    "extension-with-lf": b"0;\n\r\n\r\n",
    "hidden-after": b"0\r\n\r\n" + HIDDEN,
    "extra-crlf": b"0\r\n\r\n\r\n",
}
# Trailers, each a line or more without the last CR LF.
TRAILERS = {
    "plain": b"X: a\r\n",
    "content-length": b"Content-Length: %d\r\n" % len(HIDDEN),
    "content-length-zero": b"Content-Length: 0\r\n",
    "transfer-encoding": b"Transfer-Encoding: chunked\r\n",
    "transfer-encoding-identity": b"Transfer-Encoding: identity\r\n",
    "host": b"Host: other\r\n",
    "connection-close": b"Connection: close\r\n",
    "connection-names-a-field": b"Connection: X\r\nX: a\r\n",
    "expect": b"Expect: 100-continue\r\n",
    "upgrade": b"Upgrade: h2c\r\n",
    "authorization": b"Authorization: Basic eDp4\r\n",
    "trailer": b"Trailer: X\r\n",
    "folded": b"X: a\r\n b\r\n",
    "begins-with-a-fold": b" X: a\r\n",
    "space-before-colon": b"X : a\r\n",
    "no-colon": b"X\r\n",
    "no-name": b": a\r\n",
    "lf": b"X: a\n",
    "cr": b"X: a\r",
    "cr-then-field": b"X: a\rContent-Length: 0\r\n",
    "nul": b"X: \0\r\n",
    "control-byte": b"X: \x01\r\n",
    "request-line": b"GET /smuggle HTTP/1.1\r\nHost: web\r\n",
    "100-fields": b"X: a\r\n" * 100,
    "9000-bytes": b"X: " + b"a" * 9000 + b"\r\n",
    "20000-bytes": b"X: " + b"a" * 20000 + b"\r\n",
}


def in_chunks(body: bytes, *fields: bytes) -> bytes:
    return head(CHUNKED, *fields) + body


def of_lines(lines: Mapping[str, bytes]) -> dict[str, bytes]:
    """Messages whose one chunk has each of these lines, with their ends, before its data."""
    return {name: in_chunks(chunk(HIDDEN, line) + LAST_CHUNK) for name, line in lines.items()}


def line_terminators() -> dict[str, bytes]:
    """Lines of a chunk that a reader may end at a bare LF, and another at the CR LF behind it, so
    that one takes for data what the other takes for a line."""
    inner = chunk(HIDDEN)
    outer = LAST_CHUNK + HIDDEN
    return {
        "term.ext-lf": in_chunks(
            b"2;\nxx\r\n" + b"%x\r\n" % len(outer) + outer + b"\r\n" + LAST_CHUNK
        ),
        "ext.term-lf": in_chunks(b"2;\n" + b"xx\r\n" + LAST_CHUNK),
        "term.ext-cr": in_chunks(b"2;\rxx\r\n" + inner + LAST_CHUNK),
        "term.ext-cr-byte": in_chunks(b"2;\rX\nxx\r\n" + inner + LAST_CHUNK),
        "term.spill": in_chunks(
            b"5\r\nAAAAAXX" + b"%x\r\n" % len(outer) + outer + b"\r\n" + LAST_CHUNK
        ),
        "spill.term": in_chunks(
            b"5\r\nAAAAA" + b"%x\r\n" % len(outer) + outer + b"\r\n" + LAST_CHUNK
        ),
        "one.two": in_chunks(b"5\r\nAAAAA\n" + inner + LAST_CHUNK),
        "two.one": in_chunks(b"5\nAAAAA\r\n" + inner + LAST_CHUNK),
        "zero.two": in_chunks(b"5\r\nAAAAA" + inner + LAST_CHUNK),
        "two.zero": in_chunks(b"5AAAAA\r\n" + inner + LAST_CHUNK),
        "cr-lf-split-in-extension": in_chunks(b"5;a\r\r\nAAAAA\r\n" + LAST_CHUNK),
        "next-line-in-extension": in_chunks(b"5;a\x85AAAAA\r\n" + LAST_CHUNK),
    }


def messages() -> Iterator[Message]:
    yield from section(
        "chunk-size",
        "RFC 9112 section 7.1; Jabiyev et al., T-Reqs (2021)",
        of_lines({name: size + b"\r\n" for name, size in SIZES.items()}),
    )
    yield from section(
        "chunk-extension",
        "RFC 9112 section 7.1.1; CVE-2021-22960 (node), CVE-2025-55315 (Kestrel)",
        of_lines({name: SIZE + each + b"\r\n" for name, each in EXTENSIONS.items()}),
    )
    yield from section(
        "chunk-terminator",
        "Weikop, Funky chunks (2025)",
        line_terminators(),
    )
    yield from section(
        "chunk-line-end",
        "RFC 9112 section 7.1; CVE-2025-22871 (Go)",
        of_lines({name: SIZE + end for name, end in LINE_ENDS.items()}),
    )
    yield from section(
        "chunk-data-end",
        "RFC 9112 section 7.1; Kallus et al., The HTTP Garden (2024)",
        {
            name: in_chunks(SIZE + b"\r\n" + HIDDEN + end + LAST_CHUNK)
            for name, end in DATA_ENDS.items()
        },
    )
    yield from section(
        "last-chunk",
        "RFC 9112 sections 7.1 and 8",
        {name: in_chunks(chunk(HIDDEN) + last) for name, last in LAST_CHUNKS.items()},
    )
    yield from section(
        "trailer",
        "RFC 9112 section 7.1.2, RFC 9110 section 6.5",
        {
            name: in_chunks(chunk(HIDDEN) + b"0\r\n" + lines + b"\r\n")
            for name, lines in TRAILERS.items()
        },
    )
    yield from section(
        "trailer-announced",
        "RFC 9110 sections 6.5 and 6.6.2",
        {
            name: in_chunks(
                chunk(HIDDEN) + b"0\r\n" + lines + b"\r\n", b"Trailer: " + lines.partition(b":")[0]
            )
            for name, lines in TRAILERS.items()
            if name in ("plain", "content-length", "transfer-encoding", "host", "connection-close")
        },
    )
