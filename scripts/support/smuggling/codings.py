"""Messages about Transfer-Encoding (RFC 9112 sections 6.1 and 7)."""
from collections.abc import Iterator

from support.smuggling.messages import CHUNKED, FRAMINGS, Message, section

# How `chunked` may be spelled, or what may stand beside it.
VALUES = {
    "upper-case": b"CHUNKED",
    "mixed-case": b"cHuNkEd",
    "space-after": b"chunked ",
    "tab-after": b"chunked\t",
    "tab-before": b"\tchunked",
    "spaces-before": b"    chunked",
    "vertical-tab-before": b"\x0bchunked",
    "vertical-tab-after": b"chunked\x0b",
    "form-feed-before": b"\x0cchunked",
    "form-feed-after": b"chunked\x0c",
    "nul-after": b"chunked\0",
    "nul-inside": b"chun\0ked",
    "no-break-space-before": b"\xa0chunked",
    "no-break-space-after": b"chunked\xa0",
    "byte-255-before": b"\xffchunked",
    "comma-after": b"chunked,",
    "comma-before": b",chunked",
    "commas-around": b", , chunked, ,",
    "prefix": b"xchunked",
    "suffix": b"chunkedx",
    "cut": b"chunke",
    "twice": b"chunked, chunked",
    "twice-without-comma": b"chunked chunked",
    "identity-before": b"identity, chunked",
    "identity-after": b"chunked, identity",
    "identity": b"identity",
    "gzip-before": b"gzip, chunked",
    "gzip-after": b"chunked, gzip",
    "gzip": b"gzip",
    "unknown-before": b"x, chunked",
    "unknown-after": b"chunked, x",
    "parameter": b"chunked;q=1",
    "semicolon": b"chunked;",
    "quoted": b'"chunked"',
    "single-quoted": b"'chunked'",
    "quoted-list": b'"x, chunked"',
    "comment": b"(chunked)",
    "colon-before": b": chunked",
    "colon-after": b"chunked:",
    "empty": b"",
    "fold-before": b"\r\n chunked",
    "fold-with-tab-before": b"\r\n\tchunked",
    "fold-inside": b"chun\r\n ked",
    "fold-after": b"chunked\r\n ",
    "fold-then-identity": b"chunked\r\n , identity",
    "lf-fold-before": b"\n chunked",
    "cr-after": b"chunked\r",
    "cr-before": b"\rchunked",
    "kelvin-sign": "chun\u212aed".encode(),
    "percent-encoded": b"%63hunked",
}
# What stands in the place of `Transfer-Encoding: chunked`.
LINES = {
    "no-space": b"Transfer-Encoding:chunked",
    "lower-case": b"transfer-encoding: chunked",
    "upper-case": b"TRANSFER-ENCODING: chunked",
    "space-before-colon": b"Transfer-Encoding : chunked",
    "tab-before-colon": b"Transfer-Encoding\t: chunked",
    "vertical-tab-before-colon": b"Transfer-Encoding\x0b: chunked",
    "nul-before-colon": b"Transfer-Encoding\0: chunked",
    "cr-before-colon": b"Transfer-Encoding\r: chunked",
    "lf-before-colon": b"Transfer-Encoding\n: chunked",
    "fold-before-colon": b"Transfer-Encoding\r\n : chunked",
    "space-before-name": b" Transfer-Encoding: chunked",
    "tab-before-name": b"\tTransfer-Encoding: chunked",
    "cr-before-name": b"\rTransfer-Encoding: chunked",
    "nul-before-name": b"\0Transfer-Encoding: chunked",
    "underscore": b"Transfer_Encoding: chunked",
    "space-in-name": b"Transfer Encoding: chunked",
    "dot": b"Transfer.Encoding: chunked",
    "no-colon": b"Transfer-Encoding chunked",
    "equals": b"Transfer-Encoding=chunked",
    "two-colons": b"Transfer-Encoding:: chunked",
    "folded-into-the-field-before": b"X: a\r\n Transfer-Encoding: chunked",
    "after-a-bare-lf": b"X: a\nTransfer-Encoding: chunked",
    "after-a-bare-cr": b"X: a\rTransfer-Encoding: chunked",
    "long-s": "Tran\u017ffer-Encoding: chunked".encode(),
    "nul-in-name": b"Transfer\0-Encoding: chunked",
    "content-encoding": b"Content-Encoding: chunked",
    "te": b"TE: chunked",
    "x-prefix": b"X-Transfer-Encoding: chunked",
}
PAIRS = {
    "equal": (CHUNKED, CHUNKED),
    "identity-last": (CHUNKED, b"Transfer-Encoding: identity"),
    "identity-first": (b"Transfer-Encoding: identity", CHUNKED),
    "unknown-last": (CHUNKED, b"Transfer-Encoding: x"),
    "unknown-first": (b"Transfer-Encoding: x", CHUNKED),
    "gzip-first": (b"Transfer-Encoding: gzip", CHUNKED),
    "empty-first": (b"Transfer-Encoding:", CHUNKED),
    "empty-last": (CHUNKED, b"Transfer-Encoding:"),
    "cow-last": (CHUNKED, b"Transfer-encoding: cow"),
}
# Where a tool of the field puts a byte into the field.
PLACES = {
    "before-name": (b"", b"Transfer-Encoding: chunked"),
    "in-name": (b"Transfer", b"-Encoding: chunked"),
    "before-colon": (b"Transfer-Encoding", b": chunked"),
    "after-colon": (b"Transfer-Encoding:", b"chunked"),
    "before-value": (b"Transfer-Encoding: ", b"chunked"),
    "after-value": (b"Transfer-Encoding: chunked", b""),
    "before-cr-of-the-line-before": (b"X: x", b"\r\nTransfer-Encoding: chunked"),
}
BYTES = (0x01, 0x04, 0x08, 0x09, 0x0A, 0x0B, 0x0C, 0x0D, 0x1F, 0x20, 0x7F, 0x85, 0xA0, 0xFF)


def framed(lines: dict[str, tuple[bytes, ...]]) -> dict[str, bytes]:
    """A message for each of these lines and each framing beside them."""
    return {
        f"{name}/{framing}": make(*fields)
        for name, fields in lines.items()
        for framing, make in FRAMINGS.items()
    }


def messages() -> Iterator[Message]:
    yield from section(
        "coding-value",
        "RFC 9112 sections 6.1 and 7; Kettle, HTTP Desync Attacks (2019), TE.TE",
        framed({name: (b"Transfer-Encoding: " + value,) for name, value in VALUES.items()}),
    )
    yield from section(
        "coding-name",
        "RFC 9112 sections 5.1 and 5.2; Kettle, HTTP Desync Attacks (2019), TE.TE",
        framed({name: (line,) for name, line in LINES.items()}),
    )
    yield from section(
        "coding-twice",
        "RFC 9112 section 6.1; Kettle, HTTP Desync Attacks (2019), TE.TE",
        framed(dict(PAIRS)),
    )
    yield from section(
        "coding-byte",
        "defparam/smuggler (2020), mutations of Transfer-Encoding",
        {
            f"{place}/{byte:02x}": FRAMINGS["te.cl"](before + bytes([byte]) + after)
            for place, (before, after) in PLACES.items()
            for byte in BYTES
        },
    )
