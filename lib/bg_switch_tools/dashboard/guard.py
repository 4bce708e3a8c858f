"""Who may read the dashboard, and who may send commands through it.

A page of another site can make a browser send requests to any port of the machine. It can't read
the answers, unless its own name leads to 127.0.0.1 (DNS rebinding): then the name stands in Host.
It can't read the token of the page either, and a browser names the site in Origin.
"""
import hmac
import re
from collections.abc import Sequence

LOCAL = re.compile(r"(127\.0\.0\.1|localhost)(:[0-9]{1,5})?")
HEADERS = {
    "Content-Security-Policy": "default-src 'none'; script-src 'self'; style-src 'self'; img-src 'self'; connect-src 'self'; "
    "base-uri 'none'; form-action 'none'; frame-ancestors 'none'; require-trusted-types-for 'script'",
    "X-Content-Type-Options": "nosniff",
    "X-Frame-Options": "DENY",
    "Referrer-Policy": "no-referrer",
    "Cross-Origin-Opener-Policy": "same-origin",
    "Cross-Origin-Resource-Policy": "same-origin",
    "Cache-Control": "no-store",
}


def fault_of(hosts: Sequence[str], origins: Sequence[str]) -> str:
    """Why a request with these fields Host and Origin is refused; empty if it is not. A tunnel may
    have another port."""
    if len(hosts) != 1 or not LOCAL.fullmatch(hosts[0].lower()):
        return "the dashboard is reached by the name localhost or the address 127.0.0.1 alone"
    if any(origin != f"http://{hosts[0]}" for origin in origins):
        return "the request comes from another site"
    return ""


def is_token(text: str, token: str) -> bool:
    """Whether this is the token, in a time that says nothing of how much of it is right."""
    return hmac.compare_digest(text.encode("utf-8", "replace"), token.encode("ascii"))
