"""Answers of etcd's JSON gateway: their values, and what those mean that are no success."""
import http

from bg_switch_tools.fleet.store.store import StoreRefusedError
from bg_switch_tools.fleet.store.timed_post import NoAnswerError
from bg_switch_tools.switch.json_values import JsonObject, decoded

# Codes of gRPC by which the cluster refuses a call, so that each other endpoint would too:
# InvalidArgument, NotFound, PermissionDenied, FailedPrecondition, Unauthenticated.
NOT_FOUND, DENIED = 5, 7
REFUSALS = (3, NOT_FOUND, DENIED, 9, 16)
FULL = "database space exceeded"
NO_TOKEN = "user name is empty"
# What etcd answers, and not in JSON, to a client certificate whose name it could take for that of a
# user.
COMMON_NAME = b"CommonName of client sending a request against gateway"
# What etcd answers to a token that is missing, has expired, or is older than a change of the users.
NEEDS_TOKEN = (
    NO_TOKEN,
    "invalid auth token",
    "revision of auth store is old",
    "revision in header is old",
)
LONGEST_TOLD = 200  # characters of a text of etcd that are repeated


class EtcdRefusedError(StoreRefusedError):
    """The cluster refuses a call, so that it has changed nothing. `code` is that of gRPC,
    `etcd_text` the text of etcd."""

    def __init__(self, text: str, code: int, etcd_text: str) -> None:
        super().__init__(text)
        self.code, self.etcd_text = code, etcd_text

    @property
    def needs_token(self) -> bool:
        return any(each in self.etcd_text for each in NEEDS_TOKEN)


def member(answer: JsonObject, key: str) -> JsonObject:
    """An object in an answer. An empty one if it is absent. `NoAnswerError` if it is no object."""
    value = answer.get(key, JsonObject([]))
    if not isinstance(value, JsonObject):
        raise NoAnswerError(f"its answer has no object {key}")
    return value


def number(answer: JsonObject, key: str) -> int:
    """A whole number in an answer, which the gateway writes as a text, and leaves out if it is 0.
    `NoAnswerError` if it is not a number."""
    value = answer.get(key, "0")
    if isinstance(value, str) and value.isascii() and value.isdecimal() and len(value) <= 20:
        return int(value)
    raise NoAnswerError(f"its answer has no number {key}")


def signed_number(answer: JsonObject, key: str) -> int:
    """As `number`, of one that may be below 0."""
    value = answer.get(key, "0")
    if isinstance(value, str) and value.startswith("-"):
        return -number(JsonObject([(key, value[1:])]), key)
    return number(answer, key)


def text(answer: JsonObject, key: str) -> str:
    """A text in an answer. An empty one if it is absent. `NoAnswerError` if it is no text."""
    value = answer.get(key, "")
    if not isinstance(value, str):
        raise NoAnswerError(f"its answer has no text {key}")
    return value


def object_of(body: bytes, status: int) -> JsonObject:
    """The object of JSON that an answer has. `NoAnswerError` if it has none; `EtcdRefusedError` if
    etcd refuses the client's certificate."""
    if status == http.HTTPStatus.BAD_REQUEST and COMMON_NAME in body:
        refusal = body.decode(errors="replace")
        raise EtcdRefusedError(
            "etcd asks for users, and takes no client certificate with a common name then: use one without",
            DENIED,
            refusal,
        )
    try:
        value = decoded(body)
    except ValueError:
        raise NoAnswerError(f"its answer, with status {status}, is not JSON") from None
    if not isinstance(value, JsonObject):
        raise NoAnswerError(f"its answer, with status {status}, is not an object")
    return value


def printable(value: object) -> str:
    """A text from outside as a fault repeats it: in one line, and not at any length."""
    return "".join(each if each.isprintable() else "?" for each in str(value)[:LONGEST_TOLD])


def fault_of(answer: JsonObject, status: int, user: str) -> Exception:
    """What an answer means that is no success, to a call of this user (empty: none):
    `EtcdRefusedError` if the cluster refuses the call, else `NoAnswerError`."""
    error, code = answer.get("error"), answer.get("code")
    if error is None:  # from etcd 3.6 on
        error = answer.get("message")
    elif isinstance(error, JsonObject):  # of an answer that goes on
        code, error = error.get("grpc_code", error.get("code")), error.get("message")
    if not isinstance(error, str) or not isinstance(code, int):
        return NoAnswerError(f"it answers with status {status}, and not as etcd does")
    reason = printable(error)
    if FULL in error:
        return EtcdRefusedError(
            f"etcd is full: {reason}; free its space, then disarm its alarm", code, error
        )
    if NO_TOKEN in error and not user:
        return EtcdRefusedError(
            "etcd asks for a user and a password, and none are set", code, error
        )
    if code == DENIED:
        return EtcdRefusedError(
            f"etcd denies this to the user {user or '(none)'}: {reason}", code, error
        )
    if code in REFUSALS:
        return EtcdRefusedError(f"etcd refuses this: {reason}", code, error)
    return NoAnswerError(f"etcd has a fault: {reason}")
