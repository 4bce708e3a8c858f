"""Calls of etcd by its JSON gateway (https://etcd.io/docs/v3.4/dev-guide/api_grpc_gateway/), at one
of several endpoints.

An endpoint that gives no usable answer is left, and the next one is asked. Each call has a time
limit in total.
"""
import http.client
import threading
from collections.abc import Callable, Iterator, Mapping
from typing import NamedTuple, TypeVar

from bg_switch_tools.fleet.store.etcd_answers import (
    EtcdRefusedError,
    fault_of,
    member,
    number,
    object_of,
    printable,
    text,
)
from bg_switch_tools.fleet.store.store import StoreError, WatchState
from bg_switch_tools.fleet.store.store_endpoints import StoreEndpoint
from bg_switch_tools.fleet.store.time_limit import TimeLimit
from bg_switch_tools.fleet.store.timed_post import (
    KeptConnections,
    NoAnswerError,
    NoConnectionError,
    Post,
    PostConnection,
    line_of,
)
from bg_switch_tools.fleet.store.tls_files import TlsContexts, TlsFiles
from bg_switch_tools.switch.json_values import JsonObject

AUTHENTICATE, WATCH = "/v3/auth/authenticate", "/v3/watch"
# By `hasleader`, a member without a leader says so at once; else it is silent: a read for seconds,
# a watch for ever. By `Accept`, etcd knows that a call came by its gateway; else it could take the
# name in its own certificate for that of the user.
FIELDS = {"Grpc-Metadata-hasleader": "true", "Accept": "application/json"}
LONGEST_PASSWORD = 4096  # bytes
Value = TypeVar("Value")
Message = Mapping[str, object]
# of an answer; it raises `NoAnswerError` if the answer can't be read
Reader = Callable[[JsonObject], Value]


class EtcdSettings(NamedTuple):
    """Where etcd is, and how it is asked. Without `tls` connections are in the clear; without
    `user` etcd is asked for no token. The file of the password is read at each authentication.
    `timeout` is in seconds, for a whole call.
    """

    endpoints: tuple[StoreEndpoint, ...]
    tls: TlsFiles | None = None
    user: str = ""
    password_file: str = ""
    timeout: float = 2.0


class OtherClusterError(NoAnswerError):
    """An endpoint answers for another cluster than the one that is known."""

    def __init__(self, cluster: str, known: str) -> None:
        super().__init__(f"it answers for the cluster {cluster}, and not for {known}")
        self.cluster = cluster


class Way(NamedTuple):
    """How one endpoint is asked: within which limits a connection is made and the whole call ends,
    and whether the call may be sent twice. Such a call goes over a connection that is kept. Any
    other one has its own: one that was kept could end just when the call is sent, and nobody would
    know whether it was carried out."""

    endpoint: StoreEndpoint
    connecting: TimeLimit
    limit: TimeLimit
    may_repeat: bool


class WatchCall(NamedTuple):
    """A watch from the revision after `after` on, how long it may last, and who is told how it
    stands."""

    message: Message
    after: int
    limit: TimeLimit
    state: WatchState


class Gateway:
    """Calls of etcd. Several threads may use one."""

    def __init__(self, settings: EtcdSettings) -> None:
        self.settings = settings
        self._contexts = TlsContexts(settings.tls) if settings.tls else None
        self._kept = KeptConnections()
        self._lock = threading.Lock()  # of what follows
        self._watched = set[PostConnection]()  # of the watches that stand
        self._place = 0  # of the endpoint that is asked first
        self._token = ""
        self._cluster = ""  # the id of the cluster; empty: not known yet
        self._newest = 0  # the greatest revision that an answer of this cluster had

    def call(self, path: str, message: Message, value_of: Reader[Value]) -> Value:
        """The value of the answer to a call that may be sent twice. `StoreError` if no endpoint
        gives one, or if etcd refuses the call."""
        limit = TimeLimit(self.settings.timeout)
        return self._at_an_endpoint(
            limit,
            lambda endpoint, share: value_of(
                self._answer(Way(endpoint, share, share, True), path, message)
            ),
        )

    def call_once(self, path: str, message: Message, value_of: Reader[Value]) -> Value:
        """The value of the answer to a call that is sent to one endpoint alone, the one that
        answered last: another could carry it out a second time, or be of another cluster.
        `StoreError` as for `call`; the call may have been carried out then.
        """
        limit, endpoint = TimeLimit(self.settings.timeout), self._endpoints()[0]
        connecting = limit.share(len(self.settings.endpoints))
        try:
            return value_of(self._answer(Way(endpoint, connecting, limit, False), path, message))
        except NoAnswerError as fault:
            self._leave(endpoint)
            outcome = (
                ""
                if isinstance(fault, NoConnectionError)
                else "; what was asked may have been done"
            )
            raise StoreError(f"etcd gives no answer: {endpoint}: {fault}{outcome}") from None

    def read(self, path: str, message: Message, value_of: Reader[Value]) -> Value:
        """The value of the answer to a linearizable read. It is a `StoreError` if its revision is
        below one that was known when the read began: etcd was restored from a backup. What comes
        after is taken as it is."""
        with self._lock:
            cluster, known = self._cluster, self._newest

        def with_revision(answer: JsonObject) -> tuple[int, Value]:
            return number(member(answer, "header"), "revision"), value_of(answer)

        revision, value = self.call(path, message, with_revision)
        with self._lock:
            if self._cluster == cluster and revision < known:
                self._newest = revision
                raise StoreError(
                    f"etcd was restored from a backup: its revision was {known}, and is {revision} now"
                )
        return value

    def watch(self, call: WatchCall) -> bool:
        """Waits until a watch has an event, or could have missed one after its revision (True), or
        until its time is over or it is cut (False). `StoreError` if no endpoint takes the watch in
        time, or keeps it."""
        return self._at_an_endpoint(
            call.limit, lambda endpoint, share: self._watch(endpoint, call, share)
        )

    def _watch(self, endpoint: StoreEndpoint, call: WatchCall, share: TimeLimit) -> bool:
        """Waits at one endpoint, which has to take the watch within the share."""
        begin = TimeLimit(min(share.left(), self.settings.timeout))
        post = self._post(endpoint, WATCH, call.message)
        connection = PostConnection(post, begin)
        try:
            with connection.responding(post, begin, True) as response:
                return self._is_woken(connection, response, begin, call)
        except NoAnswerError:
            if not connection.is_cut:
                raise
            return False
        finally:
            with self._lock:
                self._watched.discard(connection)
            call.state.end()
            connection.close()

    def _is_woken(
        self,
        connection: PostConnection,
        response: http.client.HTTPResponse,
        begin: TimeLimit,
        call: WatchCall,
    ) -> bool:
        """Whether a watch has an event, or could have missed one, before its time is over."""
        is_taken = False
        try:
            for result in self._results(response):
                if "events" in result or "compact_revision" in result:
                    return True
                if "canceled" in result:
                    raise NoAnswerError(
                        f"it ends the watch: {printable(text(result, 'cancel_reason'))}"
                    )
                if number(member(result, "header"), "revision") < call.after:
                    return True
                begin.extend(call.limit)
                if not is_taken:
                    with self._lock:
                        self._watched.add(connection)
                    call.state.begin(call.after, connection.cut)
                is_taken = True
        except TimeoutError:
            if not is_taken:
                raise
        return False

    def _results(self, response: http.client.HTTPResponse) -> Iterator[JsonObject]:
        """The results of an answer that goes on, a line for each."""
        while True:
            message = object_of(line_of(response), response.status)
            if "error" in message or response.status != http.HTTPStatus.OK:
                raise fault_of(message, response.status, self.settings.user)
            result = member(message, "result")
            self._judge(member(result, "header"))
            yield result

    def _at_an_endpoint(
        self, limit: TimeLimit, ask: Callable[[StoreEndpoint, TimeLimit], Value]
    ) -> Value:
        """What the first endpoint gives that answers. Each that is asked has an equal share of the
        time that is left. If none answers for the cluster that is known, the calls after this one
        go on with another one, if there is one.
        """
        faults, endpoints = list[str](), self._endpoints()
        other = ""
        for place, endpoint in enumerate(endpoints):
            try:
                return ask(endpoint, limit.share(len(endpoints) - place))
            except TimeoutError:
                faults.append(f"{endpoint}: no time was left for it")
            except NoAnswerError as fault:
                faults.append(f"{endpoint}: {fault}")
                self._leave(endpoint)
                if isinstance(fault, OtherClusterError):
                    other = fault.cluster
        if other:
            with self._lock:
                self._cluster, self._newest, self._token = other, 0, ""
            raise StoreError(
                f"etcd is another cluster than before, restored from a backup or new: {'; '.join(faults)}"
            )
        raise StoreError(f"no endpoint of etcd gives an answer: {'; '.join(faults)}")

    def _endpoints(self) -> tuple[StoreEndpoint, ...]:
        """The endpoints in the order in which they are asked."""
        with self._lock:
            return self.settings.endpoints[self._place :] + self.settings.endpoints[: self._place]

    def _leave(self, endpoint: StoreEndpoint) -> None:
        """Asks the endpoint after this one first from now on, if this one was asked first. What is
        open to this one is not used any more: it may hang, and so may the watch there."""
        self._kept.drop(endpoint)
        with self._lock:
            for connection in self._watched:
                if connection.endpoint == endpoint:
                    connection.cut()
            if self.settings.endpoints[self._place] == endpoint:
                self._place = (self._place + 1) % len(self.settings.endpoints)

    def _post(self, endpoint: StoreEndpoint, path: str, message: Message) -> Post:
        try:
            context = self._contexts.context() if self._contexts else None
        except OSError as error:
            raise StoreError(str(error)) from None
        with self._lock:
            token = {"Authorization": self._token} if self._token and path != AUTHENTICATE else {}
        return Post(endpoint, path, message, {**FIELDS, **token}, context)

    def _answer(self, way: Way, path: str, message: Message) -> JsonObject:
        """The answer of one endpoint. A call that is refused for its token was not carried out, and
        is sent again with a new one."""
        try:
            return self._answer_once(way, path, message)
        except EtcdRefusedError as refusal:
            if not self.settings.user or not refusal.needs_token:
                raise
        self._authenticate(way.endpoint, way.limit)
        return self._answer_once(way._replace(connecting=way.limit), path, message)

    def _answer_once(self, way: Way, path: str, message: Message) -> JsonObject:
        status, body = self._sent(way, self._post(way.endpoint, path, message))
        response = object_of(body, status)
        if "error" in response or status != http.HTTPStatus.OK:
            raise fault_of(response, status, self.settings.user)
        answer = member(response, "result") if "result" in response else response
        self._judge(member(answer, "header"))
        return answer

    def _sent(self, way: Way, post: Post) -> tuple[int, bytes]:
        """The status and the body that come back. A connection that was kept may have ended since:
        a call that may be sent twice goes over a new one then."""
        kept = self._kept.take(post) if way.may_repeat else None
        if kept:
            try:
                return self._sent_over(kept, way, post)
            except NoAnswerError:
                if not way.limit.rest():
                    raise
        return self._sent_over(PostConnection(post, way.connecting), way, post)

    def _sent_over(self, connection: PostConnection, way: Way, post: Post) -> tuple[int, bytes]:
        is_kept = False
        try:
            status, body, is_kept = connection.answer(post, way.limit, not way.may_repeat)
            return status, body
        finally:
            if is_kept:
                self._kept.keep(connection)
            else:
                connection.close()

    def _authenticate(self, endpoint: StoreEndpoint, limit: TimeLimit) -> None:
        """Asks for a token."""
        try:
            with open(self.settings.password_file, "rb") as file:
                password = file.read(LONGEST_PASSWORD).rstrip(b"\r\n").decode()
        except (OSError, ValueError) as error:
            reason = getattr(error, "strerror", None) or "it is not text in UTF-8"
            raise StoreError(
                f"the password of etcd's user can't be read from {self.settings.password_file}: {reason}"
            ) from None
        message = {"name": self.settings.user, "password": password}
        way = Way(endpoint, limit, limit, True)
        token = text(self._answer_once(way, AUTHENTICATE, message), "token")
        if not token.isascii() or not token.isprintable():
            raise NoAnswerError("its token is none that can be sent")
        with self._lock:
            self._token = token

    def _judge(self, header: JsonObject) -> None:
        """Notes the revision of an answer. `OtherClusterError` if it is not of the cluster of those
        before: revisions and leases of one cluster mean nothing to another."""
        cluster, revision = number(header, "cluster_id"), number(header, "revision")
        if not cluster:
            raise NoAnswerError("its answer names no cluster")
        with self._lock:
            self._cluster = self._cluster or str(cluster)
            if self._cluster != str(cluster):
                raise OtherClusterError(str(cluster), self._cluster)
            self._newest = max(self._newest, revision)
