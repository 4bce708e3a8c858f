"""TLS by the files of a client: its authorities, its certificate and its key."""
import os
import ssl
import threading
from typing import NamedTuple


class TlsFiles(NamedTuple):
    """The paths of files in PEM. An empty `ca` stands for the authorities of the system; an empty
    `certificate` and `key` for none: the client shows no certificate then."""

    ca: str = ""
    certificate: str = ""
    key: str = ""


class TlsContexts:
    """Gives the context of a client's connections. Files that were replaced are read again, so that
    a certificate can be renewed while its client runs. Several threads may use one."""

    def __init__(self, files: TlsFiles) -> None:
        self.files = files
        self._lock = threading.Lock()
        self._identities: list[tuple[int, int, int]] = []
        self._context: ssl.SSLContext | None = None

    def context(self) -> ssl.SSLContext:
        """The context of the files as they are now. `OSError` with a sentence if one can't be
        used."""
        with self._lock:
            identities = [self._identity(path) for path in self.files if path]
            if self._context is None or identities != self._identities:
                self._context, self._identities = self._new_context(), identities
            return self._context

    @staticmethod
    def _identity(path: str) -> tuple[int, int, int]:
        try:
            found = os.stat(path)
        except OSError as error:
            raise OSError(f"{path} can't be read: {error.strerror}") from None
        return found.st_ino, found.st_mtime_ns, found.st_size

    def _new_context(self) -> ssl.SSLContext:
        try:
            context = ssl.create_default_context(cafile=self.files.ca or None)
        except OSError as error:
            raise OSError(
                f"{self.files.ca} has no certificate of an authority: {self._reason(error)}"
            ) from None
        if self.files.certificate:
            try:
                # Without a password here, a key that is encrypted would ask for one at the
                # terminal.
                context.load_cert_chain(
                    self.files.certificate, self.files.key, password=lambda: "none"
                )
            except OSError as error:
                raise OSError(
                    f"{self.files.certificate} and {self.files.key} are not a certificate and its key without a "
                    f"password: {self._reason(error)}"
                ) from None
        return context

    @staticmethod
    def _reason(error: OSError) -> str:
        return getattr(error, "reason", None) or error.strerror or str(error)
