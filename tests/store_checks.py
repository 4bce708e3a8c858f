"""What the tests of the store share: stores at endpoints of etcd, their faults, and how long a call
takes."""
import time
from collections.abc import Callable

from bg_switch_tools.fleet.store.etcd import EtcdStore
from bg_switch_tools.fleet.store.etcd_gateway import EtcdSettings
from bg_switch_tools.fleet.store.store import StoreError
from bg_switch_tools.fleet.store.store_endpoints import StoreEndpoint
from bg_switch_tools.fleet.store.tls_files import TlsFiles

FLEET = "web"
PREFIX = f"/bg-switch/{FLEET}/"
TIMEOUT = 5.0  # seconds of a call on a busy machine


def store_at(
    *endpoints: StoreEndpoint,
    timeout: float = TIMEOUT,
    user: str = "",
    password_file: str = "",
    tls: TlsFiles | None = None,
    fleet: str = FLEET,
) -> EtcdStore:
    return EtcdStore(EtcdSettings(endpoints, tls, user, password_file, timeout), fleet)


def fault_of(call: Callable[[], object]) -> str:
    """The sentence of the fault of a call, which has to have one."""
    try:
        given = call()
    except StoreError as fault:
        return str(fault)
    raise AssertionError(f"no fault, but {given!r}")


def seconds_of(call: Callable[[], object]) -> float:
    begun = time.monotonic()
    call()
    return time.monotonic() - begun
