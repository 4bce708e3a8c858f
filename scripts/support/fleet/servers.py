"""The other people's servers of a drill: etcd and nginx on each host, and HAProxy before them. Each
gets its file in the folder of the run, and gives the words that start it."""
import pathlib

from support.fleet.hosts import Network
from support.fleet.rules import BALANCER_TIMEOUT


def etcd_words(folder: pathlib.Path, network: Network, host: str) -> list[str]:
    """The member of etcd of a host. It does not wait for the disk: no drill ends the machine
    itself."""
    places = network.addresses(host)
    cluster = ",".join(f"{each}=http://{network.addresses(each).peer}" for each in network.hosts)
    return [
        "etcd",
        "--name",
        host,
        "--data-dir",
        str(folder / f"etcd-{host}"),
        "--logger",
        "zap",
        "--log-level",
        "warn",
        "--heartbeat-interval",
        "100",
        "--election-timeout",
        "1000",
        "--unsafe-no-fsync=true",
        "--listen-client-urls",
        f"http://{places.etcd}",
        "--advertise-client-urls",
        f"http://{places.etcd}",
        "--listen-peer-urls",
        f"http://{places.peer}",
        "--initial-advertise-peer-urls",
        f"http://{places.peer}",
        "--initial-cluster",
        cluster,
    ]


def nginx_words(folder: pathlib.Path, network: Network, host: str) -> list[str]:
    """The nginx of a host, which names the host in its answers."""
    own, places = folder / f"nginx-{host}", network.addresses(host)
    own.mkdir(exist_ok=True)
    paths = "".join(
        f" {name}_temp_path {own}/{name};\n"
        for name in ("client_body", "proxy", "fastcgi", "uwsgi", "scgi")
    )
    (own / "nginx.conf").write_text(
        f"worker_processes 1; pid {own}/pid; error_log {own}/error warn; daemon off;\nevents {{ worker_connections 512; }}\n"
        f"http {{ access_log off;\n{paths} server {{ listen {places.web}; add_header X-Host {host} always;\n"
        f"  location / {{ proxy_pass http://{places.active}; proxy_connect_timeout 2s; proxy_read_timeout 10s; }} }} }}\n",
        encoding="ascii",
    )
    return ["nginx", "-e", str(own / "error"), "-c", str(own / "nginx.conf")]


def haproxy_words(folder: pathlib.Path, network: Network) -> list[str]:
    """The load balancer, which checks each host through its nginx."""
    path = folder / "haproxy.cfg"
    servers = "".join(
        f" server {host} {network.addresses(host).web} check inter 300 fall 2 rise 2\n"
        for host in network.hosts
    )
    path.write_text(
        f"global\n maxconn 500\ndefaults\n mode http\n timeout connect 1s\n timeout client 15s\n timeout server {BALANCER_TIMEOUT:g}s\n"
        " timeout check 2s\n retries 2\n option redispatch\n"
        f"frontend all\n bind {network.balancer()}\n default_backend machines\n"
        f"backend machines\n balance roundrobin\n option httpchk GET /\n{servers}",
        encoding="ascii",
    )
    return ["haproxy", "-db", "-f", str(path)]
