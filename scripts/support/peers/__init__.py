"""The switch beside other proxies, before one endpoint of this machine: `bench/beside_peers.py`."""


class MeasurementError(Exception):
    """Something that is to be measured does not run as it should. The text says what."""
