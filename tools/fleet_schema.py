#!/usr/bin/env python3
"""Makes the JSON schema of fleet files, which editors use, from the limits and defaults of their
reader.

usage: tools/fleet_schema.py             prints the schema
       tools/fleet_schema.py --write     writes it into share/fleet.schema.json

The schema says what one value can be. That ports stand once, and that the port of an endpoint of
etcd is at most 65535, only the reader judges.
"""
import pathlib
import sys

sys.path.insert(0, str(pathlib.Path(__file__).resolve().parents[1]))

from tools.plan_schema import (  # noqa: E402  (the path stands above)
    DRAFT,
    TOP,
    print_or_write,
    schema_text,
)

from bg_switch_tools.controller.plan.plan_kinds import (  # noqa: E402
    COMMAND,
    CONTROL,
    REVISION_NAME,
    TEXT,
    WORD,
    Key,
    Schema,
    described,
    numbers,
    object_schema,
    text_of,
)
from bg_switch_tools.controller.plan.plan_reader import COMMANDS, SCHEMA, SERVICES  # noqa: E402
from bg_switch_tools.fleet.plan.fleet_file import (  # noqa: E402
    LEAST_TIMEOUT,
    LONGEST_TIMEOUT,
    MACHINE_KEYS,
    MOST_ANALYSES,
    MOST_ENDPOINTS,
    TOGETHER,
    USER,
)
from bg_switch_tools.fleet.store.etcd_gateway import EtcdSettings  # noqa: E402
from bg_switch_tools.fleet.store.store_endpoints import TEXT as STORE_ENDPOINT  # noqa: E402

FILE = TOP / "share" / "fleet.schema.json"
PATH: Schema = {**WORD, "minLength": 1}


def both(*pair: str) -> Schema:
    """That neither of a pair of keys stands without the other."""
    return {key: [other for other in pair if other != key] for key in pair}


def schema() -> Schema:
    tls: Schema = {
        **object_schema(
            {
                "ca": described(
                    "The file of the authorities that are trusted, in PEM; those of the system where it is left out.",
                    PATH,
                ),
                "certificate": described(
                    "The file of the certificate that the tools show, in PEM.", PATH
                ),
                "key": described(
                    "The file of the key of that certificate, in PEM and without a password.", PATH
                ),
            }
        ),
        "dependencies": both("certificate", "key"),
    }
    analyses: Schema = {
        "type": "object",
        "maxProperties": MOST_ANALYSES,
        "propertyNames": REVISION_NAME.schema,
        "additionalProperties": COMMAND.schema,
    }
    properties: Schema = {
        SCHEMA: described(
            "The place of this schema, for editors. The tools do not read it.", TEXT.schema
        ),
        "fleet": described(
            "The name of the fleet: its keys in etcd are below /bg-switch/NAME/.",
            REVISION_NAME.schema,
        ),
        "etcd": described(
            "The endpoints of etcd, each as HOST:PORT; the first one that answers is used.",
            {
                "type": "array",
                "minItems": 1,
                "maxItems": MOST_ENDPOINTS,
                "uniqueItems": True,
                "items": text_of(STORE_ENDPOINT.pattern),
            },
        ),
        "tls": described(
            "TLS for the connections to etcd; without this key they are in the clear.", tls
        ),
        "user": described("The user of etcd.", text_of(USER.pattern)),
        "password_file": described(
            "The file of the user's password, which is read at each authentication.", PATH
        ),
        "timeout_seconds": Key(
            "timeout_seconds",
            "Seconds within which a call of etcd has to end.",
            numbers(LEAST_TIMEOUT, LONGEST_TIMEOUT),
            EtcdSettings._field_defaults["timeout"],
        ).schema(),
        "host": described(
            "The name of this machine as a member of the fleet. A file for people alone has no key of a machine.",
            REVISION_NAME.schema,
        ),
        "control": described(
            "The control port of the switch of this machine, or the absolute path of its control socket.",
            CONTROL.schema,
        ),
        "rollout": described(
            "The file of the Rollout with which the switch of this machine is started. The agent needs it: it refuses a "
            "Rollout that lets the switch promote by itself.",
            PATH,
        ),
        **{key.name: key.schema() for key in SERVICES},
        "analyses": described(
            "The commands of the analyses, by their names in plans. They run in the folder of this file.",
            analyses,
        ),
        **{key.name: key.schema() for key in COMMANDS},
    }
    needed: Schema = {key: ["host", "control"] for key in MACHINE_KEYS}
    for pair in TOGETHER:
        needed.update(both(*pair))
    return {
        "$schema": DRAFT,
        "title": "Fleet file of bg_switch",
        **object_schema(properties, ("fleet", "etcd")),
        "dependencies": needed,
    }


def text() -> str:
    return schema_text(schema())


if __name__ == "__main__":
    sys.exit(print_or_write(__doc__, FILE, text()))
