#!/usr/bin/env python3
"""Makes the JSON schema of a controller's plan, which editors use, from the keys of its reader; and
the table of the keys in docs/PLAN.md from the schema.

usage: tools/plan_schema.py             prints the schema
       tools/plan_schema.py --write     writes it into share/plan.schema.json, and the table into the page

The schema says what one value can be. That names and ports stand once, that revisions have equally
many ports, that an address is one, and that the limits of an analysis fit together, only `bin/controller check` judges.
"""
import json
import pathlib
import re
import sys
from collections.abc import Iterator
from typing import Any

TOP = pathlib.Path(__file__).resolve().parents[1]
sys.path.insert(0, str(TOP / "lib"))

from bg_switch_tools.controller.plan.plan_kinds import (  # noqa: E402  (the path stands above)
    Schema,
    places_of,
)
from bg_switch_tools.controller.plan.plan_reader import PLAN_SCHEMA  # noqa: E402
from bg_switch_tools.switch.json_values import GREATEST_PORT  # noqa: E402

FILE = TOP / "share" / "plan.schema.json"
PAGE = TOP / "docs" / "PLAN.md"
TABLE = re.compile(r"(<!-- keys -->\n)(.*?)(?=<!-- end of keys -->\n)", re.S)
DRAFT = "http://json-schema.org/draft-07/schema#"  # which editors know best


def schema() -> Schema:
    return {"$schema": DRAFT, "title": "Plan of a controller of bg_switch", **PLAN_SCHEMA}


def schema_text(made: Schema) -> str:
    """A schema as its file has it."""
    return json.dumps(made, indent=2) + "\n"


def print_or_write(usage: str | None, file: pathlib.Path, made: str) -> int:
    """Prints the text of a schema, or writes it into its file, as the words of the command say.
    Gives the exit status."""
    if sys.argv[1:] == ["--write"]:
        file.write_text(made, encoding="utf-8")
    elif sys.argv[1:]:
        print(usage, file=sys.stderr)
        return 2
    else:
        print(made, end="")
    return 0


def text() -> str:
    return schema_text(schema())


def values_told(schema: Any) -> str:
    """The values that a schema takes, in words."""
    if "anyOf" in schema:
        return ", or ".join(values_told(each) for each in schema["anyOf"])
    if schema["type"] == "boolean":
        return "`true`, `false`"
    if isinstance(schema["type"], list):
        return "port, 1 to 65,535, or path"
    if "minimum" in schema:
        whole = "whole number" if schema["type"] == "integer" else "number"
        return (
            f"{whole}, {schema['minimum']:g} to {schema['maximum']:,}"
            if schema["maximum"] != GREATEST_PORT
            else "port, 1 to 65,535"
        )
    if schema["type"] == "array":
        items = schema["items"]
        if isinstance(items, list):
            return "list of words"
        return f"list of 1 to {schema['maxItems']} {'ports' if items['type'] == 'integer' else 'objects'}"
    return "object" if schema["type"] == "object" else "text"


def rows() -> Iterator[str]:
    """A row for each key, those of an object after its own."""
    for place, each, is_needed in places_of(PLAN_SCHEMA):
        default = f"`{json.dumps(each['default'])}`" if "default" in each else "-"
        yield (
            f"| `{place}` | {each.get('description', '')} | {values_told(each)} "
            f"| {'needed' if is_needed else default} |"
        )


def table() -> str:
    """The table of the keys."""
    head = ["| Key | Meaning | Values | Without it |", "|---|---|---|---|"]
    return "\n".join([*head, *rows()]) + "\n"


def page_with(page: str, made: str) -> str:
    """The text of a page with this table."""
    return TABLE.sub(lambda found: found[1] + made, page)


if __name__ == "__main__":
    if sys.argv[1:] == ["--write"]:
        PAGE.write_text(page_with(PAGE.read_text(encoding="utf-8"), table()), encoding="utf-8")
    sys.exit(print_or_write(__doc__, FILE, text()))
