"""The text of a plan: JSON, or YAML if Debian's python3-yaml is installed. Both give the same
values."""
import importlib
from typing import Any

from bg_switch_tools.switch.json_values import JsonObject, decoded

MAP, LIST = "tag:yaml.org,2002:map", "tag:yaml.org,2002:seq"
SCALARS = tuple(f"tag:yaml.org,2002:{name}" for name in ("str", "int", "float", "bool", "null"))
DEEPEST = 100  # levels of a text in YAML


def _yaml() -> Any:
    """The library, or None if it is not installed."""
    try:
        return importlib.import_module("yaml")
    except ImportError:
        return None


def _value(yaml: Any, loader: Any, node: Any, depth: int) -> object:
    """The value of a node, as JSON has it."""
    if depth > DEEPEST:
        raise ValueError(f"it is nested more than {DEEPEST} levels deep")
    line = f"line {node.start_mark.line + 1}"
    if isinstance(node, yaml.MappingNode) and node.tag == MAP:
        return JsonObject(
            [
                (_key(loader, key), _value(yaml, loader, value, depth + 1))
                for key, value in node.value
            ]
        )
    if isinstance(node, yaml.SequenceNode) and node.tag == LIST:
        return [_value(yaml, loader, one, depth + 1) for one in node.value]
    if node.tag not in SCALARS:
        raise ValueError(f"{line} has a value that JSON does not have, of the type {node.tag}")
    value: object = loader.construct_object(node)
    return value


def _key(loader: Any, node: Any) -> str:
    key = loader.construct_object(node) if node.tag in SCALARS else None
    if not isinstance(key, str):
        raise ValueError(f"line {node.start_mark.line + 1} has a key that is not a text")
    return key


def _value_of_yaml(yaml: Any, text: bytes) -> object:
    """The value of a text in YAML. `ValueError` if it is not YAML, or has what JSON does not
    have."""
    try:
        loader = yaml.SafeLoader(text.decode("utf-8"))
        if any(isinstance(event, yaml.AliasEvent) for event in yaml.parse(text.decode("utf-8"))):
            raise ValueError("it has an alias (*NAME), which no plan needs")
        node = loader.get_single_node()
        return None if node is None else _value(yaml, loader, node, 0)
    except yaml.YAMLError as error:
        mark = getattr(error, "problem_mark", None)
        place = f" in line {mark.line + 1}" if mark else ""
        raise ValueError(
            f"{getattr(error, 'problem', None) or 'a character is not allowed'}{place}"
        ) from None
    except RecursionError:
        raise ValueError("it is nested too deep") from None


def value_of(text: bytes) -> object:
    """The value of a plan's text. `ValueError` if it is neither JSON nor YAML; a text that begins
    with a bracket is JSON."""
    try:
        return decoded(text)
    except ValueError as error:
        if not text.strip() or text.lstrip()[:1] in b"{[":
            raise ValueError(f"it is not JSON: {error}") from None
        yaml = _yaml()
        if yaml is None:
            raise ValueError(
                f"it is not JSON: {error}; YAML is read only where python3-yaml is installed"
            ) from None
    try:
        return _value_of_yaml(yaml, text)
    except ValueError as error:
        raise ValueError(f"it is neither JSON nor YAML: {error}") from None
