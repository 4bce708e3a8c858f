"""The names of tools, pages and schemas in a help: those of the repository, or in a package those
that it has installed."""
import os
import re

DOCUMENTS = "BG_SWITCH_DOCUMENTS"  # the folder of the pages, which the commands of a package set
SCHEMAS = "/usr/share/bg-switch"
TOOL = re.compile(r"\bbin/(operator|controller|analysis|dashboard|fleet)\b")
PAGE = re.compile(r"\b(?=docs/[A-Z]+\.md)")
SCHEMA = re.compile(r"\bshare/(?=[a-z]+\.schema\.json)")


def named(text: str) -> str:
    """A text with the names as they are where it is shown."""
    documents = os.environ.get(DOCUMENTS)
    if not documents:
        return text
    return SCHEMA.sub(f"{SCHEMAS}/", PAGE.sub(f"{documents}/", TOOL.sub(r"bg-\1", text)))
