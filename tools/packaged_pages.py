#!/usr/bin/python3 -B
"""Makes the links of the packaged pages lead somewhere: tools/packaged_pages.py FOLDER, where
FOLDER has the pages of the package.

A link to a file that the package has elsewhere leads there. One to a file that only the repository
has becomes its text alone.
"""
import pathlib
import re
import sys

LINK = re.compile(r"(?<!!)\[([^\]\[]*)\]\(([^)\s#]*)(#[^)\s]*)?\)")
ELSEWHERE = {
    "share/plan.schema.json": "/usr/share/bg-switch/plan.schema.json",
    "share/fleet.schema.json": "/usr/share/bg-switch/fleet.schema.json",
}


def packaged(folder: pathlib.Path, page: pathlib.Path, text: str) -> str:
    """The text of a page with the links that it has in the package."""

    def linked(link: "re.Match[str]") -> str:
        shown, target, place = link[1], link[2], link[3] or ""
        if (
            not target
            or "://" in target
            or target.startswith("mailto:")
            or (page.parent / target).exists()
        ):
            return link[0]
        leads_to = (page.parent / target).resolve()
        whole = str(leads_to.relative_to(folder)) if leads_to.is_relative_to(folder) else target
        if whole in ELSEWHERE:
            return f"[{shown}]({ELSEWHERE[whole]}{place})"
        return shown

    return LINK.sub(linked, text)


def main() -> int:
    if len(sys.argv) != 2:
        print("tools/packaged_pages.py FOLDER: one folder is needed", file=sys.stderr)
        return 2
    folder = pathlib.Path(sys.argv[1]).resolve()
    for page in sorted(folder.rglob("*.md")):
        text = page.read_text(encoding="utf-8")
        page.write_text(packaged(folder, page, text), encoding="utf-8")
    return 0


if __name__ == "__main__":
    sys.exit(main())
