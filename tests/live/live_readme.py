"""The session by hand of README.md, run from its own text."""
from support import TOP, checks
from support.checks import check
from support.pages import run_session

PORTS = ("8080", "8081", "8082", "9101", "9102", "9201", "9202")
LEAST_BLOCKS = 4


def session() -> None:
    """The first block shows the settings, of which the page quotes none."""
    done = run_session((TOP / "README.md").read_text(encoding="utf-8"), "A session by hand", PORTS)
    settings = "activeService media\npreviewService media-preview\nreplicas 2\n"
    check("the settings", done.printed[0].startswith(settings), True)
    done.check(LEAST_BLOCKS, first=1)


if __name__ == "__main__":
    checks.run("live_readme", [session])
