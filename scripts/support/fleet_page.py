"""The dashboard's page of a fleet of five, whose keys an etcd in memory has."""
import pathlib
import tempfile
from collections.abc import Callable

from bg_switch_tools.fleet.record.record import (
    ABORTED,
    FAILED,
    FOLLOWS,
    LEADER,
    MEMBERS,
    PASSED,
    PROMOTING,
    READY,
    SUCCESSFUL,
    TESTING,
)
from support.browser import Browser
from support.checks import check, comes
from support.dashboards import running
from support.looks import (
    NARROW,
    check_contrast,
    check_no_element,
    check_not_cut,
    check_shown,
    open_page,
    picture,
)
from support.ports import free_port
from tests.synthetic_fleet import HOSTS, V1, V2, SyntheticEtcd, SyntheticFleet

HOSTILE = "<img src=x onerror=window.taken=1><script>window.taken=1</script>"
REASON = "web-3: analysis post: failed, 7 of 120 requests had errors"
ROWS = "return [...document.querySelectorAll('#machines tbody tr')].map((row) => [row.dataset.host, row.dataset.state])"
# The tables and the cells of headings that say of which cells they are the heading.
HEADINGS = """const heads = [...document.querySelectorAll('#machines th')];
return [heads.length > 8, heads.every((head) => head.scope), document.querySelector('#machines').getAttribute('aria-labelledby')]"""
STEP_STATES = "return [...document.querySelectorAll('#steps li')].map((step) => step.className)"
IS_OLD = "return [document.getElementById('main').classList.contains('stale'), document.title.startsWith('old: ')]"


def check_rows(name: str, browser: Browser, **states: str) -> None:
    """A check of the rows of the machines. Those that are not named follow."""
    expected = [[host, states.get(host.replace("-", "_"), FOLLOWS)] for host in HOSTS]
    comes(lambda: browser.run(ROWS) == expected)
    check(name, browser.run(ROWS), expected)


def of(host: str) -> str:
    """The selector of a machine's row."""
    return f'[data-host="{host}"]'


def nothing_moves(browser: Browser, fleet: SyntheticFleet) -> None:
    check_rows("five rows", browser)
    check_shown(
        "the stage of an attempt that is over", browser, "#phase", "Successful", "web-v1", "since"
    )
    check_shown(
        "what is awaited",
        browser,
        "#facts",
        "Waits for",
        "nothing",
        "Leader",
        "web-1",
        "none stands",
    )
    check_shown("members", browser, "#members", "5 members, none away")
    check("headings of the table", browser.run(HEADINGS), [True, True, "machines-title"])
    picture(browser, "20-fleet-steady")


def an_attempt_waits(browser: Browser, fleet: SyntheticFleet) -> None:
    fleet.begin()
    for host in HOSTS[:3]:
        fleet.report(host, READY)
    fleet.report("web-5", "working", "endpoint 9202 is not up")
    fleet.leave("web-4")
    check_rows(
        "the states", browser, web_1=READY, web_2=READY, web_3=READY, web_4="away", web_5="working"
    )
    check_shown("the stage", browser, "#phase-name", "Deploying")
    check_shown(
        "what is awaited from whom",
        browser,
        "#facts",
        "Waits for",
        "web-5: working, endpoint 9202 is not up",
        "web-4: is away",
    )
    check_shown(
        "the member that is awaited",
        browser,
        of("web-5"),
        "working",
        "endpoint 9202 is not up",
        "ready",
        "web-v2",
    )
    check("a member that is not awaited", browser.text(f"{of('web-1')} .awaited"), "")
    check_shown("a member that is away", browser, "#members", "5 members, 1 away: web-4")
    fleet.order("promote", "kim")
    check_shown("an order that stands", browser, "#facts", "kim orders promote for attempt")
    check_shown(
        "what happened",
        browser,
        "#happened",
        "web-4 is away",
        "of web-v2: deploying",
        "kim orders promote",
    )
    picture(browser, "21-fleet-deploying")


def it_promotes(browser: Browser, fleet: SyntheticFleet) -> None:
    fleet.delete("order")
    fleet.decide(PROMOTING, missing=("web-4",))
    fleet.report("web-1", PASSED, active="web-v2")
    fleet.report("web-2", TESTING, active="web-v2")
    check_shown("the stage", browser, "#phase-name", "Promoting")
    check_shown("a member without a vote", browser, of("web-4"), "away", "no vote")
    check_shown(
        "the active revision of a machine", browser, f"{of('web-1')} [data-title=Active]", "web-v2"
    )
    check_shown("the one of another", browser, f"{of('web-3')} [data-title=Active]", "web-v1")
    check("the steps", browser.run(STEP_STATES), ["done", "current", "ahead"])
    fleet.lead("web-2")
    check_shown("another leader", browser, "#happened", "web-2 leads")
    check_shown("who has decided", browser, "#facts", "Decided by", "web-1")
    picture(browser, "22-fleet-promoting")


def it_is_aborted(browser: Browser, fleet: SyntheticFleet) -> None:
    fleet.report("web-3", FAILED, "analysis post: failed, 7 of 120 requests had errors")
    fleet.decide(ABORTED, reason=REASON)
    for host in ("web-1", "web-2", "web-5"):
        fleet.report(host, FOLLOWS)
    check_shown("an attempt that was aborted", browser, "#phase", "Aborted", "web-v2")
    check_shown("its reason", browser, "#facts .bad", REASON)
    check_shown("what the fleet goes on with", browser, "#facts", "Stable revision", "web-v1")
    check("the step that failed", browser.run(STEP_STATES), ["done", "failed", "ahead"])
    check_rows("the states after it", browser, web_3=FAILED, web_4="away")
    picture(browser, "23-fleet-aborted")


def hostile_text(browser: Browser, fleet: SyntheticFleet) -> None:
    fleet.report("web-2", FAILED, HOSTILE)
    fleet.decide(ABORTED, reason=HOSTILE)
    fleet.put(**{MEMBERS + HOSTILE: ""})
    check_shown("a reason with a script, as text", browser, "#facts", HOSTILE)
    check_shown("a host with a script, as text", browser, "#machines", HOSTILE)
    check_shown("the same in what happened", browser, "#happened", HOSTILE)
    check_no_element(browser)
    fleet.delete(MEMBERS + HOSTILE)


def a_record_that_can_not_be_read(browser: Browser, fleet: SyntheticFleet) -> None:
    before = fleet.keys.keys["attempt"].value
    fleet.put(attempt="{")
    check_shown(
        "a record that can't be read", browser, "#alarm", "the record of the attempt can't be read"
    )
    check_shown(
        "then nobody says that there is no attempt",
        browser,
        "#phase-name",
        "The attempt is not known",
    )
    check_shown("nor that nothing is awaited", browser, "#facts", "not known")
    check("the rows stay", len(str(browser.run(ROWS)).split("web-")), 6)
    fleet.put(attempt=before)
    check_shown("it can be read again", browser, "#phase-name", "Aborted")


def etcd_is_away(browser: Browser, etcd: SyntheticEtcd) -> None:
    etcd.stop()
    check_shown(
        "etcd is away",
        browser,
        "#alarm",
        "etcd gives no answer since",
        "What is shown is old: it was read at",
    )
    check_shown("what is old says so", browser, ".read", "old: read at")
    check("and is marked", browser.run(IS_OLD), [True, True])
    check("the last state stays", len(str(browser.run(ROWS)).split("web-")), 6)
    picture(browser, "24-fleet-etcd-away")
    for scheme in ("dark", "light"):
        check_contrast(browser, scheme)
    picture(browser, "25-fleet-etcd-away-narrow", NARROW)
    check_not_cut(browser)
    etcd.start()
    check_shown("etcd is back", browser, "#link", "live")
    check("the mark is gone", comes(lambda: browser.run(IS_OLD) == [False, False]), True)
    check_shown("how it was told", browser, "#happened", "etcd gives no answer", "etcd answers")


def in_other_windows(browser: Browser, fleet: SyntheticFleet) -> None:
    fleet.delete(LEADER)
    check_shown("nobody leads", browser, "#facts .bad", "nobody leads, so nothing is decided")
    for scheme in ("light", "dark"):
        check_contrast(browser, scheme)
    picture(browser, "26-fleet-dark")
    picture(browser, "27-fleet-dark-narrow", NARROW)
    check_not_cut(browser)
    browser.scheme("light")
    picture(browser, "28-fleet-narrow", NARROW)
    browser.size(1280, 900)


def it_succeeds(browser: Browser, fleet: SyntheticFleet) -> None:
    fleet.lead("web-5")
    fleet.put_plan(V1, V2, by_hand=True, max_missing=1)
    fleet.decide(SUCCESSFUL, V2, V1)
    for host in HOSTS:
        fleet.report(host, FOLLOWS, active="web-v2", stable="web-v2")
    check_rows("all follow", browser)
    check_shown(
        "a plan that waits for people",
        browser,
        "#facts",
        "a person orders each promotion",
        "at most 1 member may be without a vote",
    )
    check_shown("the stable revision", browser, "#facts", "Stable revision", "web-v2")


def fleet(browser: Browser) -> None:
    """A fleet of five whose attempts the page shows, an etcd that goes away, and hostile text."""
    shown = SyntheticFleet()
    etcd = SyntheticEtcd(shown)
    parts: tuple[Callable[[Browser, SyntheticFleet], None], ...] = (
        nothing_moves,
        an_attempt_waits,
        it_promotes,
        it_is_aborted,
        hostile_text,
        a_record_that_can_not_be_read,
    )
    with tempfile.TemporaryDirectory() as folder:
        path = pathlib.Path(folder, "fleet.json")
        path.write_text(etcd.fleet_file(), encoding="utf-8")
        with running(free_port(), "--fleet", str(path)) as address:
            browser.complaints()  # those of the parts before
            open_page(browser, f"{address}fleet")
            for part in parts:
                part(browser, shown)
            etcd_is_away(browser, etcd)
            in_other_windows(browser, shown)
            it_succeeds(browser, shown)
            check("faults that the browser tells", browser.complaints(), [])
    etcd.stop()
