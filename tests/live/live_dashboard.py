"""bin/dashboard before a running `serve`, looked at by a headless Chromium: a rollout that is
played and read off the page, orders by its buttons, and orders by tricks. Pictures of each stage go
into a folder that is named at the end."""
import contextlib
import http.client
import http.server
import json
import pathlib
import re
import sys
import tempfile
import threading
import time
from collections.abc import Iterator
from typing import NamedTuple

from support import TOP, checks, looks
from support.browser import LONGEST, Browser, NoBrowserError, browsing
from support.checks import check, comes
from support.dashboards import failing, missing, showing
from support.endpoints import Endpoint
from support.looks import NARROW, PICTURES, check_no_element, check_not_cut, check_shown, picture
from support.operators import Operator
from support.ports import HOST, free_port, free_ports
from support.processes import run_to_end
from support.switch import Switch
from support.traffic import Traffic, ask, prepared_log

# isort: split; `support` tells where the tests' package is
sys.path.insert(0, str(TOP))
from support.fleet_page import fleet  # noqa: E402
from tests.fake_port import FakePort  # noqa: E402
from tests.synthetic_log import ANSWERED, GrowingLog  # noqa: E402

ROLLOUT = """{"spec": {"replicas": 2, "strategy": {"blueGreen": {"activeService": "web", "previewService": "web-preview",
"autoPromotionEnabled": false, "prePromotionAnalysis": {}, "postPromotionAnalysis": {}, "scaleDownDelaySeconds": 30}}}}"""
CLIENTS, PAUSE, BAD_EACH = 3, 0.02, 10
HOSTILE = "/fail?%3Cx%3E=<script>window.taken=1</script><img/src=x/onerror=window.taken=1>"
HOSTILE_NAME = "<img/src=x/onerror=window.taken=1><script>window.taken=1</script>"
REBOUND = "rebound.example"
DEMONSTRATION = TOP / "examples" / "live" / "bad_revision.py"
LONGEST_DEMONSTRATION = 100
# revisions of a page that is full, and switches of the active service among them
MANY, SWITCHES = (15, 8)
# of these revisions: those that had no request for `SILENT_FOR` seconds
SILENT, SILENT_FOR = (5, 35)
OUTLIER = 20_000.0  # milliseconds of one request, of which the others take 4


class ShownSwitch(NamedTuple):
    """A switch with web-v1 open, whose traffic is logged, and its dashboard."""

    switch: Switch
    operator: Operator
    traffic: Traffic
    address: str
    ports: dict[str, list[int]]

    def send(self, line: str, expected: str) -> None:
        with contextlib.closing(Operator(self.switch.control)) as operator:
            operator.check(line, expected)

    def phase(self) -> str:
        with contextlib.closing(Operator(self.switch.control)) as operator:
            return operator.state().phase

    def deploy(self) -> None:
        self.send("deploy web-v2 {} {}".format(*self.ports["web-v2"]), "ok 0")

    def pause(self) -> None:
        """web-v2 waits for its promotion."""
        self.deploy()
        self.send("available 2 2", "ok 1")
        self.send("verdict pre successful", "ok 0")


@contextlib.contextmanager
def shown_switch(*words: str) -> Iterator[ShownSwitch]:
    """A scene, of which nothing is left after the block."""
    with tempfile.TemporaryDirectory() as folder:
        log = pathlib.Path(folder) / "access.log"
        variables = prepared_log(log)
        ports = {name: free_ports(2) for name in ("web-v1", "web-v2")}
        for name, each in (("web-v1", 0), ("web-v2", BAD_EACH)):
            for port in ports[name]:
                Endpoint(failing(name.encode(), each), port)
        switch = Switch(ROLLOUT, workers=4, variables=variables)
        traffic = Traffic(switch.active, CLIENTS, PAUSE)
        try:
            with contextlib.closing(switch.operator()) as operator:
                operator.check("open web-v1 {} {}".format(*ports["web-v1"]), "ok 0")
                operator.check("available 1 2", "ok 0")
            with showing(switch.control, free_port(), "--log", str(log), *words) as address:
                yield ShownSwitch(switch, operator, traffic, address, ports)
        finally:
            traffic.ended.set()
            switch.kill()


def current_step(browser: Browser) -> str:
    return str(
        browser.run(
            "const step = document.querySelector('#steps [aria-current]'); return step ? step.dataset.step : ''"
        )
    )


def await_step(browser: Browser, name: str) -> None:
    comes(lambda: current_step(browser) == name)
    check("the step that the page shows", current_step(browser), name)


def bars(browser: Browser, selector: str) -> str:
    """What the chart of requests draws of a kind."""
    script = "return [...document.querySelectorAll('#requests .bar' + arguments[0])].map((bar) => bar.getAttribute('d')).join()"
    return str(browser.run(script, selector))


def fill(browser: Browser, kind: str) -> object:
    """The colour of bars of a kind that belong to the second revision."""
    return browser.run(
        "return getComputedStyle(document.querySelector('#requests .bar.r1' + arguments[0])).fill",
        kind,
    )


def open_page(browser: Browser, address: str) -> None:
    looks.open_page(browser, f"{address}#minutes=1")


def looks_at_a_deploy(browser: Browser, played: ShownSwitch) -> None:
    check_shown("the first revision", browser, "#services", "active service", "web-v1")
    check_shown("a steady phase", browser, "#phase", "Steady", "no attempt runs")
    check("no order makes sense", browser.text("#orders button:enabled"), "")
    played.traffic.start()
    check("a chart of requests moves", comes(lambda: bars(browser, ".r0") != ""), True)
    first = bars(browser, ".r0")
    check("and moves on", comes(lambda: bars(browser, ".r0") not in ("", first)), True)
    played.deploy()
    await_step(browser, "scaling")
    check_shown(
        "a revision without endpoints",
        browser,
        "[data-revision=web-v2]",
        "web-v2",
        "newest",
        "0 of 2",
    )
    played.send("available 2 1", "ok 0")
    check_shown("one endpoint of two", browser, "[data-revision=web-v2]", "1 of 2")
    picture(browser, "1-scaling")
    played.send("available 2 2", "ok 1")
    await_step(browser, "preAnalysis")
    check_shown("what is waited for", browser, "#waits-for", "verdict pre RESULT")
    played.send("verdict pre successful", "ok 0")
    await_step(browser, "paused")
    check_shown("the preview service", browser, "[data-service=preview]", "web-v2")
    picture(browser, "2-paused")


def promotes_by_its_button(browser: Browser, played: ShownSwitch) -> None:
    browser.click("[data-order=promote]")
    check("a question comes first", browser.text("#question-title"), "Promote web-v2?")
    check(
        "and does nothing at a mere Enter",
        browser.run("return document.activeElement.id"),
        "cancel",
    )
    browser.screenshot(PICTURES / "3-question.png")
    browser.press("\ue00c")  # Escape
    is_open = browser.is_true("return document.getElementById('question').open")
    check("a question that is cancelled", (is_open, played.phase()), (False, "paused"))
    browser.click("[data-order=promote]")
    browser.click("#confirm")
    await_step(browser, "postAnalysis")
    check("a promotion by its button", played.phase(), "postAnalysis")
    check_shown("its reply", browser, "#reply", "promote: carried out")
    check_shown("the active service", browser, "[data-service=active]", "web-v2")
    check("live traffic has moved", ask(played.switch.active).revision, "web-v2")
    check("requests of the new revision", comes(lambda: bars(browser, ".r1.good") != ""), True)
    check("its errors", comes(lambda: bars(browser, ".server") != ""), True)
    check(
        "errors have a colour of their own",
        fill(browser, ".server") != fill(browser, ".good"),
        True,
    )
    check_shown("a mark at the switch", browser, "#durations .mark-text", "to web-v2")
    moved = "active: revision 1 web-v1 → revision 2 web-v2"
    check_shown("the switch in the list", browser, "#happened", moved, "promote => ok")
    check_shown("the scale-down of the old one", browser, "[data-revision=web-v1]", "in ")


def shows_hostile_text(browser: Browser, played: ShownSwitch) -> None:
    ask(played.switch.active, HOSTILE)
    check_shown(
        "a target with a script, as text",
        browser,
        "#failed .target",
        "<script>window.taken=1</script>",
    )
    check_no_element(browser)
    picture(browser, "4-errors")


def aborts_by_its_button(browser: Browser, played: ShownSwitch) -> None:
    browser.click("[data-order=abort]")
    check(
        "the question of an abort",
        "back to web-v1, the stable revision" in browser.text("#question-text"),
        True,
    )
    browser.click("#confirm")
    check_shown("an abort by its button", browser, "#phase", "Aborted", "web-v2")
    check(
        "the step that failed",
        browser.run("return document.querySelector('#steps .failed').dataset.step"),
        "postAnalysis",
    )
    check("the switch was aborted", played.phase(), "aborted")
    check("live traffic is back", ask(played.switch.active).revision, "web-v1")
    check_shown("a mark at the abort", browser, "#requests .mark-text", "abort")
    time.sleep(5)  # so that the picture has what came after it
    picture(browser, "5-aborted")


def by_keyboard(browser: Browser, played: ShownSwitch) -> None:
    browser.run("document.querySelector('[data-order=retry]').focus()")
    browser.press("\ue007")  # Enter
    check("a question by keyboard", browser.text("#question-title"), "Try web-v2 again?")
    browser.press("\ue004", "\ue007")  # Tab, Enter
    await_step(browser, "preAnalysis")
    check("a retry by keyboard", played.phase(), "preAnalysis")
    browser.run("document.querySelector('#requests svg').focus()")
    browser.press("\ue012", "\ue012")  # arrow left
    looked = browser.text("#requests .when")
    check("values by keyboard", re.fullmatch(r"\d\d:\d\d:\d\d", looked) is not None, True)


def in_other_windows(browser: Browser) -> None:
    colour = "return getComputedStyle(document.body).backgroundColor"
    browser.scheme("light")
    light = browser.run(colour)
    browser.scheme("dark")
    check("a dark scheme", comes(lambda: browser.run(colour) != light), True)
    picture(browser, "6-dark")
    picture(browser, "7-narrow", NARROW)
    check_not_cut(browser)
    browser.scheme("light")


def when_the_switch_ends(browser: Browser, played: ShownSwitch) -> None:
    check("faults that the browser tells", browser.complaints(), [])
    played.traffic.end()
    check("requests that failed by the switch", played.traffic.failed, 0)
    played.switch.kill()
    check_shown(
        "a switch that gives no answer",
        browser,
        "#alarm",
        "The switch gives no answer since",
        "can't be reached",
    )
    check("no order can be given then", browser.text("#orders button:enabled"), "")
    picture(browser, "8-no-answer")


def rollout(browser: Browser) -> None:
    """A rollout that the page shows and moves."""
    with shown_switch() as played:
        open_page(browser, played.address)
        for step in (
            looks_at_a_deploy,
            promotes_by_its_button,
            shows_hostile_text,
            aborts_by_its_button,
            by_keyboard,
        ):
            step(browser, played)
        in_other_windows(browser)
        when_the_switch_ends(browser, played)


def outage(browser: Browser) -> None:
    """No endpoint of the active revision is up: the page says so, and does not look well."""
    with shown_switch() as played:
        open_page(browser, played.address)
        played.traffic.start()
        check("a chart of requests moves", comes(lambda: bars(browser, ".r0") != ""), True)
        played.send("available 1 0", "ok 0")
        check_shown(
            "an alarm in words", browser, "#alarm", "No endpoint of web-v1 is up", "answered 503"
        )
        check_shown("beside the phase", browser, "#phase-name", "Steady, and no endpoint is up")
        good = browser.run(
            "return getComputedStyle(document.documentElement).getPropertyValue('--good')"
        )
        painted = "return getComputedStyle(document.querySelector('#steps .done .dot')).getPropertyValue('background-color')"
        browser.run(
            "document.body.insertAdjacentElement('beforeend', document.createElement('i')).style.color = arguments[0]",
            good,
        )
        green = browser.run("return getComputedStyle(document.querySelector('body > i')).color")
        check("no step is green", browser.run(painted) != green, True)
        check_shown("the service", browser, "[data-service=active] .bad", "no endpoint is up")
        check(
            "errors of the revision",
            comes(lambda: browser.text("[data-revision=web-v1] .bad").count("%") > 0),
            True,
        )
        time.sleep(4)  # so that the picture has slots without an answer
        picture(browser, "10-no-endpoint")
        played.send("available 1 2", "ok 0")
        check(
            "the alarm ends",
            comes(lambda: browser.is_true("return document.getElementById('alarm').hidden")),
            True,
        )
        check_shown("a steady phase", browser, "#phase-name", "Steady")
        check_shown(
            "each endpoint's requests",
            browser,
            "[data-revision=web-v1] .ports",
            *map(str, played.ports["web-v1"]),
        )


def crowded_report(active: int) -> list[str]:
    """A report of many revisions, of which the active service selects one."""
    return [
        "moment 1",
        "phase steady",
        f"active {active}",
        f"preview {active}",
        "stable 1",
        f"newest {MANY}",
        *(
            f"revision {number} web-v{number} desired 2 available 2 open 0 deadline none"
            for number in range(1, MANY + 1)
        ),
        "end",
    ]


def fill_log(log: GrowingLog) -> None:
    """Requests of each revision in each of the last seconds, of the last ones up to half a minute
    ago only, and one request that took much longer than all others."""
    now = time.time()
    for second in range(50, 0, -1):
        log.add(
            [
                ANSWERED._replace(
                    time=now - second, revision=number, status=500 if number == 2 else 200
                )
                for number in range(1, MANY + 1 if second > SILENT_FOR else MANY - SILENT + 1)
                for _ in range(3)
            ]
        )
    log.add([ANSWERED._replace(time=now - 20, revision=3, duration_ms=OUTLIER)])


OVERLAPS = """const boxes = [...document.querySelectorAll('#requests .mark-text')].map((text) => text.getBoundingClientRect());
return boxes.filter((one, place) => boxes.slice(place + 1).some((other) =>
  one.left < other.right && other.left < one.right && one.top < other.bottom && other.top < one.bottom)).length"""
COLOURS = """const chips = [...document.querySelectorAll('#revisions .chip')];
return new Set(chips.map((chip) => getComputedStyle(chip).backgroundColor)).size"""
GREATEST_TICK = "return Math.max(...[...document.querySelectorAll('#durations .tick')].map((tick) => Number(tick.textContent) || 0))"


def crowded(browser: Browser) -> None:
    """Many revisions, many switches, and one request that took very long: all can be told apart."""
    moved: list[int] = []

    def report(_: str) -> list[str]:
        moved.append(len(moved) % SWITCHES + 1 if len(moved) < 2 * SWITCHES else 1)
        return crowded_report(moved[-1])

    with tempfile.TemporaryDirectory() as folder, FakePort(report, free_port()) as control:
        log = GrowingLog(pathlib.Path(folder) / "access.log")
        fill_log(log)
        with showing(control.port, free_port(), "--log", str(log.path)) as address:
            open_page(browser, address)
            check(
                "marks of switches",
                comes(lambda: browser.text("#requests .mark-text").count("to web-v") > 2),
                True,
            )
            comes(lambda: len(moved) > 2 * SWITCHES + 4)
            check("texts of marks that overlap", browser.run(OVERLAPS), 0)
            check("colours", browser.run(COLOURS), MANY)
            check_shown("a legend of errors", browser, "#requests .key", "5xx", "no answer", "4xx")
            for chart in ("#requests", "#durations"):
                check_shown(
                    f"revisions that the legend leaves out, {chart}",
                    browser,
                    f"{chart} .legend",
                    f"{SILENT} revisions without a request then",
                )
                shown = browser.run(
                    f"return document.querySelectorAll('{chart} .legend .name').length"
                )
                check(f"revisions that the legend names, {chart}", shown, MANY - SILENT)
            tick = browser.run(GREATEST_TICK)
            assert isinstance(tick, (int, float))
            check("an axis that one outlier does not flatten", (tick < 100) or tick, True)
            check_shown("its value", browser, "#durations .cut", "↑")
            picture(browser, "11-crowded")


# What a page of another site can try: to read, and to order, by each way that a browser has.
ATTACK = """const done = arguments[arguments.length - 1], to = location.hash.slice(1);
const order = '{"order": "abort", "revision": 2}';
const tried = (promise) => promise.then(() => "read", () => "refused");
Promise.all([
  tried(fetch(to + "api/state").then((answer) => answer.json())),
  tried(fetch(to).then((answer) => answer.text())),
  tried(fetch(to + "api/order", {method: "POST", body: order, headers: {"X-Token": "x", "Content-Type": "application/json"}})),
  fetch(to + "api/order", {method: "POST", body: order, mode: "no-cors"}).then(() => "sent unread", () => "refused"),
  new Promise((is) => {
    const source = new EventSource(to + "api/events");
    source.onmessage = () => is("read");
    source.onerror = () => is("refused");
  }),
]).then(done)"""
REBOUND_ATTACK = """const done = arguments[arguments.length - 1];
const order = {method: "POST", body: '{"order": "abort", "revision": 2}', headers: {"X-Token": "x"}};
const asked = [fetch("/api/state"), fetch("/"), fetch("/api/events"), fetch("/api/order", order)];
Promise.all(asked.map((answer) => answer.then((told) => told.status))).then(done)"""


class QuietHandler(http.server.BaseHTTPRequestHandler):
    """An empty page of another site."""

    def do_GET(self) -> None:
        self.send_response(200)
        self.send_header("Content-Type", "text/html")
        self.end_headers()

    def log_message(self, format: str, *args: object) -> None:
        """Tells nothing."""


def tricks(browser: Browser) -> None:
    """Neither a page of another site nor one whose name was led to this machine reads or orders
    anything."""
    other = http.server.ThreadingHTTPServer((HOST, free_port()), QuietHandler)
    threading.Thread(target=other.serve_forever, daemon=True).start()
    with shown_switch() as played:
        played.pause()
        browser.open(f"http://{HOST}:{other.server_port}/#{played.address}")
        check("a page of another site", browser.run_later(ATTACK), ["refused"] * 5)
        check("has ordered nothing", played.phase(), "paused")
        browser.open(played.address.replace(HOST, REBOUND))
        check(
            "a name that leads here", "reached by the name localhost" in browser.text("body"), True
        )
        check(
            "reads and orders nothing",
            (browser.run_later(REBOUND_ATTACK), played.phase()),
            ([403] * 4, "paused"),
        )
        browser.open(played.address)
        comes(lambda: current_step(browser) == "paused")
        asks = (
            "const done = arguments[arguments.length - 1]; fetch('api/order', {method: 'POST', headers: {'X-Token': 'x'}, "
            'body: \'{"order": "abort", "revision": 2}\'}).then((answer) => done(answer.status))'
        )
        check(
            "an order without the token", (browser.run_later(asks), played.phase()), (403, "paused")
        )
    other.shutdown()


def hostile_names(browser: Browser) -> None:
    """A name of a revision that no switch would take is text as well, and each object of JavaScript
    has a `constructor`."""
    lines = [
        "moment 1",
        "phase paused",
        "active 1",
        "preview 2",
        "stable 1",
        "newest 2",
        "revision 1 constructor desired 2 available 2 open 0 deadline none",
        f"revision 2 {HOSTILE_NAME} desired 2 available 2 open 0 deadline none",
        "end",
    ]
    with FakePort(lambda _: lines, free_port()) as control, showing(
        control.port, free_port()
    ) as address:
        open_page(browser, address)
        check_shown("a name with a script, as text", browser, "#revisions", HOSTILE_NAME)
        check_shown(
            "a revision named constructor, without requests",
            browser,
            "[data-revision=constructor]",
            "constructor",
            "–",
        )
        browser.click("[data-order=abort]")
        check_shown("and in a question", browser, "#question-title", HOSTILE_NAME)
        check_no_element(browser)
        picture(browser, "9-hostile-name")


def without_rights(browser: Browser) -> None:
    """A dashboard whose user the switch does not serve knows nothing of a book."""
    with FakePort(lambda _: ["refused NotAllowed"], free_port()) as control, showing(
        control.port, free_port()
    ) as address:
        open_page(browser, address)
        check_shown("no state is told", browser, "#phase-name", "The state is not known")
        check_shown("the reason", browser, "body", "takes no lines of this user")
        check_shown("what to do is not told", browser, "#waits-for", "")
        names = browser.run(
            "return [...document.querySelectorAll('table')].filter((table) => !table.ariaLabelledByElements?.length"
            " && !document.getElementById(table.getAttribute('aria-labelledby'))).length"
        )
        check("tables without a name", names, 0)


def in_a_browser() -> None:
    """What is read off the page."""
    if why := missing():
        print(f"live_dashboard: no dashboard can be had, so nothing is looked at: {why}")
        return
    try:
        with browsing(free_port(), (f"--host-resolver-rules=MAP {REBOUND} {HOST}",)) as browser:
            for part in (rollout, tricks, hostile_names, without_rights, outage, crowded, fleet):
                part(browser)
            print(f"pictures of the page are in {PICTURES}")
    except NoBrowserError as reason:
        print(
            f"live_dashboard: no browser can be had, so the page is not looked at: {reason}. "
            "On Debian: apt-get install chromium chromium-driver"
        )


def over_http() -> None:
    """What needs no browser: metrics of a running switch, and orders that are refused."""
    if missing():
        return
    with shown_switch("--read-only") as played:
        played.traffic.start()
        port = int(played.address.rsplit(":", 1)[1].strip("/"))

        def asked(path: str, method: str = "GET") -> tuple[int, str]:
            connection = http.client.HTTPConnection(HOST, port, timeout=LONGEST)
            with contextlib.closing(connection):
                connection.request(
                    method, path, headers={"Origin": f"http://{HOST}:{port}", "X-Token": "x"}
                )
                answer = connection.getresponse()
                return answer.status, answer.read().decode()

        expected = 'bg_switch_http_requests_total{revision="web-v1",service="active",status="2xx"}'
        check("metrics of traffic", comes(lambda: expected in asked("/metrics")[1]), True)
        check(
            "metrics of the report",
            'bg_switch_replicas_available{revision="web-v1"} 2.0' in asked("/metrics")[1],
            True,
        )
        report = json.loads(asked("/api/state")[1])["report"]
        check("the state", (report["phase"], report["revisions"][0]["available"]), ("steady", 2))
        played.pause()
        check(
            "an order to one that only reads",
            (asked("/api/order", "POST")[0], played.phase()),
            (403, "paused"),
        )


def demonstration() -> None:
    """A revision that answers some requests with 500 goes live, and is taken back by its
    analysis."""
    run = run_to_end([sys.executable, "-B", str(DEMONSTRATION)], longest=LONGEST_DEMONSTRATION)
    check(
        "the demonstration's status",
        (run.status, run.told + run.printed if run.status else ""),
        (0, ""),
    )
    for text in (
        "verdict post failed => ok",
        "phase: postAnalysis -> aborted",
        "requests that failed by the switch itself: 0",
    ):
        check(f"the demonstration tells {text}", text in run.printed, True)


if __name__ == "__main__":
    checks.run("live_dashboard", [in_a_browser, over_http, demonstration], at_once=3)
