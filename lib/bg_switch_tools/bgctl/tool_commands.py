"""The commands of bgctl that are tools of their own, too."""
from bg_switch_tools.analysis import cli as analysis_cli
from bg_switch_tools.bgctl.command import Command, CommandRun
from bg_switch_tools.dashboard import cli as dashboard_cli


def analysis(run: CommandRun) -> int:
    run.options.control = run.options.control or run.target.known_control()
    return analysis_cli.judge(run.options)


def dashboard(run: CommandRun) -> int:
    run.options.control = run.target.control()
    run.options.plan = run.target.path or ""
    return dashboard_cli.show(run.options)


ANALYSIS = Command(
    "analysis",
    "judges a revision by its requests in the access log",
    "bgctl analysis --log access.log --revision web-v2 --seconds 60 --errors-at-most 1%",
    analysis,
    more="bin/analysis -h explains the measurements.",
    fault=analysis_cli.fault_of,
    add_options=analysis_cli.add_options,
    has_target=False,
)
DASHBOARD = Command(
    "dashboard",
    "shows the switch as a web page, and gives its metrics",
    "bgctl dashboard --listen 8090 --log access.log",
    dashboard,
    more="docs/DASHBOARD.md explains the page and the metrics.",
    fault=dashboard_cli.fault_beside_a_switch,
    add_options=dashboard_cli.add_options,
)
