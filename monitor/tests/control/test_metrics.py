"""The metrics of a host: what promtool says of them, what a real Prometheus scrapes, and that each
alert fires there for what it is for."""

import itertools
import json
import os
import re
import shutil
import socket
import subprocess
import time
import urllib.parse

import pytest
from bigvasta.plan import lending, reading
from hosts import values
from installed import bigvasta
from linux_kit import ROOT
from made_status import guest, status
from served import free_port, get, serving
from test_made import STATISTICS
from vhost_client import DEFLATE, INFLATE, REGIONS
from waiting import PATIENCE, eventually

RULES = os.path.join(ROOT, "packaging", "prometheus")
DASHBOARD = os.path.join(ROOT, "packaging", "grafana", "bigvasta.json")
PAGE, MIB = 4096, 1 << 20

# Pages that a driver gives: of its second region, which has no rings.
GIVEN = [REGIONS[1][0] // PAGE + it for it in range(20)]

pytestmark = pytest.mark.skipif(
    not shutil.which("promtool"), reason="promtool isn't there: apt-get install prometheus"
)


def promtool(*words, text=None, folder=None):
    """Runs promtool; returns what it said."""
    ran = subprocess.run(
        ["promtool", *words],
        input=text,
        capture_output=True,
        text=True,
        timeout=PATIENCE,
        cwd=folder,
    )
    assert ran.returncode == 0 and "error" not in (ran.stdout + ran.stderr).lower(), ran
    return ran.stdout + ran.stderr


def test_the_rules():
    said = promtool("check", "rules", "bigvasta.rules.yml", folder=RULES)
    assert "SUCCESS: 8 rules found" in said
    assert "SUCCESS" in promtool("test", "rules", "bigvasta.rules.test.yml", folder=RULES)


def expressions_of_the_dashboard():
    """Returns what its panels read, and what it chooses a host by."""
    with open(DASHBOARD, encoding="utf-8") as file:
        its = json.load(file)
    (hosts,) = (it["query"]["query"] for it in its["templating"]["list"] if it["name"] == "host")
    return [it["expr"] for panel in its["panels"] for it in panel["targets"]], hosts


def test_what_the_dashboard_and_the_alerts_read_is_there(tmp_path):
    """Each metric is one of those that a host with a guest has, and Prometheus reads each
    expression."""
    collector = pytest.importorskip("bigvasta.collector").Collector
    its = status([guest("a")], pressed=0)
    names = {it.name for family in collector(lambda: its).collect() for it in family.samples}
    panels, hosts = expressions_of_the_dashboard()
    with open(os.path.join(RULES, "bigvasta.rules.yml"), encoding="utf-8") as file:
        rules = re.findall(r"(?m)^ *expr: (.*)$", file.read())
    read = {it for text in (*panels, *rules, hosts) for it in re.findall(r"bigvasta_\w+", text)}
    assert len(panels) > 10 and len(rules) == 8 and read - names == set()
    written = [
        {"record": f"x{number}", "expr": it.replace("$host", "h").replace("$__rate_interval", "1m")}
        for number, it in enumerate(panels)
    ]
    (tmp_path / "rules").write_text(json.dumps({"groups": [{"name": "x", "rules": written}]}))
    promtool("check", "rules", str(tmp_path / "rules"))


# Numbers of a status that no metric has: they don't change by themselves, or another one says them.
WITHOUT_METRIC = {
    *("version", "overdraft", "process", "least", "priority", "overhead"),
    *("free_memory", "available_memory"),
}


def numbered(its, numbers, named):
    """Returns a part of a status with numbers that are all different, whose names are noted."""
    if isinstance(its, list):
        return [numbered(it, numbers, named) for it in its]
    other = {}
    for name, it in its.items():
        if type(it) is int:
            other[name] = next(numbers)
            named[other[name]] = name
        elif isinstance(it, (dict, list)) and name != "measures":
            other[name] = numbered(it, numbers, named)
    return its | other


def test_each_number_of_a_status_is_a_metric():
    collector = pytest.importorskip("bigvasta.collector").Collector
    its = status([guest("a", statistics=dict.fromkeys(STATISTICS, 0))], pressed=0)
    its["host"] |= {"wanted": 0, "least_budget": 0}
    named = {}
    its = numbered(its, itertools.count(1000), named)
    shown = {it.value for family in collector(lambda: its).collect() for it in family.samples}
    assert {it for number, it in named.items() if number not in shown} == WITHOUT_METRIC


def test_metrics_without_a_remark(host, arrive):
    arrive("web-1")
    eventually(lambda: host.guest("web-1")["answers"])
    ran = bigvasta(host.control, "metrics")
    assert (ran.returncode, promtool("check", "metrics", text=ran.stdout)) == (0, "")
    found = values(ran.stdout)
    wanted = {
        "bigvasta_up": 1,
        "bigvasta_budget_bytes": 480 * MIB,
        "bigvasta_floor_bytes": 12 * MIB,
        "bigvasta_held_bytes": 128 * PAGE,
        "bigvasta_guests": 1,
        "bigvasta_guests_admitted_total": 1,
        'bigvasta_guest_memory_bytes{guest="web-1"}': 128 * PAGE,
        'bigvasta_guest_held_bytes{guest="web-1"}': 128 * PAGE,
        'bigvasta_guest_free_bytes{guest="web-1"}': 60 * PAGE,
        'bigvasta_guest_target_bytes{guest="web-1"}': 0,
        'bigvasta_guest_cooperates{guest="web-1"}': 1,
        'bigvasta_guest_ready{guest="web-1"}': 1,
    }
    assert {it: found.get(it) for it in wanted} == wanted
    with open(os.path.join(ROOT, "VERSION"), encoding="utf-8") as file:
        assert f'bigvasta_build_info{{core="{file.read().strip()}",version=' in ran.stdout


def test_what_the_host_measures(host, arrive):
    """Guests that go are counted by why; a budget that is passed by how long; and what took time
    is."""
    left, refused, removed = arrive("left"), arrive("refused"), arrive("removed")
    eventually(lambda: host.status()["counters"]["admitted"] == 3)
    host.ask("budget", bytes=256 * PAGE)
    eventually(lambda: host.status()["measures"]["above"] >= 0.4)
    host.ask("budget", bytes=480 * MIB)
    left.leave()
    refused.client.socket.sendall(b"\xff" * 12)
    host.ask("remove", name="removed", force=True)
    wanted = {"left": 1, "refused": 1, "removed": 1, "died": 0}
    eventually(
        lambda: host.status()["measures"]["gone"] == wanted, lambda: host.status()["measures"]
    )
    found = values(bigvasta(host.control, "metrics").stdout)
    assert {it: found[f'bigvasta_guest_gone_total{{reason="{it}"}}'] for it in wanted} == wanted
    assert (
        found["bigvasta_above_budget_seconds_total"] >= 0.4
        and found["bigvasta_grants_total"] == found["bigvasta_wait_seconds_count"]
    )
    for name in "loop", "decision", "wait":
        counts = [
            found[f'bigvasta_{name}_seconds_bucket{{le="{it}"}}']
            for it in ("0.001", "0.005", "0.02", "0.1", "0.5", "2.0", "10.0", "+Inf")
        ]
        assert counts == sorted(counts) and counts[-1] == found[f"bigvasta_{name}_seconds_count"], (
            name,
            counts,
        )
        assert name == "wait" or (counts[-1] > 0 and found[f"bigvasta_{name}_seconds_sum"] > 0)
    for it in refused, removed:
        it.stop()


def test_metrics_of_a_host_that_is_away(tmp_path):
    ran = bigvasta(f"{tmp_path}/none", "metrics")
    assert ran.returncode == 0 and values(ran.stdout) == {"bigvasta_up": 0}
    assert promtool("check", "metrics", text=ran.stdout) == ""


@pytest.fixture
def exporter(host):
    """`bigvasta metrics` of the host, and its port."""
    with serving(host.control, "metrics") as (port, _):
        yield port


CONFIGURATION = """global: {{scrape_interval: 1s, evaluation_interval: 1s}}
rule_files: [{rules}]
scrape_configs:
  - job_name: bigvasta
    static_configs: [{{targets: ["localhost:{port}"]}}]
"""


@pytest.fixture
def prometheus(exporter, tmp_path):
    """A Prometheus that scrapes the host each second, with the alerts, which don't wait here; and
    its port."""
    with open(os.path.join(RULES, "bigvasta.rules.yml"), encoding="utf-8") as file:
        rules = [it for it in file if "for:" not in it]
    quick = "".join(rules).replace("silent_seconds > 30", "silent_seconds > 1")
    (tmp_path / "rules.yml").write_text(quick)
    (tmp_path / "prometheus.yml").write_text(
        CONFIGURATION.format(rules=tmp_path / "rules.yml", port=exporter)
    )
    port = free_port()
    words = [
        "prometheus",
        f"--config.file={tmp_path}/prometheus.yml",
        f"--storage.tsdb.path={tmp_path}/data",
        f"--web.listen-address=localhost:{port}",
    ]
    with open(tmp_path / "log", "wb") as log, subprocess.Popen(words, stdout=log, stderr=log) as it:
        eventually(lambda: get(port, "/-/ready"), lambda: (tmp_path / "log").read_text()[-2000:])
        yield port
        it.terminate()


def alerts(port):
    """Returns the alerts that fire, with the guest that each is about."""
    answer = json.loads(get(port, "/api/v1/alerts"))["data"]["alerts"]
    return {
        (it["labels"]["alertname"], it["labels"].get("guest", ""))
        for it in answer
        if it["state"] == "firing"
    }


def test_a_real_prometheus_scrapes_and_its_alerts_fire(host, arrive, prometheus):
    guest = arrive("web-1")
    eventually(lambda: host.guest("web-1")["answers"])
    host.ask("floor", bytes=0)

    def query(text):
        found = json.loads(get(prometheus, f"/api/v1/query?query={text}"))["data"]["result"]
        return found and float(found[0]["value"][1])

    eventually(lambda: query("bigvasta_guest_held_bytes") == 128 * PAGE, "the guest isn't scraped")
    assert alerts(prometheus) == set()
    # The budget is passed, and the guest can't spare what is missing.
    host.ask("budget", bytes=60 * PAGE)
    wanted = {("BigvastaAboveBudget", ""), ("BigvastaShort", "")}
    eventually(lambda: alerts(prometheus) == wanted, lambda: alerts(prometheus))
    host.ask("budget", bytes=480 * MIB)
    eventually(lambda: alerts(prometheus) == set(), lambda: alerts(prometheus))
    guest.stop()
    silent = ("BigvastaGuestSilent", "web-1")
    eventually(lambda: alerts(prometheus) == {silent}, lambda: alerts(prometheus))
    # It takes pages out of its balloon that the host wants there.
    guest.client.post_pages(INFLATE, GIVEN)
    eventually(lambda: host.guest("web-1")["ballooned"] == len(GIVEN) * PAGE)
    host.ask("guest", name="web-1", target=len(GIVEN) * PAGE)
    guest.client.post_pages(DEFLATE, GIVEN[:10])
    eventually(
        lambda: alerts(prometheus) == {silent, ("BigvastaGuestUncooperative", "web-1")},
        lambda: (alerts(prometheus), host.guest("web-1")),
    )
    # The host goes.
    assert host.end() == 0
    eventually(lambda: ("BigvastaAway", "") in alerts(prometheus), lambda: alerts(prometheus))


def queries_of_the_page():
    """Returns the queries that docs/PLANNING.md has for a day, and for what a host did in it."""
    with open(os.path.join(ROOT, "docs", "PLANNING.md"), encoding="utf-8") as page:
        return re.findall(r"'query=(.*?)'", page.read())


def test_days_that_the_planner_reads(host, arrive, prometheus, tmp_path, library):
    """A guest, and a client that has handed over no memory yet, whose size is 0."""
    day, lending_day = queries_of_the_page()
    arrive("web-1", strict=True)
    eventually(lambda: host.guest("web-1")["answers"])
    coming = socket.socket(socket.AF_UNIX)
    coming.connect(host.ask("add", name="web-2")["guest"]["socket"])
    eventually(
        lambda: get(prometheus, "/api/v1/query?query=bigvasta_guest_memory_bytes==0").count("web-2")
    )
    begin = time.time()

    def answer(query):
        words = urllib.parse.urlencode(
            {"query": query, "step": 1, "start": begin, "end": time.time()}
        )
        text = get(prometheus, f"/api/v1/query_range?{words}")
        return text if len(json.loads(text)["data"]["result"][0]["values"]) > 1 else None

    (tmp_path / "day.json").write_text(eventually(lambda: answer(day)))
    unused = host.guest("web-1")["available"] + host.guest("web-1")["ballooned"]
    found = [
        (it.name, it.pages, it.uses[-1].pages)
        for it in reading.read(library, str(tmp_path / "day.json")).guests
    ]
    assert found == [("web-1", 128, 128 - unused // PAGE)]
    (tmp_path / "lending.json").write_text(eventually(lambda: answer(lending_day)))
    for moment in lending.read_lending(str(tmp_path / "lending.json")):
        assert (moment.frames, moment.guests["web-1"]) == (
            480 * MIB // PAGE,
            lending.Look(128, 128, 0, 128, 0.0),
        )
    coming.close()
