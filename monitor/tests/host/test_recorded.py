"""A strict host's day, recorded by its metrics, beside a replay of it by `bigvasta plan --check`:
guests have 128 pages, and want more and less of them at random. Then the same day as wrong hosts
would have had it."""

import json
import time

import linux_kit
import planner
import pytest
from bigvasta.plan import checking
from bigvasta.plan import library as loading
from bigvasta.plan.lending import read_lending
from bigvasta.plan.metrics import LENDING
from recording import LOOK_EVERY, Recorder
from tenants import FREE, eventually
from test_strict import STRICT, Driver

# The MiB of the budget, one after the other, and for how many seconds each: on the second one all
# wait, but for what stays lent to them for a while.
BUDGETS = ((1, 4), (0, 9), (1, 4))
DAY = sum(seconds for _, seconds in BUDGETS)

# Looks for which a wrong host lets a guest wait longer: 3 seconds. Looks before the budget is
# raised at which one guest of two is granted its pages.
LATE, EARLY = round(3 / LOOK_EVERY), 10

LOAN, ASKED, GRANTED, WAITING = LENDING


@pytest.fixture(scope="module")
def shared(tmp_path_factory):
    """The path of libvb.so."""
    return linux_kit.built("libvb.so")


def live(lender, guests):
    """Lets guests want more and less for a while, under a budget that is lowered and raised."""
    until = time.monotonic() + DAY
    drivers = [Driver(it, number, until) for number, it in enumerate(guests)]
    for budget, seconds in BUDGETS:
        lender.demand(f"budget {budget}")
        time.sleep(seconds)
    for it in drivers:
        it.join()
        assert it.fault is None, it.fault


def apart(library, path):
    """Returns by how many looks each guest is apart that isn't granted the same."""
    found = checking.check(library, read_lending(str(path)))
    return {it.name: it.apart() for it in found.courses if it.apart() > 1}


class Day:
    """A recorded day, of which a test changes values: pages, and seconds of a wait."""

    def __init__(self, path):
        self.answer = json.loads(path.read_text())
        self.series = {
            (it["metric"]["__name__"], it["metric"].get("guest", "")): it["values"]
            for it in self.answer["data"]["result"]
        }
        budgets = [int(text) for _, text in self.series["bigvasta_budget_bytes", ""]]
        self.raised = next(
            look for look, pair in enumerate(zip(budgets, budgets[1:]), 1) if pair[0] < pair[1]
        )
        self.ended = len(budgets)

    def number(self, metric, guest, look):
        """Returns a value."""
        return float(self.series[metric, guest][look][1])

    def add(self, metric, guest, looks, difference):
        """Has these looks see another number."""
        for look in looks:
            pair = self.series[metric, guest][look]
            pair[1] = str(int(pair[1]) + difference)

    def looks(self, guest):
        """Returns the looks before the budget is raised at which a guest waits for what it is
        granted then."""
        granted = self.number(GRANTED, guest, self.raised - 1)
        return [
            it
            for it in range(self.raised)
            if self.number(GRANTED, guest, it) == granted and self.number(ASKED, guest, it) > 0
        ]

    def waited(self, guest):
        """Returns for how many looks a guest has waited as the budget is raised, and for how many
        seconds."""
        return len(self.looks(guest)), self.number(WAITING, guest, self.raised - 1)

    def wait_longer(self, guest):
        """Has a guest wait a little longer: two may begin to wait in one millisecond."""
        for pair in (self.series[WAITING, guest][it] for it in self.looks(guest)):
            pair[1] = repr(float(pair[1]) + 0.05)

    def wait(self, guest, looks):
        """Has a guest wait from when the budget is raised on, for this number of looks, as it did
        until then."""
        for values in (self.series[metric, guest] for metric in LENDING):
            text = values[self.raised - 1][1]
            for pair in values[self.raised : self.raised + looks]:
                pair[1] = text

    def grant(self, guest, room):
        """Has a guest be granted what it waits for before the budget is raised, and before the host
        granted it: the budget is as large as this room then."""
        begin, last = self.raised - EARLY, self.raised - 1
        asked, granted = (int(self.number(it, guest, last)) for it in (ASKED, GRANTED))
        end = next(
            look
            for look in range(self.raised, self.ended)
            if self.number(GRANTED, guest, look) > granted
        )
        for metric, difference in ((LOAN, asked), (GRANTED, asked), (ASKED, -asked)):
            self.add(metric, guest, range(begin, end), difference)
        self.add("bigvasta_budget_bytes", "", range(begin, self.raised), room)

    def write(self, path):
        """Writes it to a file."""
        path.write_text(json.dumps(self.answer))
        return path


def demand_wrong_hosts_named(path, library):
    """Demands that a day is refused where a grant is dropped, and where it comes 3 seconds late."""
    for looks in (None, LATE):
        day = Day(path)
        day.wait("a", looks or day.ended)
        assert apart(library, day.write(path.with_name("wrong.json"))) == {
            "a": looks or day.ended - day.raised
        }


def demand_order(path, library):
    """Demands that a budget which has room for one of two guests that wait is for the one who has
    waited longest, and for no other."""
    day = Day(path)
    last = day.raised - 1
    first, second = sorted("ab", key=day.waited, reverse=True)
    room = sum(int(day.number(LOAN, it, last)) for it in "ab") + int(
        max(day.number(ASKED, it, last) for it in "ab")
    )
    day.wait_longer(first)
    day.grant(first, room)
    assert apart(library, day.write(path.with_name("first.json"))) == {}
    day = Day(path)
    day.wait_longer(first)
    day.grant(second, room)
    found = apart(library, day.write(path.with_name("second.json")))
    assert found.keys() == {first, second} and min(found.values()) >= EARLY, found


def test_a_day_is_replayed_with_the_same_grants(lend, come, shared, tmp_path):
    lender = lend(1, *STRICT)
    guests = [come(lender, it, {FREE: 100}) for it in "ab"]
    with Recorder(f"{lender.folder}/.control") as recorder:
        live(lender, guests)
        eventually(
            lambda: all(it["waits"] == "nothing" for it in lender.guests().values()), lender.guests
        )
    recorder.write(tmp_path / "day.json")
    found = json.loads(
        planner.run(str(tmp_path / "day.json"), "--check", "--json", "--library", shared)
    )
    assert found["agrees"] and found["look"] == pytest.approx(0.2, abs=0.002)
    for it in found["guests"]:
        assert it["granted"] == it["replayed"] > 0 and it["waited"] > 0.5, found
        assert abs(it["waited"] - it["replay_waited"]) <= 0.2 * DAY / 4, found
    library = loading.load(shared)
    demand_wrong_hosts_named(tmp_path / "day.json", library)
    demand_order(tmp_path / "day.json", library)
