"""Which host takes a guest, beside a model of the rule in a few lines; and what a fleet answers,
beside the replays of its hosts."""

import json
import random

import pytest
from bigvasta.plan import fleet, reading
from bigvasta.plan.days import Day, Recorded, Use, day_of
from bigvasta.plan.lender import Terms
from bigvasta.plan.placing import Promises, Stay, place
from bigvasta.plan.replay import Answer, replay
from planner import run


def model(stays, hosts, frames, places):
    """First fit: the first host with a place left whose guests, with this one, have no more than
    the frames. Who goes, goes first."""
    here, placed, away = [{} for _ in range(hosts)], {}, []
    for at in sorted({it.start for it in stays.values()} | {it.end for it in stays.values()}):
        for its in here:
            for number in [it for it in its if stays[it].end == at]:
                del its[number]
        for number in sorted(it for it in stays if stays[it].start == at):
            fits = [
                it
                for it in range(hosts)
                if len(here[it]) < places and sum(here[it].values()) + stays[number].pages <= frames
            ]
            if not fits:
                away.append(number)
                continue
            here[fits[0]][number] = stays[number].pages
            placed.setdefault(fits[0], []).append(number)
    return placed, away


@pytest.mark.parametrize("seed", range(40))
def test_first_fit_as_the_model(library, seed):
    numbers = random.Random(seed)
    for _ in range(10):
        stays = {}
        for number in range(numbers.randint(1, 60)):
            start, end = sorted(numbers.sample(range(20), 2))
            stays[number] = Stay(numbers.choice((10, 20, 33, numbers.randint(1, 100))), start, end)
        hosts, frames, places = (
            numbers.randint(1, 6),
            numbers.randint(1, 200),
            numbers.randint(1, 6),
        )
        assert place(Promises(library, hosts, frames, places), stays) == model(
            stays, hosts, frames, places
        )


# Of 100 frames that may be promised: 60 and 40 fill the first host, 50 comes to the second one, and
# 30 as well. 60 goes, and 51 comes in its place at the same moment; 20 comes beside 50 and 30, and
# 90 finds no host.
WORKED_OUT = {
    0: Stay(60, 0, 5),
    1: Stay(40, 0, 9),
    2: Stay(50, 0, 9),
    3: Stay(30, 1, 9),
    4: Stay(51, 5, 9),
    5: Stay(20, 6, 9),
    6: Stay(90, 7, 9),
}


def test_worked_out(library):
    assert place(Promises(library, 2, 100, 64), WORKED_OUT) == ({0: [0, 1, 4], 1: [2, 3, 5]}, [6])


# A guest of 100 pages that uses 10, then 80 from 10 on; one that uses 90, then 20 from 20 on
# (monitor/tests/plan/test_replay.py): on 150 pages one of them waits for 10 s, and asks once more
# for what its last target lets go.
TWO = """guest,seconds,size,used,free
{0}a,0,409600,40960,
{0}b,0,409600,368640,
{0}a,10,409600,327680,
{0}b,20,409600,81920,
{0}a,30,409600,327680,
{0}b,30,409600,81920,
"""


def test_hosts_of_a_fleet_are_replayed_as_hosts_alone(shared, tmp_path):
    """Six such guests on hosts of 150 pages that promise 200: three hosts are alike. A fourth one
    isn't wanted."""
    path = tmp_path / "day.csv"
    path.write_text(
        TWO.format("x-") + "".join(TWO.format(it).partition("\n")[2] for it in ("y-", "z-"))
    )
    words = ("--library", shared, "--floor", "0", "--reserve", "0", "--json")
    found = json.loads(
        run(str(path), "--fleet", "4", "--budget", "600K", "--promises", "1.34", *words)
    )
    alone = tmp_path / "alone.csv"
    alone.write_text(TWO.format("x-"))
    one = json.loads(run(str(alone), "--budgets", "600K", *words))["replays"][0]
    its = found["replays"][0]
    assert [{**it, "host": 0, "worst_guest": "x-a"} for it in its["hosts"]] == [
        {**one, "host": 0}
    ] * 3
    assert [it["host"] for it in its["hosts"]] == [1, 2, 3] and [
        it["worst_guest"] for it in its["hosts"]
    ] == ["x-a", "y-a", "z-a"]
    together = its["together"]
    assert (
        together["waited"],
        together["present"],
        together["asks"],
        together["worst"],
        together["moved"],
    ) == (30.0, 180.0, 6, 10.0, 3 * 614400)
    assert (its["promise"], its["away"], found["promise"], found["budget"]) == (
        1.34,
        0,
        None,
        614400,
    )


def test_each_number_of_hosts_together():
    """Sums, but of what was worst the worst, and who waited longest of all."""
    numbers = range(1, len(Answer._fields) + 1)
    own = {"waits": ((0.5,), (0.25, 0.75)), "worst_guest": ("a", "b"), "worst_waited": (7.0, 5.0)}
    first, second = (
        Answer(*(factor * it for it in numbers))._replace(**{k: v[it] for k, v in own.items()})
        for it, factor in enumerate((1, 100))
    )
    expected = {it: getattr(first, it) + getattr(second, it) for it in Answer._fields}
    expected |= {it: getattr(second, it) for it in ("lacked", "overdrawn", "above")}
    expected |= {"worst_guest": "a", "worst_waited": 7.0}
    assert fleet.together([first, second])._asdict() == expected


def test_the_largest_promise_serves(shared, tmp_path):
    """Both guests on 170 pages wait for nothing. Their 200 pages may be promised from 1.18 times
    the budget on: below that one finds no host."""
    path = tmp_path / "day.csv"
    path.write_text(TWO.format(""))
    words = (
        str(path),
        "--fleet",
        "1",
        "--budget",
        "680K",
        "--library",
        shared,
        "--reserve",
        "0",
        "--floor",
        "0",
        "--wait-seconds",
        "0",
    )
    lines = run(*words, "--promises", "1..1.2", "--steps", "20").splitlines()
    assert not any("\\" in it for it in lines)
    assert [it.split()[:4] for it in lines[3:5]] == [
        ["1.20", "1", "0", "0.000%"],
        ["1.19", "1", "0", "0.000%"],
    ]
    assert [it.split()[:3] for it in lines[5:8]] == [
        ["1.18", "1", "0"],
        ["1.17", "1", "1"],
        ["1.16", "1", "1"],
    ]
    assert (
        lines[-1] == "promise 1.20 times the budget: 0.0 s a guest and day are waited, on 1 hosts"
    )


def random_guests(numbers):
    """Returns guests of 1 to 100 pages, who come and go."""
    guests = []
    for number in range(numbers.randint(2, 20)):
        pages, (start, end) = numbers.randint(1, 100), sorted(numbers.sample(range(61), 2))
        times = sorted(
            {start, *(numbers.randint(start, end - 1) for _ in range(numbers.randint(0, 8)))}
        )
        guests.append(
            Recorded(
                f"g{number}",
                pages,
                tuple(Use(float(at), numbers.randint(0, pages)) for at in times),
                float(end),
            )
        )
    return day_of(guests).guests


class Here:
    """Runs tasks where it is, in their order."""

    def run_all(self, run_task, tasks):
        return [run_task(it) for it in tasks]


@pytest.mark.parametrize("seed", range(20))
def test_a_fleet_as_the_model(library, shared, seed):
    numbers = random.Random(seed)
    guests = random_guests(numbers)
    hosts, frames, hundredths = (
        numbers.randint(1, 4),
        numbers.randint(80, 200),
        numbers.randint(100, 200),
    )
    (its,) = fleet.Planner(
        fleet.Fleet(hosts, 8, shared, Terms(frames)), fleet.Read(guests), Here()
    ).try_all([hundredths])
    stays = {number: Stay(it.pages, it.start, it.end) for number, it in enumerate(guests)}
    placed, away = model(stays, hosts, frames * hundredths // 100, 8)
    alone = {
        host: replay(library, day_of([guests[it] for it in its]), Terms(frames))
        for host, its in sorted(placed.items())
    }
    assert (its.hosts, its.away) == (alone, len(away))
    assert its.total.waited == pytest.approx(sum(it.waited for it in alone.values()))
    assert sorted(its.total.waits) == sorted(wait for it in alone.values() for wait in it.waits)
    assert (its.total.guests, its.total.moved) == (
        len(guests) - len(away),
        sum(it.moved for it in alone.values()),
    )
    assert (its.total.lacked, its.total.worst_waited) == (
        max(it.lacked for it in alone.values()),
        max(it.worst_waited for it in alone.values()),
    )


def test_guests_that_are_made_are_those_of_the_file(shared, library, tmp_path):
    path = tmp_path / "day.csv"
    path.write_text(run("--make", "20", "--seed", "5", "--hours", "3"))
    day = reading.read(library, str(path))
    assert isinstance(day, Day)
    made = fleet.Made(5, 3.0, tuple(range(1, 21)))
    assert sorted(made.part(made.stays()).guests()) == sorted(day.guests)
