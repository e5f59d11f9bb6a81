"""The system calls of a guest's process and of its lender: exactly those that a request or a
question takes. Each one more would be a wait more of the guest, or one for each guest of a host."""

from collections import Counter

import pytest
from system_calls import calls_of
from tenants import FREE, process_of
from test_between_looks import SELDOM
from test_later_lender import QUICK
from test_strict import GIVEN, used
from vhost_client import INFLATE
from waiting import eventually

# On a busy machine a report may be late, and is one more then: so the round that takes the fewest
# calls is looked at.
ROUNDS, TURNS = 20, 12

# A kick in a message, which is answered; page numbers, and their discard; the call of the driver;
# the wait for what comes next.
KICKED = {"recvmsg": 1, "write": 1, "splice": 1}
REQUEST = {**KICKED, "pread64": 1, "fallocate": 1, "sendto": 1, "poll": 1}

# What the two files of the memory hold is reported.
REPORTED_REQUEST = {**REQUEST, "fstat": 2, "sendto": 2}

# An order, the call of the driver, and a wait; what it tells, which is reported, and a wait.
STATISTICS = {**KICKED, "recvmmsg": 1, "pread64": 1, "fstat": 2, "sendto": 2, "poll": 2}


def fewest(rounds):
    """Returns the calls of the round that takes the fewest."""
    return min(rounds, key=lambda it: sum(it.values()))


@pytest.mark.parametrize(
    "words, wanted",
    [((), REQUEST), (("--strict",), REPORTED_REQUEST)],
    ids=["request", "strict-request"],
)
def test_calls_of_a_request(lend, come, words, wanted):
    lender = lend(1, *SELDOM, *words)
    guest = come(lender, "a", {FREE: 100})

    def give(number):
        calls.forget()
        guest.give(GIVEN[number : number + 1])
        used(guest, INFLATE, number + 1)
        return calls.until_it_sleeps()

    with calls_of(process_of(lender, "a")) as calls:
        assert fewest(give(it) for it in range(ROUNDS)) == wanted


def test_calls_of_a_question_for_statistics(lend, come):
    lender = lend(1, *SELDOM)
    come(lender, "a", {FREE: 100})

    def ask(_):
        calls.forget()
        assert lender.ask("a ask") == "asked"
        return calls.until_it_sleeps()

    with calls_of(process_of(lender, "a")) as calls:
        assert fewest(ask(it) for it in range(ROUNDS)) == STATISTICS


def calls_on_channel(calls):
    """Returns the names of the calls on a guest's channel in each turn that has some."""
    made = calls.all()
    channel = next((it[1] for it in made if it[0] == "recvmsg"), None)
    turns = [[]]
    for name, *arguments in made:
        if name == "poll":
            turns.append([])
        elif arguments[:1] == [channel] and name in ("sendto", "recvmsg"):
            turns[-1].append(name)
    return [it for it in turns if it]


def test_calls_of_a_lender_that_asks(lend, come):
    """An order on the guest's channel, and a report."""
    lender = lend(1, *SELDOM)
    come(lender, "a", {FREE: 100})

    def ask(_):
        calls.forget()
        assert lender.ask("a ask") == "asked"
        return Counter(sum(calls_on_channel(calls), []))

    with calls_of(lender.process.pid) as calls:
        assert fewest(ask(it) for it in range(ROUNDS)) == {"sendto": 1, "recvmsg": 1}


def test_a_lender_sleeps_where_nobody_follows(lend, come):
    """Once a line is answered, until its guests are to be looked at."""
    lender = lend(1, *SELDOM)
    come(lender, "a", {FREE: 100})
    with calls_of(lender.process.pid) as calls:
        lender.counters()
        calls.until_it_sleeps()


def part_with_two_orders(calls):
    """Returns which part of the turns with orders have two, of the next TURNS at least."""
    calls.forget()
    orders = lambda: [it.count("sendto") for it in calls_on_channel(calls) if "sendto" in it]
    eventually(lambda: len(orders()) >= TURNS)
    return sum(it > 1 for it in orders()) / len(orders())


def test_who_is_on_its_target_isnt_reminded(lend, come):
    """Beside an order to look there is one to remind in every second turn, off the target alone."""
    lender = lend(1, *QUICK)
    come(lender, "a", {FREE: 100})
    with calls_of(lender.process.pid) as calls:
        assert part_with_two_orders(calls) < 1 / 4
        lender.set_budget(78)
        lender.become("a", asked=50, target=50)
        assert part_with_two_orders(calls) > 1 / 4
