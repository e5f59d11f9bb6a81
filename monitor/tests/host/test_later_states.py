"""A later lender over each state of a guest, and over terms, budgets and targets that aren't the
earlier one's."""

import os
import re
import time

import linux_kit
import pytest
from played import Listens, Played
from tenants import FREE, eventually, go_on, process_of, status_of, stop
from test_later_lender import TOLD_IN
from test_limits_that_change import files_of
from test_strict import GIVEN, STRICT, Later, lent, used
from vhost_client import ADD_MEM_REG, DEFLATE, INFLATE, OFFERED, STATISTICS, Client

LOOSE = tuple(it for it in STRICT if it != "--strict")

# Pages of a guest, and half of them; the user of a process that isn't the lender's.
ALL, HALF, NOBODY = 128, 64, 65534


def enumerators(name):
    """Returns the names of an enum of monitor/backends/lender/view.h."""
    return re.findall(
        r"\w+",
        re.search(rf"enum {name} \{{(.*?)\}}", re.sub(r"/\*.*?\*/", "", view(), flags=re.S), re.S)[
            1
        ],
    )


def view():
    """Returns the text of view.h."""
    with open(f"{linux_kit.MONITOR}/backends/lender/view.h", encoding="utf-8") as header:
        return header.read()


def seen(lender, name="a"):
    """Returns what a lender shows of a guest, once its process has reported."""
    lender.guests()
    return next(it for it in lender.status()["guests"] if it["name"] == name)


class Before:
    """A strict lender of 256 frames, which the guest b has half of, and a client of the guest a."""

    def __init__(self, lend, come):
        self.lender, self.come = lend(1, *STRICT), come
        self.b = come(self.lender, "b", {FREE: 100})
        self.lender.demand("add a")
        self.client, self.act, self.others = None, None, []

    def comes(self):
        """A client comes."""
        self.client = Client(f"{self.lender.folder}/a")
        self.client.negotiate()
        self.lender.become("a", here=1)

    def has_memory(self):
        """It has its memory."""
        self.comes()
        self.client.hand_over_memory()

    def is_ready(self):
        """Its driver is ready, and has given half of its pages, which another one has got."""
        self.client = Client(f"{self.lender.folder}/a")
        self.client.start()
        self.client.post_pages(INFLATE, GIVEN[:HALF])
        self.lender.reclaim("a", self.client, HALF)
        self.others.append(Client(self.lender.add("c")))
        self.others[0].negotiate(protocol=OFFERED)
        self.others[0].accepted(
            ADD_MEM_REG, self.others[0].region_body(0), self.others[0].files[:1]
        )

    def waits_for_room(self):
        """Another one has what is left."""
        self.come(self.lender, "c", {FREE: 100})
        self.comes()
        self.act = Later(self.client.hand_over_memory)

    def waits_for_a_deflate(self):
        """It wants pages back."""
        self.is_ready()
        self.client.post_pages(DEFLATE, GIVEN[:10])

    def waits_for_a_reset(self):
        """A driver starts again, with all of its pages."""
        self.is_ready()
        for number in range(4):
            self.client.enable(number, 0)
        self.client.place(INFLATE)
        self.act = Later(lambda: [self.client.enable(number) for number in range(4)])

    def leaves(self):
        """Its client has gone, and its keeper stands still."""
        self.is_ready()
        self.keeper = int(status_of(process_of(self.lender, "a"))["PPid"])
        stop(self.keeper)
        self.client.leave()
        self.client = None

    def end(self):
        """All of it ends."""
        if self.client:
            self.client.socket.shutdown(2)
            self.act and self.act.join(20)
            self.client.leave()
        for it in self.others:
            it.leave()


# Each state of a guest, and each wait: how it comes, and what the next lender shows: the state, the
# wait, and the pages that are lent and in the balloon.
STATES = {
    "GUEST_ABSENT": (lambda it: None, ("absent", "nothing", 0, 0)),
    "GUEST_COMING": (Before.comes, ("coming", "nothing", 0, 0)),
    "GUEST_WAITING": (Before.waits_for_room, ("waiting", "room", 0, 0)),
    "GUEST_STARTING": (Before.has_memory, ("starting", "nothing", ALL, 0)),
    "GUEST_READY": (Before.is_ready, ("ready", "nothing", HALF, HALF)),
    "GUEST_LEAVING": (Before.leaves, ("absent", "nothing", 0, 0)),
    "WAITS_FOR_NOTHING": (Before.is_ready, ("ready", "nothing", HALF, HALF)),
    "WAITS_FOR_ROOM": (Before.waits_for_room, ("waiting", "room", 0, 0)),
    "WAITS_FOR_DEFLATE": (Before.waits_for_a_deflate, ("ready", "deflate", HALF, HALF)),
    "WAITS_FOR_RESET": (Before.waits_for_a_reset, ("starting", "reset", HALF, HALF)),
}


def shown(lender):
    """Returns the state of the guest a, for what it waits, and its pages that are lent and in its
    balloon."""
    its = seen(lender)
    return its["state"], its["waits_for"], its["loan"] // 4096, its["ballooned"] // 4096


def test_each_state_has_its_later_lender():
    assert set(STATES) == {*enumerators("guest_state"), *enumerators("guest_wait")}


@pytest.mark.parametrize("state", STATES)
def test_a_later_lender_goes_on_with_a_guest_in_each_state(lend, come, state):
    """It has no more frames than the earlier one: who waits keeps waiting, until there is
    room."""
    begin, wanted = STATES[state]
    before = Before(lend, come)
    begin(before)
    if "LEAVING" not in state:
        eventually(lambda: shown(before.lender) == wanted, lambda: shown(before.lender))
    before.lender.kill()
    later = lend(1, *STRICT, folder=before.lender.folder)
    if "LEAVING" in state:
        assert shown(later)[0] != "ready"
        go_on(before.keeper)
    eventually(lambda: shown(later) == wanted, lambda: shown(later))
    later.demand("budget 2")
    if before.act:
        before.act.ends()
    eventually(lambda: shown(later)[1] == "nothing", lambda: shown(later))
    assert lent(later) <= 512
    before.end()


# The user of the tests; and what means any number, or any user.
USER, ANY = os.getuid(), (1 << 32) - 1


def terms_of_guests():
    """Returns the names of a guest's terms, by view.h."""
    body = re.sub(
        r"/\*.*?\*/", "", re.search(r"struct guest_terms \{(.*?)\};", view(), re.S)[1], flags=re.S
    )
    return re.findall(r"(\w+);", body)


@pytest.mark.parametrize(
    "first, second", ((STRICT, LOOSE), (LOOSE, STRICT)), ids=("strict", "loose")
)
def test_terms_go_on_whatever_the_later_lender_has_others(lend, come, first, second):
    """Also for the next client at the seat of the guest."""
    lender, strict = lend(5, *first), first == STRICT
    a = come(lender, "a", {FREE: 100}, f"least=1 most=2 priority=3 overhead=4 user={USER} memory=5")
    terms = seen(lender)["terms"]
    assert terms == {
        "least": 1 << 20,
        "most": 2 << 20,
        "priority": 3,
        "weight": 1,
        "strict": strict,
        "overhead": 4 << 20,
        "limit": None,
        "user": USER,
        "memory": 5 << 20,
        "start": None,
    }
    assert list(terms) == terms_of_guests()
    lender.kill()
    later = lend(5, *second, folder=lender.folder)
    later.become("a", ready=1)
    assert seen(later)["terms"] == terms
    a.leave()
    later.become("a", here=0)
    next_one = come(later, "a", {FREE: 0})
    assert seen(later)["terms"] == terms
    next_one.give(GIVEN[:10])
    later.become("a", ballooned=10)
    later.demand("terms a least=0"), later.demand("budget 0")
    later.become("a", lent=ALL - 10)
    next_one.take(GIVEN[:5])
    later.become("a", waits="deflate" if strict else "nothing", ballooned=10 if strict else 5)


# Terms of three guests, of which the second gives first, then the first.
FIRST_B = ("priority=1", "", "priority=2")


def test_a_later_lender_with_a_smaller_budget_lends_nothing_before_there_is_room(lend, come):
    first = lend(2, *STRICT)
    a, b, c = (come(first, *it) for it in zip("abc", [{FREE: 100}] * 3, FIRST_B))
    b.give(GIVEN[:10])
    first.become("b", ballooned=10)
    first.kill()
    later = lend(1, *STRICT, folder=first.folder)
    eventually(
        lambda: sum(it["target"] for it in later.guests().values()) == 3 * ALL - 256, later.guests
    )
    later.become("b", lent=ALL - 10)
    b.take(GIVEN[:5])
    later.become("b", waits="deflate")
    a.give(GIVEN[:100]), c.give(GIVEN[:22])
    a.figures, c.figures = {FREE: 0}, {FREE: 6}
    # Of 256 frames 4 are left, and it wants 5.
    later.become("a", lent=ALL - 100), later.become("c", lent=ALL - 22)
    later.become("b", waits="deflate", lent=ALL - 10)
    assert (b.client.used(DEFLATE)[0], later.counters()["lent"]) == (0, 252)
    c.give(GIVEN[22:23])
    used(b, DEFLATE, 1)
    assert lent(later) == 256


def test_a_later_lender_names_who_holds_more_than_its_loan(lend, come):
    """As the earlier one has."""
    first = lend(2, *STRICT)
    a = come(first, "a", {FREE: 100}, "overhead=0")
    come(first, "b", {FREE: 100}, "priority=1"), come(first, "c", {FREE: 100}, "priority=1")
    first.set_budget(3 * ALL - 50)
    a.give(GIVEN[:50])
    first.become("a", ballooned=50, lent=ALL - 50)
    a.fill()
    first.become("a", cooperates=0, lent=ALL)
    first.kill()
    later = lend(1, *STRICT, folder=first.folder)
    later.become("a", cooperates=0, lent=ALL, ballooned=50)
    assert (
        "a: has taken 50 pages unasked: all its memory counts as lent from now on" in later.said()
    )


def test_a_guest_that_has_taken_pages_under_an_earlier_lender_has_none_free(lend, come):
    """Whatever its statistics said before."""
    first = lend(1, *LOOSE)
    a = come(first, "a", {FREE: 100})
    first.demand("a target 20")
    a.give(GIVEN[:20])
    first.become("a", ballooned=20)
    a.answers = False
    eventually(lambda: a.client.is_all_used(STATISTICS))
    a.take(GIVEN[:8])
    first.become("a", taken=8, free=0, spare=12)
    first.kill()
    later = lend(1, *LOOSE, folder=first.folder)
    later.become("a", ready=1, ballooned=12, free=0, spare=12)
    a.answers = True
    a.tell()
    later.become("a", free=100, answers=1)


@pytest.mark.skipif(os.geteuid() != 0, reason="another user is for root")
def test_a_later_lender_takes_over_no_process_of_another_user(lend, come):
    lender = lend(1, *STRICT)
    other = Listens(lender.folder, "a", NOBODY)
    lender.demand("add a")
    assert other.accept().recv(1) == b"", "another user's process is told something"
    other.end()
    lender.become("a", here=0)
    come(lender, "a", {FREE: 100})


def test_a_process_has_no_file_of_an_earlier_lender(lend, come):
    """Also where a lender comes before its process has seen the end of the one before."""
    lender = lend(1, *STRICT)
    a = come(lender, "a", {FREE: 100})
    process, counts = process_of(lender, "a"), []
    for number in range(6):
        if number % 2:
            stop(process)
        lender.kill()
        lender = lend(1, *STRICT, folder=lender.folder)
        go_on(process)
        lender.become("a", ready=1)
        counts.append(files_of(process))
    assert len(set(counts)) == 1, f"it has {counts} files open after each lender"
    a.leave()


def test_a_later_lender_admits_nobody_before_all_have_told_what_they_have(lend, come):
    """Nor does it decide."""
    first = lend(1, *LOOSE)
    guests = [come(first, it, {FREE: 0}) for it in "ab"]
    client, process = Client(first.add("c")), process_of(first, "b")
    client.negotiate()
    first.become("c", here=1)
    stop(process)
    first.kill()
    comes = Later(client.hand_over_memory)
    begin, later = time.monotonic(), lend(1, *LOOSE, folder=first.folder)
    try:
        later.become("a", ready=1)
        later.become("c", waits="room", pages=0)
        assert later.counters()["decisions"] == 0 or time.monotonic() - begin > TOLD_IN
    finally:
        go_on(process)
    eventually(lambda: "refused c: no room for 512K: 512K are missing" in later.said(), later.said)
    comes.join(20)
    client.leave()
    for it in guests:
        it.leave()


def test_a_folder_keeps_what_is_no_guests(lend, tmp_path_factory):
    """A file is no socket, and what an earlier lender has begun to keep of a guest is in nobody's
    way."""
    folder = tmp_path_factory.mktemp("l")
    for it in ("+b", "a"):
        (folder / it).write_text("x")
    (folder / ".=c").symlink_to("x")
    lender = lend(1, *STRICT, folder=str(folder))
    assert (lender.guests(), lender.ask("add a")) == ({}, "error: a: Address already in use")
    lender.demand("add c overhead=3")
    assert os.readlink(folder / "=c") == f"terms 0 {ANY} 0 1 {3 * 256} {ANY} {ANY} {ANY} 1 0 none"
    assert [(folder / it).read_text() for it in ("+b", "a")] == ["x", "x"]


# A guest that has 4096 pages, of which 3000 are in its balloon, and is asked for 2524: 2560 are
# missing of 6144 frames, as another one has 4096, and a third one 512, all of which are in its
# balloon; and 476 stay to each of both.
FRAMES, MEMORY, BALLOONED, TARGET, EARLIER, SURPLUS = 6144, 4096, 3000, 2524, 2048, 512


@pytest.mark.parametrize(
    "obeyed, ahead",
    ((EARLIER, BALLOONED - EARLIER), (TARGET, BALLOONED - TARGET)),
    ids=("earlier", "last"),
)
def test_an_adopted_driver_that_obeys_an_earlier_target_has_what_it_may_take(
    lend, tmp_path_factory, obeyed, ahead
):
    """What the earlier target leaves; and, once it has read the last one, what that leaves."""
    folder, begin = str(tmp_path_factory.mktemp("l")), time.monotonic()
    listens = [Listens(folder, it) for it in "abc"]
    lender = lend(FRAMES // 256, *STRICT, folder=folder)
    of_others = (
        {"pages": MEMORY},
        {"pages": SURPLUS, "ballooned": SURPLUS, "target": SURPLUS, "obeyed": SURPLUS + 1},
    )
    others = [
        Played(lender, name, listens=it, **its)
        for name, it, its in zip("bc", listens[1:], of_others)
    ]
    a = Played(
        lender,
        "a",
        listens=listens[0],
        pages=MEMORY,
        ballooned=BALLOONED,
        target=TARGET,
        obeyed=obeyed + 1,
    )
    if time.monotonic() - begin > TOLD_IN:
        pytest.skip("the machine is too busy")
    lender.become("a", target=TARGET, asked=TARGET, lent=MEMORY - BALLOONED + ahead)
    time.sleep(0.5)
    lender.become("a", target=TARGET, asked=TARGET, lent=MEMORY - BALLOONED + ahead)
    assert lent(lender) <= FRAMES
    a.report(obeyed=TARGET + 1)
    lender.become("a", lent=MEMORY - TARGET)
    for it in (a, *others):
        it.leave()
