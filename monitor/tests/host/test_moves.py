"""Days of a strict host on which the working set moves from guest to guest (days/moves.c), in a
time of their own: for half a minute each of three guests reads 100 MiB again and again, a fourth
one never does. The budget has room for one working set, and for little of what others have cached.
The cached pages follow the work: they are all there long before its end. A guest whose work waits
for memory gets pages that others have, in little more than the second in which a guest at rest is
asked once, or as much later as steps take that are slow at random. No page cache is given while a
guest has memory that it uses for nothing, and of that a heavier guest keeps the most."""

import linux_kit
import pytest
from test_days import DAYS, SEED, Day, live, numbers_of

# A day has 600 seconds.
SHIFTS = 20

# Steps of guests that take no time, and steps as on other days.
KINDS = {
    "at-once": Day(4, 440, slow=0, moves=1),
    "slow": Day(4, 440, moves=1),
    "weights": Day(4, 440, slow=0, moves=1, weight=4),
}

# Wrong hosts of tests/mutants/wrong_host.c, and on which days, and what, the first of these says of
# each: no guest is pressed, or one for good; page cache counts as unused; what a balloon reclaims
# presses; and all weights are 1.
LATE, UNUSED = "is late to get a page that others have", "keeps unused memory while another gives"
WRONG = {
    "22": ("at-once", LATE),
    "23": ("at-once", LATE),
    "24": ("at-once", UNUSED),
    "25": ("at-once", LATE),
    "38": ("weights", "keeps less unused memory than its weight says"),
}

# Days of `slow` on which pages that a driver took back by the target that it had read counted as
# taken by itself, once that target had risen: all its unused memory stayed to its guest then, and
# another one gave page cache.
ROSE = (20261150, 20261197, 20261263)

# Days of `slow` on which a guest was silent amid an inflate, and had another target once it told
# what its balloon had reclaimed: it counted as pressed, and those whose work waited got nothing.
INFLATED = (70000032, 70000102)

# Days on which the kernel of a guest at rest took page cache back in the background, and its work
# hadn't waited yet when it was asked: it was asked the next time a second later.
RECLAIMED = (("at-once", 40000454), ("weights", 40000138), ("weights", 40000450))

# A day ends by its processor's time.
pytestmark = pytest.mark.timeout(0)


@pytest.mark.parametrize("kind", KINDS)
def test_cached_pages_follow_the_work(kind, tmp_path_factory):
    host = linux_kit.built("simulated/vhost_user_host")
    for number in range(1 + SEED, 1 + SEED + DAYS):
        status, said = live(host, str(tmp_path_factory.mktemp("d")), number, KINDS[kind])
        assert status == 0, f"day {number}: {said}"
        assert numbers_of(said)["works"] == SHIFTS, f"day {number}: {said}"


@pytest.mark.parametrize("number", ROSE)
def test_a_target_that_rises_amid_a_deflate_has_nobody_give_page_cache(number, tmp_path_factory):
    host = linux_kit.built("simulated/vhost_user_host")
    status, said = live(host, str(tmp_path_factory.mktemp("d")), number, KINDS["slow"])
    assert status == 0 and numbers_of(said)["works"] == SHIFTS, said


@pytest.mark.parametrize("number", INFLATED)
def test_what_the_balloon_of_a_silent_guest_reclaims_presses_nobody(number, tmp_path_factory):
    host = linux_kit.built("simulated/vhost_user_host")
    status, said = live(host, str(tmp_path_factory.mktemp("d")), number, KINDS["slow"])
    assert status == 0 and numbers_of(said)["works"] == SHIFTS, said


@pytest.mark.parametrize("kind, number", RECLAIMED)
def test_a_guest_that_reclaims_is_asked_before_its_work_waits(kind, number, tmp_path_factory):
    host = linux_kit.built("simulated/vhost_user_host")
    status, said = live(host, str(tmp_path_factory.mktemp("d")), number, KINDS[kind])
    assert status == 0 and numbers_of(said)["works"] == SHIFTS, said


@pytest.mark.parametrize("number", [pytest.param(it, marks=pytest.mark.wrong(it)) for it in WRONG])
def test_a_wrong_host_is_found(number, tmp_path_factory, monkeypatch):
    monkeypatch.setenv("HOST_WRONG", number)
    host, (kind, words) = linux_kit.built("simulated-wrong/vhost_user_host"), WRONG[number]
    status, said = live(host, str(tmp_path_factory.mktemp("d")), 1, KINDS[kind])
    print(f"wrong host {number}: {said.splitlines()[0]}")
    assert status == 1 and words in said, said
