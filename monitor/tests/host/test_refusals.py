"""What a guest's process refuses its client for: that counts once, and not where the client's
memory was admitted before."""

from played import TELL_GONE, TELL_REFUSED, TELL_REMARK, Played
from test_strict import STRICT

# Pages of a guest that has memory.
ALL = 128


def counted(lender):
    """Returns how many clients a host has refused, how many have gone for that, and otherwise."""
    gone = lender.status()["host"]["measures"]["gone"]
    return lender.counters()["refused"], gone["refused"], gone["left"]


def go(lender, *guests):
    """Has processes say that their clients have gone, and end."""
    for it in guests:
        it.say(TELL_GONE)
        it.leave()
        lender.become(it.name_of, here=0)


def test_a_client_is_refused_once(lend):
    lender = lend(1, *STRICT)
    a, b, c = Played(lender, "a", pages=ALL), Played(lender, "b"), Played(lender, "c")
    a.say(TELL_REFUSED, b"it breaks a rule")
    lender.tells("refused a: it breaks a rule")
    assert counted(lender) == (0, 0, 0)
    b.say(TELL_REFUSED, b"one rule"), b.say(TELL_REFUSED, b"and another")
    lender.tells("refused b: and another")
    c.say(TELL_REMARK, b"a word")
    lender.tells("c: a word")
    assert counted(lender) == (1, 0, 0)
    go(lender, a, b, c)
    assert counted(lender) == (1, 2, 1)
