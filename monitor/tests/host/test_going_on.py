"""A driver that stops its queues and continues where they were: nothing restarts by that."""

from tenants import FREE
from test_strict import GIVEN, STRICT, Later


def test_who_goes_on_has_its_balloon_and_waits_for_nothing(lend, come):
    """There is no room for a new life, which would wait."""
    lender = lend(1, *STRICT)
    guest = come(lender, "a", {FREE: 100})
    lender.set_budget(78)
    lender.become("a", asked=50)
    guest.give(GIVEN[:50])
    lender.become("a", ballooned=50, lent=78)
    guest.ended.set(), guest.join()
    client = guest.client
    bases = [client.stop_ring(number) for number in range(4)]
    lender.become("a", ready=0)
    assert bases[0] == 1

    def go_on():
        for number, base in enumerate(bases):
            client.tell_place(number, base=base)
        for number in range(4):
            assert client.enable(number) == bytes(8)

    Later(go_on).ends()
    lender.become("a", ready=1, ballooned=50, lent=78, waits="nothing")
