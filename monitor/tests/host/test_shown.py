"""How the kernel shows the processes of a guest, to who looks at a machine's."""

from tenants import FREE, process_of, status_of


def test_the_names_of_a_guest_s_processes(lend, come):
    lender = lend(5)
    come(lender, "a", {FREE: 60})
    serves = status_of(process_of(lender, "a"))
    keeper = status_of(int(serves["PPid"]))
    assert (serves["Name"], keeper["Name"]) == ("balloon", "balloon_keeper")
    assert int(keeper["PPid"]) == lender.process.pid
