"""Guests by the thousand, each with a name of its own."""

from bigvasta.connection import Connection
from hosts import Host
from keeping import terms
from waiting import patience_from_now

# Guests of a host at most (vhost_user_host(1)).
MOST = 1024

# Names that are as long as they may be, and terms whose words are.
LONGEST = "a" * 26 + "-{:04}"
SIZES = "".join(f"{it} = 17179869172K\n" for it in ("least", "most", "overhead", "memory"))
NUMBERS = "".join(f"{it} = 4294967294\n" for it in ("priority", "weight", "user"))


def test_a_name_that_was_removed_takes_no_place(program, folder):
    """However many there were, another guest may be added, and removed."""
    (folder / "host.conf").write_text(f"[host]\nfolder = {folder}\nbudget = 480M\n")
    host = Host(program, folder, "--config", f"{folder}/host.conf")
    host.lines.next(patience_from_now())
    with Connection(host.control) as control:
        for number in range(2 * MOST + 8):
            assert not control.ask("add", name=f"vm-{number}")["lasts"]
            control.ask("remove", name=f"vm-{number}")
    assert host.end() == 0


def test_terms_of_as_many_guests_as_there_may_be_are_taken_again(kept):
    """As many others were removed."""
    kept.host.ask("add", name="x")
    kept.host.end()
    before, after = kept.changes.read_text().split("[guest x]\n")
    said = [SIZES + NUMBERS + "strict = yes\nlimit = none\nstart = none\n"] * (MOST - 2) + [
        "removed = yes\n"
    ] * MOST
    guests = [f"[guest {LONGEST.format(it)}]\n{words}" for it, words in enumerate(said)]
    kept.changes.write_text(before + "\n".join(guests) + after)
    host = kept.start("--guests", str(MOST))
    assert len(terms(host)) == MOST, host.said()
