"""Whether a host has room for another guest, by what its guests can spare: the library says so."""

from bigvasta.plan import library
from bigvasta.plan.library import CONTACT_HEARD, CONTACT_STARTS, UNTOLD
from bigvasta.sizes import PAGE

# The library counts pages in 32 bits: a size beyond is none that a host lends.
MOST_PAGES = (1 << 32) - 1


def pages_of(size):
    """Returns a size of a status in pages."""
    return min(size // PAGE, MOST_PAGES)


def figures_of(guest):
    """Returns what is known of a guest by its status: what it can spare is available to others."""
    pages, spare = pages_of(guest["memory"]), pages_of(guest["spare"])
    return library.Figures(
        pages=pages, available=spare, free=UNTOLD, most=MOST_PAGES, contact=CONTACT_HEARD
    )


def lacks_of(path, pages):
    """Returns what says of a status by how many pages all guests and another one of this many can't
    spare what the budget lacks: the newcomer spares nothing."""
    calls = library.load(path)
    newcomer = library.Figures(pages=pages, most=MOST_PAGES, contact=CONTACT_STARTS)

    def lacks(status):
        guests = [*map(figures_of, status["guests"]), newcomer]
        budget = library.PolicyBudget(frames=pages_of(status["host"]["budget"]))
        return library.decide(calls, budget, (library.Figures * len(guests))(*guests))[0].missing

    return lacks
