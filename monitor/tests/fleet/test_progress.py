"""How far a long plan is, as it says on a terminal and elsewhere, by moments of a clock."""

import io

from bigvasta.plan.progress import Progress


class Terminal(io.StringIO):
    """What is written to a terminal."""

    def isatty(self):
        """It is one."""
        return True


def said(out, total, moments):
    """Returns what is said of a plan that begins at 0 and of which a host is done at each of these
    moments."""
    moments = iter((0, *moments))
    progress = Progress(total, out, lambda: next(moments))
    for _ in range(total):
        progress.step()
    return out.getvalue()


def test_a_line_for_each_tenth():
    lines = said(io.StringIO(), 25, range(1, 26)).splitlines()
    assert len(lines) == 10 and lines[0] == "replayed 3 of 25 hosts, 12%, 3 s; about 22 s to go"
    assert lines[-1] == "replayed 25 of 25 hosts, 100%, 25 s; about 0 s to go"


def test_a_terminal_s_line_is_written_five_times_a_second_at_most():
    lines = said(Terminal(), 5, (0.19, 0.21, 0.4, 0.42, 0.5)).split("\r\033[K")
    assert lines[0] == "" and lines[-1].endswith(" to go\n")
    assert [it.split()[1] for it in lines[1:]] == ["2", "4", "5"]
