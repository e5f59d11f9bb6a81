"""The page of `bigvasta serve` in a browser without a screen: what it has made of the status."""

import shutil
import subprocess
from html.parser import HTMLParser

import pytest
from fakes import Fake
from made_status import guest, status
from served import serving
from waiting import PATIENCE

BROWSER = "chromium-headless-shell"

pytestmark = pytest.mark.skipif(
    not shutil.which(BROWSER), reason=f"{BROWSER} isn't there: apt-get install {BROWSER}"
)

# Names that are markup, beside one that is none.
SCRIPT, IMAGE = "<script>document.title='taken'</script>", "<img src=x onerror=\"alert('taken')\">"
GUESTS = [
    guest(SCRIPT, memory=200, held=100, spare=50, ballooned=20, loan=140, target=50),
    guest(IMAGE, memory=400, held=100, spare=0, loan=300, waits_for="deflate", waits=4),
    guest("web-1", state="absent"),
]


class Read(HTMLParser):
    """What a page has: its cells by rows, the widths of bars and of their parts, lines and what is
    run."""

    def __init__(self, text):
        super().__init__()
        self.rows, self.bars, self.lines, self.scripts, self.texts = [], [], [], 0, {}
        self.inside = self.name = None
        self.feed(text)

    def handle_starttag(self, tag, attributes):
        its = dict(attributes)
        self.inside, self.name = tag, its.get("id", self.name)
        self.scripts += tag == "script" or any(it.startswith("on") for it in its)
        if tag == "tr":
            self.rows.append([])
        if tag == "td":
            self.rows[-1].append("")
        if its.get("class") == "bar":
            self.bars.append([its.get("style", "")])
        if its.get("class") in ("held", "spare", "lent", "mark"):
            self.bars[-1].append(f"{its['class']} {its['style']}")
        if tag == "polyline":
            self.lines.append(its["class"])

    def handle_endtag(self, tag):
        self.inside = None

    def handle_data(self, data):
        if self.inside == "td":
            self.rows[-1][-1] += data
        else:
            self.texts[self.name] = self.texts.get(self.name, "") + data


def page(port, folder):
    """Returns the page as it is once it has asked for the status."""
    words = ("--no-sandbox", "--disable-gpu", "--virtual-time-budget=5000", "--dump-dom")
    ran = subprocess.run(
        [BROWSER, *words, f"--user-data-dir={folder}/browser", f"http://localhost:{port}/"],
        capture_output=True,
        text=True,
        timeout=PATIENCE,
    )
    assert ran.returncode == 0, ran
    return Read(ran.stdout)


def test_a_bar_of_each_guest(folder):
    answer = status(GUESTS, budget=450, held=150, lent=300, waiting=1)
    host = Fake(folder, lambda asked: (answer,))
    with serving(host.path) as (port, _):
        its = page(port, folder)
    host.close()
    assert its.rows[1:] == [
        [IMAGE, "100", "300", "0", "0", "", "deflate, 4.0 s"],
        [SCRIPT, "100", "140", "50", "50", "", ""],
        ["web-1", "0", "0", "0", "0", "", "absent"],
    ]
    assert its.bars == [
        ["", "held width: 25%;", "spare width: 0%;", "lent width: 25%;", "mark left: 75%;"],
        ["width: 100%;", "held width: 25%;", "spare width: 0%;", "lent width: 50%;"],
        [
            "width: 50%;",
            "held width: 35%;",
            "spare width: 15%;",
            "lent width: 20%;",
            "mark left: 75%;",
        ],
    ]
    assert sorted(its.lines) == ["line-budget", "line-held", "line-lent", "line-missing"]
    assert "budget 450  held 150  lent 300  promised 600 MiB  tier cache" in its.texts["lines"]
    assert (its.scripts, its.texts.get("fault", "").strip()) == (1, "")


def test_a_host_that_is_away(folder):
    with serving(f"{folder}/none") as (port, _):
        its = page(port, folder)
    assert its.texts["fault"].startswith("no host answers, and this was its last word: no host")
    assert its.rows[1:] == []
