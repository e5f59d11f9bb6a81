"""Recorded days: what is read, and each refusal, by file and line."""

import pytest
from bigvasta.plan import making
from bigvasta.plan.days import GuestTerms, Recorded, Use
from bigvasta.plan.reading import read
from bigvasta.statuses import Usage

PAGE, MIB = 4096, 1 << 20

# More digits than Python reads.
DIGITS = "1" * 5000


@pytest.mark.parametrize("mark", ("", "\ufeff"), ids=ascii)
def test_what_is_read(tmp_path, library, mark):
    path = tmp_path / "day.csv"
    path.write_text(
        f"{mark}seconds,guest,available,size,free\n5,b,4096,8192,\n0,a,8192,8192,8192\n"
        "7.5,a,8192,8192,8192\n7.6,a,8192,8192,4095\n8,a,1,8192,0\n9,b,0,8192,\n"
        "10,a,0,8192,0\n"
    )
    assert read(library, str(path)).guests == (
        Recorded("a", 2, (Use(0.0, 0, 0), Use(7.6, 0, 2), Use(8.0, 2, 0)), 10.0),
        Recorded("b", 2, (Use(5.0, 1), Use(9.0, 2)), 9.0),
    )


def test_what_is_in_a_balloon_is_neither_used_nor_cached(tmp_path, library):
    # Of 100 pages 30 are in the balloon, and 45 available, 20 of which are free.
    path, page = tmp_path / "day.csv", PAGE
    head = "guest,seconds,size,available,ballooned,free\n"
    rows = (f"a,{at},{100 * page},{45 * page},{30 * page},{20 * page}\n" for at in (0, 1))
    path.write_text(head + "".join(rows))
    assert read(library, str(path)).guests[0].uses == (Use(0.0, 25, 25),)


def test_terms_are_read(tmp_path, library):
    path = tmp_path / "day.csv"
    rows = (
        "a,0,8192,0,,2,1,4096,8192\nb,0,8192,0,,,,,\na,1,8192,0,,2,1,4096,8192\nb,1,8192,0,,,,,\n"
    )
    path.write_text("guest,seconds,size,used,free,weight,priority,least,most\n" + rows)
    a, b = read(library, str(path)).guests
    assert (a.terms, b.terms) == (GuestTerms(1, 2, 2, 1), GuestTerms())


# A guest whose balloon has what its target says, at each second: what has risen by then.
STALLS = "guest,seconds,size,used,free,ballooned,target,alloc_stalls,oom_kills\n"


def stalls_of(*rows):
    """Returns the lines of a guest: the second, what is in its balloon, its target, its stalls and
    its kills."""
    return STALLS + "".join(f"a,{at},8192,4096,,{','.join(map(str, its))}\n" for at, *its in rows)


PRESSED = {
    "a counter that rises": (((0, 0, 0, 7, 0), (1, 0, 0, 8, 0), (9, 0, 0, 8, 0)), (1.0, 6.0)),
    "a kill": (((0, 0, 0, 7, 0), (1, 0, 0, 7, 1), (200, 0, 0, 7, 1)), (1.0, 121.0)),
    "its balloon inflates": (((0, 0, 0, 7, 0), (1, 0, 4096, 8, 0), (9, 4096, 4096, 8, 0)), ()),
    "it isn't told at first": (((0, 0, 0, "", 0), (1, 0, 0, 8, 0), (9, 0, 0, 8, 0)), ()),
    "it rises again": (
        ((0, 0, 0, 7, 0), (1, 0, 0, 8, 0), (3, 0, 0, 9, 0), (9, 0, 0, 9, 0)),
        (1.0, 8.0),
    ),
    "the last row comes before": (((0, 0, 0, 7, 0), (1, 0, 0, 8, 0), (4, 0, 0, 8, 0)), (1.0,)),
}


@pytest.mark.parametrize("name", PRESSED)
def test_who_is_pressed(tmp_path, library, name):
    rows, changes = PRESSED[name]
    path = tmp_path / "day.csv"
    path.write_text(stalls_of(*rows))
    uses = read(library, str(path)).guests[0].uses
    assert tuple(it.seconds for it in uses) == (0.0, *changes)
    assert [it.pressed for it in uses] == [False, True, False][: len(uses)]


def test_a_day_lasts_from_the_first_row_to_the_last(tmp_path, library):
    path = tmp_path / "day.csv"
    rows = "b,5,8192,1,\na,2,8192,1,\na,7,8192,1,\nb,6,8192,1,\n"
    path.write_text("guest,seconds,size,used,free\n" + rows)
    assert read(library, str(path))[1:] == (2.0, 7.0)


HEAD = "guest,seconds,size,used,free\na,1,8192,4096,\n"

# What a file has, and what it is refused by.
REFUSED = (
    ("", ": there are no rows"),
    ("guest,seconds,size,used,free\n", ": there are no rows"),
    (
        "guest,seconds,size,used,free,load\n",
        ":1: the column 'load' is none of guest, seconds, size, free, used, available, ballooned, "
        "target, swap_in, swap_out, oom_kills, alloc_stalls, direct_scans, direct_reclaims, least, "
        "most, weight, priority",
    ),
    ("guest,seconds,size,size,used\n", ":1: the column size is there twice"),
    ("guest,seconds,used,free\n", ":1: there is no column size"),
    ("guest,seconds,size,used\n", ":1: there is no column free"),
    (
        "guest,seconds,size,used,free,oom_kills,target\n",
        ":1: there is a column oom_kills, and no column ballooned: a balloon that inflates has its "
        "guest reclaim",
    ),
    (
        "guest,seconds,size,used,free,ballooned,swap_out\n",
        ":1: there is a column swap_out, and no column target: a balloon that inflates has its "
        "guest reclaim",
    ),
    (
        "guest,seconds,size,free\n",
        ":1: there has to be a column used or a column available, and not neither",
    ),
    (
        "guest,seconds,size,used,available,free\n",
        ":1: there has to be a column used or a column available, and not both",
    ),
    (HEAD + "a,,8192,4096,\n", ":3: seconds is empty"),
    (HEAD + ",2,8192,4096,\n", ":3: guest is empty"),
    (HEAD + "a,2,,4096,\n", ":3: size is empty"),
    (HEAD + "a,2,8192, ,\n", ":3: used is empty"),
    (HEAD + "a,2,8192\n", ":3: there are 3 cells, and 5 columns"),
    (HEAD + "\n", ":3: there are 0 cells, and 5 columns"),
    (HEAD + "a,0.5,8192,4096,\n", ":3: seconds: 0.5 isn't after 1, the time of a before"),
    (HEAD + "a,1,8192,4096,\n", ":3: seconds: 1 isn't after 1, the time of a before"),
    (HEAD + "b,-1,8192,4096,\n", ":3: seconds: '-1' is no time in seconds from 0 on"),
    (HEAD + "b,nan,8192,4096,\n", ":3: seconds: 'nan' is no time in seconds from 0 on"),
    *(
        (HEAD + f"b,{it},8192,4096,\n", f":3: seconds: {it!r} is no time in seconds from 0 on")
        for it in ("noon", "1_0", "٤")
    ),
    (
        HEAD + "b,9e12,8192,4096,\n",
        ":2: a has this row alone: a guest's last row says when it goes",
    ),
    (HEAD + "b,9.1e12,8192,4096,\n", ":3: seconds: '9.1e12' is no time in seconds from 0 on"),
    (HEAD + "b,1e308,8192,4096,\n", ":3: seconds: '1e308' is no time in seconds from 0 on"),
    (HEAD + "b,2,0,0,\n", ":3: size is 0"),
    (HEAD + "b,2,8191,0,\n", ":3: size: 8191 isn't whole pages of 4096 bytes, below 2^32 of them"),
    (
        HEAD + f"b,2,{PAGE << 32},0,\n",
        f":3: size: {PAGE << 32} isn't whole pages of 4096 bytes, below 2^32 of them",
    ),
    (HEAD + "b,2,8K,0,\n", ":3: size: '8K' is no number of bytes"),
    (HEAD + "b,2,8192,-1,\n", ":3: used: '-1' is no number of bytes"),
    pytest.param(
        HEAD + f"b,2,8192,{DIGITS},\n", f":3: used: '{DIGITS}' is no number of bytes", id="digits"
    ),
    (HEAD + "b,2,8192,8193,\n", ":3: used is 8193, above size, which is 8192"),
    (
        HEAD.replace("used", "available") + "a,2,8192,8193,\n",
        ":3: available is 8193, above size, which is 8192",
    ),
    (HEAD + "a,2,12288,4096,\n", ":3: size: a had 8192 bytes before, and 12288 now"),
    (
        HEAD + "a,2,8192,0,\nb,2,8192,0,\n",
        ":4: b has this row alone: a guest's last row says when it goes",
    ),
    (HEAD + "a,2,8192,0,8193\n", ":3: free is 8193, above size, which is 8192"),
    (HEAD + "a,2,8192,0,much\n", ":3: free: 'much' is no number of bytes"),
    (
        "guest,seconds,size,used,free,weight\na,1,8192,0,,2\na,2,8192,0,,\n",
        ":3: a had other terms before",
    ),
    (
        "guest,seconds,size,used,free,weight\na,1,8192,0,,0\n",
        ":2: weight: 0 isn't from 1 to 4294967295",
    ),
    (
        "guest,seconds,size,used,free,priority\na,1,8192,0,,4294967296\n",
        ":2: priority: 4294967296 isn't from 0 to 4294967295",
    ),
    ("guest,seconds,size,used,free,priority\na,1,8192,0,,-1\n", ":2: priority: '-1' is no number"),
    (
        "guest,seconds,size,used,free,least,most\na,1,8192,0,,8192,4096\n",
        ":2: least is more than most",
    ),
    (STALLS + "a,1,8192,0,,0,0,some,0\n", ":2: alloc_stalls: 'some' is no number"),
)


@pytest.mark.parametrize(("text", "words"), REFUSED)
def test_refusals(tmp_path, library, text, words):
    path = tmp_path / "day.csv"
    path.write_text(text)
    with pytest.raises(Usage) as refused:
        read(library, str(path))
    assert str(refused.value) == f"{path}{words}"
    assert refused.value.status == 2


@pytest.mark.parametrize(
    ("content", "words"),
    ((b"guest,\xff\n", "this is no CSV in UTF-8: "), (b'guest,"a\n', "this is no CSV in UTF-8: ")),
)
def test_what_is_no_csv(tmp_path, library, content, words):
    path = tmp_path / "day.csv"
    path.write_bytes(content)
    with pytest.raises(Usage) as refused:
        read(library, str(path))
    assert str(refused.value).startswith(f"{path}: {words}")


def test_a_file_that_is_not_there(tmp_path, library):
    with pytest.raises(Usage) as refused:
        read(library, f"{tmp_path}/none.csv")
    assert str(refused.value) == f"{tmp_path}/none.csv: No such file or directory"


@pytest.mark.parametrize("seed", range(5))
def test_a_day_that_is_made_can_be_read(tmp_path, library, seed):
    lines = list(making.make(12, seed, 24))
    assert lines == list(making.make(12, seed, 24)) != list(making.make(12, seed + 1, 24))
    seconds = [float(it.split(",")[1]) for it in lines[1:]]
    assert seconds == sorted(seconds)
    path = tmp_path / "day.csv"
    path.write_text("\n".join(lines))
    day = read(library, str(path))
    assert 10 <= len(day.guests) <= 12
    assert (day.start, day.end) == (0.0, 86400.0)
    reset = [it for it in day.guests if any(use.pages == 0 for use in it.uses[1:])]
    late = [it for it in day.guests if it.uses[0].seconds > 0]
    assert len(reset) + len(late) > 0


@pytest.mark.parametrize("hours", (0.01, 0.0345, 1.23456))
def test_a_short_day_that_is_made_can_be_read(tmp_path, library, hours):
    path = tmp_path / "day.csv"
    for seed in range(20):
        path.write_text("\n".join(making.make(30, seed, hours)))
        assert read(library, str(path)).end == round(hours * 3600, 1)


@pytest.mark.parametrize("seed", range(5))
def test_what_a_guest_that_is_made_uses(seed):
    """Of its memory 6 to 90 percent are its working set, and most of what it has read stays in page
    cache, of which a tenth can't be let go. A reboot leaves all of it free."""
    caches = []
    for line in list(making.make(30, seed, 24))[1:]:
        size, available, free = map(int, line.split(",")[2:])
        assert 0 <= free <= available and size in (MIB << it for it in range(9, 13))
        assert free == size or 0.06 * size <= size - available <= 0.91 * size + PAGE, line
        caches.append(available - free > 0.05 * size)
    assert sum(caches) > len(caches) / 2
