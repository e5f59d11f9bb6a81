"""Tests of what a backend counts, and of what it says of a guest's statistics."""

import struct

from vhost_client import (
    DEFLATE,
    INFLATE,
    PAGE,
    PAGES_OF_REGION,
    REGIONS,
    REPORT,
    SET_CONFIG,
    STATISTICS,
    WRITE,
)
from vhost_demands import post_statistics


def test_what_each_counter_counts(start):
    client = start()
    first, hole, end = (
        REGIONS[region][0] // PAGE + more
        for region, more in ((1, 0), (0, PAGES_OF_REGION), (1, PAGES_OF_REGION))
    )
    post_statistics(client, 11)
    assert client.backend.statistics() == (1, {"free_memory": 11})
    for number, pages in (
        (INFLATE, [first, first + 1, first + 2, hole, end]),
        (DEFLATE, [first, first + 1]),
    ):
        client.post_pages(number, pages)
        assert client.told() == number
    for page, count in ((first + 8, 4), (first + 20, 3)):
        client.describe(REPORT, 0, page * PAGE, count * PAGE, WRITE)
        client.publish(REPORT, 0)
        client.kick(REPORT)
        assert client.told() == REPORT
    client.accepted(SET_CONFIG, struct.pack("<IIII", 4, 4, 0, 6))
    assert (client.backend.ask("target 6"), client.backend.ask("ask")) == ("ok", "asked")
    # 4 pages come into the set, and 2 leave it. 128 pages less 3 and 7; 24 messages until the
    # queues run, 5 kicks and a write; a question gives one more buffer back.
    assert client.backend.counters() == {
        "target": 6,
        "actual": 6,
        "status": 15,
        "held_kib": 472,
        "end": end,
        "messages": 30,
        "kicks": 5,
        "interrupts": 5,
        "told": 1,
        "chains": 6,
        "pages": 13,
        "discarded": 10,
        "waiting": 0,
        "skipped": 1,
        "in_holes": 1,
        "kept": 0,
        "marked": 6,
        "unmarked": 0,
        "inflated": 4,
        "deflated": 2,
        "reported": 7,
        "reports": 2,
        "statistics": 1,
        "taken": 0,
        "hints_rounds": 0,
        "hints_pages": 0,
        "hints_late": 0,
    }


def test_statistics(start):
    client = start()
    assert client.backend.ask("ask") == "nothing"
    post_statistics(client, 11, 12)
    assert client.backend.statistics() == (1, {"free_memory": 11, "total_memory": 12})
    assert client.used(STATISTICS) == (0, [])
    assert client.backend.ask("ask") == "asked"
    assert (client.told(), client.used(STATISTICS)) == (STATISTICS, (1, [(0, 0)]))
    assert client.backend.ask("ask") == "nothing"
    post_statistics(client, 13)
    assert client.backend.statistics() == (2, {"free_memory": 13})


def test_the_names_of_statistics(start):
    client = start()
    # The tags of VIRTIO 1.1, 5.5.6.4, from 0 on, and from 10 on those of Linux 6.12, by its names
    # for them (VIRTIO_BALLOON_S_NAMES). All that have one fit into a report.
    names = (
        "swap_in swap_out major_faults minor_faults free_memory total_memory available_memory "
        "disk_caches hugetlb_allocations hugetlb_failures oom_kills alloc_stalls async_scans "
        "direct_scans async_reclaims direct_reclaims"
    ).split()
    post_statistics(client, *range(100, 116), first=0)
    assert client.backend.statistics() == (1, dict(zip(names, range(100, 116))))


def test_a_statistic_without_a_name(start):
    client = start()
    post_statistics(client, 7, first=16)
    assert client.backend.statistics() == (1, {"other": 7})


def test_more_statistics_than_are_kept(start):
    client = start()
    post_statistics(client, *range(102))
    count, said = client.backend.statistics()
    assert (count, said["free_memory"], said["total_memory"]) == (1, 0, 1)
    assert client.backend.ask("ask") == "asked"
    assert (client.told(), client.used(STATISTICS)) == (STATISTICS, (1, [(0, 0)]))
