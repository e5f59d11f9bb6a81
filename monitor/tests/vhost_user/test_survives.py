"""Tests of a backend whose client sends random bytes."""

import random
import struct

import pytest
from linux_kit import Fault
from vhost_client import BUFFERS, PAGE, PAGES_OF_REGION, REGIONS, SIZE

REQUESTS = (*range(1, 42), 99)
LIVES = 200


def send_message(chance, client):
    """Sends a random message."""
    words = [
        chance.choice((0, 1, 2, 3, 4, 8, 9, 256, 1 << 31, chance.getrandbits(32)))
        for _ in range(chance.randint(0, 18))
    ]
    body = struct.pack(f"<{len(words)}I", *words)
    client.send(
        chance.choice(REQUESTS),
        body,
        client.files[: chance.randint(0, 2)],
        flags=chance.choice((1, 1, 9)),
    )


def scribble(chance, client):
    """Writes into a ring, usually nearly what would be right, and kicks."""
    number = chance.randrange(4)
    for head in range(chance.randint(1, SIZE)):
        address = chance.choice(
            (
                BUFFERS,
                REGIONS[1][0],
                REGIONS[1][0] + PAGES_OF_REGION * PAGE - 64,
                chance.getrandbits(64),
            )
        )
        length = chance.choice((4, 80, 1024, PAGE, 2 * PAGE, chance.getrandbits(32)))
        client.describe(
            number,
            head,
            address,
            length,
            chance.choice((0, 0, 1, 2, 3, chance.randrange(8))),
            chance.randrange(SIZE + 1),
        )
    client.write(
        BUFFERS,
        chance.choice(
            (chance.randbytes(64), struct.pack("<I", REGIONS[1][0] // PAGE + 7) * (PAGE // 2))
        ),
    )
    client.publish(number, chance.randrange(SIZE), chance.choice((1, 1, 1, 2, 9)))
    client.kick(number)


@pytest.mark.parametrize("seed", range(LIVES))
def test_random_bytes_in_messages_and_in_memory(serve, tmp_path, seed):
    """The backend serves or refuses, and has no fault of its own."""
    chance = random.Random(seed)
    client = serve("--state", str(tmp_path / "state")) if chance.random() < 0.3 else serve()
    try:
        client.start() if chance.random() < 0.5 else client.start_by_events()
        for _ in range(40):
            send_message(chance, client) if chance.random() < 0.1 else scribble(chance, client)
    except (OSError, AssertionError, Fault):
        pass
    status, said = client.close()
    assert status in (0, 1), said
    assert "saved" not in said
    assert (status == 1) == said.startswith("refused: "), said
