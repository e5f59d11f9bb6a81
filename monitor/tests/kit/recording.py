"""Records a host's metrics, look by look, and hands them out as Prometheus does: as the answer of
query_range, of which `bigvasta plan` makes a day."""

import json
import os
import sys
import threading
import time

import linux_kit

sys.path.append(os.path.join(linux_kit.ROOT, "client"))

from bigvasta.plan.metrics import KNOWN
from bigvasta.source import Source

# Seconds between two looks: as a host looks at its guests.
LOOK_EVERY = 0.2


def collector_of(control):
    """Returns what asks the host at this control socket for its metrics."""
    try:
        from bigvasta.collector import Collector
    except ImportError:
        raise linux_kit.Missing(
            "metrics want a library: apt-get install python3-prometheus-client"
        ) from None
    return Collector(Source(control).look)


def text_of(value):
    """Returns a value as Prometheus writes it."""
    return str(int(value)) if float(value).is_integer() else repr(float(value))


class Recorder(threading.Thread):
    """Looks at a host as long as it is entered."""

    def __init__(self, control):
        super().__init__(daemon=True)
        self.collector, self.looks, self.ended = collector_of(control), [], threading.Event()

    def look(self):
        """Notes the metrics of now."""
        samples = [
            it for family in self.collector.collect() for it in family.samples if it.name in KNOWN
        ]
        self.looks.append(
            (
                time.time(),
                {(it.name, it.labels.get("guest", "")): text_of(it.value) for it in samples},
            )
        )

    def run(self):
        """Looks once in a while."""
        begin = time.monotonic()
        while not self.ended.is_set():
            self.look()
            passed = time.monotonic() - begin
            self.ended.wait(LOOK_EVERY - passed % LOOK_EVERY)

    def __enter__(self):
        self.start()
        return self

    def __exit__(self, *_):
        self.ended.set()
        self.join()

    def steps(self):
        """Yields the looks in steps of one length: at each that which was the last one until
        then."""
        first, number = self.looks[0][0], 0
        for step in range(int((self.looks[-1][0] - first) / LOOK_EVERY) + 1):
            at = first + step * LOOK_EVERY
            while number + 1 < len(self.looks) and self.looks[number + 1][0] <= at + 1e-6:
                number += 1
            yield round(at, 3), self.looks[number][1]

    def answer(self):
        """Returns all looks as the answer of query_range."""
        series = {}
        for at, values in self.steps():
            for key, text in values.items():
                series.setdefault(key, []).append([at, text])
        result = [
            {
                "metric": {
                    "__name__": name,
                    "instance": "localhost:9750",
                    **({"guest": guest} if guest else {}),
                },
                "values": values,
            }
            for (name, guest), values in series.items()
        ]
        return {"status": "success", "data": {"resultType": "matrix", "result": result}}

    def write(self, path):
        """Writes the answer to a file."""
        with open(path, "w", encoding="utf-8") as file:
            json.dump(self.answer(), file)
            file.write("\n")
