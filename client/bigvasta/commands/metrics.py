"""`bigvasta metrics`: the host's metrics for Prometheus, over HTTP or once on standard output."""

from bigvasta.serving import serve
from bigvasta.source import Source
from bigvasta.statuses import Usage
from bigvasta.words import say


def maker():
    """Returns what makes metrics of a status."""
    try:
        from bigvasta.collector import metrics_of
    except ImportError:
        raise Usage(
            "metrics want prometheus_client: apt-get install python3-prometheus-client"
        ) from None
    return metrics_of


def run(asked):
    """Serves the metrics, or prints them once."""
    metrics_of = maker()
    if asked.listen:
        serve(asked.control, asked.listen, metrics_of)
    say(*metrics_of(Source(asked.control).look()).decode().rstrip("\n").split("\n"))


def add(commands):
    """Adds the subcommand."""
    words = commands.add(
        "metrics",
        run,
        "the host's metrics, for Prometheus",
        "Prints the metrics once; with --listen serves them at /metrics, as `serve` does. Wants "
        "python3-prometheus-client.",
        has_json=False,
    )
    words.add_argument(
        "--listen",
        metavar="HOST:PORT",
        help="such as localhost:9750; a HOST that is left out is localhost",
    )
