"""`bigvasta serve`: a page of the host, its status and its metrics, over HTTP."""

from bigvasta.commands.metrics import maker
from bigvasta.serving import serve
from bigvasta.statuses import Usage


def run(asked):
    """Serves until the program is ended; without the library there are no metrics."""
    try:
        metrics_of = maker()
    except Usage:
        metrics_of = None
    serve(asked.control, asked.listen, metrics_of)


def add(commands):
    """Adds the subcommand."""
    words = commands.add(
        "serve",
        run,
        "a live view in a browser",
        "Serves over HTTP, for reading: at / a page that shows what `watch` shows, and the last "
        "hour; at /status the host's answer, as JSON; at /metrics what `metrics` says.",
        has_json=False,
    )
    words.add_argument(
        "--listen",
        metavar="HOST:PORT",
        default="localhost:9750",
        help="(localhost:9750); a HOST that is left out is localhost",
    )
