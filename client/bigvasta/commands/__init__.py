"""The subcommands. Each module has `add`, which adds its own to the command line."""

from bigvasta.commands import (
    changes,
    fleet,
    guest,
    log,
    metrics,
    plan,
    reload,
    serve,
    status,
    upgrade,
    watch,
)

MODULES = (status, guest, changes, log, watch, serve, metrics, fleet, reload, upgrade, plan)
