"""Who waits for memory, whose work does, who doesn't behave, and who migrates."""

from bigvasta.sizes import mebibytes, seconds


def refusal(it):
    """Returns why memory wasn't admitted, and by how much."""
    size = f"{mebibytes(it['bytes'])} MiB"
    words = {"memory": "above its memory=", "start": "below its start="}
    return f"refused: {size} {words.get(it['for'], 'short')}"


def wait_of(guest):
    """Returns what a guest waits for, and how long it has; or what is amiss with it."""
    if guest["waits_for"] != "nothing":
        return f"{guest['waits_for']}, {seconds(guest['waits'])}"
    if guest.get("refused"):
        return refusal(guest["refused"])
    if guest["state"] == "ready" and not guest["answers"]:
        return "silent"
    if not guest["cooperates"]:
        return "uncooperative"
    return "pressed" if guest.get("pressed") else ""


def migration_of(guest):
    """Returns where a guest migrates, and for how long it has; an older host doesn't say."""
    if guest.get("migration", "none") == "none":
        return ""
    return f"{guest['migration']} migration, {seconds(guest['migrating'])}"


def words_of(guest):
    """Returns what is said of a guest beside its numbers."""
    return "; ".join(it for it in (wait_of(guest), migration_of(guest)) if it)
