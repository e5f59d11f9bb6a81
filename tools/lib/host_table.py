"""A table of what a host holds, lends and asks for, a line for each second."""

# With more guests than these the table has a column for all together. How wide a column is.
MOST_COLUMNS, WIDTH = 5, 5


def print_head(names):
    """Prints what the columns are, and of which guests."""
    wide = WIDTH * (len(names) if len(names) <= MOST_COLUMNS else 2) + 1
    parts = "".join(f"{it:>{wide}}" for it in ("held", "target", "spare"))
    print(f"{'seconds':>8}{parts}{'sum':>7}{'budget':>8}  waits")
    if len(names) <= MOST_COLUMNS:
        short = "".join(f"{it.removeprefix('guest-'):>{WIDTH}}" for it in names)
        print(f"{'guest-':>8}" + 3 * f" {short}")


def waiting(sample, names):
    """Returns who waits for what."""
    return ", ".join(f"{name} {what}" for name, what in zip(names, sample.waits) if what)


def print_sample(sample, names, budget):
    """Prints a line of the table."""
    parts, wide = (sample.held, sample.targets, sample.spare), WIDTH
    if len(sample.held) > MOST_COLUMNS:
        parts, wide = [(sum(it),) for it in parts], 2 * WIDTH
    columns = "".join(" " + "".join(f"{it:{wide}.0f}" for it in part) for part in parts)
    print(
        (
            f"{sample.seconds:8.1f}{columns}{sum(sample.held):7.0f}{budget:8}  "
            f"{waiting(sample, names)}"
        ).rstrip(),
        flush=True,
    )
