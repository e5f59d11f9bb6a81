"""Options of the fuzzers' suite."""

PROGRAMS = ("fuzz/fuzz_guest", "fuzz/fuzz_lender", "cover/fuzz_guest", "cover/fuzz_lender")


def pytest_addoption(parser):
    """How long it takes, and whether what it found is kept."""
    parser.addoption(
        "--seconds",
        type=int,
        default=600,
        metavar="N",
        help="seconds of the processor for all fuzzers together (600)",
    )
    parser.addoption(
        "--keep", action="store_true", help="write the inputs that cover most into the corpus"
    )
