"""A planner: replays recorded days of guests through the library's own calls, to say which budget a
host needs (docs/PLANNING.md)."""
