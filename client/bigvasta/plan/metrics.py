"""The metrics of `bigvasta metrics` that a recording has, and the cells that their values are."""

# What a day is made of.
MEMORY = {"bigvasta_guest_memory_bytes": "size"}
CELLS = MEMORY | {
    "bigvasta_guest_available_bytes": "available",
    "bigvasta_guest_free_bytes": "free",
    "bigvasta_guest_ballooned_bytes": "ballooned",
}

# What tells whose work waits for memory, of guests whose kernels report it.
TARGET = {"bigvasta_guest_target_bytes": "target"}
STALLS = {
    "bigvasta_guest_swap_in_bytes_total": "swap_in",
    "bigvasta_guest_swap_out_bytes_total": "swap_out",
    "bigvasta_guest_oom_kills_total": "oom_kills",
    "bigvasta_guest_alloc_stalls_total": "alloc_stalls",
    "bigvasta_guest_direct_scans_bytes_total": "direct_scans",
    "bigvasta_guest_direct_reclaims_bytes_total": "direct_reclaims",
}

# What says what a host did: of each guest, and of the host.
LENDING = {
    "bigvasta_guest_loan_bytes": "loan",
    "bigvasta_guest_asked_bytes": "asked",
    "bigvasta_guest_granted_bytes_total": "granted",
    "bigvasta_guest_waiting_seconds": "waiting",
}
BUDGET = {"bigvasta_budget_bytes": "budget"}
KNOWN = CELLS | TARGET | STALLS | LENDING | BUDGET
