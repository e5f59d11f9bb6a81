"""The contracts whose definitions tools/headline counts."""

# The contracts of each page: name, file, and how its function begins.
PAGES = {
    "crates/vb_model/README.md": [
        ("World::run", "vb_world/src/world.rt", "pub fn run("),
        ("run_threads", "vb_run/src/run.rt", "pub fn run_threads"),
    ],
    "crates/vb_room/README.md": [
        (
            "no_guest_within_its_loan_lacks_a_frame",
            "vb_room/src/laws.rt",
            "pub fn no_guest_within_its_loan",
        )
    ],
    "crates/vb_host/README.md": [
        (it, "vb_host/src/laws.rt", f"pub fn {it}(")
        for it in (
            "the_budget_holds",
            "the_limits_hold",
            "toward_a_target_never_waits",
            "never_stuck_unless_short",
            "one_round_each_serves_all",
            "the_lender_is_the_systems",
        )
    ],
    "crates/vb_c/README.md": [
        ("vb_begin", "vb_c/src/serving.rt", 'pub extern "C" fn vb_begin('),
        ("vb_go_on", "vb_c/src/serving.rt", 'pub extern "C" fn vb_go_on('),
        ("vb_policy_decide", "vb_c/src/policy.rt", 'pub extern "C" fn vb_policy_decide('),
    ],
}
