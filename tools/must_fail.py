"""The crates whose must-fail edits `rt ci` is not given: for the first edit of a crate it proves
all of the crate once more. tools/dear_edits tries them."""

DEAR = (
    "bs_board",
    "bs_json",
    "bs_sched",
    "bs_workers",
    "bs_host",
    "bs_program",
    "arena",
    "bs_batch",
)
