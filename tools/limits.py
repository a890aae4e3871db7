"""Holds the numbers and names of the program that tools need: one place for all of them.

`tools/constants --check` compares each with the source that SOURCES names, and the copies that stand
elsewhere, in other languages or where nothing may be imported, with what stands here.
"""

NODES = 32  # actors above are clients, and 0 is the desk, which gets what orders came to
CLIENTS = 64
REQUESTS = 1000  # of a client
GROUPS = 16  # of a scenario
MEMBERS = 9  # of a group of a scenario
INPUT = 16_777_216  # bytes of a scenario
LINES = 20_000  # of a scenario
JOURNAL = 268_435_456  # bytes of a stored journal that is audited
DELIVERIES = 1_000_000  # of a line, and steps of a storm
WORKERS = 16  # of a line `free`
OPEN_SLOTS = 4  # the number of slots of a group that a leader has open
PATIENCE = 8  # ticks of a leader behind which a transaction is given up

KINDS = (
    "Request",
    "Answer",
    "Prepare",
    "Promise",
    "Accept",
    "Accepted",
    "Nack",
    "Learn",
    "Ask",
    "Install",
    "TxPrepare",
    "TxVote",
    "TxOutcome",
    "TxElsewhere",
    "TxWatch",
    "TxWatched",
    "Told",
)
TX_KINDS = tuple(kind for kind in KINDS if kind.startswith("Tx"))

# By the name above: the file below crates/, and the constant there.
SOURCES = {
    "NODES": ("sc_base/src/limits.rt", "MOST_NODES"),
    "CLIENTS": ("sc_base/src/limits.rt", "MOST_CLIENTS"),
    "REQUESTS": ("sc_base/src/limits.rt", "MOST_REQUESTS"),
    "GROUPS": ("sc_scenario/src/scenario/taking.rt", "MOST_GROUPS"),
    "MEMBERS": ("sc_scenario/src/scenario/taking.rt", "MOST_MEMBERS"),
    "INPUT": ("sc_scenario/src/scenario/reading.rt", "INPUT_LIMIT"),
    "LINES": ("sc_scenario/src/scenario/reading.rt", "LINE_LIMIT"),
    "JOURNAL": ("sc_json_journal/src/file/reading.rt", "FILE_LIMIT"),
    "DELIVERIES": ("sc_scenario/src/scenario/schedules.rt", "MOST_DELIVERIES"),
    "WORKERS": ("sc_scenario/src/scenario/schedules.rt", "MOST_WORKERS"),
    "OPEN_SLOTS": ("sc_node_table/src/lib.rt", "OPEN_SLOTS"),
    "PATIENCE": ("sc_node_parts/src/transactions/reminders.rt", "PATIENCE"),
}

# Where a number is written down once more: the file, the text before it, and its name above.
COPIES = (
    ("tools/survey_runs.py", r"^NODES = ", "NODES"),
    ("tools/page_parts/data.js", r"const CLIENT = ", "NODES"),
    ("tools/edit_runs.py", r"^MOST_INPUT = ", "INPUT"),
    ("tools/edit_calls.py", r"^MOST_OUTPUT = ", "JOURNAL"),
    ("tools/edit_test_server.py", r"^    limit = ", "INPUT"),
    ("tools/script/words.txt", r"^word run \| program \| ", "INPUT"),
    ("tools/script/words.txt", r"^word journal \| program \| ", "INPUT"),
    ("tools/script/words.txt", r"^word pool \| program \| ", "INPUT"),
    ("tools/script/words.txt", r"^word audit \| program \| ", "JOURNAL"),
    ("tools/script/words.txt", r"^word explain \| program \| ", "JOURNAL"),
    ("tools/script/words.txt", r"^word make N=1\.\.", "REQUESTS"),
    ("tools/script/forms.py", r"^MOST_NODES, MOST_CLIENTS = ", "NODES"),
    ("tools/script/forms.py", r"^MOST_NODES, MOST_CLIENTS = \d+, ", "CLIENTS"),
    ("tools/script/forms.py", r'"L": number\("[a-z ]*", 1, ', "DELIVERIES"),
    ("tools/script/forms.py", r'"W": number\("[a-z ]*", 1, ', "WORKERS"),
    ("tools/script/refusal", r"a text has at most ", "LINES"),
    ("tools/script/refusal", r"a text has at most \d+ lines and ", "INPUT"),
    ("tools/script/refusal", r"that is audited,? .*has at most ", "JOURNAL"),
    ("tools/script/refusal", r"a client has at most ", "REQUESTS"),
    ("tools/script/refusal", r"there are at most ", "GROUPS"),
    ("tools/script/refusal", r"a group has at most ", "MEMBERS"),
    ("tools/serve/program/scenario.py", r"^NODES = ", "NODES"),
    ("tools/serve/gather/journal.py", r"^MOST_BYTES = ", "JOURNAL"),
    ("reference/src/replica/mod.rs", r"^pub const AHEAD: u32 = ", "OPEN_SLOTS"),
)
