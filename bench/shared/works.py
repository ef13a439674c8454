"""The works by which programs are compared: setups, sessions, what clients of a server send, and the plain server.

For bench/measurements/ratios and bench/trials/random_lines.

Needs: Python 3.8 or later. To build the plain server (bench/shared/plain) it needs rustc.

Prints: nothing.
"""
import os
import subprocess
from collections import namedtuple

TOP = os.path.abspath(os.path.join(__file__, "../../.."))

# The lines come again and again, `wait` after each so many of them (0: after none). `count` lines are measured, and
# instructions are told by the difference of two shorter sessions; a work of which no run is timed has no count.
Work = namedtuple("Work", "title setup lines wait count few")
# Each client sends so many rounds of so many lines and a `wait`, and reads their replies. In a line {} is the number of
# the client.
Load = namedtuple("Load", "title workers clients rounds at_once line")

HEAD = """ranks u c s t
categories nato crypto
subject ann greatest s{nato} current s{nato}
subject eve greatest s{nato} current s{nato} trusted admin
document memo s{nato} "m1"
document note u "n1"
document plan s{nato} ""
document log t{nato,crypto} ""
allow ann memo r w a
allow ann note r w
allow ann plan r w a
allow ann log r a
allow eve memo r w a
allow eve note r w a
"""
OWN = "".join(f'document own{n} s{{nato}} ""\nallow ann own{n} r w a\n' for n in range(16))
MANY = "".join(f'document d{n} u "d"\nallow ann d{n} r w\n' for n in range(1000))
WIDE = 'document wide s{nato} "' + "w" * 65_536 + '"\nallow ann wide r\n'
SETUPS = {"base": HEAD + OWN, "many": HEAD + MANY, "wide": HEAD + WIDE}

READS = [f"when read {name} do show {name}; end" for name in ("memo", "note", "memo")]
SCRIPT = (
    'when write memo, read note do if memo has "m" then set memo "m2"; show memo; else say "no"; end; spawn when read '
    'note do show note; end; '
    'spawn when read memo do show memo; spawn when read note do say "c"; end; end; end'
)
REFUSED = {
    "unknown": "when read memos do show memos; end",
    "mode": "when read memo do set memo \"x\"; end",
    "twice": "when read memo, write memo do show memo; end",
    "syntax": "when read memo do show memo end",
}
# 598 statements
LONG = "when read memo do " + 'show memo; say "12345678"; ' * 299 + "end"

ALONE = [
    Work("short reads", "base", READS, 100, 90_000, 2_000),
    Work("writes of 1 KB", "base", [f'when write memo do set memo "{"x" * 1000}"; end'], 100, 15_000, 1_000),
    Work("scripts with `if` and `spawn`", "base", [SCRIPT], 100, 20_000, 400),
    Work(
        "rules between reads, 1,004 documents",
        "many",
        ["current u", "when read note do show note; end", "current s{nato}", READS[0]],
        100,
        60_000,
        1_000,
    ),
    Work("refused lines", "base", list(REFUSED.values()), 100, 90_000, 2_000),
    Work("a `wait` after each line", "base", READS, 1, 90_000, 2_000),
    Work("one block of 100,000", "base", READS, 0, 100_000, 2_000),
    Work("shows of 64 KB", "wide", ["when read wide do show wide; end"], 100, 5_000, 200),
    Work("lines of 8 KB", "base", [LONG], 100, 1_500, 20),
]
# what is asked for instructions alone
LINES = [
    Work("short read", "base", READS[:1], 100, 0, 2_000),
    Work("`add` to one document", "base", ['when append plan do add plan "x"; end'], 100, 0, 1_000),
    Work(
        "two accesses, two statements",
        "base",
        ["when read memo, read note do show memo; show note; end"],
        100,
        0,
        1_000,
    ),
    Work(
        "`show`, `add`, two of 1,004 documents",
        "many",
        [f'when read d{n * 7}, append plan do show d{n * 7}; add plan "x"; end' for n in range(100)],
        100,
        0,
        1_000,
    ),
    Work("rules", "base", ["current u", "current s{nato}"], 100, 0, 1_000),
] + [Work(f"refused `{fault}`", "base", [line], 100, 0, 2_000) for fault, line in REFUSED.items()]

READ = "when read note do show note; end"
SERVED = [
    Load("closed loop, 1 client", 2, 1, 20_000, 1, READ),
    Load("closed loop, 4 clients", 2, 4, 8_000, 1, READ),
    Load("closed loop, 16 clients", 2, 16, 2_000, 1, READ),
    Load("100 lines at once, 1 client, 1 worker", 1, 1, 900, 100, READ),
    Load("100 lines at once, 1 client, 2 workers", 2, 1, 900, 100, READ),
    Load("100 lines at once, 1 client, 4 workers", 4, 1, 900, 100, READ),
    Load("100 lines at once, 4 clients", 2, 4, 225, 100, READ),
    Load("100 at once, 4 clients, own documents", 2, 4, 225, 100, 'when write own{} do set own{} "x"; end'),
    Load("100 at once, 4 clients, one document", 2, 4, 225, 100, 'when write memo do set memo "x"; end'),
    Load(
        "100 at once, 4 clients, three documents",
        2,
        4,
        225,
        100,
        'when read note, write memo, append plan do set memo "x"; show note; end',
    ),
]
HEAVY = Load(
    "heavy scripts (20 searches of 64 KB)",
    2,
    4,
    5,
    5,
    "when read wide do " + 'if wide has "wwwwwwwwwwwwwwwwwwwwx" then say "y"; end; ' * 20 + "end",
)

# trails of 100,000 entries, made by a session over the setup `base`
REPLAYED = [
    Work("reads", "base", READS, 100, 100_000, 1_000),
    Work("one document", "base", ['when write memo do set memo "x"; show memo; end'], 100, 100_000, 1_000),
    Work(
        "three documents",
        "base",
        ['when read note, write memo, append plan do set memo "x"; show note; end'],
        100,
        100_000,
        1_000,
    ),
]

# each line asks so often whether a text of 64 KB has a short one
SEARCHES = Work(
    "300 searches of 64 KB in a line",
    "wide",
    ["when read wide do " + 'if wide has "wx" then end; ' * 300 + "end"],
    10,
    100,
    0,
)


def session(work, count):
    """The bytes of a session of so many lines of a work."""
    text = ["hello ann"]
    for n in range(count):
        text.append(work.lines[n % len(work.lines)])
        if work.wait and (n + 1) % work.wait == 0:
            text.append("wait")
    return "\n".join(text) + "\n"


def built_plain(folder):
    """The plain server, built into this folder."""
    program = os.path.join(folder, "plain")
    flags = ["--edition", "2024", "-C", "opt-level=3", "-C", "codegen-units=1", "-C", "panic=abort"]
    subprocess.run(["rustc", *flags, "-o", program, os.path.join(TOP, "bench/shared/plain/main.rs")], check=True)
    return program
