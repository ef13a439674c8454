"""Two clients of a server, what each sends and has to be told, and what the trail of such a run has to say.

For the scripts that have calls of the program refused or noted: bench/trials/failing, bench/checks/refused and
bench/checks/synced.

Needs: Python 3.8 or later. To build a library it needs gcc or clang as `cc`, and the C library of GNU.

Prints: nothing.
"""
import collections
import itertools
import os
import shutil
import socket
import subprocess
import sys
import threading
from contextlib import suppress

TOP = os.path.abspath(os.path.join(__file__, "../../.."))
SERVER = os.path.join(TOP, "crates/bl_server/out/bl_server")
SETUP = os.path.join(TOP, "examples/setups/base.txt")
sys.path.insert(0, os.path.join(TOP, "client"))
from bl_client import connect, send_whole  # noqa: E402

SECONDS = 30
# Another schedule may make some calls more, so a kind is done when so many runs in a row have met no call of the
# number.
RUNS_WITHOUT = 5

LONG = 6000 * "x"
# What each client sends, line by line, with the replies that are due, at the end of its input at last. No reply hangs
# on what another line or the other client does, so an entry that is lost changes no other, but for its children.
VISITS = {
    "ann": [
        ("hello ann", ["ok"]),
        (
            'when read memo do show memo; spawn when read note do say "c"; end; spawn when read memo do show memo; '
            'end; end',
            ['1 done "m1"', '1.1 done "c"', '1.2 done "m1"'],
        ),
        ('when append log do add log "x"; end', ["2 done"]),
        ("wait", ["ok"]),
        ("when read log do show log; end", ["3 denied simple ann log"]),
        ("whom", ["4 refused syntax 0"]),
        (f'when read memo do say "{LONG}"; end', [f'5 done "{LONG}"']),
        ("", ["bye"]),
    ],
    "bob": [
        ("hello bob", ["ok"]),
        ("when read note do show note; end", ['1 done "n1"']),
        ("wait", ["ok"]),
        ("give ann note r", ["2 denied admin bob note"]),
        ("current u", ["3 done"]),
        ("when write log do spawn when read note do show note; end; end", ["4 denied simple bob log"]),
        ('when write note do add note ""; spawn when read note do show note; end; end', ["5 done", '5.1 done "n1"']),
        ("", ["bye"]),
    ],
}

# What a run left that was cut off: one entry runs, its child has not entered, and a line is torn.
CUT_OFF = """trail 2
limit 10000
open root
line 0 1 when write note do add note"";spawn when read note do show note;end;end
line 0 2 when read note do show note;end
start 0 run
"""
TORN = "open a"


def leave_journal(trail, text):
    """Leaves the files of a run that was cut off: its journal, with this text, and its setup."""
    shutil.copy(SETUP, f"{trail}.setup")
    with open(f"{trail}.part", "w") as out:
        out.write(text)


def free_port():
    """A port at which nobody listens."""
    with socket.socket() as one:
        one.bind(("127.0.0.1", 0))
        return one.getsockname()[1]


def lines_of(name):
    """What a client sends."""
    return "\n".join(line for line, _ in VISITS[name])


def due_to(name):
    """The replies that are due to a client."""
    return [reply for _, replies in VISITS[name] for reply in replies]


def parts_of(name):
    """What a client sends that waits for its replies: the parts up to each of its `ok`, and the rest, each with the
    number of replies by then."""
    text, count, parts = [], 0, []
    for line, replies in VISITS[name]:
        text.append(line)
        count += len(replies)
        if replies and replies[-1] in ("ok", "bye"):
            parts.append(("\n".join([*text, ""]), count))
            text = []
    return parts


def hear(port, name, told, ports, waits):
    """One client: it sends all its lines, and is told what is due, or less. Where it waits it has the replies to each
    part before it sends more. It notes its own port."""
    *parts, (last, _) = parts_of(name) if waits else [(lines_of(name), 0)]
    with suppress(OSError), connect(port) as one:
        one.settimeout(SECONDS)
        ports[one.getsockname()[1]] = name
        for text, count in parts:
            one.sendall(text.encode())
            while told[name].count("\n") < count and (data := one.recv(65536)):
                told[name] += data.decode()
        send_whole(one, last.encode(), True)
        while data := one.recv(65536):
            told[name] += data.decode()


def served(words, env, told, ports, waits=False):
    """Runs a server with these clients, each of which notes what it is told, and its own port: whether it listened, its
    status, standard output behind that, and standard error. Where it does not end it is killed."""
    port, pipe = free_port(), subprocess.PIPE
    with subprocess.Popen(
        [*words, "--port", str(port)], env=env, stdin=subprocess.DEVNULL, stdout=pipe, stderr=pipe, text=True
    ) as server:
        late = threading.Timer(SECONDS, server.kill)
        late.start()
        listened = server.stdout.readline() == "listening\n"
        clients = [threading.Thread(target=hear, args=(port, name, told, ports, waits)) for name in VISITS if listened]
        for client in clients:
            client.start()
        for client in clients:
            client.join()
        output, said = server.communicate()
        late.cancel()
    return listened, server.returncode, output, said


def wrong_of_told(told):
    """What is wrong with what clients were told, where it is no right transcript, and does not begin one."""
    return [f"{name} was told {text!r:.400}" for name, text in told.items() if not is_right(text, due_to(name))]


def is_right(told, due):
    """Whether this is what is due, or begins it. An entry may have answered `lost`, and then has no children."""
    *lines, rest = told.split("\n")
    due = list(due)
    for line in lines:
        if not due:
            return False
        wanted = due.pop(0)
        if line and line == lost(wanted):
            label = line.split()[0]
            due = list(itertools.dropwhile(lambda it: it.startswith(f"{label}."), due))
        elif line != wanted:
            return False
    return rest == "" or bool(due) and (due[0].startswith(rest) or lost(due[0]).startswith(rest))


def lost(reply):
    """The reply in the place of this one where its entry is lost; nothing where it is no entry's."""
    label, *words = reply.split()
    return f"{label} lost" if words and words[0] != "refused" else ""


def said_in(trail):
    """What a trail says of each subject's entries, by their labels. No behaviour here has children but those whose text
    it has."""
    subjects, entries, said = [], [], collections.defaultdict(dict)
    for line in trail.splitlines():
        kind, _, words = line.partition(" ")
        first, _, words = words.partition(" ")
        if kind == "open":
            subjects.append(first)
        elif kind == "line":
            ordinal, _, text = words.partition(" ")
            entries.append((subjects[int(first)], ordinal, text.count("spawn ")))
        elif kind in ("start", "end", "lost") and words != "run":
            subject, label, children = entries[int(first)]
            said[subject][label] = {"lost": "lost", "start": "done" if words == "rule" else words}.get(kind, words)
            if kind == "end":
                entries += [(subject, f"{label}.{n}", 0) for n in range(1, children + 1)]
    return said


def wrong_of_trail(program, name, told):
    """What is wrong with a trail that is kept: `replay` does not accept it, or it does not have what the clients were
    told."""
    with open(name) as text:
        trail = text.read()
    ran = subprocess.run([program, "replay", "--setup", SETUP, "--trail", name], capture_output=True, text=True)
    if (ran.returncode, ran.stdout, ran.stderr) != (0, f"accepted {len(trail.splitlines()) - 3}\n", ""):
        return [f"the trail: {ran.returncode} {ran.stdout}{ran.stderr}"]
    said = said_in(trail)
    replies = [(subject, *line.partition(" ")[::2]) for subject, text in told.items() for line in text.split("\n")[:-1]]
    return [
        f"{subject} was told {label} {words:.40}, and the trail has {said[subject].get(label)!r:.40}"
        for subject, label, words in replies
        if lost(f"{label} {words}") and said[subject].get(label) != words
    ]


def build_library(source, library):
    """Builds a library that stands before the C library's calls, of this text in C."""
    command = ["cc", "-O1", "-fno-builtin", "-shared", "-fPIC", "-x", "c", "-", "-o", library, "-ldl", "-lpthread"]
    subprocess.run(command, input=source, text=True, check=True)
