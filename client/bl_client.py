#!/usr/bin/env python3
"""A client of `bl_server`: for people at a terminal, for pipes and scripts, and for programs that import it.

    bl_client.py [--as NAME] [--setup FILE] [--stop | --json] [--file FILE] WHERE..

What it does: it talks to the server that answers first at a WHERE, which is a port of 127.0.0.1, a Unix socket, or the
folder of a door. At a terminal it sends each line as it is whole, and says what a refusal means (`help` says more).
From a pipe it sends what it reads as it comes, and prints each reply as it comes. Where the server's run ends, and
another one follows, it goes on there by itself: all is answered as in one session.
What it needs: Python 3.8 or later, and its standard library alone.
What it prints: the replies, byte by byte, on standard output; all other words on standard error. Status: 0, the session
ended with `bye`, and with --stop all was done; 1, the greeting or, with --stop, a line was not done; 2, bad arguments;
3, nobody answered, or a session ended early.

`Session` is for programs. A block is the lines up to a `wait`, and nothing of it is answered before that. The server
does not read while it writes, so whoever sends block after block and reads nothing may wait for ever. A `Session` sends
a block and reads its replies; from a pipe, one thread sends and another reads.

A server of a chain ends each connection by `bye` where its run ends. At the end of a connection all that was admitted
is answered before the `bye`. So a line without its reply was not admitted, and may be sent again; that is done here.
A connection that ends without `bye` says nothing of the kind, and then nothing is sent again."""
import argparse
import atexit
import difflib
import io
import itertools
import json
import os
import random
import re
import socket
import sys
import threading
import time
from collections import deque, namedtuple
from contextlib import suppress

Reply = namedtuple("Reply", "label verdict words texts")

# How words, greetings and replies are spelled (docs/FORMATS.md).
NAME = re.compile(r"[a-z][a-z0-9_]{0,31}")
WORD = re.compile(r"[a-z][a-z0-9_]*")
TEXT = re.compile(r'"[^"]*("|$)')
GREETING = re.compile(r"[ \t]*hello[ \t]+([a-z][a-z0-9_]{0,31})[ \t]*\r?")
LABEL = r"[1-9][0-9]*(?:\.[1-9][0-9]*)*"
LABELLED = re.compile(rb"([1-9][0-9]*)([. ])")
REPLY = re.compile(rf'({LABEL}) (?:(done)((?: "[ !#-\[\]-~]*")*)|(lost)|(denied|refused)((?: [a-z0-9_]+)+))')

STATUSES = """Status: 0, the session ended with `bye`, and with --stop all was done; 1, the greeting or, with --stop, a
line was not done; 2, bad arguments; 3, nobody answered, or a session ended early. docs/FORMATS.md has the language."""
HISTORY, HISTORY_LINES = "~/.bl_client_history", 1000
COLUMNS = 72  # of a line in which a place is shown
OK, BYE = b"ok\n", b"bye\n"
TRIES, PAUSE = 100, 0.1  # connections in a row without an answer, at a changeover, and the longest pause between two
AHEAD = 16  # so many pieces of the input are read that were not sent
LONG = 65536  # the bytes that a connection surely takes before any are read

# The words of the grammar, which are completed.
WORDS = """hello give rescind current classify when read append write do end show say add set copy pour to if is has
then else spawn create delete""".split()

# What each word of a reply means: the clauses of a denial, and the faults of a line and of a greeting.
MEANS = {
    "absent": "the document is not there now",
    "simple": "nothing is read up: the subject's greatest level does not dominate the document's",
    "star": "nothing flows down: one reads what the current level dominates, appends to what dominates it, and writes"
            " at just this level",
    "discretionary": "the matrix does not give the subject this right to this document",
    "carry": "a child alters no document below the levels at which those above it ran",
    "admin": "only an administrator may do this",
    "trusted": "only a trusted administrator may do this",
    "greatest": "the subject's greatest level does not dominate that level",
    "present": "the document is there already",
    "lost": "the server had no memory for it, and nothing of it was done",
    "long": "a line has at most 8,192 bytes",
    "syntax": "the line is not of the grammar from here on",
    "deep": "a `when` or `if` stands more than 8 deep",
    "many": "the line has more than 32 `when`, or one of them more than 8 accesses",
    "unknown": "nothing has this name here",
    "twice": "it is named a second time",
    "mode": "a statement uses a document in a way that its `when` does not declare",
    "hello": "a session has one greeting, its first line, of a subject that the server knows",
    "full": "the run's limit is used up",
    "sessions": "the run takes no more sessions",
}
HELP = """A line is a request. It may go on over several lines, until each `when` and `if` has its `end`:
    when read memo, append log do show memo; add log "seen"; end
    give bob memo r
    current s{nato}
    create note
`? WORD` says what a word of a reply means. Tab completes, Ctrl-C drops a line, `quit` or Ctrl-D ends the session."""


class Ended(ConnectionError):
    """The session ended early, or its greeting was refused. `told` has the lines told before that and not yet given.
    `open` has the numbers of the lines that may have run or not: their replies, or those of what they spawned, did not
    come whole. A line that was not answered and is not in it did not run."""

    def __init__(self, why, told=(), unanswered=()):
        self.why, self.told, self.open = why, list(told), list(unanswered)
        super().__init__(f"{why}: {said_open(self.open)}" if self.open else why)


def said_lines(numbers):
    """Names these lines, which follow each other."""
    first, last = numbers[0], numbers[-1]
    return f"line {first}" if first == last else f"lines {first} to {last}"


def said_open(numbers):
    """A sentence about these lines, of which nobody knows whether they ran."""
    return f"{said_lines(numbers)} may have run or not"


def read_reply(line):
    """The parts of a reply: its label, `4.1` as (4, 1); `done`, `denied`, `lost` or `refused`; the words after that;
    its texts. ValueError says that the line is no reply to a line."""
    found = REPLY.fullmatch(line)
    if not found:
        raise ValueError(f"this is no reply: {line[:60]!r}")
    label, done, texts, lost, failed, words = found.groups()
    numbers = tuple(int(number) for number in label.split("."))
    return Reply(numbers, done or lost or failed, (words or "").split(), (texts or "").split('"')[1::2])


def is_port(where):
    return re.fullmatch("[0-9]+", str(where)) is not None


def door_of(where):
    """The subject of the door at this path, or None where it is no door. A folder is one, and a socket named `door`."""
    path = os.path.realpath(str(where))
    if is_port(where):
        return None
    if os.path.isdir(path):
        return os.path.basename(path)
    return os.path.basename(os.path.dirname(path)) if os.path.basename(path) == "door" else None


def connect(where):
    """A connection to a port of this machine, to a Unix socket, or to the socket in the folder of a door."""
    if is_port(where):
        return socket.create_connection(("127.0.0.1", int(where)))
    one, path = socket.socket(socket.AF_UNIX), str(where)
    try:
        one.connect(os.path.join(path, "door") if os.path.isdir(path) else path)
    except BaseException:
        one.close()
        raise
    return one


def fault_of(places, subject):
    """What is wrong with these places and this subject, or None."""
    if not places:
        return "no place is given"
    if subject is not None and not NAME.fullmatch(subject):
        return f"{subject!r} is no name"
    for where in places:
        if is_port(where) and not 1 <= int(where) <= 65535:
            return f"{where} is no port"
        door = door_of(where)
        if None not in (door, subject) and door != subject:
            return f"by the door {where} nobody speaks for {subject}"
    return None


def entered(where, subject, asks):
    """A connection to this place, a reader of it, and what was told first: b"" where it ended, None where nothing was
    asked. Elsewhere than at a door a subject is named. Without one, `wait` asks whether there is a door behind it."""
    one = connect(where)
    try:
        reader = one.makefile("rb")
        if door_of(where) is not None:
            return one, reader, reader.readline()
        if not (subject or asks):
            return one, reader, None
        one.sendall(f"hello {subject}\n".encode() if subject else b"wait\n")
        told = reader.readline()
        return one, reader, reader.readline() if told == OK and not subject else told
    except BaseException:
        one.close()
        raise


def first_entered(places, subject, asks=True):
    """The first of these places that answers: which it is, a connection, a reader, and what was told first."""
    failed = []
    for where in places:
        try:
            one, reader, told = entered(where, subject, asks)
            if told == BYE:  # a run ended before the greeting was heard
                leave(one, reader)
                return (where, *entered_again(where, subject, asks, pauses()))
            if told != b"":
                return where, one, reader, told
            leave(one, reader)
            failed.append(f"{where} (the connection ended)")
        except OSError as error:
            failed.append(f"{where} ({error.strerror or error})")
    raise ConnectionError("nobody answers at " + ", nor at ".join(failed))


def pauses():
    """For how many seconds a client waits before each further connection, where the one before brought no answer.
    The first ones follow at once, and then chance keeps clients apart."""
    for number in range(TRIES):
        yield random.uniform(0, min(PAUSE, 0.001 * 2 ** (number - 3))) if number > 2 else 0


def entered_again(where, subject, asks, waits):
    """A connection to the place of a server whose run has ended, as `entered` gives it. It waits until the next run
    takes it. ConnectionError says why there is none after all these pauses."""
    soon = why = "its runs end too soon"
    for seconds in waits:
        time.sleep(seconds)
        try:
            one, reader, told = entered(where, subject, asks)
            if told not in (b"", BYE):
                return one, reader, told
            leave(one, reader)
            why = soon if told else "the connection ended"
        except OSError as error:
            why = error.strerror or str(error)
    raise ConnectionError(why)


def leave(one, reader, sender=None):
    """Closes a connection and its reader. A thread that still sends ends before that."""
    if sender:
        with suppress(OSError):
            one.shutdown(socket.SHUT_RDWR)
        sender.join()
    with suppress(OSError):
        reader.close()
    one.close()


def send_whole(one, data, ends):
    """Sends these bytes, and ends the output if that is asked. A server that has ended may have told something."""
    with suppress(OSError):
        one.sendall(data)
        if ends:
            one.shutdown(socket.SHUT_WR)


def lines_told(reader):
    """What is told, a line each, up to the end of the server's output or a reset. A last line may be torn."""
    with suppress(OSError):
        yield from iter(reader.readline, b"")


def bare(line):
    """A line without a CR at its end, and without blanks round it."""
    return (line[:-1] if line.endswith("\r") else line).strip(" \t")


def is_work(line):
    """Whether the server gives a number to this line."""
    return bare(line) not in ("", "wait")


class Session:
    """A session, at the first of these places that answers. `subject` is who speaks; a door says that itself. Where a
    run ends it goes on in the next one, and its lines are numbered on."""

    def __init__(self, *places, subject=None):
        fault = fault_of(places, subject)
        if fault:
            raise ValueError(fault)
        self.where, self.socket, self.reader, told = first_entered(places, subject)
        self.subject = door_of(self.where) or subject
        self.last = self.answered = 0
        self._block, self._before, self._is_over, self._sender = [], 0, False, None
        self._begin(told, [])

    def __enter__(self):
        return self

    def __exit__(self, kind, *_):
        if kind:
            self.drop()
        else:
            self.close()

    def send(self, line):
        """Puts a line of work into the block, which goes out at `wait` or `close`. Gives its number, with which the
        labels of its replies begin. It refuses what the server would not number."""
        if "\n" in line or not is_work(line):
            raise ValueError("this is not one line of work")
        if self.socket.fileno() < 0:
            raise Ended("the session is over")
        self._block.append(line)
        self.last += 1
        return self.last

    def wait(self):
        """Sends the block, and gives its replies, a line each, in numeric order of their labels."""
        return self._replies("wait\n", "ok\n")

    def ask(self, line):
        """Sends one line, and gives the parts of its replies: its own, and those of what it spawned."""
        if self._block:
            raise ValueError("a block has begun, which wait() ends")
        self.send(line)
        return [read_reply(told) for told in self.wait()]

    def close(self):
        """Sends what is left, ends the session, hears it out, and gives the last replies. A session that stays open
        keeps the server from ending."""
        if self.socket.fileno() < 0:
            return []
        try:
            return self._replies("", "bye\n")
        finally:
            self.drop()

    def drop(self):
        """Cuts the connection, without hearing it out."""
        leave(self.socket, self.reader, self._sender)
        self._sender = None

    def _begin(self, greeting, told):
        """A connection was told this first. Before that, these lines were told which are not given yet."""
        if greeting == OK:
            self._before, self._is_over = self.answered, False
            return
        lines = [line.decode("latin-1").rstrip("\n") for line in [greeting, *lines_told(self.reader)]]
        self.drop()
        why = lines[0] if lines[0].startswith("refused ") else f"this is no greeting: {lines[0][:60]!r}"
        raise Ended(why, told + lines)

    def _end(self, why, told, count):
        """Ends the session early. It tells what was told, of which this connection told so many lines, and which lines
        may have run or not."""
        self.drop()
        raise Ended(why, told, range(self._first_open(told[len(told) - count:]), self.last + 1))

    def _first_open(self, told):
        """The number of the first line whose replies, and those of what it spawned, have not come whole."""
        replies = [read_reply(line) for line in told if REPLY.fullmatch(line)]
        if not replies:
            return self.answered + 1
        label, verdict = replies[-1].label, replies[-1].verdict
        spawns = "spawn" in self._block[label[0] - self.answered - 1]
        return label[0] + (not spawns or (len(label) == 1 and verdict != "done"))

    def _replies(self, ask, end):
        """Sends the block and this question, and gives the replies up to this end. Where a run ends before that, the
        lines without a reply were not admitted, and are sent again in the next one."""
        if self.socket.fileno() < 0:
            raise Ended("the session is over")
        told, waits = [], pauses()
        while not self._is_over or self._block:
            if self._is_over:
                self._enter_again(told, waits)
            self._ask(ask, end)
            answered = self.answered
            if self._hear(end, told):
                break
            waits = pauses() if self.answered > answered else waits
        return told

    def _enter_again(self, told, waits):
        """Opens another connection, since the run has ended in which the one before was served."""
        self.drop()
        try:
            self.socket, self.reader, greeting = entered_again(self.where, self.subject, True, waits)
        except OSError as error:
            lines = said_lines([self.answered + 1, self.last])
            raise Ended(f"nobody answers at {self.where} ({error}): {lines} did not run", told) from None
        self._begin(greeting, told)

    def _ask(self, ask, end):
        """Sends the block and this question. Of a long block the front may be answered while the rest is still sent,
        since a run ends."""
        block = "".join([line + "\n" for line in self._block] + [ask]).encode(errors="surrogateescape")
        what = self.socket, block, end == "bye\n"
        if len(block) <= LONG:
            return send_whole(*what)
        self._sender = threading.Thread(target=send_whole, args=what, daemon=True)
        return self._sender.start()

    def _hear(self, end, told):
        """Adds to `told` what is told up to this end, or up to the `bye` of a run that ends. It says whether all was
        answered."""
        number, before = self.answered, len(told)
        for line in lines_told(self.reader):
            line = line.decode("latin-1")
            if line == "bye\n" or (line == end and number == self.last):
                self._block, self.answered = self._block[number - self.answered:], number
                self._is_over = line == "bye\n"
                return line == end and not self._block
            if not line.endswith("\n"):
                break
            found = REPLY.fullmatch(line, 0, len(line) - 1)
            number += bool(found) and "." not in found[1]
            label = found[1].split(".")[0] if found else ""
            if not (found and self.answered < number <= self.last and int(label) + self._before == number):
                why = f"this is no reply to line {max(number, self.answered + 1)}: {line.strip()[:60]!r}"
                self._end(why, told, len(told) - before)
            told.append(str(number) + line[len(label):-1] if self._before else line[:-1])
        return self._end("the session ended", told, len(told) - before)


def is_whole(text):
    """Whether each `when` and `if` of a line has its `end`. No text goes on over several lines, so a line with an open
    one is whole: the server says where it is at fault."""
    if text.count('"') % 2:
        return True
    words = WORD.findall(TEXT.sub('""', text))
    return sum((word in ("when", "if")) - (word == "end") for word in words) <= 0


def shown_place(line, place):
    """The line, and below it a sign at the byte at fault, before which each letter is one byte. Of a long line only
    what is near is shown."""
    start = max(0, place - COLUMNS + 12)
    shown = "".join(char if char.isprintable() else " " for char in line)
    return ["  " + shown[start : start + COLUMNS], "  " + " " * (place - start) + "^"]


def explained(reply, line, names):
    """What a reply to this line means, in lines for people. There are none where it was done."""
    parts = read_reply(reply)
    if parts.verdict == "done":
        return []
    word = parts.words[0] if parts.words else parts.verdict
    said = [f"  {word}: {MEANS.get(word, 'docs/FORMATS.md has this word')}"]
    if word == "syntax" and len(parts.words) > 1:
        said += shown_place(line, int(parts.words[1]))
    if word == "unknown" and len(parts.words) > 1:
        name = parts.words[1]
        said += [f"  {near}?" for near in difflib.get_close_matches(name, sorted(names - {name}), 1)]
    return said


def names_in(path):
    """The names that a setup file declares. They are none where the user may not read it."""
    names = set()
    with suppress(OSError), open(path, encoding="latin-1") as lines:
        for line in lines:
            words = line.split()
            if words and words[0] in ("subject", "document", "reserve"):
                names.update(words[1:2])
            elif words and words[0] in ("ranks", "categories"):
                names.update(words[1:])
    return {name for name in names if NAME.fullmatch(name)}


def note(*lines):
    """Words for the person, beside the replies."""
    for line in lines if sys.stderr else ():
        print(line, file=sys.stderr, flush=True)


class Untold(Exception):
    """Standard output takes no more."""


def tell(line):
    """Writes what the server told, as bytes or as a line without its end, to standard output."""
    try:
        sys.stdout.buffer.write(line if isinstance(line, bytes) else line.encode("latin-1") + b"\n")
        sys.stdout.buffer.flush()
    except OSError as error:
        os.dup2(os.open(os.devnull, os.O_WRONLY), 1)  # what is left in the buffer goes there
        raise Untold(f"the replies cannot be written: {error.strerror}") from None


def tell_end(ended, subject):
    """Tells how a session of this subject ended early, with what was told before that. The status."""
    for line in ended.told:
        tell(line)
    word = ended.why[len("refused "):]
    refused = ended.why.startswith("refused ")
    note(f"  {word}: {MEANS.get(word, 'docs/FORMATS.md has this word')}" if refused else str(ended))
    if refused and not subject:
        note("  --as NAME says who speaks")
    return 1 if refused else 3


class Editor:
    """Reads what a person types. Lines are edited, completed and kept, where Python has its library for that."""

    def __init__(self, names):
        self.names, self.readline = names, None
        sys.stdin.reconfigure(errors="surrogateescape")
        with suppress(ImportError):
            import readline

            self.readline = readline
            self._begin(readline)

    def _begin(self, readline):
        path, self.kept = os.path.expanduser(HISTORY), 0
        readline.set_history_length(HISTORY_LINES)
        with suppress(OSError):
            os.close(os.open(path, os.O_CREAT | os.O_RDWR, 0o600))
            readline.read_history_file(path)
        atexit.register(self._keep, path)
        readline.set_auto_history(False)
        readline.set_completer_delims(" \t,;{}\"")
        readline.set_completer(self._completed)
        if "libedit" in (readline.__doc__ or ""):
            readline.parse_and_bind("bind ^I rl_complete")
        else:
            readline.parse_and_bind("tab: complete")
            readline.parse_and_bind("set enable-bracketed-paste off")  # each pasted line is a line

    def _completed(self, begun, n):
        found = [word for word in sorted(self.names.union(WORDS)) if word.startswith(begun)]
        return found[n] if n < len(found) else None

    def _keep(self, path):
        """Adds what was typed to the history, in which another client may have written meanwhile."""
        with suppress(OSError, AttributeError):
            self.readline.append_history_file(self.kept, path)

    def typed(self, prompt):
        """One line as it is typed. EOFError says that there is no more."""
        if sys.stdout.isatty():
            return input(prompt)
        print(prompt, end="", file=sys.stderr, flush=True)
        line = sys.stdin.readline()
        if not line:
            raise EOFError
        return line.rstrip("\n")

    def keep(self, line):
        """Puts a whole line into the history."""
        if self.readline:
            self.readline.add_history(line)
            self.kept += 1

    def whole(self, prompt):
        """A line as it is sent, from as many typed ones as it takes. It is None where there is no more."""
        while True:
            line = ""
            try:
                while not line or not is_whole(line):
                    line = (line + " " + self.typed("...> " if line else prompt)).strip().replace("\n", " ")
                    if not line:
                        break
            except EOFError:
                note("")
                return None
            except KeyboardInterrupt:
                note("")
                continue
            if line:
                self.keep(line)
                return line


class Talk:
    """What a person does at a terminal: a session, and another after one that ended early."""

    def __init__(self, places, subject, names):
        self.places, self.subject, self.names = places, subject, names
        self.session, self.status = None, 0

    def run(self):
        """Answers line after line, up to `quit`. The status."""
        if not self.opens():
            return self.status
        editor, subject = Editor(self.names), ""
        while True:
            subject = self.session.subject or "door" if self.session else subject
            line = editor.whole(f"{subject}> ")
            if line in (None, "quit"):
                return self.leave()
            if line == "help" or line.startswith("?"):
                note(MEANS.get(line[1:].strip(), HELP))
            elif line != "wait":
                self.answer(line)

    def opens(self):
        """Opens a session, or tells why there is none."""
        try:
            self.session = Session(*self.places, subject=self.subject)
            return True
        except Ended as ended:
            status = tell_end(ended, self.subject)
        except KeyboardInterrupt:
            note("")
            status = 3
        except OSError as error:
            note(str(error))
            status = 3
        self.status = self.status or status
        return False

    def told(self, replies, line=""):
        """Tells these replies, and what those mean that are not done."""
        for reply in replies:
            tell(reply)
            if REPLY.fullmatch(reply):
                note(*explained(reply, line, self.names))

    def answer(self, line):
        """Sends a line, and tells its replies; where there is no session, it opens one first."""
        if not (self.session or self.opens()):
            return note("The line was not sent. The next line opens a new session.")
        try:
            self.session.send(line)
            replies = self.session.wait()
        except Ended as ended:
            self.told(ended.told, line)
            return self.ended(str(ended))
        except KeyboardInterrupt:
            self.session.drop()
            return self.ended(str(Ended("the session ended", (), [self.session.last])))
        self.told(replies, line)
        if not any(" refused " in reply for reply in replies[:1]):
            self.names.update(WORD.findall(TEXT.sub("", line)))
        return None

    def ended(self, why):
        note(f"{why}. The next line opens a new session.")
        self.session, self.status = None, 3

    def leave(self):
        """Ends the session that is open. The status."""
        try:
            if self.session:
                self.told([*self.session.close(), "bye"])
        except (Ended, KeyboardInterrupt) as ended:
            note(str(ended))
            return 3
        return self.status


def step_by_step(places, subject, lines):
    """Sends line by line, up to the first that is not done. The status."""
    texts = (line.decode(errors="surrogateescape").rstrip("\n") for line in lines)
    works = (text for text in texts if is_work(text))
    if not (subject or any(map(door_of, places))):
        first = next(works, None)
        if first is None:
            return pass_on(places, None, io.BytesIO(), bytes)
        greeting = GREETING.fullmatch(first)
        subject = greeting[1] if greeting else None
        works = works if greeting else itertools.chain([first], works)
    try:
        session = Session(*places, subject=subject)
        done = all(is_done(session, line) for line in works)
        session.close()
    except Ended as ended:
        return tell_end(ended, subject)
    tell("bye")
    return 0 if done else 1


def is_done(session, line):
    """Sends this line, tells its replies, and says whether all of them are `done`."""
    session.send(line)
    replies = session.wait()
    for told in replies:
        tell(told)
    return all(read_reply(told).verdict == "done" for told in replies)


def as_json(line):
    """A line that was told, as an object on a line. A torn one is no reply."""
    text = line.decode("latin-1")
    if not (text.endswith("\n") and REPLY.fullmatch(text[:-1])):
        return json.dumps({"told": text.rstrip("\n")}).encode() + b"\n"
    parts = read_reply(text[:-1])._asdict()
    return json.dumps({**parts, "label": ".".join(map(str, parts["label"]))}).encode() + b"\n"


class Unanswered:
    """What was read of the input of a session, and is not answered yet: whole lines, and what has come of one.
    `answered` counts the lines that are, in all connections, and `steps` what else was answered with them."""

    def __init__(self, may_greet):
        self.greeting, self.may_greet, self.is_greeted = None, may_greet, False
        self.lines, self.rest, self.drops = deque(), bytearray(), False
        self.answered = self.before = self.steps = 0
        self.is_first = True  # the next line that is told is the first one of its connection

    def read(self, data):
        """Takes what was read, and gives what of it is to be sent: not the rest of a line that is refused already."""
        if self.drops:
            _, end, data = data.partition(b"\n")
            self.drops = not end
        *ends, rest = data.split(b"\n")
        for end in ends:
            self._add(bytes(self.rest + end))
            self.rest.clear()
        self.rest += rest
        return data

    def end(self):
        """The input is at its end: what stands there is a line."""
        self._add(bytes(self.rest))
        self.rest.clear()

    def _add(self, line):
        text = line.decode("latin-1")
        if self.may_greet and is_work(text):
            self.may_greet = False
            if GREETING.fullmatch(text):
                self.greeting = line
                return
        if bare(text):
            self.lines.append((line, is_work(text)))

    def is_due(self):
        """Whether there is something to be answered by another connection. A part of a line may wait for its end."""
        return bool(self.lines) or (self.greeting is not None and not self.is_greeted)

    def hear(self, line):
        """A line is told. What is shown of it: its label goes on from the connections before; b"" is nothing."""
        is_first, self.is_first = self.is_first, False
        if is_first:
            is_told, self.is_greeted = self.is_greeted, self.is_greeted or line == OK
            return b"" if is_told and line == OK else line
        found = LABELLED.match(line)
        if not found:
            if line == OK:
                self._pass_wait()
            return line
        number = self.before + int(found[1])
        while found[2] == b" " and self.answered < number:
            self._answer()
        return b"%d" % number + line[found.end(1):] if self.before else line

    def _answer(self):
        """The next line is answered. One that is too long may be so before its end has come."""
        self.answered += 1
        self.steps += 1
        while self.lines:
            if self.lines.popleft()[1]:
                return
        self.drops = bool(self.rest)
        self.rest.clear()

    def _pass_wait(self):
        """All lines up to the next `wait` are answered, and so is that."""
        self.steps += 1
        while self.lines and self.lines.popleft()[1]:
            pass

    def again(self):
        """Another connection begins. What is sent there first."""
        self.before, self.is_first = self.answered, True
        lines = [self.greeting] if self.greeting is not None else []
        return b"".join(line + b"\n" for line in [*lines, *(line for line, _ in self.lines)]) + self.rest


class Passage:
    """A session from a pipe. One thread reads the input, another sends it, and what is told is printed meanwhile."""

    def __init__(self, places, subject, told_as):
        self.where, self.socket, self.reader, self.first = first_entered(places, subject, asks=False)
        self.subject, self.told_as = subject, told_as
        self.left = Unanswered(self.first is None)
        self.changed, self.due = threading.Condition(), deque()
        self.has_ended = self.has_failed = False

    def run(self, lines):
        """Sends what is read as it comes, and prints what is told as it comes. The status."""
        threading.Thread(target=self.read, args=(lines,), daemon=True).start()
        begun, waits = b"", pauses()
        while True:
            sender = threading.Thread(target=self.send, args=(self.socket,), daemon=True)
            sender.start()
            steps = self.left.steps
            first, last = self.hear()
            begun = begun or (first if first != BYE else b"")
            if last != BYE or begun.startswith(b"refused "):
                break
            self.leave(sender)
            if not self.goes_on():
                break
            waits = pauses() if self.left.steps > steps else waits
            self.enter_again(waits)
        if last == BYE and not self.has_failed:
            tell(self.told_as(last))
            return 1 if begun.startswith(b"refused ") else 0
        note("the session ended: a line without its reply may have run or not")
        return 3

    def read(self, lines):
        """Reads the input, and has it sent as it comes."""
        data = b"?"
        while data:
            try:
                data = lines.read(65536)
            except OSError as error:
                note(f"the input cannot be read: {error.strerror}")
                self.fail()
                return
            with self.changed:
                if data:
                    self.put(self.left.read(data))
                else:
                    self.left.end()
                    self.has_ended = True
                self.changed.notify_all()
                self.changed.wait_for(lambda: len(self.due) < AHEAD)

    def put(self, data):
        """Has this sent, where there is a connection; else it is sent with all that is not answered."""
        if self.socket and data:
            self.due.append(data)

    def fail(self):
        """Cuts the connection."""
        with self.changed:
            self.has_failed = True
            if self.socket:
                with suppress(OSError):
                    self.socket.shutdown(socket.SHUT_RDWR)
            self.changed.notify_all()

    def send(self, one):
        """Sends what is due by this connection, and ends its output at the end of the input. Where the server takes no
        more, what it says is still read."""
        with suppress(OSError):
            while True:
                with self.changed:
                    self.changed.wait_for(lambda: self.socket is not one or self.due or self.has_ended)
                    if self.socket is not one:
                        return None
                    data = self.due.popleft() if self.due else b""
                    self.changed.notify_all()
                if not data:
                    return one.shutdown(socket.SHUT_WR)
                one.sendall(data)
        return None

    def hear(self):
        """Prints what is told by this connection, up to its `bye`. Its first and its last line."""
        first = last = b""
        for line in itertools.chain([self.first] if self.first else [], lines_told(self.reader)):
            first, last = first or line, line
            if line == BYE:
                break
            with self.changed:
                shown = self.left.hear(line)
            if shown:
                tell(self.told_as(shown))
        return first, last

    def goes_on(self):
        """Waits until something is to be answered in the next run. It is false where the input has ended before."""
        with self.changed:
            self.changed.wait_for(lambda: self.left.is_due() or self.has_ended or self.has_failed)
            return self.left.is_due() and not self.has_failed

    def leave(self, sender):
        """Closes the connection, once its thread has ended."""
        with self.changed:
            one, self.socket = self.socket, None
            self.changed.notify_all()
        leave(one, self.reader, sender)

    def enter_again(self, waits):
        """Opens another connection, by which all is sent that is not answered."""
        try:
            one, self.reader, self.first = entered_again(self.where, self.subject, False, waits)
        except OSError as error:
            words = f"nobody answers at {self.where} ({error}): a line without its reply did not run"
            raise ConnectionError(words) from None
        with self.changed:
            self.socket = one
            self.due = deque([self.left.again()])
            self.changed.notify_all()


def pass_on(places, subject, lines, told_as):
    """Sends what is read as it comes, and prints what is told as it comes. The status."""
    return Passage(places, subject, told_as).run(lines)


def arguments():
    """What is asked for on the command line."""
    parser = argparse.ArgumentParser(prog="bl_client", description="A client of bl_server.", epilog=STATUSES)
    how = parser.add_mutually_exclusive_group()
    parser.add_argument("--as", dest="subject", metavar="NAME", help="who speaks; a door says that itself")
    parser.add_argument("--setup", metavar="FILE", help="a setup file whose names are completed at a terminal")
    how.add_argument("--stop", action="store_true", help="line by line, up to the first that is not done")
    how.add_argument("--json", action="store_true", help="each reply as an object on a line")
    parser.add_argument("--file", metavar="FILE", help="what is sent; standard input where it is not given")
    parser.add_argument("where", metavar="WHERE", nargs="+", help="a port of 127.0.0.1, a Unix socket, or the folder of"
                        " a door; of several the first that answers")
    options = parser.parse_args()
    fault = fault_of(options.where, options.subject) or (sys.stdout is None and "standard output is closed")
    if fault:
        parser.error(fault)
    options.lines = None
    if options.file is not None or options.stop or options.json or not os.isatty(0):
        try:
            options.lines = open(0 if options.file is None else options.file, "rb", buffering=-1 if options.stop else 0)
        except OSError as error:
            parser.error(f"cannot read {options.file or 'standard input'}: {error.strerror}")
    return options


def main():
    options = arguments()
    try:
        if options.lines is None:
            return Talk(options.where, options.subject, names_in(options.setup or os.devnull)).run()
        if options.stop:
            return step_by_step(options.where, options.subject, options.lines)
        return pass_on(options.where, options.subject, options.lines, as_json if options.json else bytes)
    except (OSError, Untold) as error:
        note(str(error))
    except KeyboardInterrupt:
        note("")
    return 3


if __name__ == "__main__":
    sys.exit(main())
