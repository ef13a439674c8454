"""Trails by their definition (docs/MODEL.md, docs/FORMATS.md): a checker of their text, and random true ones.

    python3 bench/shared/trails.py

Does:
- As a module it says what is right and what follows of a trail. It runs and reads nothing of the server's code.
- The state that a line finds is all events before it. Who may start is asked of each pair of entries. What is answered
  is worked out from the setup on, for the losses so far.
- As a script it compares the verdicts that are stored in examples/trails with its own.

Needs: Python 3.8 or later.

Prints: as a script what differs, and a line that counts, with status 1 where something differs, and else 0. As a module
it prints nothing.
"""
import os
import sys
from collections import namedtuple

RESERVED = set(
    "hello wait give rescind current classify when read append write do end show say add set copy pour to if is has "
    "then else "
    "spawn ranks categories subject greatest document allow trusted admin create delete reserve".split()
)
MOST_CONTENT = 65536
MOST_LINE = 8192

Level = namedtuple("Level", "rank categories")
Subject = namedtuple("Subject", "name greatest current trusted admin")
Document = namedtuple("Document", "name level content present")
Setup = namedtuple("Setup", "ranks categories subjects documents matrix")
# a policy is what rules change: current levels, levels of documents, which of them are present, the matrix
Policy = namedtuple("Policy", "current levels present matrix")
When = namedtuple("When", "accesses body")
Rule = namedtuple("Rule", "kind subject document mode level")
# the parent is the place of a child's, and None of a line
Entry = namedtuple("Entry", "subject work parent")
# what is said of a place: its answer, what it did, the level at which it ran and the one that it carried
Past = namedtuple("Past", "answer effects level carried")
State = namedtuple("State", "version limit sessions order lost running ended weight")
# a setup over which random trails are made: with who is trusted and who is not, and a document that comes and goes
SETUP = b"""ranks u s
categories x
subject ann greatest s{x} current u trusted admin
subject bob greatest s{x} current s
subject cat greatest u current u
subject dan greatest s{x} current s{x} admin
document memo u "m1"
document note s ""
document log s{x} "l1"
reserve plan u
allow ann memo r w a
allow ann note r w a
allow ann log r w a
allow ann plan r w a
allow bob memo r
allow bob note r w
allow bob log a
allow cat memo r w
allow cat plan r w
allow dan plan r w a
allow dan memo r w
allow dan note r w a
allow dan log r w
"""


class Wrong(Exception):
    """The bytes are no line of the grammar, or the line is not right."""


# ---- tokens


def tokens(text):
    """The tokens of a text: a word, a text with its quotes, or a sign."""
    found = []
    at = 0
    while at < len(text):
        byte = text[at : at + 1]
        if byte in b" \t":
            at += 1
        elif byte in b",;{}":
            found.append(byte.decode())
            at += 1
        elif byte == b'"':
            end = text.find(b'"', at + 1)
            inner = text[at + 1 : end]
            if end < 0 or any(not 0x20 <= b <= 0x7E or b == 0x5C for b in inner):
                raise Wrong
            found.append('"' + inner.decode() + '"')
            at = end + 1
        elif byte.isalpha() and byte.islower() and byte.isascii():
            end = at
            while end < len(text) and (0x61 <= text[end] <= 0x7A or 0x30 <= text[end] <= 0x39 or text[end] == 0x5F):
                end += 1
            if end - at > 32:
                raise Wrong
            found.append(text[at:end].decode())
            at = end
        else:
            raise Wrong
    return found


def is_word(token):
    return token[0] not in ',;{}"'


def spaced(parts):
    """The tokens with one space between two words that follow each other."""
    text = ""
    word = False
    for token in parts:
        text += (" " if word and is_word(token) else "") + token
        word = is_word(token)
    return text


# ---- lines


class Reader:
    """Reads the tokens of a line, by the names of a setup."""

    def __init__(self, setup, found):
        self.setup = setup
        self.found = found
        self.at = 0
        self.whens = 0

    def next(self):
        if self.at == len(self.found):
            raise Wrong
        self.at += 1
        return self.found[self.at - 1]

    def peek(self):
        return self.found[self.at] if self.at < len(self.found) else None

    def want(self, token):
        if self.next() != token:
            raise Wrong

    def among(self, names):
        """The place of a name in a list of names."""
        name = self.next()
        if not is_word(name) or name in RESERVED or name not in names:
            raise Wrong
        return names.index(name)

    def document(self):
        return self.among([d.name for d in self.setup.documents])

    def text(self):
        token = self.next()
        if token[0] != '"':
            raise Wrong
        return token[1:-1]

    def level(self):
        rank = self.among(self.setup.ranks)
        categories = []
        if self.peek() == "{":
            self.next()
            while True:
                category = self.among(self.setup.categories)
                if category in categories:
                    raise Wrong
                categories.append(category)
                if self.peek() != ",":
                    break
                self.next()
            self.want("}")
        return Level(rank, frozenset(categories))

    def mode(self):
        letter = self.next()
        if letter not in ("r", "a", "w"):
            raise Wrong
        return {"r": "read", "a": "append", "w": "write"}[letter]

    def rule(self, kind):
        if kind in ("give", "rescind"):
            subject = self.among([s.name for s in self.setup.subjects])
            return Rule(kind, subject, self.document(), self.mode(), None)
        if kind == "current":
            return Rule(kind, None, None, None, self.level())
        document = self.document()
        return Rule(kind, None, document, None, self.level() if kind == "classify" else None)

    def when(self, depth):
        self.whens += 1
        if depth > 8 or self.whens > 32:
            raise Wrong
        accesses = []
        while True:
            mode = self.next()
            if mode not in ("read", "append", "write"):
                raise Wrong
            document = self.document()
            if document in [d for _, d in accesses]:
                raise Wrong
            accesses.append((mode, document))
            if self.peek() != ",":
                break
            self.next()
        if len(accesses) > 8:
            raise Wrong
        self.want("do")
        body = self.body(dict((d, m) for m, d in accesses), depth)
        self.want("end")
        return When(tuple(accesses), body)

    def declared(self, modes, wanted):
        document = self.document()
        if modes.get(document) not in wanted:
            raise Wrong
        return document

    def body(self, modes, depth):
        seen, changed = ("read", "write"), ("append", "write")
        body = []
        while self.peek() in ("show", "say", "add", "set", "copy", "pour", "if", "spawn"):
            word = self.next()
            if word == "show":
                body.append((word, self.declared(modes, seen)))
            elif word == "say":
                body.append((word, self.text()))
            elif word == "add":
                body.append((word, self.declared(modes, changed), self.text()))
            elif word == "set":
                body.append((word, self.declared(modes, ("write",)), self.text()))
            elif word in ("copy", "pour"):
                source = self.declared(modes, seen)
                self.want("to")
                body.append((word, source, self.declared(modes, ("write",) if word == "copy" else changed)))
            elif word == "spawn":
                self.want("when")
                body.append((word, self.when(depth + 1)))
            else:
                body.append(self.branch(modes, depth + 1, seen))
            self.want(";")
        return tuple(body)

    def branch(self, modes, depth, seen):
        if depth > 8:
            raise Wrong
        document = self.declared(modes, seen)
        test = self.next()
        if test not in ("is", "has"):
            raise Wrong
        text = self.text()
        self.want("then")
        then = self.body(modes, depth)
        otherwise = ()
        if self.peek() == "else":
            self.next()
            otherwise = self.body(modes, depth)
        self.want("end")
        return ("if", document, test, text, then, otherwise)


def read_work(setup, text):
    """The work that a line asks."""
    if len(text) > MOST_LINE:
        raise Wrong
    reader = Reader(setup, tokens(text))
    kind = reader.next()
    if kind == "when":
        work = reader.when(1)
    elif kind in ("give", "rescind", "current", "classify", "create", "delete"):
        work = reader.rule(kind)
    else:
        raise Wrong
    if reader.peek() is not None:
        raise Wrong
    return work


# ---- canonical text


def level_tokens(setup, level):
    parts = [setup.ranks[level.rank]]
    for place, category in enumerate(sorted(level.categories)):
        parts += ["{" if place == 0 else ",", setup.categories[category]]
    return parts + (["}"] if level.categories else [])


def body_tokens(setup, body):
    name = lambda d: setup.documents[d].name
    parts = []
    for statement in body:
        word = statement[0]
        if word == "show":
            parts += [word, name(statement[1])]
        elif word == "say":
            parts += [word, '"' + statement[1] + '"']
        elif word in ("add", "set"):
            parts += [word, name(statement[1]), '"' + statement[2] + '"']
        elif word in ("copy", "pour"):
            parts += [word, name(statement[1]), "to", name(statement[2])]
        elif word == "spawn":
            parts += [word] + when_tokens(setup, statement[1])
        else:
            _, document, test, text, then, otherwise = statement
            parts += [word, name(document), test, '"' + text + '"', "then"] + body_tokens(setup, then)
            parts += (["else"] + body_tokens(setup, otherwise) if otherwise else []) + ["end"]
        parts.append(";")
    return parts


def when_tokens(setup, when):
    parts = ["when"]
    for place, (mode, document) in enumerate(when.accesses):
        parts += ([","] if place else []) + [mode, setup.documents[document].name]
    return parts + ["do"] + body_tokens(setup, when.body) + ["end"]


def canonical(setup, work):
    if isinstance(work, When):
        return spaced(when_tokens(setup, work))
    parts = [work.kind]
    if work.kind in ("give", "rescind"):
        parts += [setup.subjects[work.subject].name, setup.documents[work.document].name, work.mode[0]]
    elif work.kind == "current":
        parts += level_tokens(setup, work.level)
    else:
        parts.append(setup.documents[work.document].name)
        parts += level_tokens(setup, work.level) if work.kind == "classify" else []
    return spaced(parts)


def weight(work):
    """One for each `when` of a line, and one for a rule."""
    return body_weight(work.body) + 1 if isinstance(work, When) else 1


def body_weight(body):
    total = 0
    for statement in body:
        if statement[0] == "spawn":
            total += weight(statement[1])
        elif statement[0] == "if":
            total += body_weight(statement[4]) + body_weight(statement[5])
    return total


# ---- setup


def read_setup(text):
    """A setup file that is right."""
    setup = Setup([], [], [], [], set())
    for line in text.split(b"\n"):
        parts = [] if line.startswith(b"#") else tokens(line)
        if not parts:
            continue
        reader = Reader(setup, parts)
        kind = reader.next()
        if kind == "ranks":
            setup.ranks.extend(parts[1:])
        elif kind == "categories":
            setup.categories.extend(parts[1:])
        elif kind == "subject":
            name = reader.next()
            reader.want("greatest")
            greatest = reader.level()
            reader.want("current")
            current = reader.level()
            setup.subjects.append(Subject(name, greatest, current, "trusted" in parts, "admin" in parts))
        elif kind == "document":
            name = reader.next()
            level = reader.level()
            setup.documents.append(Document(name, level, reader.text(), True))
        elif kind == "reserve":
            name = reader.next()
            setup.documents.append(Document(name, reader.level(), "", False))
        else:
            subject = reader.among([s.name for s in setup.subjects])
            document = reader.document()
            while reader.peek() is not None:
                setup.matrix.add((subject, document, reader.mode()))
    return setup


def first_policy(setup):
    present = {place for place, document in enumerate(setup.documents) if document.present}
    return Policy([s.current for s in setup.subjects], [d.level for d in setup.documents], present, set(setup.matrix))


# ---- decisions (Bell and La Padula)

LOWEST = Level(0, frozenset())


def dominates(a, b):
    return a.rank >= b.rank and a.categories >= b.categories


def join(a, b):
    """The least level that dominates both."""
    return Level(max(a.rank, b.rank), a.categories | b.categories)


def first_fault(setup, policy, subject, carried, accesses):
    """The first access that is not granted to who carries this level, with what it fails first."""
    who = setup.subjects[subject]
    for mode, document in accesses:
        level = policy.levels[document]
        current = policy.current[subject]
        present = document in policy.present
        simple = mode == "append" or dominates(who.greatest, level)
        star = (
            who.trusted
            or (mode == "read" and dominates(current, level))
            or (mode == "append" and dominates(level, current))
            or (mode == "write" and current == level)
        )
        discretionary = (subject, document, mode) in policy.matrix
        carry = who.trusted or mode == "read" or dominates(level, carried)
        in_order = {"absent": present, "simple": simple, "star": star, "discretionary": discretionary, "carry": carry}
        for clause, holds in in_order.items():
            if not holds:
                return (clause, subject, document)
    return None


def rule_effect(setup, policy, subject, rule):
    """The condition that fails, or None and the new policy."""
    who, document = setup.subjects[subject], rule.document
    if rule.kind == "current":
        if not dominates(who.greatest, rule.level):
            return ("greatest", subject, None), policy
    elif not who.admin:
        return ("admin", subject, document), policy
    elif rule.kind == "classify" and not who.trusted:
        return ("trusted", subject, document), policy
    elif rule.kind == "create" and document in policy.present:
        return ("present", subject, document), policy
    elif rule.kind == "delete" and document not in policy.present:
        return ("absent", subject, document), policy
    return None, rule_makes(policy, subject, rule)


def rule_makes(policy, subject, rule):
    """The policy after a rule that its speaker may ask for."""
    current, levels, present, matrix = list(policy.current), list(policy.levels), set(policy.present), set(
        policy.matrix
    )
    if rule.kind == "current":
        current[subject] = rule.level
    elif rule.kind == "classify":
        levels[rule.document] = rule.level
    elif rule.kind == "give":
        matrix.add((rule.subject, rule.document, rule.mode))
    elif rule.kind == "rescind":
        matrix.discard((rule.subject, rule.document, rule.mode))
    elif rule.kind == "create":
        present.add(rule.document)
    else:
        present.discard(rule.document)
        matrix = {(who, document, mode) for who, document, mode in matrix if document != rule.document}
    return Policy(current, levels, present, matrix)


# ---- effects


def after(content, effects, document):
    for effect in effects:
        if effect[0] == "put" and effect[1] == document:
            content = effect[2]
        elif effect[0] == "add" and effect[1] == document:
            content = (content + effect[2])[:MOST_CONTENT]
    return content


def effects_of(body, contents, effects=()):
    """The effects of statements on these contents, behind these effects."""
    effects = list(effects)
    seen = lambda document: after(contents[document], effects, document)
    for statement in body:
        word = statement[0]
        if word == "show":
            effects.append(("out", seen(statement[1])))
        elif word == "say":
            effects.append(("out", statement[1]))
        elif word == "add":
            effects.append(("add", statement[1], statement[2]))
        elif word == "set":
            effects.append(("put", statement[1], statement[2]))
        elif word == "copy":
            effects.append(("put", statement[2], seen(statement[1])))
        elif word == "pour":
            effects.append(("add", statement[2], seen(statement[1])))
        elif word == "spawn":
            effects.append(("child", statement[1]))
        else:
            _, document, test, text, then, otherwise = statement
            content = seen(document)
            holds = content == text if test == "is" else text in content
            effects = effects_of(then if holds else otherwise, contents, effects)
            seen = lambda document: after(contents[document], effects, document)
    return effects


# ---- answers


def carried_by(state, entry, found):
    """The level that an entry carries, by what is said of the places before it."""
    if entry.parent is None or state.version == 1:
        return LOWEST
    return join(found[entry.parent].level, found[entry.parent].carried)


def pasts(setup, state, upto):
    """What is said of each place below `upto`, where just those of the state are lost."""
    return history(setup, state, upto)[0]


def history(setup, state, upto):
    """The same, with the policy and the contents behind these places."""
    policy = first_policy(setup)
    contents = [d.content for d in setup.documents]
    found = []
    for n in range(upto):
        entry = state.order[n]
        effects = []
        level, carried = policy.current[entry.subject], carried_by(state, entry, found)
        if n in state.lost:
            answer = ("lost",)
        elif isinstance(entry.work, Rule):
            fault, policy = rule_effect(setup, policy, entry.subject, entry.work)
            answer = ("denied",) + fault if fault else ("rule",)
            if entry.work.kind == "delete" and not fault:
                contents[entry.work.document] = ""
        else:
            fault = first_fault(setup, policy, entry.subject, carried, entry.work.accesses)
            if fault:
                answer = ("denied",) + fault
            else:
                effects = effects_of(entry.work.body, contents)
                answer = ("done", [e[1] for e in effects if e[0] == "out"])
                for mode, document in entry.work.accesses:
                    if mode != "read":
                        contents[document] = after(contents[document], effects, document)
        found.append(Past(answer, effects, level, carried))
    return found, policy, contents


def denied_text(setup, answer):
    _, clause, subject, document = answer
    words = f"denied {clause} {setup.subjects[subject].name}"
    return words if document is None else f"{words} {setup.documents[document].name}"


def start_text(setup, answer):
    return {"done": "run", "rule": "rule"}.get(answer[0]) or denied_text(setup, answer)


def end_text(answer):
    return "done" + "".join(f' "{text}"' for text in answer[1])


# ---- the machine


def conflict(a, b):
    """Whether two works share a document that one of them may change; a rule conflicts with each."""
    if isinstance(a, Rule) or isinstance(b, Rule):
        return True
    return any(d == e and not (m == "read" and o == "read") for m, d in a.accesses for o, e in b.accesses)


def may_start(state, n):
    if not n < len(state.order) or n in state.running or n in state.ended:
        return False
    return all(m in state.ended or not conflict(state.order[m].work, state.order[n].work) for m in range(n))


def first_state(version, limit):
    return State(version, limit, (), (), frozenset(), frozenset(), frozenset(), 0)


def opened(setup, state, name):
    names = [s.name for s in setup.subjects]
    if name not in names or len(state.sessions) >= 1000:
        raise Wrong
    return state._replace(sessions=state.sessions + ((names.index(name), 0),))


def admitted(setup, state, session, ordinal, work):
    if not session < len(state.sessions):
        raise Wrong
    if state.version == 1 and isinstance(work, Rule) and work.kind in ("create", "delete"):
        raise Wrong
    subject, last = state.sessions[session]
    if not last < ordinal <= 4294967295 or state.weight + weight(work) > state.limit:
        raise Wrong
    sessions = state.sessions[:session] + ((subject, ordinal),) + state.sessions[session + 1 :]
    return state._replace(
        sessions=sessions, order=state.order + (Entry(subject, work, None),), weight=state.weight + weight(work)
    )


def started(setup, state, n):
    """What is said at the start of a place, and the state after it."""
    if not may_start(state, n):
        raise Wrong
    answer = pasts(setup, state, n + 1)[n].answer
    if answer[0] == "done":
        return answer, state._replace(running=state.running | {n})
    return answer, state._replace(ended=state.ended | {n})


def ended(setup, state, n):
    """What is said at the end of a place, and the state after it."""
    if n not in state.running:
        raise Wrong
    past = pasts(setup, state, n + 1)[n]
    children = tuple(Entry(state.order[n].subject, e[1], n) for e in past.effects if e[0] == "child")
    return past.answer, state._replace(
        running=state.running - {n}, ended=state.ended | {n}, order=state.order + children
    )


def lost(setup, state, n):
    if n not in state.running and not may_start(state, n):
        raise Wrong
    return state._replace(running=state.running - {n}, ended=state.ended | {n}, lost=state.lost | {n})


# ---- the text of a trail


def number(word):
    """The number that a word is the decimal of."""
    if not word.isascii() or not word.isdigit() or (word[0] == "0" and word != "0"):
        raise Wrong
    return int(word)


def event(setup, state, line):
    """The state after the event whose text this line is."""
    try:
        word, rest = line.decode("ascii").split(" ", 1)
    except (UnicodeDecodeError, ValueError):
        raise Wrong from None
    if word == "open":
        return opened(setup, state, rest)
    parts = rest.split(" ", 2 if word == "line" else 1)
    if word == "lost" and len(parts) == 1:
        return lost(setup, state, number(parts[0]))
    if word == "line" and len(parts) == 3:
        work = read_work(setup, parts[2].encode())
        if canonical(setup, work) != parts[2]:
            raise Wrong
        return admitted(setup, state, number(parts[0]), number(parts[1]), work)
    if word == "start" and len(parts) == 2:
        answer, state = started(setup, state, number(parts[0]))
        if start_text(setup, answer) == parts[1]:
            return state
    if word == "end" and len(parts) == 2:
        answer, state = ended(setup, state, number(parts[0]))
        if end_text(answer) == parts[1]:
            return state
    raise Wrong


VERSIONS = {b"trail 1": 1, b"trail 2": 2}


def head(setup, known, line):
    """What is known after a head line, before which None is known, or the version: the version, or then a state.
    Version 1 knows no absent document."""
    if known is None:
        if line in VERSIONS and (line == b"trail 2" or all(d.present for d in setup.documents)):
            return VERSIONS[line]
    elif line.startswith(b"limit "):
        limit = number(line[6:].decode("latin-1"))
        if 1 <= limit <= 100000:
            return first_state(known, limit)
    raise Wrong


CLOSED = "closed"


def step(setup, known, line):
    """What is known after one line more: the head so far, a state, or that the trail is closed."""
    if known is None or known in VERSIONS.values():
        return head(setup, known, line)
    if known == CLOSED:
        raise Wrong
    return CLOSED if line == b"stop" else event(setup, known, line)


def verdict(setup, text, known=None, done=0):
    """The verdict on a text, as the program tells it; on what stands behind so many lines, of which this is known."""
    lines = text.split(b"\n")
    for place, line in enumerate(lines[:-1]):
        try:
            known = step(setup, known, line)
        except Wrong:
            return f"rejected {done + place + 1}"
    count = done + len(lines) - 1
    if known == CLOSED and lines[-1] == b"":
        return f"accepted {count - 3}"
    return f"rejected {count + 1}"


# ---- what a run leaves


def setup_lines(setup, policy, contents):
    """The lines of a setup with this policy and these contents, each in canonical text."""
    yield ["ranks"] + setup.ranks
    yield ["categories"] + setup.categories
    for place, s in enumerate(setup.subjects):
        levels = level_tokens(setup, s.greatest) + ["current"] + level_tokens(setup, policy.current[place])
        yield ["subject", s.name, "greatest"] + levels + ["trusted"] * s.trusted + ["admin"] * s.admin
    for place, d in enumerate(setup.documents):
        is_there = place in policy.present
        text = ['"' + contents[place] + '"'] if is_there else []
        yield ["document" if is_there else "reserve", d.name] + level_tokens(setup, policy.levels[place]) + text
    for who, s in enumerate(setup.subjects):
        for place, d in enumerate(setup.documents):
            letters = [mode[0] for mode in ("read", "append", "write") if (who, place, mode) in policy.matrix]
            if letters:
                yield ["allow", s.name, d.name] + letters


def left(setup, state):
    """The text of the setup that a run leaves in which all has ended."""
    _, policy, contents = history(setup, state, len(state.order))
    return "".join(spaced(parts) + "\n" for parts in setup_lines(setup, policy, contents))


# ---- random true trails


def random_when(rng, setup, depth):
    documents = rng.sample(range(len(setup.documents)), rng.randint(1, min(2, len(setup.documents))))
    accesses = tuple((rng.choice(["read", "read", "append", "write"]), d) for d in documents)
    modes = dict((d, m) for m, d in accesses)
    return When(accesses, random_body(rng, modes, depth, rng.randint(0, 3)))


def random_body(rng, modes, depth, size):
    seen = [d for d, m in modes.items() if m != "append"]
    changed = [d for d, m in modes.items() if m != "read"]
    wholly = [d for d, m in modes.items() if m == "write"]
    text = lambda: rng.choice(["a", "b", "m1", "", "x y", "a;b"])
    body = []
    for _ in range(size):
        word = rng.choice(["show", "show", "say", "add", "add", "set", "copy", "pour", "if", "spawn"])
        if word == "show" and seen:
            body.append((word, rng.choice(seen)))
        elif word == "say":
            body.append((word, text()))
        elif word == "add" and changed:
            body.append((word, rng.choice(changed), text()))
        elif word == "set" and wholly:
            body.append((word, rng.choice(wholly), text()))
        elif word == "copy" and seen and wholly:
            body.append((word, rng.choice(seen), rng.choice(wholly)))
        elif word == "pour" and seen and changed:
            body.append((word, rng.choice(seen), rng.choice(changed)))
        elif word == "if" and seen and depth < 3:
            body.append(
                (
                    word,
                    rng.choice(seen),
                    rng.choice(["is", "has"]),
                    text(),
                    random_body(rng, modes, depth + 1, 1),
                    random_body(rng, modes, depth + 1, rng.randint(0, 1)),
                )
            )
        elif word == "spawn" and depth < 3:
            body.append((word, random_when_in(rng, modes, depth + 1)))
    return tuple(body)


def random_when_in(rng, modes, depth):
    """A `when` on documents that its parent declares."""
    documents = rng.sample(sorted(modes), rng.randint(1, len(modes)))
    accesses = tuple((rng.choice(["read", "append", "write"]), d) for d in documents)
    return When(accesses, random_body(rng, dict((d, m) for m, d in accesses), depth, rng.randint(0, 2)))


# the rules of each version; a delete empties each cell of its document, so more is given and created than taken away
KINDS = {
    1: "give rescind current classify".split(),
    2: "give give give rescind current current current classify create create create delete".split(),
}


def random_rule(rng, setup, version):
    kind = rng.choice(KINDS[version])
    level = rng.choice([d.level for d in setup.documents] + [s.current for s in setup.subjects])
    subject, document = rng.randrange(len(setup.subjects)), rng.randrange(len(setup.documents))
    if kind in ("give", "rescind"):
        return Rule(kind, subject, document, rng.choice(["read", "append", "write"]), None)
    if kind in ("create", "delete"):
        return Rule(kind, None, document, None, None)
    return Rule(kind, None, document if kind == "classify" else None, None, level)


def random_work(rng, setup, state, subject):
    """What a line asks. In version 2 many lines spawn, and their subject often comes down behind them, so that children
    carry levels."""
    if rng.random() < 0.15 * state.version:
        return random_rule(rng, setup, state.version)
    when = random_when(rng, setup, 1)
    if state.version == 1 or rng.random() < 0.5:
        return when
    last = state.order[-1] if state.order else None
    if last and last.subject == subject and weight(last.work) > 1:
        return Rule("current", None, None, None, LOWEST)
    modes = dict((d, m) for m, d in when.accesses)
    return when._replace(body=when.body + (("spawn", random_when_in(rng, modes, 2)),))


def random_trail(rng, setup, events, version=2, limit=10000):
    """A true trail of so many events, as its lines. One of version 1 wants a setup in which each document is
    present."""
    state = first_state(version, limit)
    lines = [f"trail {version}", f"limit {limit}"]
    while len(lines) < events + 2:
        line, state = random_event(rng, setup, state)
        lines.append(line)
    return lines + ["stop"]


def random_end(rng, setup, state):
    """The events by which all that a state has comes to its end, as lines, and the state then."""
    lines = []
    while len(state.ended) < len(state.order):
        ready = [n for n in range(len(state.order)) if may_start(state, n)]
        n = rng.choice(sorted(state.running) + ready)
        if rng.random() < 0.1:
            line, state = f"lost {n}", lost(setup, state, n)
        elif n in state.running:
            answer, state = ended(setup, state, n)
            line = f"end {n} {end_text(answer)}"
        else:
            answer, state = started(setup, state, n)
            line = f"start {n} {start_text(setup, answer)}"
        lines.append(line)
    return lines, state


def random_event(rng, setup, state):
    """The text of an event that may come next, and the state after it."""
    ready = [n for n in range(len(state.order)) if may_start(state, n)]
    ways = ["open"] if len(state.sessions) < 2 else ["open"] * (rng.random() < 0.02)
    ways += ["line"] * (3 if state.sessions else 0) + ["start"] * (4 if ready else 0)
    ways += ["end"] * (4 if state.running else 0) + ["lost"] * (rng.random() < 0.15 and bool(ready or state.running))
    way = rng.choice(ways or ["open"])
    if way == "open":
        name = rng.choice(setup.subjects).name
        return f"open {name}", opened(setup, state, name)
    if way == "line":
        session = rng.randrange(len(state.sessions))
        ordinal = state.sessions[session][1] + rng.choice([1, 1, 1, 2, 7])
        work = random_work(rng, setup, state, state.sessions[session][0])
        return f"line {session} {ordinal} {canonical(setup, work)}", admitted(setup, state, session, ordinal, work)
    if way == "start":
        n = rng.choice(ready)
        answer, state = started(setup, state, n)
        return f"start {n} {start_text(setup, answer)}", state
    n = rng.choice(sorted(state.running) + (ready if way == "lost" else []))
    if way == "end":
        answer, state = ended(setup, state, n)
        return f"end {n} {end_text(answer)}", state
    return f"lost {n}", lost(setup, state, n)


# ---- the stored trails


def read(path):
    with open(path, "rb") as file:
        return file.read()


def main():
    """Each trail of examples/trails over its setup: that of its folder's name, or the base setup."""
    top = os.path.abspath(os.path.join(__file__, "../../../examples"))
    trails, differ = 0, 0
    for folder, _, names in os.walk(os.path.join(top, "trails")):
        over = os.path.basename(folder)
        setup = read_setup(read(os.path.join(top, "setups", ("base" if over == "trails" else over) + ".txt")))
        for name in sorted(name.removesuffix(".trail") for name in names if name.endswith(".trail")):
            said = verdict(setup, read(os.path.join(folder, name + ".trail")))
            wanted = read(os.path.join(folder, name + ".verdict")).decode().strip()
            trails += 1
            if said != wanted:
                differ += 1
                print(f"{os.path.join(folder, name)}.trail: stored is {wanted}, and it is {said}")
    print(f"trails: {trails} stored, {differ} verdicts differ")
    sys.exit(1 if differ or not trails else 0)


if __name__ == "__main__":
    main()
