"""A library that notes the calls which a run of the program makes on its files and to its clients, in order.

For bench/checks/synced. It tells, too, what a disk has of these calls.

Needs: Python 3.8 or later. To build the library it needs gcc or clang as `cc`, and the C library of GNU.

Prints: nothing.
"""
import collections
import os
import struct

from visits import build_library

# Stands before the calls of the C library that the program makes: on plain files and folders, and writes to standard
# output and sockets. Of each it notes in the file NOTES that it begins, before the system is called, and what it
# answered, before the program goes on. So where one call is noted to begin behind the end of another, it did. The call
# of the number AT, from 1, among those of the kind ONLY, or among all, goes as HOW says: the program is killed before,
# behind or, where bytes are written, within it; it is refused; or half of its bytes are taken. A sync is answered well,
# and not made: what a disk has is told by the notes, in a fraction of the time. SKIPPED does not note it either. The
# number of the call that goes otherwise is written to the file MET. FILE.clock, on which no promise rests, is left out.
NOTER = r"""
#define _GNU_SOURCE
#include <dlfcn.h>
#include <errno.h>
#include <fcntl.h>
#include <netinet/in.h>
#include <signal.h>
#include <stdarg.h>
#include <stdint.h>
#include <stdlib.h>
#include <string.h>
#include <sys/socket.h>
#include <sys/stat.h>
#include <sys/syscall.h>
#include <sys/uio.h>
#include <unistd.h>

enum { OPEN, WRITE, REPLY, SYNC, CUT, LINK, RENAME, UNLINK };
enum { BEFORE = 1, BEHIND, WITHIN, REFUSED, HALF, SKIPPED };
struct note { int32_t call, is_end; int64_t number, file, value, size; };
struct call { int call, how; int64_t number, file; };
static int notes = -1, how, only;
static long at, turns, numbers;
static ino_t clock_file;

static void note(struct note it, const void *bytes) {
    struct iovec parts[] = {{&it, sizeof it}, {(void *)bytes, it.size}};
    if (syscall(SYS_writev, notes, parts, 2) != (long)sizeof it + it.size) abort();
}

static void end_program(void) {
    kill(getpid(), SIGKILL);
    for (;;) pause();
}

static void tell_met(int64_t number) {
    int met = syscall(SYS_open, getenv("MET"), O_CREAT | O_WRONLY, 0600);
    if (met < 0 || syscall(SYS_write, met, &number, sizeof number) != sizeof number) abort();
    syscall(SYS_close, met);
}

static struct call begin(int call, int64_t file, int64_t value, const void *bytes, size_t size) {
    struct call it = {call, 0, __atomic_add_fetch(&numbers, 1, __ATOMIC_SEQ_CST), file};
    if ((only < 0 || only == call) && __atomic_add_fetch(&turns, 1, __ATOMIC_SEQ_CST) == at) {
        tell_met(it.number);
        it.how = how;
    }
    if (it.how == SKIPPED) return it;
    note((struct note){call, 0, it.number, file, value, size}, bytes);
    if (it.how == BEFORE) end_program();
    return it;
}

static long end(struct call it, int64_t file, long answer) {
    int error = errno;
    note((struct note){it.call, 1, it.number, file, answer, 0}, "");
    if (it.how == BEHIND) end_program();
    errno = error;
    return answer;
}

static long refuse(struct call it, int error) {
    errno = error;
    return end(it, it.file, -1);
}

#define BEHIND_IT(TYPE, NAME, TAKES) \
    static TYPE(*behind) TAKES; \
    if (!behind) *(void **)&behind = dlsym(RTLD_NEXT, #NAME);

static struct stat standing(int fd) {
    struct stat found = {0};
    fstat(fd, &found);
    return found;
}

/* what a write to this is noted as; -1 where it is not */
static int written_to(int fd, struct stat found) {
    if (S_ISREG(found.st_mode) && found.st_ino != clock_file) return WRITE;
    return S_ISSOCK(found.st_mode) || fd == 1 ? REPLY : -1;
}

static int64_t port_of(int fd) {
    struct sockaddr_in by = {0};
    socklen_t size = sizeof by;
    return getpeername(fd, (struct sockaddr *)&by, &size) ? 0 : ntohs(by.sin_port);
}

typedef ssize_t put(int fd, const void *from, size_t size, int flags, void *behind);

static ssize_t put_noted(int fd, const void *from, size_t size, int flags, put *put, void *behind) {
    struct stat found = standing(fd);
    int call = written_to(fd, found);
    if (call < 0) return put(fd, from, size, flags, behind);
    struct call it = begin(call, found.st_ino, port_of(fd), from, size);
    if (it.how == REFUSED) return refuse(it, call == WRITE ? ENOSPC : ECONNRESET);
    if (it.how == WITHIN || it.how == HALF) size /= 2;
    ssize_t taken = put(fd, from, size, flags, behind);
    if (it.how == WITHIN) end_program();
    return end(it, it.file, taken);
}

static ssize_t by_write(int fd, const void *from, size_t size, int flags, void *behind) {
    return ((ssize_t(*)(int, const void *, size_t))behind)(fd, from, size);
}

static ssize_t by_send(int fd, const void *from, size_t size, int flags, void *behind) {
    return ((ssize_t(*)(int, const void *, size_t, int))behind)(fd, from, size, flags);
}

ssize_t write(int fd, const void *from, size_t size) {
    BEHIND_IT(ssize_t, write, (int, const void *, size_t))
    return put_noted(fd, from, size, 0, by_write, behind);
}

ssize_t send(int fd, const void *from, size_t size, int flags) {
    BEHIND_IT(ssize_t, send, (int, const void *, size_t, int))
    return put_noted(fd, from, size, flags, by_send, behind);
}

#define SYNC_NOTED(NAME) \
    int NAME(int fd) { \
        BEHIND_IT(int, NAME, (int)) \
        struct stat found = standing(fd); \
        if (found.st_ino == clock_file) return behind(fd); \
        struct call it = begin(SYNC, found.st_ino, 0, "", 0); \
        if (it.how == SKIPPED) return 0; \
        return it.how == REFUSED ? refuse(it, EIO) : end(it, it.file, 0); \
    }
SYNC_NOTED(fsync)
SYNC_NOTED(fdatasync)

int ftruncate(int fd, off_t size) {
    BEHIND_IT(int, ftruncate, (int, off_t))
    struct call it = begin(CUT, standing(fd).st_ino, size, "", 0);
    return it.how == REFUSED ? refuse(it, EIO) : end(it, it.file, behind(fd, size));
}

static struct call begin_names(int call, const char *from, const char *to) {
    char names[8192];
    size_t first = strlen(from) + 1, second = strlen(to) + 1;
    if (first + second > sizeof names) abort();
    memcpy(names, from, first);
    memcpy(names + first, to, second);
    return begin(call, 0, 0, names, first + second);
}

#define NAMES_NOTED(NAME, CALL, TAKES, GIVES, FROM, TO) \
    int NAME TAKES { \
        BEHIND_IT(int, NAME, TAKES) \
        struct call it = begin_names(CALL, FROM, TO); \
        return it.how == REFUSED ? refuse(it, EIO) : end(it, 0, behind GIVES); \
    }
NAMES_NOTED(link, LINK, (const char *from, const char *to), (from, to), from, to)
NAMES_NOTED(rename, RENAME, (const char *from, const char *to), (from, to), from, to)
NAMES_NOTED(unlink, UNLINK, (const char *name), (name), name, "")

int open(const char *name, int flags, ...) {
    BEHIND_IT(int, open, (const char *, int, ...))
    va_list more;
    va_start(more, flags);
    mode_t mode = flags & O_CREAT ? va_arg(more, mode_t) : 0;
    va_end(more);
    const char *last = strrchr(name, '.');
    if (last && !strcmp(last, ".clock")) {
        int fd = behind(name, flags, mode);
        if (fd >= 0) clock_file = standing(fd).st_ino;
        return fd;
    }
    struct call it = begin(OPEN, 0, !!(flags & O_CREAT), name, strlen(name) + 1);
    if (it.how == REFUSED) return refuse(it, EMFILE);
    int fd = behind(name, flags, mode);
    return end(it, fd < 0 ? 0 : standing(fd).st_ino, fd);
}

__attribute__((constructor)) static void begin_notes(void) {
    notes = syscall(SYS_open, getenv("NOTES"), O_CREAT | O_WRONLY | O_APPEND | O_CLOEXEC, 0600);
    if (notes < 0) abort();
    at = atol(getenv("AT"));
    how = atoi(getenv("HOW"));
    only = atoi(getenv("ONLY"));
}
"""
CALLS = ["open", "write", "reply", "sync", "cut", "link", "rename", "unlink"]
# how a call may go, and the kind of those that go so; none where each may
HOWS = {"before": None, "behind": None, "within": "write", "refused": None, "half": "write", "skipped": "sync"}
NOTE = struct.Struct("@iiqqqq")

# A call that begins, where `answer` is None, or ends: its kind, its number, the number of its file, its value, its
# bytes or names, and what it answered. The value is, of an open, whether it may make the file; of a cut, the length; of
# a reply, the port of the client, or 0 for standard output.
Note = collections.namedtuple("Note", "call number file value text answer")


def build_noter(folder):
    """Builds what notes the calls, as noter.so in this folder."""
    build_library(NOTER, os.path.join(folder, "noter.so"))


def environment(folder, notes, how=None, at=0):
    """What a program has to be run with so that its calls are noted in the file `notes`, where the call of this number
    goes so; 0 for none."""
    kind = HOWS.get(how)
    numbers = {"AT": at, "HOW": [None, *HOWS].index(how), "ONLY": CALLS.index(kind) if kind else -1}
    return {
        "LD_PRELOAD": os.path.join(folder, "noter.so"),
        "NOTES": notes,
        "MET": f"{notes}.met",
        **{name: str(it) for name, it in numbers.items()},
    }


def met(notes):
    """The number of the call that went otherwise; None where the run did not come to it."""
    if not os.path.exists(f"{notes}.met"):
        return None
    with open(f"{notes}.met", "rb") as file:
        return struct.unpack("@q", file.read())[0]


def read_notes(name):
    """The notes in a file, in order."""
    with open(name, "rb") as file:
        data, at = file.read(), 0
    while at < len(data):
        call, is_end, number, file, value, size = NOTE.unpack_from(data, at)
        at += NOTE.size + size
        yield Note(CALLS[call], number, file, value, data[at - size:at], value if is_end else None)


class File:
    """A file: its bytes, and those that a disk has of it whatever happens."""

    def __init__(self, text):
        self.text, self.kept, self.is_doubtful = text, b"", False

    def left(self, is_torn):
        """What the end of the machine may leave of it: what is on the disk, and where it is torn, half of what was
        added since."""
        added = self.text[len(self.kept):] if is_torn and self.text.startswith(self.kept) else b""
        return self.kept + added[:len(added) // 2]


class Disk:
    """A folder as the calls of a run leave it, what they sent to whom, and what is left of it whatever happens: the
    bytes of a file, and the names in the folder, as they were when the last sync of it began that answered well. After
    one that did not, no sync of it is believed. Of what was there before the run, nothing is on the disk."""

    def __init__(self, folder):
        self.folder, self.number = folder, os.stat(folder).st_ino
        self.files, self.names, self.kept_names, self.is_doubtful = {}, {}, {}, False
        self.begun, self.sent = {}, collections.defaultdict(bytes)
        for name in os.listdir(folder):
            with open(os.path.join(folder, name), "rb") as file:
                found = self.files.setdefault(os.fstat(file.fileno()).st_ino, File(file.read()))
            self.names[name] = found

    def name_of(self, path):
        """The name of a path in this folder; nothing where it is elsewhere. A bare name is one in this folder."""
        place, name = os.path.split(path.decode())
        return name if place in ("", self.folder) else ""

    def take(self, note):
        """A call begins or ends."""
        if note.answer is None:
            self.begun[note.number] = note, self.seen(note.file)
            return
        begun, seen = self.begun.pop(note.number)
        if note.call == "sync":
            self.synced(note, seen)
        elif note.answer >= 0:
            getattr(self, f"take_{note.call}", lambda *_: None)(begun, note)

    def seen(self, number):
        """What a sync of the folder, or of a file, would have on the disk now: its names, or its bytes."""
        return dict(self.names) if number == self.number else getattr(self.files.get(number), "text", b"")

    def synced(self, note, seen):
        """A sync has ended, that of a file or of the folder, which stood so when it began."""
        it = self if note.file == self.number else self.files.get(note.file)
        if it is None:
            return
        it.is_doubtful |= note.answer < 0
        if it.is_doubtful:
            return
        if it is self:
            self.kept_names = seen
        else:
            it.kept = seen

    def take_open(self, begun, note):
        name = self.name_of(begun.text[:-1])
        if begun.value and name and name not in self.names:
            self.files[note.file] = self.names[name] = File(b"")

    def take_write(self, begun, note):
        self.files[note.file].text += begun.text[:note.answer]

    def take_reply(self, begun, note):
        self.sent[begun.value] += begun.text[:note.answer]

    def take_cut(self, begun, note):
        self.files[note.file].text = self.files[note.file].text[:begun.value]

    def take_link(self, begun, _note):
        old, new = map(self.name_of, begun.text.split(b"\0")[:2])
        self.names[new] = self.names[old]

    def take_rename(self, begun, _note):
        old, new = map(self.name_of, begun.text.split(b"\0")[:2])
        self.names[new] = self.names.pop(old)

    def take_unlink(self, begun, _note):
        del self.names[self.name_of(begun.text.split(b"\0")[0])]

    def kept(self, name):
        """What a disk has under this name whatever happens; None where it may have nothing there."""
        file = self.kept_names.get(name)
        return None if file is None else file.kept

    def ends(self):
        """What the end of the machine may leave: the names that are on the disk, or all names, and the bytes of their
        files, which may be torn."""
        for names in self.kept_names, self.names:
            for is_torn in False, True:
                yield names, is_torn

    @staticmethod
    def leave(place, names, is_torn):
        """Writes into another folder what the end of the machine leaves."""
        written = {}
        for name, file in names.items():
            path = os.path.join(place, name)
            if file in written:
                os.link(written[file], path)
                continue
            with open(path, "wb") as out:
                out.write(file.left(is_torn))
            written[file] = path
