"""A command that takes long: its lines as they come, a sign while it writes none, and its end.

For the scripts of this repository that say what goes on.

Needs: Python 3.8 or later.

Prints: nothing.
"""
import queue
import signal
import subprocess
import threading
import time


def end_on_signals():
    """Lets SIGTERM and SIGHUP end this program as Ctrl-C does. Signals that come after the first are not heard."""
    ends = [it for it in (signal.SIGINT, signal.SIGTERM, signal.SIGHUP) if signal.getsignal(it) != signal.SIG_IGN]

    def interrupt(*_):
        for it in ends:
            signal.signal(it, signal.SIG_IGN)
        raise KeyboardInterrupt

    for it in ends:
        signal.signal(it, interrupt)


class Run:
    """A command that runs at most as long as the `with` block that it is used in.

    What it writes, errors too, comes as lines. At its end `status` is there."""

    def __init__(self, command, **how):
        ends = {"stdin": subprocess.DEVNULL, "stdout": subprocess.PIPE, "stderr": subprocess.STDOUT}
        self.process = subprocess.Popen(command, **{**ends, "errors": "replace", **how})
        self.said, self.status = queue.Queue(), None
        threading.Thread(target=self._read, daemon=True).start()

    def __enter__(self):
        return self

    def __exit__(self, *_):
        if self.process.poll() is None:
            self.process.terminate()
            try:
                self.process.wait(20)
            except subprocess.TimeoutExpired:
                self.process.kill()
        self.status = self.process.wait()

    def _read(self):
        for line in self.process.stdout:
            self.said.put(line.rstrip("\n"))
        self.said.put(None)

    def next_line(self, seconds):
        """The next line, which may have to be waited for so many seconds; '' where there is none by then."""
        try:
            return self.said.get(timeout=seconds) or ""
        except queue.Empty:
            return ""

    def rest(self, seconds=10):
        """The lines that are left once the command has ended. What it left running is not waited for any longer."""
        told, end = [], time.monotonic() + seconds
        for line in self.lines(0.5):
            if line is not None:
                told.append(line)
            elif time.monotonic() > end:
                break
        self.status = self.process.wait()
        return told

    def lines(self, seconds):
        """Each line as it comes, and None each time that there was none for so many seconds, until the command ends."""
        while True:
            try:
                line = self.said.get(timeout=seconds)
            except queue.Empty:
                yield None
                continue
            if line is None:
                break
            yield line
        self.status = self.process.wait()
