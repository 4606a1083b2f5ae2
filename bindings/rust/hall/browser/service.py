"""A program that runs beside the tests: started, waited for until it tells that it is ready, ended with all
that it has started."""

import os
import signal
import subprocess
import tempfile
import time


class NotReady(Exception):
    """A program did not tell in time that it is ready."""


class Service:
    """A program in a group of processes of its own. What it tells goes into a file and not through a pipe: a
    process that it leaves behind holds a pipe open, and reading or closing it then waits for that process."""

    def __init__(self, command, ready, seconds):
        """Starts it, and waits for a line that the pattern `ready` is found in."""
        self.name = os.path.basename(command[0])
        self.told = tempfile.TemporaryFile()
        self.process = subprocess.Popen(
            command, stdin=subprocess.DEVNULL, stdout=self.told, stderr=subprocess.STDOUT,
            start_new_session=True)
        try:
            self.ready = self.wait_until(ready, seconds)
        except BaseException:
            self.end()
            raise

    def wait_until(self, ready, seconds):
        """What the pattern finds in the lines told so far, once it finds something."""
        last = time.monotonic() + seconds
        while True:
            ended = self.process.poll() is not None  # Looked at first, so that its last line is read.
            text = self.text()
            if found := ready.search(text[:text.rfind("\n") + 1]):
                return found
            if ended or time.monotonic() > last:
                state = "ended before it was ready" if ended else f"was not ready after {seconds} s"
                raise NotReady(f"{self.name} {state}: {text.strip() or 'it told nothing'}")
            time.sleep(0.02)

    def text(self):
        """What it has told. The file's position is the program's, so it is not moved."""
        size = os.fstat(self.told.fileno()).st_size
        return os.pread(self.told.fileno(), size, 0).decode(errors="replace")

    def end(self):
        """Asks it to end, and ends what is left of its group after some seconds."""
        self.signal(signal.SIGTERM)
        try:
            self.process.wait(10)
        except subprocess.TimeoutExpired:
            pass
        self.signal(signal.SIGKILL)
        self.process.wait()
        self.told.close()

    def signal(self, number):
        try:
            os.killpg(self.process.pid, number)
        except ProcessLookupError:
            pass  # All of the group has ended.
