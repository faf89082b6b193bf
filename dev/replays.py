"""A replay that is asked step by step: `homa replay` behind pipes, and what each line of a schedule printed."""
import subprocess
import tempfile
import threading

from homatrace import SETTINGS, USUAL

PIPE = 50000  # bytes that a pipe holds in any case


class Broken(Exception):
    """The replay did what it mustn't."""


class Replay:
    """`homa replay` behind pipes."""

    def __init__(self, program, settings):
        self.settings, self.said = settings, tempfile.TemporaryFile()
        pipe = subprocess.PIPE
        self.process = subprocess.Popen([program, "replay"], stdin=pipe, stdout=pipe, stderr=self.said)
        # A shift to where the clock is changes nothing and has a line: it says that all before it was printed.
        self.mark = f"shift 0 {settings['skew']}"

    def open(self):
        said = [f"{name} {self.settings[name]}" for name in SETTINGS if self.settings[name] != USUAL[name]]
        return self.carry([*said, "go"])

    def write(self, text):
        try:
            self.process.stdin.write(text.encode())
            self.process.stdin.flush()
        except BrokenPipeError:
            pass  # what it said last is read all the same

    def carry(self, lines):
        """Carries lines out; gives what they printed. What a pipe may not hold is written while that is read, so that
        neither side waits for the other."""
        text = "".join(line + "\n" for line in [*lines, self.mark])
        if len(text) <= PIPE:
            self.write(text)
            return self.printed(lines)
        writer = threading.Thread(target=self.write, args=[text])
        writer.start()
        try:
            return self.printed(lines)
        finally:
            writer.join()

    def printed(self, lines):
        """What these lines printed, up to the mark."""
        found = []
        for line in self.process.stdout:
            line = line.decode(errors="replace").rstrip("\n")
            if line == self.mark:
                return found
            found.append(line)
            if line.startswith("refused"):
                raise Broken(f"{line} at one of {lines[:3]}")
        raise Broken(f"the replay ended at one of {lines[:3]}{self.last_words()}")

    def last_words(self):
        """The last line of what the program wrote to standard error, after a colon."""
        self.said.seek(0)
        lines = self.said.read().decode(errors="replace").splitlines()
        return f": {lines[-1]}" if lines else ""

    def end(self):
        """The last line, once the input is at its end."""
        self.process.stdin.close()
        rest = self.process.stdout.read().decode()
        if self.process.wait() != 0:
            raise Broken(f"the replay's status is {self.process.returncode}{self.last_words()}")
        return rest.splitlines()
