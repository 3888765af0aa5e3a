"""Types once more what a document shows of terminals, and compares what they then show. tests/tutorial and tests/clean stand on it.

In an indented block of the document a line behind `$` is one for the system's shell, one behind a name and `>`, or behind `batch of N>`,
is one for the shell of tsnd that was started under that name, and `^C` ends the server. What stands behind such a line, up to the next one
or to the end of the block, is all that comes of it. A shell of tsnd gets a terminal of its own; a server runs on. Nothing waits for ever.
"""
import fcntl
import os
import re
import select
import shlex
import signal
import struct
import subprocess
import termios
import time

from server import PATIENCE, same, want

TYPED = re.compile(r"    (?:(\$) (.+)|(batch of \d+|\w+)> (.+)|(\^C))")
PROMPT = re.compile(r"(?:^|\n)(\w+|batch of \d+)> $")


def steps_of(text, has_others=False):
    """What is typed, in its order: where, the line, and what comes of it. Of a text that has others, blocks that begin otherwise are left
    out."""
    steps, is_told = [], False
    for number, line in enumerate(text.splitlines(), start=1):
        typed = TYPED.fullmatch(line)
        if typed:
            where, words = [word for word in typed.groups() if word is not None][:2] if typed[5] is None else ("^C", "")
            steps.append([where, words, ""])
            is_told = True
        elif line.startswith("    "):
            want(is_told or has_others, f"line {number} comes of nothing that is typed: {line}")
            if is_told:
                steps[-1][2] += f"{line[4:]}\n"
        else:
            is_told = False
    return steps


class Shell:
    """A shell of tsnd in a terminal of its own."""

    def __init__(self, words, environment):
        self.terminal, other = os.openpty()
        # Wide, so that no line that is typed is folded.
        fcntl.ioctl(other, termios.TIOCSWINSZ, struct.pack("HHHH", 24, 2000, 0, 0))
        variables = {**environment, "TERM": "dumb"}
        self.process = subprocess.Popen(words, stdin=other, stdout=other, stderr=other, env=variables, start_new_session=True)
        os.close(other)

    def shows(self):
        """What comes up to the next prompt, or to the end: the text, and the prompt's word."""
        shown, until = "", time.monotonic() + PATIENCE
        while not PROMPT.search(shown):
            ready, _, _ = select.select([self.terminal], [], [], max(0, until - time.monotonic()))
            want(ready, f"no prompt comes behind {shown[-300:]!r}")
            try:
                part = os.read(self.terminal, 4096)
            except OSError:
                part = b""
            if not part:
                return shown, None
            shown += part.decode().replace("\r\n", "\n")
        prompt = PROMPT.search(shown)
        return shown[:prompt.start(1)], prompt[1]

    def types(self, line):
        """What comes of a line, without the line itself."""
        os.write(self.terminal, line.encode() + b"\n")
        shown, _ = self.shows()
        return shown.partition("\n")[2]

    def close(self):
        if self.process.poll() is None:
            self.process.kill()
        self.process.wait(PATIENCE)
        os.close(self.terminal)


class Terminals:
    """The terminals of a document, whose commands all begin with some words of the test's own."""

    def __init__(self, ahead=(), environment=None):
        self.ahead, self.environment = list(ahead), dict(os.environ if environment is None else environment)
        self.server, self.shells, self.present = None, {}, None

    def __enter__(self):
        return self

    def __exit__(self, *_):
        if self.server is not None:
            self.end()
        for shell in self.shells.values():
            shell.close()

    def end(self):
        """Ends the server at once, which is harder than the Ctrl-C that the document names."""
        self.server.send_signal(signal.SIGKILL)
        self.server.communicate(timeout=PATIENCE)
        self.server = None

    def serve(self, line, told):
        """Starts a server, which says as many lines as are told."""
        self.server = subprocess.Popen([*self.ahead, *shlex.split(line)], stdin=subprocess.DEVNULL, stderr=subprocess.PIPE, text=True,
                                       env=self.environment)
        return "".join(self.server.stderr.readline() for _ in told.splitlines())

    def begin(self, line):
        """Starts a shell of tsnd, and gives what it says."""
        shell = Shell([*self.ahead, *shlex.split(line)], self.environment)
        said, name = shell.shows()
        if name is None or name in self.shells:
            shell.close()
            want(name is not None, f"{line} says {said!r}, and ends")
            want(False, f"a shell of {name} is there already")
        self.shells[name] = shell
        return said

    def found(self, where, line, told):
        """What comes of a line."""
        if where == "^C":
            self.end()
            return ""
        if where == "$" and line.startswith("tsnd serve "):
            return self.serve(line, told)
        if where == "$" and "-m tsnd.shell" in line:
            return self.begin(line)
        if where == "$":
            done = subprocess.run([*self.ahead, "sh", "-c", line], stdin=subprocess.DEVNULL, stdout=subprocess.PIPE,
                                  stderr=subprocess.STDOUT, text=True, env=self.environment, timeout=PATIENCE, check=False)
            same(done.returncode, 0, f"the status of {line}, which says {done.stdout!r}")
            return done.stdout
        self.present = where if where in self.shells else self.present
        said = self.shells[self.present].types(line)
        if line == "quit":
            self.shells.pop(self.present).close()
        return said

    def type(self, steps):
        """Types all steps, and compares what comes of each."""
        for where, line, told in steps:
            same(self.found(where, line, told), told, f"what comes of '{line or where}'")
