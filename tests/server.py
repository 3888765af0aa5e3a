"""A server under test, `tsnd serve`, and those who talk to it. tests/serve, tests/faults and bench/soak stand on it.

A server is started with the words of its command line, is known by the line that tells where it listens, and is ended
by the connections that it was told to serve. Nothing waits for ever: whatever takes longer than PATIENCE has failed.
"""
import json
import os
import select
import socket
import struct
import subprocess
import time

TOP = os.path.dirname(os.path.dirname(os.path.abspath(__file__)))
PROGRAM = os.path.abspath(os.environ.get("TSND") or os.path.join(TOP, "crates/tsnd/out/tsnd"))
EXAMPLES = os.path.join(TOP, "examples")
PATIENCE = 20.0
LISTENS = b"tsnd: listens on 127.0.0.1:"
LISTENS_AT = b"tsnd: listens on unix:"


class Failed(Exception):
    """What was looked at is not as it should be."""


class Late(Failed):
    """What was waited for has not come in time."""


def want(is_so, text):
    """Fails with this text where something is not so."""
    if not is_so:
        raise Failed(text)


def same(found, wanted, text):
    """Fails where two values differ, and shows both."""
    want(found == wanted, f"{text}: {str(found)[:300]}, and not {str(wanted)[:300]}")


def line_of(command):
    """The line of a command, in the service's compact spelling."""
    return json.dumps(command, ensure_ascii=False, separators=(",", ":"), sort_keys=True).encode() + b"\n"


def example(name):
    return os.path.join(EXAMPLES, name)


class Server:
    """A server that runs: its process, and the port where it listens."""

    def __init__(self, setup, workers, connections, probe=0, listen="127.0.0.1:0", **how):
        self.begin([setup, "--listen", listen, "--workers", str(workers), "--connections", str(connections), "--probe", str(probe)], how)

    def begin(self, words, how):
        """Starts it with these words."""
        pipes = {"stdin": subprocess.DEVNULL, "stdout": subprocess.PIPE, "stderr": subprocess.PIPE}
        self.process = subprocess.Popen([PROGRAM, "serve", *words], **{**pipes, **how})
        self.said = b""
        self.port = None
        self.path = None

    def listens(self, patience=PATIENCE):
        """Waits for the line that tells where it listens, and gives the server; fails where it ends before that, or says nothing."""
        until = time.monotonic() + patience
        while b"\n" not in self.said:
            ready, _, _ = select.select([self.process.stderr], [], [], max(0, until - time.monotonic()))
            part = os.read(self.process.stderr.fileno(), 4096) if ready else b""
            if not ready:
                self.stop()
                raise Failed(f"it does not tell in {patience} seconds where it listens")
            if not part:
                break
            self.said += part
        if not (self.said.startswith((LISTENS, LISTENS_AT)) and b"\n" in self.said):
            _, _, self.said = self.end()
            raise Failed(f"it does not listen: {self.said!r}")
        line, _, self.said = self.said.partition(b"\n")
        if line.startswith(LISTENS):
            self.port = int(line[len(LISTENS):])
        else:
            self.path = line[len(LISTENS_AT):].decode()
        return self

    def runs(self):
        return self.process.poll() is None

    def end(self):
        """Waits for its end, and gives its status, its output, and its errors without the line that it listens."""
        try:
            output, errors = self.process.communicate(timeout=PATIENCE)
        except subprocess.TimeoutExpired as late:
            self.stop()
            raise Failed("it does not end") from late
        return self.process.returncode, output, self.said + errors

    def ends(self, output):
        """It ends with status 0, writes just this, and says no more on standard error."""
        same(self.end(), (0, output, b""), "status, output and errors at the end")

    def stop(self):
        """Ends it at once, whatever it does."""
        if self.runs():
            self.process.kill()
        self.process.communicate()

    def __enter__(self):
        return self

    def __exit__(self, *_):
        self.stop()


class Open(Server):
    """A server with no words but these and, but for none, where it listens."""

    def __init__(self, *words, listen="127.0.0.1:0", **how):
        self.begin([*words, *(["--listen", listen] if listen is not None else [])], how)

    def ends_by(self, number):
        """A signal ends it, and it says no more."""
        self.process.send_signal(number)
        same(self.end(), (-number, b"", b""), "status, output and errors behind a signal")


class Client:
    """A connection to a server, and the session of its latest hello."""

    def __init__(self, server, patience=PATIENCE, room=None):
        self.socket = socket.socket(socket.AF_INET if server.path is None else socket.AF_UNIX, socket.SOCK_STREAM)
        if room is not None:
            self.socket.setsockopt(socket.SOL_SOCKET, socket.SO_RCVBUF, room)
        self.socket.settimeout(patience)
        if server.path is None:
            self.socket.connect(("127.0.0.1", server.port))
            self.socket.setsockopt(socket.IPPROTO_TCP, socket.TCP_NODELAY, 1)
        else:
            self.socket.connect(server.path)
        self.came = b""
        self.session = None

    def send(self, data):
        self.socket.sendall(data)

    def reply(self):
        """The next reply line, without its line feed."""
        while b"\n" not in self.came:
            try:
                part = self.socket.recv(1 << 16)
            except TimeoutError as fault:
                raise Late(f"no reply: {fault}") from fault
            except OSError as fault:
                raise Failed(f"no reply: {fault}") from fault
            want(part, f"the connection ended before a reply, behind {self.came[:200]!r}")
            self.came += part
        line, _, self.came = self.came.partition(b"\n")
        return line

    def replies(self, count):
        return [self.reply() for _ in range(count)]

    def ask(self, command):
        """Sends a command under the session of this connection, where it has one to give, and reads the reply."""
        words = command if "s" in command or command["do"] == "hello" else {**command, "s": self.session}
        self.send(line_of(words))
        return json.loads(self.reply())

    def hello(self, name=None):
        """Says hello, by a name where one is given, and takes the session number from the reply."""
        reply = self.ask({"do": "hello", **({} if name is None else {"name": name})})
        want(list(reply) == ["session"], f"a hello: {reply}")
        self.session = reply["session"]
        return self

    def half_close(self):
        """Closes the sending side."""
        self.socket.shutdown(socket.SHUT_WR)

    def is_ended(self):
        """The server closed the connection, with nothing more to read."""
        try:
            return self.came == b"" and self.socket.recv(1) == b""
        except (TimeoutError, OSError) as fault:
            raise Failed(f"no end of the connection: {fault}") from fault

    def is_silent(self, seconds):
        """Nothing comes for so long."""
        ready, _, _ = select.select([self.socket], [], [], seconds)
        return self.came == b"" and not ready

    def reset(self):
        """Ends the connection by a reset."""
        self.socket.setsockopt(socket.SOL_SOCKET, socket.SO_LINGER, struct.pack("ii", 1, 0))
        self.socket.close()

    def close(self):
        self.socket.close()

    def __enter__(self):
        return self

    def __exit__(self, *_):
        self.close()


class Count:
    """Runs tests by name, tells each that failed, and counts."""

    def __init__(self):
        self.passed = 0
        self.failed = 0

    def run(self, name, test, *words):
        try:
            test(*words)
            self.passed += 1
        except Failed as fault:
            self.fail(f"{name}: {fault}")
        except (OSError, ValueError, KeyError, TypeError) as fault:
            self.fail(f"{name}: {type(fault).__name__}: {fault}")

    def fail(self, text):
        print(text, flush=True)
        self.failed += 1

    def tell(self):
        """Writes the last line, and gives the status."""
        print(f"{self.passed} passed, {self.failed} failed")
        return 0 if self.failed == 0 else 1
