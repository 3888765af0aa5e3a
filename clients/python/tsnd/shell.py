"""A shell for planners: commands of a line over a connection to `tsnd serve`.

    python3 -m tsnd.shell [ADDRESS] [--name NAME | --session N] [--journal FILE]

ADDRESS is HOST:PORT or unix:PATH, 127.0.0.1:7000 where it is left out. `help` lists the commands. The shell says hello, by NAME where
one is given, so that it goes on as the session of that name where there is one; or it goes on as session N. Where the connection ends,
the next command makes another one and goes on as the same session, by the same hello or by its number; a command that got no answer is
told, and is never sent again. With --journal, the server's journal file, `who` tells times and `diff` what an entry changed.
"""
from __future__ import annotations

import argparse
import cmd
import json
import os
import shlex
import subprocess
import sys
import time
from collections.abc import Callable, Iterable
from functools import partial
from typing import IO, Any

from .connection import Acted, Connection, Create, Edit, Entry, Remove, Replace, Session
from .loading import Unfit, batches_of, edits_to
from .programs import NoProgram, place_in, program_of
from .records import Record
from .refusals import (
    AlreadySettled, Conflict, Dangling, EmptyList, Exists, JournalFull, Missing, NoSession, NotEnabled, NothingToRedo, NothingToUndo,
    OutOfMemory, OutOfRange, Past, RedoConflict, Referred, Refused, ServiceError, Shape, TooLong,
)
from .setups import Setup, Unread
from .units import KINDS, Unclear, changed, created, gates_text, number_of, record_text, time_of, time_text

DEFAULT = "127.0.0.1:7000"
MOST_EDITS = 16


class Gone(Exception):
    """There is no connection, or it ended ahead of an answer; the text says what is known."""


def address_of(text: str) -> tuple[str, int]:
    """The host and the port of HOST:PORT; of unix:PATH the whole, and no port."""
    if text.startswith("unix:"):
        return text, 0
    host, colon, port = text.rpartition(":")
    if not colon or not port.isdecimal():
        raise Unclear(f"'{text}' is no address, such as {DEFAULT} or unix:/run/tsnd.socket")
    return host.strip("[]"), int(port)


def keys_text(entry: Entry) -> str:
    """What an entry touches, in words."""
    if entry.what == "settled":
        return f"up to {entry.settled}"
    return ", ".join(entry.keys)


# What is said of an entry that did this.
DID = {"made": "edited", "undone": "undid", "redone": "redid", "settled": "settled",
       "enable": "enabled", "disable": "disabled", "apply": "applied"}


def did_text(entry: Entry) -> str:
    """What an entry did, and to what."""
    if entry.what == "acted":
        return f"{DID[entry.act or 'apply']} {keys_text(entry)} at {time_text(entry.now or 0)}"
    return f"{DID[entry.what]} {keys_text(entry)}"


def entry_text(entry: Entry, whose: str) -> str:
    """An entry in a line: its number, whose it is, what it did and to what."""
    of = "" if entry.of is None else f" (takes back {entry.of})"
    return f"{entry.number:>6}  {whose:<13} {did_text(entry)}{of}"


def whose_text(number: int, name: str | None) -> str:
    """A session in words, with its name where it has one."""
    return f"session {number}" if name is None else f"session {number}, {name}"


def names_of(session: Session) -> dict[int, str | None]:
    """The sessions that were given out, each with its name, or with none."""
    return {given.session: given.name for given in session.sessions()}


def names_ahead(connection: Connection) -> dict[int, str | None]:
    """The same ahead of a hello: the first session looks, where there is one."""
    try:
        return names_of(connection.resume(1))
    except NoSession:
        return {}


def counted(number: int, name: str) -> str:
    """So many of a thing."""
    return f"{number} {name}" + ("" if number == 1 else "s")


def one_edit(session: Session, edit: Edit) -> int:
    """Makes an edit alone, and gives its entry."""
    if isinstance(edit, Create):
        return session.create(edit.key, edit.record)
    if isinstance(edit, Replace):
        return session.replace(edit.key, edit.record)
    return session.remove(edit.key)


def batch_of(session: Session, edits: tuple[Edit, ...]) -> int:
    """Makes edits at once, and gives their entry."""
    return session.batch(*edits)


class Shell(cmd.Cmd):
    """One planner's session, typed line by line."""

    intro = "Type help for the commands, and quit to end. What you did stays: `name` or `resume` goes on with it."

    def __init__(self, address: str, session: int | None = None, journal: str | None = None, stdin: IO[str] | None = None,
                 stdout: IO[str] | None = None, name: str | None = None) -> None:
        super().__init__(stdin=stdin, stdout=stdout)
        self.use_rawinput = stdin is None
        self.address, self.journal = address, journal
        self.number, self.name = session, name
        self.session: Session | None = None
        # The names of sessions, as far as they were asked for; a session keeps its name, or its having none.
        self.names: dict[int, str | None] = {}
        self.batch: dict[str, Edit] | None = None
        # The latest entry of this session that was answered here (none where that is not known, 0 where there is none), the latest one
        # of anybody that was told, and the latest instant.
        self.own: int | None = None if session is not None else 0
        self.seen, self.latest = 0, 0
        self.is_unanswered = False
        self.failed = False

    @property
    def prompt(self) -> str:  # type: ignore[override]
        if not self.use_rawinput:
            return ""
        return f"batch of {len(self.batch)}> " if self.batch is not None else f"{self.name or self.number or ''}> "

    def say(self, text: str) -> None:
        """Writes a line."""
        self.stdout.write(text + "\n")
        self.stdout.flush()

    # ---- the connection

    def connected(self) -> Session:
        """The session over a connection that stands: the one there is, or a new one that goes on as the same session."""
        if self.session is not None and self.session.connection.is_ended():
            self.close()
        if self.session is None:
            host, port = address_of(self.address)
            try:
                connection = Connection(host, port)
            except OSError as why:
                raise Gone(f"There is no server at {self.address}: {why.strerror or why}.") from why
            try:
                self.session = self.begun(connection)
                self.number = self.session.number
                self.tell_unanswered(self.session)
            except (ServiceError, OSError) as why:
                self.session = None
                connection.close()
                raise Gone(f"The server at {self.address} ended the connection: {why}.") from why
            except Refused:
                connection.close()
                raise
        return self.session

    def begun(self, connection: Connection) -> Session:
        """The session that a new connection acts for: that of the name or of the number, or a new one."""
        if self.name is not None:
            return self.named(connection, self.name, names_ahead(connection), f", at {self.address}")
        self.names = {}
        if self.number is None:
            session = connection.hello()
            self.say(f"You are session {session.number} at {self.address}.")
        else:
            session = connection.resume(self.number)
            self.say(f"You go on as session {self.number} at {self.address}.")
        return session

    def named(self, connection: Connection, name: str, names: dict[int, str | None], where: str = "") -> Session:
        """The session of this name, given what names there were: the one that has it, or a new one."""
        is_known = name in names.values()
        session = connection.hello(name)
        if not is_known or session.number != self.number:
            self.own = None if is_known else 0
        self.session, self.number, self.name, self.names = session, session.number, name, {**names, session.number: name}
        self.say(f"You {'go on as' if is_known else 'are'} {whose_text(session.number, name)}{where}.")
        return session

    def close(self) -> None:
        """Ends the connection, where there is one; the next command connects again, and goes on as the same session."""
        if self.session is not None:
            self.session.connection.close()
            self.session = None

    def tell_unanswered(self, session: Session) -> None:
        """After a resume behind a command that got no answer: what of this session was entered since the last answer."""
        if not self.is_unanswered:
            return
        own = [entry for entry in session.since(self.own or 0) if entry.session == session.number]
        told = [entry_text(entry, whose_text(entry.session, self.name)) for entry in own]
        if not own:
            self.say("Nothing of yours was entered since your last answer.")
        elif self.own is None:
            self.say(f"Nothing of this session was answered here before. What it did last is\n{told[-1]}")
        else:
            self.say("This was done, though no answer came:\n" + "\n".join(told))
        if own:
            self.note(own[-1].number)
        self.is_unanswered = False

    def note(self, entry: int) -> None:
        """Notes an entry of this session."""
        self.own, self.seen = entry, max(self.seen, entry)

    def ask(self, call: Callable[[Session], Any]) -> Any:
        """Makes a call over the connection. One that gets no answer is told, and not made again."""
        session = self.connected()
        try:
            return call(session)
        except (ServiceError, OSError) as why:
            self.close()
            self.is_unanswered = True
            raise Gone(f"No answer came ({why}): whether it was done is not known, and it is not sent again. "
                       "The next command connects again and tells what was done.") from why

    def onecmd(self, line: str) -> bool:
        """A command, whose refusal is told in a sentence."""
        try:
            return bool(super().onecmd(line))
        except Refused as why:
            self.say(self.told(why))
        except (Gone, NoProgram, Unclear, Unfit, Unread) as why:
            self.say(str(why))
        except BrokenPipeError:
            raise
        except OSError as why:
            self.say(f"{why.filename}: {why.strerror}" if why.filename else str(why))
        self.failed = True
        return False

    # ---- what a refusal says

    def told(self, why: Refused) -> str:
        """A refusal in a sentence; as the service said it, where that says no more."""
        try:
            return self.sentence(why)
        except (Gone, Refused):
            return str(why)

    def whose(self, number: int) -> str:
        """A session in words. Names are asked for once, and again where a session is met that came behind that."""
        if number not in self.names:
            self.names = self.ask(names_of)
        return whose_text(number, self.names.get(number))

    def entry_at(self, number: int) -> str:
        """An entry of somebody, in words."""
        found = [entry for entry in self.ask(lambda session: session.since(number - 1)) if entry.number == number]
        if not found:
            return f"entry {number}"
        what = did_text(found[0])
        if found[0].session == self.number:
            return f"your own entry {number} ({what})"
        return f"entry {number} of {self.whose(found[0].session)} ({what})"

    def sentence(self, why: Refused) -> str:
        """A refusal in a sentence, with what to do."""
        if isinstance(why, Conflict):
            return (f"Not undone, and nothing changed: {self.entry_at(why.other)} came later and touches or refers to what your entry "
                    f"{why.own} changed. It has to be taken back first, by whom it belongs to.")
        if isinstance(why, RedoConflict):
            return (f"Not brought back, and nothing changed: {self.entry_at(why.other)} came later, and what your undo took does not fit "
                    "any more.")
        if isinstance(why, Referred):
            return f"It can't go, since {why.by} refers to it: change or remove {why.by} first, or both in one batch."
        if isinstance(why, Dangling):
            return f"It refers to {why.key}, which is not there: make {why.key} first, or both in one batch."
        if isinstance(why, AlreadySettled):
            return f"The entries up to {why.upto} are settled already."
        if isinstance(why, OutOfRange) and why.field in HELLOS:
            return HELLOS[why.field]
        if isinstance(why, OutOfRange):
            place = place_in(why.command)
            return f"Nothing changed: {place}." if place else f"'{why.field}' is outside its range, or its limit in the setup."
        for kind, text in SENTENCES.items():
            if isinstance(why, kind):
                return text.format(key=getattr(why, "key", ""))
        return str(why)

    # ---- words

    def words(self, line: str, most: int | None = None, least: int = 0) -> list[str]:
        """The words of a line, as many as there may be."""
        try:
            words = shlex.split(line)
        except ValueError as why:
            raise Unclear(f"the quotes don't match: {why}") from why
        if len(words) < least or (most is not None and len(words) > most):
            raise Unclear(f"usage: {USAGE[self.lastcmd.split(' ')[0]]}")
        return words

    def key_and_words(self, line: str) -> tuple[str, list[str]]:
        """The key that a line begins with, and its other words."""
        words = self.words(line, least=2)
        if words[0] not in KINDS or not words[1].isdecimal():
            raise Unclear(f"'{' '.join(words[:2])}' is no key, such as port 1, filter 3, gate 0 or meter 2")
        return f"{words[0]} {int(words[1])}", words[2:]

    def instant_of(self, text: str) -> int:
        """An instant: a time, `now` (this machine's TAI), `now+3ms`, or `+3ms` behind the last instant that counted."""
        origin, plus, ahead = text.partition("+")
        if origin == "now":
            origin_ns = time.clock_gettime_ns(time.CLOCK_TAI)
        elif not origin and plus:
            origin_ns = self.latest
        else:
            return time_of(text)
        return origin_ns + (time_of(ahead) if plus else 0)

    def given(self, words: Iterable[str], name: str) -> int:
        """The instant under a name, or without one."""
        texts = [word.removeprefix(f"{name}=") for word in words]
        if len(texts) != 1:
            raise Unclear(f"usage: {USAGE[self.lastcmd.split(' ')[0]]}")
        return self.instant_of(texts[0])

    # ---- edits

    def made(self, edit: Edit) -> None:
        """Makes an edit, or puts it into the batch that was begun."""
        if self.batch is None:
            self.entered(self.ask(partial(one_edit, edit=edit)))
            return
        if edit.key not in self.batch and len(self.batch) == MOST_EDITS:
            raise Unclear(f"a batch has {MOST_EDITS} edits at most: end this one first")
        before = self.batch.get(edit.key)
        if isinstance(edit, Replace) and isinstance(before, Create):
            edit = Create(edit.key, edit.record)
        self.batch[edit.key] = edit

    def entered(self, entry: int) -> None:
        """Tells the entry that was made."""
        self.note(entry)
        self.say(f"entry {entry}")

    def record_now(self, key: str) -> Record:
        """The record of a key, as the batch that was begun leaves it."""
        pending = (self.batch or {}).get(key)
        if isinstance(pending, (Create, Replace)):
            return pending.record
        shown: Record = self.ask(lambda session: session.show(key))
        return shown

    def do_new(self, line: str) -> None:
        """new KEY MEMBER=VALUE ..: makes a filter, gate or meter. new meter 2 cir=8M cbs=1500"""
        key, words = self.key_and_words(line)
        self.made(Create(key, created(KINDS[key.split(" ")[0]], words)))

    def do_set(self, line: str) -> None:
        """set KEY MEMBER=VALUE ..: changes members of a record. set port 1 cycle=1ms list=0x80:200us,0x7f:800us"""
        key, words = self.key_and_words(line)
        if not words:
            raise Unclear(f"usage: {USAGE['set']}")
        self.made(Replace(key, changed(self.record_now(key), words)))

    def do_remove(self, line: str) -> None:
        """remove KEY: removes a filter, gate or meter."""
        key, words = self.key_and_words(line)
        if words:
            raise Unclear(f"usage: {USAGE['remove']}")
        self.made(Remove(key))

    def do_batch(self, line: str) -> None:
        """batch: begins a batch of up to 16 edits, which `end` makes all at once or none of them, and `drop` forgets."""
        self.words(line, 0)
        if self.batch is not None:
            raise Unclear("a batch is begun already: `end` makes its edits, `drop` forgets them")
        self.batch = {}

    def do_end(self, line: str) -> None:
        """end: makes the edits of the batch, all at once or none of them."""
        self.words(line, 0)
        if not self.batch:
            raise Unclear("there are no edits: begin by `batch`, and then say what to edit" if self.batch is None else "the batch is empty")
        entry = self.ask(partial(batch_of, edits=tuple(self.batch.values())))
        self.batch = None
        self.entered(entry)

    def do_drop(self, line: str) -> None:
        """drop: forgets the batch."""
        self.words(line, 0)
        self.batch = None

    def do_undo(self, line: str) -> None:
        """undo [all]: takes back your newest standing edit, or all of them or none."""
        words = self.words(line, 1)
        if words == ["all"]:
            all_undone = self.ask(lambda session: session.undo_all())
            self.note(all_undone.entry)
            self.say(f"{all_undone.count} taken back, up to entry {all_undone.entry}")
        elif words:
            raise Unclear(f"usage: {USAGE['undo']}")
        else:
            undone = self.ask(lambda session: session.undo())
            self.note(undone.entry)
            self.say(f"entry {undone.entry}: {undone.of} is taken back")

    def do_redo(self, line: str) -> None:
        """redo: brings back what your newest undo took."""
        self.words(line, 0)
        redone = self.ask(lambda session: session.redo())
        self.note(redone.entry)
        self.say(f"entry {redone.entry}: the undo {redone.of} is taken back")

    def do_settle(self, line: str) -> None:
        """settle N: makes the entries up to N final, whoever made them."""
        upto = number_of(self.words(line, 1, 1)[0])
        self.entered(self.ask(lambda session: session.settle(upto)))

    # ---- acts on lists

    def act(self, line: str, call: Callable[[Session, str, int], Acted]) -> None:
        """An act on the list of a port or a gate."""
        key, words = self.key_and_words(line)
        now = self.given(words, "now")
        acted = self.ask(lambda session: call(session, key, now))
        self.note(acted.entry)
        self.latest = acted.now
        late = "" if acted.now == now else f", at {time_text(acted.now)}, the bridge time, since {time_text(now)} lies behind it"
        change = "no list starts" if acted.change is None else f"the list starts at {time_text(acted.change)}"
        self.say(f"entry {acted.entry}{late}: {change}" if acted.change is not None or late else f"entry {acted.entry}")

    def do_enable(self, line: str) -> None:
        """enable KEY now=INSTANT: enables the gates of a port or a stream gate."""
        self.act(line, Session.enable)

    def do_disable(self, line: str) -> None:
        """disable KEY now=INSTANT: disables them."""
        self.act(line, Session.disable)

    def do_apply(self, line: str) -> None:
        """apply KEY now=INSTANT: puts the key's list in force from its change time on. An instant is a time, now, now+3ms, or +3ms
        behind the last instant that counted."""
        self.act(line, Session.apply)

    # ---- looks

    def do_show(self, line: str) -> None:
        """show KEY: the record of a key, as members may be typed."""
        key, words = self.key_and_words(line)
        if words:
            raise Unclear(f"usage: {USAGE['show']}")
        self.say(f"{key}\n{record_text(self.record_now(key))}")

    def do_list(self, line: str) -> None:
        """list [KIND]: which ports, filters, gates and meters there are."""
        words = self.words(line, 1)
        for kind in words or KINDS:
            if kind not in KINDS:
                raise Unclear(f"'{kind}' is no kind: port, filter, gate or meter")
            ids = self.ask(partial(Session.list, kind=kind))
            self.say(f"{kind + ':':<8}{' '.join(map(str, ids)) or 'none'}")

    def do_states(self, line: str) -> None:
        """states KEY at=INSTANT: the gates of a port or a stream gate at an instant."""
        key, words = self.key_and_words(line)
        at = self.given(words, "at")
        told = self.ask(lambda session: session.states(key, at))
        if "gates" in told:
            open_ones = [str(gate) for gate in range(8) if told["gates"] >> gate & 1]
            self.say(f"at {time_text(at)}: gates {gates_text(told['gates'])}, open for traffic class {', '.join(open_ones) or 'none'}")
        else:
            ipv = "" if told["ipv"] is None else f", internal priority {told['ipv']}"
            self.say(f"at {time_text(at)}: {'open' if told['open'] else 'closed'}{ipv}")

    def do_counters(self, line: str) -> None:
        """counters KEY: the counters of a key."""
        key, words = self.key_and_words(line)
        if words:
            raise Unclear(f"usage: {USAGE['counters']}")
        told = self.ask(lambda session: session.counters(key))
        for name, value in told.items():
            self.say(f"  {name}={'none' if value is None else time_text(value) if name == 'change_time' else str(value).lower()}")

    def do_log(self, line: str) -> None:
        """log [N]: the last ten entries of the journal, or those behind entry N."""
        words = self.words(line, 1)
        entries = self.ask(lambda session: session.since(number_of(words[0]) if words else 0))
        for entry in entries if words else entries[-10:]:
            self.say(entry_text(entry, self.whose(entry.session)))
        self.seen = max([self.seen, *(entry.number for entry in entries)])

    def do_who(self, line: str) -> None:
        """who: the sessions, how many edits of each stand, and, with --journal, when each did something last."""
        self.words(line, 0)
        times = self.times()
        for given in self.ask(lambda session: session.sessions()):
            you = " (you)" if given.session == self.number else ""
            last = f", last {times[given.session]}" if given.session in times else ""
            self.say(f"{whose_text(given.session, given.name)}{you}: {given.standing} standing{last}")

    def do_follow(self, line: str) -> None:
        """follow: tells each entry as it comes, until Ctrl-C."""
        self.words(line, 0)
        try:
            while True:
                for entry in self.ask(lambda session: session.since(self.seen)):
                    self.seen = entry.number
                    self.say(entry_text(entry, self.whose(entry.session)))
                time.sleep(0.5)
        except KeyboardInterrupt:
            self.say("")

    # ---- setups

    def do_save(self, line: str) -> None:
        """save FILE: writes the present configuration into a file, as a setup."""
        path = self.words(line, 1, 1)[0]
        text = self.ask(lambda session: session.setup())
        with open(path, "w", encoding="utf-8") as file:
            file.write(text)
        self.say(f"{path}: {counted(len(Setup(text).records()), 'record')}")

    def do_load(self, line: str) -> None:
        """load FILE [only]: edits the bridge until it has all that a setup names; with `only`, what it does not name goes."""
        words = self.words(line, 2, 1)
        if words[1:] not in ([], ["only"]):
            raise Unclear(f"usage: {USAGE['load']}")
        if self.batch is not None:
            raise Unclear("a batch is begun: `end` makes its edits, `drop` forgets them")
        wanted = Setup.read(words[0])
        present = Setup(self.ask(lambda session: session.setup()))
        batches = batches_of(edits_to(present, wanted, only=bool(words[1:])))
        for number, edits in enumerate(batches):
            try:
                self.entered(self.ask(partial(batch_of, edits=edits)))
            except Refused:
                self.say(f"{number} of {len(batches)} batches were made; `undo` takes them back one by one. The next was refused:")
                raise
        self.say(counted(sum(map(len, batches)), "edit") if batches else "All is as the setup says.")

    # ---- the journal file

    def journal_says(self, *words: str) -> str:
        """What `tsnd journal` says of the server's journal."""
        if self.journal is None:
            raise Unclear("this wants the server's journal: start the shell with --journal FILE")
        run = subprocess.run([program_of(), "journal", self.journal, *words], capture_output=True, text=True, check=False)
        if run.returncode != 0:
            raise Unclear(run.stderr.strip())
        return run.stdout

    def times(self) -> dict[int, str]:
        """When each session made its last entry, by the journal, where there is one."""
        if self.journal is None:
            return {}
        told = (line.partition(" ") for line in self.journal_says("--since", "0").splitlines())
        return {entry["session"]: when for when, _, entries in told for entry in json.loads(entries)["entries"]}

    def do_diff(self, line: str) -> None:
        """diff N: what entry N changed, members before and after; it wants --journal."""
        self.say(self.journal_says("--diff", str(number_of(self.words(line, 1, 1)[0]))).rstrip("\n"))

    # ---- sessions

    def do_resume(self, line: str) -> None:
        """resume N: goes on as session N."""
        number = number_of(self.words(line, 1, 1)[0])
        self.session = self.ask(lambda session: session.connection.resume(number))
        self.number, self.name, self.own = number, None, None
        self.say(f"You go on as session {number}.")

    def do_name(self, line: str) -> None:
        """name NAME: goes on as the session of this name; where there is none, a new one gets it."""
        name = self.words(line, 1, 1)[0]
        names = self.ask(names_of)
        self.ask(lambda session: self.named(session.connection, name, names))

    def do_hello(self, line: str) -> None:
        """hello: begins a new session, with no name."""
        self.words(line, 0)
        fresh: Session = self.ask(lambda session: session.connection.hello())
        self.session, self.number, self.name, self.own = fresh, fresh.number, None, 0
        self.say(f"You are session {fresh.number}.")

    def do_quit(self, line: str) -> bool:
        """quit: ends the shell. What you did stays."""
        self.words(line, 0)
        return True

    def do_EOF(self, _line: str) -> bool:
        self.say("")
        return True

    # ---- the shell itself

    def emptyline(self) -> bool:
        return False

    def default(self, line: str) -> None:
        raise Unclear(f"'{line.split()[0]}' is no command; help lists them")

    def do_help(self, arg: str) -> None:
        """help [COMMAND]: the commands, or what one does."""
        known = {name: (getattr(self, f"do_{name}").__doc__ or "").replace("\n        ", " ") for name in USAGE}
        if arg and arg not in known:
            raise Unclear(f"'{arg}' is no command; help lists them")
        for name in [arg] if arg else known:
            self.say(f"  {known[name]}")

    def completenames(self, text: str, *_: Any) -> list[str]:
        return [name + " " for name in USAGE if name.startswith(text)]

    def completedefault(self, *given: Any) -> list[str]:
        """Kinds, numbers that are there, and members."""
        text, line, begin, _ = given
        words = line[:begin].split()
        if words[0] not in KEYED:
            return []
        if len(words) == 1:
            return [kind + " " for kind in KINDS if kind.startswith(text)]
        kind = KINDS.get(words[1])
        if kind is None:
            return []
        if len(words) == 2:
            return [f"{number} " for number in self.ask(lambda session: session.list(words[1])) if str(number).startswith(text)]
        names = {"new": kind, "set": kind}.get(words[0])
        members = [f"{name}=" for name in getattr(names, "__dataclass_fields__", ())] or [f"{'at' if words[0] == 'states' else 'now'}="]
        return [member for member in members if member.startswith(text)]


HELLOS = {
    "name": "That is no name: it has 1 to 64 bytes in UTF-8, and no control character.",
    "session": "All 65,535 sessions were given out: go on as one of them, by `resume` or by its name.",
}
SENTENCES: dict[type[Refused], str] = {
    Missing: "There is no {key}.",
    Exists: "{key} is there already: `set` changes it.",
    NothingToUndo: "There is nothing to take back: none of your edits stands.",
    NothingToRedo: "There is nothing to bring back: you took nothing back, or edited since, or it is settled.",
    NotEnabled: "It is disabled: `enable` it first.",
    EmptyList: "Its list is empty: `set` a list first.",
    Past: "That instant lies before the last act on it.",
    JournalFull: "The journal is full: it takes no further entry.",
    NoSession: "That session was not given out.",
    OutOfMemory: "The service had no memory for it; nothing changed, and it may be tried again.",
    TooLong: "The configuration is longer than a setup may be, 1,048,576 bytes.",
    Shape: "That is not of the form that the service takes, as the removal of a port, or an act on what has no list.",
}
USAGE = {
    name: (getattr(Shell, f"do_{name}").__doc__ or "").split(":")[0]
    for name in ("show", "list", "new", "set", "remove", "batch", "end", "drop", "undo", "redo", "settle", "enable", "disable", "apply",
                 "states", "counters", "log", "who", "diff", "follow", "save", "load", "name", "resume", "hello", "help",
                 "quit")
}
KEYED = {"show", "new", "set", "remove", "enable", "disable", "apply", "states", "counters"}


def main() -> int:
    """Runs the shell over standard input; where that is no terminal, the status is 1 if a command failed."""
    parser = argparse.ArgumentParser(prog="python3 -m tsnd.shell", description="A shell for planners, over a connection to `tsnd serve`.")
    parser.add_argument("address", nargs="?", default=DEFAULT, metavar="ADDRESS", help=f"HOST:PORT or unix:PATH; {DEFAULT} where left out")
    who = parser.add_mutually_exclusive_group()
    who.add_argument("--name", metavar="NAME", help="goes on as the session of this name; where there is none, a new one gets it")
    who.add_argument("--session", type=int, metavar="N", help="goes on as session N")
    parser.add_argument("--journal", metavar="FILE", help="the server's journal file, for who and diff")
    given = parser.parse_args()
    is_typed = sys.stdin.isatty()
    shell = Shell(given.address, given.session, given.journal, None if is_typed else sys.stdin, name=given.name)
    try:
        shell.connected()
    except (Gone, Refused, Unclear) as why:
        print(f"tsnd.shell: {shell.told(why) if isinstance(why, Refused) else why}", file=sys.stderr)
        return 1
    if not is_typed:
        shell.intro = ""
    while True:
        try:
            shell.cmdloop()
            return 1 if shell.failed and not is_typed else 0
        except KeyboardInterrupt:
            shell.intro = ""
            shell.say("")
        except BrokenPipeError:
            # Nobody reads on.
            os.dup2(os.open(os.devnull, os.O_WRONLY), sys.stdout.fileno())
            return 1


if __name__ == "__main__":
    sys.exit(main())
