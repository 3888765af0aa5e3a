"""The rules of the configuration and of its journal, as plainly as docs/definitions.md says them.

There is no index and no table: a conflict is looked for along the entries, from the last one on. What it answers is what the
service must answer, member for member.
"""
import collections
import json

from crowd import REFUSALS, kind_of, references

KINDS = ("port", "filter", "gate", "meter")
MOST_ENTRIES = 262144
MOST_SESSIONS = 65535
MOST_BYTES = 64
PORT = {"base": 0, "cycle": 1000000, "extension": 0, "gates": 255, "list": []}


def place_of(key):
    """The place of a key in the order of keys."""
    kind, number = key.split(" ")
    return KINDS.index(kind), int(number)


def refused(number, **more):
    return {"refused": number, "why": REFUSALS[number], **more}


def is_name(text):
    """A name has 1 to 64 bytes in UTF-8, and no control character."""
    return 1 <= len(text.encode()) <= MOST_BYTES and not any(ord(letter) < 0x20 or 0x7f <= ord(letter) <= 0x9f for letter in text)


def is_in_conflict(later, earlier):
    """A later change is in conflict with an earlier one. A change is a map from keys to their values before and after."""
    for key, (_, after) in later.items():
        if key in earlier or any(other in earlier for other in references(key, after)):
            return True
    return any(other in later for key, (before, _) in earlier.items() for other in references(key, before))


def inverse(change):
    return {key: (after, before) for key, (before, after) in change.items()}


class Entry:
    """An entry that applied a change: an edit (made), the taking back of one (undone), the taking back of that (redone); or one that
    settles, with no change."""

    def __init__(self, number, session, what, change, of=None, settled=None):
        self.number, self.session, self.what, self.change, self.of, self.settled = number, session, what, change, of, settled

    def told(self):
        if self.what == "settled":
            return {"entry": self.number, "session": self.session, "settled": self.settled, "what": self.what}
        keys = sorted(self.change, key=place_of)
        told = {"keys": keys} if len(keys) > 1 else {"key": keys[0]}
        of = {} if self.of is None else {"of": self.of.number}
        return {"entry": self.number, **told, "session": self.session, "what": self.what, **of}


# The members of a table of each kind, in their order, and those of an entry of a list, by how many they are.
MEMBERS = {
    "port": ("id", "gates", "list", "cycle", "extension", "base"),
    "filter": ("id", "handle", "priority", "gate", "max_sdu", "meter", "oversize"),
    "gate": ("id", "open", "ipv", "list", "cycle", "extension", "base", "invalid_rx", "octets_exceeded"),
    "meter": ("id", "cir", "cbs", "eir", "ebs", "cf", "aware", "drop_yellow", "all_red"),
}
ENTRIES = {2: ("gates", "interval"), 4: ("open", "ipv", "interval", "octets")}


def line_of(name, value):
    """A member of a table, on a line of its own; a list has one for each of its entries."""
    if name != "list":
        return f"{name} = {json.dumps(value)}\n"
    rows = []
    for entry in value:
        inner = zip(ENTRIES[len(entry)], entry)
        rows.append("  {" + ", ".join(f"{member} = {json.dumps(part)}" for member, part in inner if part is not None) + "},\n")
    return f"list = [\n{''.join(rows)}]\n" if value else "list = []\n"


class Rules:
    """A configuration, its journal and the sessions that were given out, each with its name or none. `answer` is one step."""

    def __init__(self):
        self.map = {"port 1": PORT, "port 2": PORT}
        self.entries = []
        self.standing = []
        self.names = []
        self.settled = 0

    def answer(self, command):
        do = command["do"]
        if do == "hello":
            return self.hello(command)
        if do == "settle" and command["upto"] > len(self.entries):
            return refused(4, field="upto")
        if not 1 <= command["s"] <= len(self.names):
            return refused(5)
        if do in ("create", "replace", "remove"):
            return self.edit(command["s"], [command])
        if do == "batch":
            return self.edit(command["s"], command["edits"])
        if do == "sessions":
            return self.sessions_told(command)
        return getattr(self, do)(command)

    def hello(self, command):
        """Gives out a session; who says a name that is there already goes on as the session that has it, and nothing changes."""
        name = command.get("name")
        if "name" in command and not isinstance(name, str):
            return refused(3)
        if name is not None and not is_name(name):
            return refused(4, field="name")
        if name is not None and name in self.names:
            return {"session": self.names.index(name) + 1}
        if len(self.names) == MOST_SESSIONS:
            return refused(4, field="session")
        self.names.append(name)
        return {"session": len(self.names)}

    # ---- edits

    def referring(self, key, beside=()):
        """The filters that refer to a key, the least first, but for these."""
        found = [other for other, record in self.map.items() if other not in beside and key in references(other, record)]
        return sorted(found, key=place_of)

    def causes(self, edit, result, keys):
        """Why an edit is refused, in the order of the numbers."""
        key, is_there = edit["key"], edit["key"] in self.map
        if edit["do"] == "create" and is_there:
            yield refused(7, key=key)
        if edit["do"] != "create" and not is_there:
            yield refused(6, key=key)
        for other in references(key, edit.get("record")):
            if other not in result:
                yield refused(8, key=other)
        if edit["do"] == "remove":
            for other in self.referring(key, keys):
                yield refused(9, by=other)

    def edit(self, session, edits):
        """Makes edits at once: the cause of the least number comes first, and of several of that number that of the first edit."""
        keys = [edit["key"] for edit in edits]
        result = {key: value for key, value in self.map.items() if key not in keys}
        result.update({edit["key"]: edit["record"] for edit in edits if "record" in edit})
        causes = [cause for edit in edits for cause in self.causes(edit, result, keys)]
        if causes:
            return min(causes, key=lambda cause: cause["refused"])
        if len(self.entries) == MOST_ENTRIES:
            return refused(17)
        change = {edit["key"]: (self.map.get(edit["key"]), edit.get("record")) for edit in edits}
        return {"entry": self.enter(session, "made", change).number}

    def enter(self, session, what, change, of=None):
        """Applies a change, and makes its entry."""
        for key, (_, after) in change.items():
            if after is None:
                del self.map[key]
            else:
                self.map[key] = after
        entry = Entry(len(self.entries) + 1, session, what, change, of)
        self.entries.append(entry)
        if what == "undone":
            self.standing.remove(of)
        elif what != "settled":
            self.standing.append(entry)
        return entry

    def settle(self, command):
        """What stood up to the number stands no more."""
        if command["upto"] <= self.settled:
            return refused(19, upto=self.settled)
        if len(self.entries) == MOST_ENTRIES:
            return refused(17)
        entry = self.enter(command["s"], "settled", {})
        entry.settled = self.settled = command["upto"]
        self.standing = [other for other in self.standing if other.number > self.settled]
        return {"entry": entry.number, "settled": self.settled}

    # ---- undo and redo

    def latest_in_conflict(self, own, others):
        """The latest of these that comes later than an own entry and whose change is in conflict with its."""
        for entry in reversed(others):
            if entry.number <= own.number:
                return None
            if is_in_conflict(entry.change, own.change):
                return entry
        return None

    def undo(self, command):
        own = [entry for entry in self.standing if entry.session == command["s"]]
        if not own:
            return refused(10)
        other = self.latest_in_conflict(own[-1], self.standing)
        if other is not None:
            return refused(11, other=other.number, own=own[-1].number)
        if len(self.entries) == MOST_ENTRIES:
            return refused(17)
        entry = self.enter(command["s"], "undone", inverse(own[-1].change), own[-1])
        return {"entry": entry.number, "of": own[-1].number}

    def undo_all(self, command):
        own = [entry for entry in self.standing if entry.session == command["s"]]
        others = [entry for entry in self.standing if entry.session != command["s"]]
        if not own:
            return refused(10)
        for entry in reversed(own):
            other = self.latest_in_conflict(entry, others)
            if other is not None:
                return refused(11, other=other.number, own=entry.number)
        if MOST_ENTRIES - len(self.entries) < len(own):
            return refused(17)
        for entry in reversed(own):
            self.enter(command["s"], "undone", inverse(entry.change), entry)
        return {"count": len(own), "entry": len(self.entries)}

    def newest_to_redo(self, session):
        """The session's newest Undone entry that comes after its last edit, that no entry takes back, and that is not settled."""
        taken_back = set()
        for entry in reversed(self.entries[self.settled:]):
            if entry.session == session and entry.what == "made":
                return None
            if entry.session == session and entry.what == "redone":
                taken_back.add(entry.of.number)
            if entry.session == session and entry.what == "undone" and entry.number not in taken_back:
                return entry
        return None

    def fits(self, change):
        """Each value before is there, and no reference is left open."""
        if any(self.map.get(key) != before for key, (before, _) in change.items()):
            return False
        result = {key: value for key, value in self.map.items() if key not in change}
        result.update({key: after for key, (_, after) in change.items() if after is not None})
        return all(other in result for key, value in result.items() for other in references(key, value))

    def redo(self, command):
        undone = self.newest_to_redo(command["s"])
        if undone is None:
            return refused(12)
        change = inverse(undone.change)
        if not self.fits(change):
            return refused(13, other=self.latest_in_conflict(undone, self.entries).number)
        if len(self.entries) == MOST_ENTRIES:
            return refused(17)
        entry = self.enter(command["s"], "redone", change, undone)
        return {"entry": entry.number, "of": undone.number}

    # ---- looks

    def show(self, command):
        key = command["key"]
        return {"key": key, "record": self.map[key]} if key in self.map else refused(6, key=key)

    def list(self, command):
        return {"ids": sorted(place_of(key)[1] for key in self.map if kind_of(key) == command["kind"])}

    def since(self, command):
        return {"entries": [entry.told() for entry in self.entries[command["after"]:]]}

    def resume(self, command):
        return {"session": command["s"]}

    def sessions_told(self, command):
        """Each session that was given out, its name, and how many of its entries stand."""
        standing = collections.Counter(entry.session for entry in self.standing)
        return {"sessions": [{"name": name, "session": number, "standing": standing[number]}
                             for number, name in enumerate(self.names, start=1)]}

    def setup(self, command):
        """The configuration as the text of a setup, in which a port that is as in the beginning is left out."""
        named = sorted((key for key, record in self.map.items() if record != PORT), key=place_of)
        return {"setup": "ports = 2\nmax_filters = 16\nmax_gates = 16\nmax_meters = 16\nlist_max = 16\n" + "".join(map(self.table, named))}

    def table(self, key):
        """A record as a table of a setup."""
        rows = {"id": place_of(key)[1], **self.map[key]}
        lines = [line_of(name, rows[name]) for name in MEMBERS[kind_of(key)] if rows[name] is not None]
        return "".join([f"\n[[{kind_of(key)}]]\n", *lines])
