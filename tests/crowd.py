"""A crowd at one server: members who collide on few keys, and what their replies must come to.

A member knows what it did, and so what an undo of its own must name. What it was told of the others' work is noted as a
look: something that must have been so between two entries of its own. When all are done, the entries that were answered
are gone through from the first to the last, by the rules of docs/definitions.md, and each look must have been true on
its way.
"""
import itertools
import json
import random

from server import Client, line_of, same, want

CYCLES = (1000, 7000)
GATE_LISTS = ([], [[True, None, 400, None], [False, 5, 600, 1500]], [[True, 3, 7000, 9000]])
PORT_LISTS = ([], [[1, 300], [128, 700]], [[255, 100], [15, 400], [240, 500]])
REFUSALS = {1: "too_long", 2: "syntax", 3: "shape", 4: "range", 5: "no_session", 6: "missing", 7: "exists", 8: "dangling",
            9: "referred", 10: "nothing_to_undo", 11: "conflict", 12: "nothing_to_redo", 13: "redo_conflict",
            14: "not_enabled", 15: "empty_list", 16: "past", 17: "journal_full", 18: "memory", 19: "settled"}
MORE_OF = {4: {"field"}, 6: {"key"}, 7: {"key"}, 8: {"key"}, 9: {"by"}, 11: {"own", "other"}, 13: {"other"}, 19: {"upto"}}
COUNTERS = {"port": {"change_error", "change_time", "enabled", "pending"},
            "gate": {"change_error", "change_time", "enabled", "invalid_rx", "octets_exceeded", "pending"},
            "filter": {"blocked", "matching", "not_passing", "not_passing_sdu", "passing", "passing_sdu", "red"},
            "meter": {"all_red"}}
KEYS = [f"{kind} {number}" for kind, numbers in (("port", (1, 2)), ("filter", range(4)), ("gate", range(4)), ("meter", range(2)))
        for number in numbers]
LATE = 1 << 40


def kind_of(key):
    return key.split(" ")[0]


def record_of(key, chance):
    """Some record of this key."""
    kind = kind_of(key)
    if kind == "filter":
        return {"gate": chance.randrange(4), "handle": chance.choice([None, 1, 2]), "max_sdu": chance.choice([None, 1500]),
                "meter": chance.choice([None, 0, 1]), "oversize": False, "priority": chance.choice([None, 3])}
    if kind == "meter":
        return {"all_red": False, "aware": chance.random() < 0.5, "cbs": chance.choice([1500, 3000]), "cf": False,
                "cir": 8000000, "drop_yellow": False, "ebs": 0, "eir": 0}
    timed = {"base": chance.choice([0, 350, 5000000]), "cycle": chance.choice(CYCLES), "extension": chance.choice([0, 200])}
    if kind == "port":
        return {**timed, "gates": chance.randrange(256), "list": chance.choice(PORT_LISTS)}
    return {**timed, "invalid_rx": False, "ipv": chance.choice([None, 6]), "list": chance.choice(GATE_LISTS),
            "octets_exceeded": False, "open": chance.random() < 0.8}


def references(key, record):
    """The keys to which a record refers, its gate first."""
    if record is None or kind_of(key) != "filter":
        return []
    return [f"gate {record['gate']}"] + ([] if record["meter"] is None else [f"meter {record['meter']}"])


def change_time(record, now):
    """The first start of a cycle that is not before this instant, nor before the base."""
    behind = max(0, now - record["base"])
    return record["base"] + -(-behind // record["cycle"]) * record["cycle"]


class Member:
    """One of the crowd: a session, its entries as `since` must tell them, and what it was told of others."""

    def __init__(self, session):
        self.session = session
        self.entries = {}
        self.commands = {}
        self.changes = {}
        self.standing = []
        self.taken_back = []
        self.looks = []
        self.open_looks = []
        self.sinces = []
        self.last = 0
        self.time = 0

    # ---- what was answered

    def note(self, number, what, key, command, **more):
        """An entry of this session: it comes behind all its others, and ends what looks may have seen."""
        want(self.last < number, f"entry {number} comes behind {self.last}")
        self.entries[number] = {"entry": number, "key": key, "session": self.session, "what": what, **more}
        self.commands[number] = command
        for look in self.open_looks:
            look["until"] = number - 1
        self.open_looks = []
        self.last = number

    def saw(self, text, is_so):
        """Something was so once between the entry before and the next one."""
        look = {"from": self.last, "until": None, "text": f"session {self.session} behind entry {self.last}: {text}", "is_so": is_so}
        self.looks.append(look)
        self.open_looks.append(look)

    def edited(self, command, reply):
        self.note(reply["entry"], "made", command["key"], command)
        self.standing.append(reply["entry"])
        self.taken_back = []

    def undone(self, number, of):
        same(of, self.standing.pop(), "the entry that an undo takes back")
        self.note(number, "undone", self.entries[of]["key"], {"do": "undo", "s": self.session}, of=of)
        self.taken_back.append(number)

    def undid_all(self, _, reply):
        count, number = reply["count"], reply["entry"]
        same(count, len(self.standing), "how many an undo of all takes back")
        for place in range(count):
            self.undone(number - count + 1 + place, self.standing[-1])

    def redid(self, command, reply):
        want(self.taken_back, "a redo where nothing was taken back")
        same(reply["of"], self.taken_back.pop(), "the entry that a redo takes back")
        self.note(reply["entry"], "redone", self.entries[reply["of"]]["key"], command, of=reply["of"])
        self.standing.append(reply["entry"])

    def acted(self, command, reply):
        now, change = reply["now"], reply["change"]
        want(max(command["now"], self.time) <= now, f"the instant that counts, {now}, behind {self.time}: {command}")
        want(change is None or now <= change, f"a change time before the act: {reply}")
        want(command["do"] != "apply" or change is not None, f"an apply with no change time: {reply}")
        want(command["do"] != "disable" or change is None, f"a disable with a change time: {reply}")
        self.time = now
        self.note(reply["entry"], "acted", command["key"], {**command, "now": now}, act=command["do"], now=now)
        self.changes[reply["entry"]] = change

    def heard(self, command, reply):
        """What a command that makes no entry was answered."""
        do = command["do"]
        if do == "show":
            same(reply["key"], command["key"], "the key shown")
            self.saw(f"{command['key']} was {reply['record']}", lambda world: world.map.get(command["key"]) == reply["record"])
        elif do == "list":
            self.saw(f"{command['kind']}s were {reply['ids']}", lambda world: world.numbers(command["kind"]) == reply["ids"])
        elif do == "since":
            self.sinces.append((command["after"], reply["entries"]))
        elif do == "counters":
            same(set(reply), COUNTERS[kind_of(command["key"])], "the members of counters")
        elif do == "states":
            same(set(reply), {"gates"} if kind_of(command["key"]) == "port" else {"ipv", "open"}, "the members of states")
        else:
            want(max(command["now"], self.time) <= reply["now"], f"the instant of a frame: {reply}")
            self.time = reply["now"]

    # ---- what was refused

    def refused(self, command, reply):
        number, key = reply["refused"], command.get("key")
        same(reply["why"], REFUSALS[number], "why it was refused")
        same(set(reply), {"refused", "why"} | MORE_OF.get(number, set()), "the members of a refusal")
        how = getattr(self, f"refused_{number}", None)
        want(how is not None, f"{command} was refused: {reply}")
        how(command, key, reply)

    def refused_6(self, command, key, reply):
        same(reply["key"], key, "the key that is missing")
        want(command["do"] not in ("create", "list", "since"), f"{command} was refused: {reply}")
        self.saw(f"no {key}", lambda world: key not in world.map)

    def refused_7(self, command, key, reply):
        same((reply["key"], command["do"]), (key, "create"), "what is there already")
        self.saw(f"a {key}", lambda world: key in world.map)

    def refused_8(self, command, key, reply):
        named = references(key, command["record"])
        want(reply["key"] in named, f"{command} was refused: {reply}")
        self.saw(f"no {reply['key']}", lambda world: [other for other in named if other not in world.map][:1] == [reply["key"]])

    def refused_9(self, command, key, reply):
        same(command["do"], "remove", "what is refused for a reference")
        self.saw(f"{reply['by']} on {key}", lambda world: world.referring(key)[:1] == [reply["by"]])

    def refused_10(self, command, _, reply):
        want(command["do"] in ("undo", "undo_all") and not self.standing, f"{command} was refused: {reply}")

    def refused_11(self, command, _, reply):
        own, other = reply["own"], reply["other"]
        want(own in self.standing and (command["do"] == "undo_all" or own == self.standing[-1]), f"{command} was refused: {reply}")
        want(own < other and other not in self.entries, f"{command} was refused: {reply}")
        self.saw(f"{other} in the way of {own}", lambda world: world.in_the_way(own, other))

    def refused_12(self, command, _, reply):
        want(command["do"] == "redo" and not self.taken_back, f"{command} was refused: {reply}")

    def refused_13(self, command, _, reply):
        want(command["do"] == "redo" and self.taken_back, f"{command} was refused: {reply}")
        own, other = self.taken_back[-1], reply["other"]
        want(own < other, f"{command} was refused: {reply}")
        self.saw(f"{other} in the way of a redo of {own}", lambda world: world.conflict(own, other))

    def refused_14(self, command, key, _):
        same(command["do"], "apply", "what is refused for want of an enable")
        self.saw(f"{key} disabled", lambda world: key in world.map and key not in world.enabled)

    def refused_15(self, command, key, _):
        same(command["do"], "apply", "what is refused for an empty list")
        self.saw(f"no list of {key}", lambda world: key in world.map and not world.map[key]["list"])

    def refused_16(self, command, key, _):
        same(command["do"], "states", "what is refused as past")
        self.saw(f"an act on {key} behind {command['at']}", lambda world: command["at"] < world.acts.get(key, 0))

    def answered(self, command, reply):
        """Looks at one reply, and notes what it tells."""
        if "refused" in reply:
            self.refused(command, reply)
            return
        shapes = {"create": {"entry"}, "replace": {"entry"}, "remove": {"entry"}, "undo": {"entry", "of"}, "redo": {"entry", "of"},
                  "undo_all": {"count", "entry"}, "enable": {"change", "entry", "now"}}
        shape = shapes.get({"disable": "enable", "apply": "enable"}.get(command["do"], command["do"]))
        want(shape is None or set(reply) == shape, f"{command} was answered {reply}")
        if command["do"] == "undo":
            self.undone(reply["entry"], reply["of"])
        else:
            ways = {"create": self.edited, "replace": self.edited, "remove": self.edited, "undo_all": self.undid_all,
                    "redo": self.redid, "enable": self.acted, "disable": self.acted, "apply": self.acted}
            ways.get(command["do"], self.heard)(command, reply)

    # ---- what it asks

    def command(self, turn, chance):
        """Some command, at about this turn."""
        do = chance.choices(("create", "replace", "remove", "undo", "redo", "undo_all", "enable", "disable", "apply", "show", "list",
                             "since", "states", "counters", "frame"), (18, 18, 8, 12, 10, 2, 6, 2, 8, 10, 3, 2, 4, 3, 4))[0]
        key, now, words = chance.choice(KEYS), 1000 * turn + chance.randrange(3000), {"do": do, "s": self.session}
        if do == "remove":
            key = chance.choice(KEYS[2:])
        elif do in ("enable", "disable", "apply", "states"):
            key = chance.choice([key for key in KEYS if kind_of(key) in ("port", "gate")])
        if do in ("create", "replace", "remove", "enable", "disable", "apply", "states", "counters", "show"):
            words["key"] = key
        if do in ("create", "replace"):
            words["record"] = record_of(key, chance)
        elif do in ("enable", "disable", "apply", "frame"):
            words["now"] = now
        elif do == "list":
            words["kind"] = kind_of(key)
        elif do == "since":
            words["after"] = self.last
        elif do == "states":
            words["at"] = now + chance.choice([0, 1000000])
        if do == "frame":
            words.update(handle=chance.randrange(1, 3), priority=chance.choice([3, 4]), octets=64, yellow=False)
        return words

    def work(self, client, count, seed):
        """So many commands, one to eight of them sent at a time, each reply looked at."""
        chance = random.Random(seed)
        turn = 0
        while turn < count:
            together = min(chance.choice((1, 1, 1, 2, 3, 8)), count - turn)
            commands = [self.command(turn + place, chance) for place in range(together)]
            client.send(b"".join(line_of(command) for command in commands))
            for command in commands:
                self.answered(command, json.loads(client.reply()))
            turn += together


class World:
    """The configuration behind some entry, by the rules: records, who is enabled, and what each entry changed."""

    def __init__(self):
        self.map = {f"port {number}": {"base": 0, "cycle": 1000000, "extension": 0, "gates": 255, "list": []} for number in (1, 2)}
        self.enabled = set()
        self.acts = {}
        self.starts = {}
        self.changes = {}
        self.standing = set()
        self.time = 0

    def numbers(self, kind):
        return sorted(int(key.split(" ")[1]) for key in self.map if kind_of(key) == kind)

    def referring(self, key):
        """The filters that refer to a key, the least first."""
        return sorted(other for other, record in self.map.items() if key in references(other, record))

    def conflict(self, earlier, later):
        """The change of the later entry is in conflict with that of the earlier one."""
        if earlier not in self.changes or later not in self.changes:
            return False
        key, before, _ = self.changes[earlier]
        other, _, after = self.changes[later]
        return key == other or key in references(other, after) or other in references(key, before)

    def in_the_way(self, own, other):
        return own in self.standing and other in self.standing and self.conflict(own, other)

    def put(self, number, key, after):
        """An entry's change: it must be of what stands there, and leave no reference to what is not there."""
        before = self.map.get(key)
        self.changes[number] = (key, before, after)
        if after is None:
            del self.map[key]
        else:
            self.map[key] = after
        if before is None or after is None:
            self.enabled.discard(key)
            self.acts.pop(key, None)
            self.starts.pop(key, None)
        for other, record in self.map.items():
            named = references(other, record)
            want(all(each in self.map for each in named), f"entry {number} leaves {other} with no {named}")

    def made(self, number, entry, command, _):
        key, do = entry["key"], command["do"]
        want((key in self.map) == (do != "create"), f"entry {number}, a {do} of {key}, was accepted")
        self.put(number, key, command.get("record"))
        self.standing.add(number)

    def undone(self, number, entry, _, __):
        of = entry["of"]
        want(of in self.standing, f"entry {number} takes back {of}, which does not stand")
        in_the_way = [other for other in self.standing if of < other and self.conflict(of, other)]
        same(in_the_way, [], f"what stands in the way of entry {number}, an undo of {of}")
        self.put(number, entry["key"], self.changes[of][1])
        self.standing.remove(of)

    def redone(self, number, entry, _, __):
        key, before, after = self.changes[entry["of"]]
        same(self.map.get(key), after, f"what entry {number}, a redo, finds at {key}")
        self.put(number, key, before)
        self.standing.add(number)

    def acted(self, number, entry, _, change):
        key, act, now = entry["key"], entry["act"], entry["now"]
        want(key in self.map, f"entry {number}, an act on {key}, which is not there")
        want(self.time <= now, f"entry {number}: {now} comes before {self.time}")
        self.time = now
        if act == "apply":
            want(key in self.enabled and self.map[key]["list"], f"entry {number}: an apply of {key} was accepted")
        elif (act == "enable") == (key in self.enabled):
            same(change, None, f"the change time of entry {number}, an {act} with no effect")
            return
        same(change, self.start(key, act, now), f"the change time of entry {number}, an {act}")
        self.acts[key] = now
        (self.enabled.discard if act == "disable" else self.enabled.add)(key)

    def start(self, key, act, now):
        """The change time that an act with effect answers; starts that are yet to come are void before an apply or a disable."""
        starts = self.starts.setdefault(key, [])
        if act != "enable":
            starts[:] = [start for start in starts if start[0] <= now]
        if act == "disable" or (act == "enable" and not starts):
            return None
        record = dict(self.map[key]) if act == "apply" else starts[-1][1]
        starts.append((change_time(record, now), record))
        return starts[-1][0]


def go_through(members):
    """Goes through all entries of all members in their order; gives them, and the configuration at the end."""
    entries, commands, changes = {}, {}, {}
    for member in members:
        want(not entries.keys() & member.entries.keys(), "an entry number was given twice")
        entries.update(member.entries)
        commands.update(member.commands)
        changes.update(member.changes)
    same(sorted(entries), list(range(1, len(entries) + 1)), "the numbers of all entries")
    looks = sorted((look for member in members for look in member.looks), key=lambda look: look["from"], reverse=True)
    world, waiting = World(), []
    for number in range(len(entries) + 1):
        if number:
            entry = entries[number]
            getattr(world, entry["what"])(number, entry, commands[number], changes.get(number))
        while looks and looks[-1]["from"] <= number:
            waiting.append(looks.pop())
        waiting = [look for look in waiting if not look["is_so"](world)]
        late = [look for look in waiting if look["until"] is not None and look["until"] <= number]
        want(not late, f"never so before entry {number + 1}: {late[0]['text'] if late else ''}")
    want(not waiting, f"never so until the end: {waiting[0]['text'] if waiting else ''}")
    return [entries[number] for number in sorted(entries)], [commands[number] for number in sorted(commands)], world


def looks_at_the_end(session):
    """Commands that show all that the entries decide."""
    yield {"after": 0, "do": "since", "s": session}
    for kind in ("port", "filter", "gate", "meter"):
        yield {"do": "list", "kind": kind, "s": session}
    for key in KEYS:
        yield {"do": "show", "key": key, "s": session}
    for key in KEYS:
        if kind_of(key) in ("port", "gate"):
            for at in (LATE, LATE + 999, LATE + 123456789):
                yield {"at": at, "do": "states", "key": key, "s": session}


JOINED = itertools.count()


def join(server):
    """A new member, every second one by a name that nobody else has, with its connection."""
    number = next(JOINED)
    client = Client(server).hello(f"member {number}" if number % 2 else None)
    return Member(client.session), client
