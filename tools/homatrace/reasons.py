"""Why a call took what it took, in words: its phases, and what its hosts did meanwhile."""
import collections

from .calls import Calls
from .grants import grants_of, rivals
from .words import count

NAMED = 3  # so many other calls are named; the rest is counted
WORDS = {
    "first byte out": "waits for its first byte out",
    "unscheduled": "unscheduled",
    "waiting": "waits for grants",
    "granted": "granted",
    "repair": "repair",
    "served": "served",
    "response": "response",
    "response repair": "repair of the response",
}
ENDS = {
    "done": "It is done",
    "timeout": "It failed by timeout",
    "forgotten": "It failed as forgotten",
    "restart": "Its client's restart ended it",
    "open": "It isn't over",
}


def named(calls):
    """Some calls by their names, the others by their number."""
    calls = list(calls)
    more = len(calls) - NAMED
    return ", ".join(calls[:NAMED]) + (f" and {more} other{'s' if more > 1 else ''}" if more > 0 else "")


def ticks(many):
    return "1 tick" if many == 1 else f"{many:,} ticks"


class Story:
    """A trace with its calls, for questions about one of them."""

    def __init__(self, reader):
        self.reader, self.calls, self.lines = reader, Calls(reader), collections.defaultdict(list)
        for line in reader:
            self.calls.take(line)
            if line.packet is None and line.kind != "clock":
                self.lines[line.call].append((line.kind, line.tick, line.host_at, line.words))
        self.packets = reader.packets + reader.strange

    def slowest(self):
        """The call that took longest of those that are done."""
        return max((it for it in self.calls.all if it.state == "done"), key=lambda it: it.ticks, default=None)

    def named(self, name):
        return next((it for it in reversed(self.calls.all) if it.id == name), None)

    def phases(self, call):
        """Each phase that took time: its name, when it began and ended, and why."""
        settings = self.reader.settings
        for name, first, last in call.phases(settings["unsched"], self.reader.tick):
            if last > first:
                yield name, first, last, self.reason(call, name, first, last)

    def head(self, call):
        """What the call is, and how it ended."""
        response = "" if call.response is None else f"; {count(call.response)} come back"
        ends = f"host {call.client} calls service {call.service} of host {call.server}"
        what = f"{call.id}: {ends} with {count(call.request)}{response}."
        if call.end is None:
            age = ticks(self.reader.tick - call.start)
            return f"{what} {ENDS['open']} at the end, tick {self.reader.tick}, {age} behind its call."
        return f"{what} {ENDS[call.state]} after {ticks(call.ticks)}, from {call.start} to {call.end}."

    def summary(self, call):
        """The phase that took longest, and who is to blame."""
        found = list(self.phases(call))
        whole = sum(last - first for _, first, last, _ in found)
        if not found:
            return f"All of it is within tick {call.start}: a trace has no time within a tick."
        name, first, last, why = max(found, key=lambda it: it[2] - it[1])
        return f"Most of it, {last - first:,} of {ticks(whole)}: {WORDS[name]}. {why}"

    # ---- why

    def reason(self, call, name, first, last):
        if call.server in self.reader.elsewhere and name in ("waiting", "granted", "served", "repair"):
            return f"Host {call.server} is in another process: this trace doesn't say what it did."
        if name == "first byte out":
            return self.sent_by(call, call.client, first, last)
        if name == "waiting":
            return self.granted_by(call, call.server, first, last)
        if name == "served":
            return self.served(call, first, last)
        role = "s" if name.startswith("response") else "c"
        if name.endswith("repair"):
            return self.repaired(call, role, first, last)
        return self.carried(call, role, first, last)

    def of_call(self, call, role, kind, first, last):
        return [
            it
            for it in self.packets
            if it.id == call.id and it.role == role and it.kind == kind and first <= it.tick <= last
        ]

    def sent_by(self, call, host, first, last):
        """What a host sent of other messages in these ticks."""
        bytes_of = collections.Counter()
        for it in self.reader.packets:
            if it.kind == "DATA" and it.sender == host and it.id != call.id and first <= it.tick < last:
                bytes_of[it.id] += it.size
        if not bytes_of:
            return f"Host {host} sent nothing else meanwhile."
        much, calls = count(sum(bytes_of.values())), named(it for it, _ in bytes_of.most_common())
        return f"Host {host} sent {much} of other messages first: {calls}."

    def granted_by(self, call, host, first, last):
        """To whom a host granted in these ticks."""
        found = rivals(grants_of(self.reader), host, first, last, call.id)
        if not found:
            return f"Host {host} granted nobody else meanwhile."
        much, calls = count(sum(it[0] for _, it in found)), named(dict.fromkeys(it for (it, _), _ in found))
        return f"Host {host} granted {much} of others meanwhile: {calls}."

    def served(self, call, first, last):
        held = next((int(words[6]) for kind, _, _, words in self.lines[call.id] if kind == "run"), 0)
        if held:
            return f"The service holds its response for {ticks(held)}."
        return self.sent_by(call, call.server, first, last).replace("nothing else", "nothing of others")

    def carried(self, call, role, first, last):
        """Bytes that go without a GRANT, or with some; and what was lost of them."""
        sender, receiver = (call.client, call.server) if role == "c" else (call.server, call.client)
        sent = self.of_call(call, role, "DATA", first, last)
        grants = self.of_call(call, "s" if role == "c" else "c", "GRANT", first, last)
        levels = sorted({it.level for it in sent})
        said = (
            f"Host {sender} sent {count(sum(it.size for it in sent))}"
            if sent
            else f"Host {sender} sent nothing of it in these ticks"
        )
        said += f" at level{'s' if len(levels) > 1 else ''} {', '.join(map(str, levels))}" if levels else ""
        said += f"; host {receiver} sent {len(grants)} GRANT{'s' if len(grants) > 1 else ''}" if grants else ""
        longest = max((it.came - it.tick for it in sent if it.came is not None), default=0)
        said += f"; the slowest packet was {ticks(longest)} under way" if longest > 1 else ""
        return said + f"{self.lost_words(sent)}.{self.also(call, first, last)}"

    def lost_words(self, packets):
        lost = sum(self.reader.fate(it) == "lost" for it in packets)
        return f"; {lost} of {len(packets)} packets {'was' if lost == 1 else 'were'} lost" if lost else ""

    def repaired(self, call, role, first, last):
        """What was lost, who asked for it, and what was sent again."""
        sender, receiver = (call.client, call.server) if role == "c" else (call.server, call.client)
        asked = self.of_call(call, "s" if role == "c" else "c", "RESEND", first, last)
        again = [it for it in self.of_call(call, role, "DATA", first, last) if it.again]
        lost = [
            it
            for it in self.packets
            if it.id == call.id
            and it.role == role
            and it.kind == "DATA"
            and it.tick <= last
            and self.reader.fate(it) == "lost"
        ]
        said = f"{len(lost)} packet{'s' if len(lost) != 1 else ''} of it {'were' if len(lost) != 1 else 'was'} lost. "
        resends = f"{len(asked)} RESEND{'s' if len(asked) != 1 else ''}"
        said += f"Host {receiver} sent {resends}, host {sender} sent {count(sum(it.again for it in again))} again."
        return said + self.also(call, first, last)

    def also(self, call, first, last):
        """What else a trace says of the call in these ticks: refusals, a request that was given up, restarts of its
        server."""
        found = collections.Counter(
            kind
            for kind, tick, _, _ in self.lines[call.id]
            if kind in ("full", "gaps", "drop") and first <= tick <= last
        )
        restarts = [
            tick
            for kind, tick, host, _ in self.lines[None]
            if kind == "restart" and host == call.server and first <= tick <= last
        ]
        said = [
            f"{many} packet{'s' if many > 1 else ''} refused as {kind}"
            for kind, many in found.items()
            if kind != "drop"
        ]
        said += ["the request was given up"] if found["drop"] else []
        said += [f"host {call.server} restarted at tick {tick}" for tick in restarts]
        return f" Also: {', '.join(said)}." if said else ""
