"""What of a list of events isn't as Chrome's trace event format wants it, and as a run must be drawn."""
import collections
import numbers

# Of each kind of event the names that it must have, beside its `ph`.
NEEDED = {
    "M": ("name", "pid", "args"),
    "b": ("name", "cat", "id", "pid", "tid", "ts"),
    "e": ("name", "cat", "id", "pid", "tid", "ts"),
    "X": ("name", "pid", "tid", "ts", "dur"),
    "s": ("name", "cat", "id", "pid", "tid", "ts"),
    "f": ("name", "cat", "id", "pid", "tid", "ts", "bp"),
    "i": ("name", "pid", "tid", "ts", "s"),
    "C": ("name", "pid", "ts", "args"),
}
METADATA = {"process_name": "name", "thread_name": "name", "process_sort_index": "sort_index"}


def is_number(it):
    return isinstance(it, numbers.Real) and not isinstance(it, bool)


def faults(document):
    """Each thing that isn't so, in words; nothing where all is."""
    if not isinstance(document, dict) or not isinstance(document.get("traceEvents"), list):
        return ["there is no list traceEvents"]
    events = document["traceEvents"]
    found = [why for it in events for why in of_event(it)]
    return found or [*of_slices(events), *of_arrows(events), *of_threads(events)]


def of_event(it):
    kind = it.get("ph")
    if kind not in NEEDED:
        return [f"no such kind of event: {it}"]
    lacking = [name for name in NEEDED[kind] if name not in it]
    if lacking:
        return [f"{kind} without {', '.join(lacking)}: {it}"]
    whole = all(isinstance(it[name], int) for name in ("pid", "tid") if name in it)
    times = all(is_number(it[name]) and it[name] >= 0 for name in ("ts", "dur") if name in it)
    wrong = (
        []
        if whole and times and isinstance(it["name"], str) and it["name"]
        else [f"a name, a number or a time that is none: {it}"]
    )
    if kind == "M" and METADATA.get(it["name"]) not in it["args"]:
        wrong.append(f"metadata that isn't known: {it}")
    if kind == "C" and not all(is_number(value) for value in it["args"].values()):
        wrong.append(f"a counter without a number: {it}")
    if kind == "i" and it["s"] not in ("g", "p", "t"):
        wrong.append(f"an instant without a scope: {it}")
    return wrong


def of_slices(events):
    """Each begin of a call's slices has its end, nested and in order, and what is within is within."""
    stacks = collections.defaultdict(list)
    for it in events:
        key = (it.get("cat"), it.get("id"))
        if it["ph"] == "b":
            if stacks[key] and it["ts"] < stacks[key][-1]["ts"]:
                yield f"begins before what it is in: {it}"
            stacks[key].append(it)
        elif it["ph"] == "e":
            begin = stacks[key].pop() if stacks[key] else None
            if begin is None or begin["name"] != it["name"] or begin["ts"] > it["ts"]:
                yield f"no begin of this end: {it}"
    yield from (f"never ends: {it[0]}" for it in stacks.values() if it)


def of_arrows(events):
    """Each arrow begins and ends once, in this order, and each end is bound to a slice that begins there."""
    slices = {(it["pid"], it["tid"], it["ts"]) for it in events if it["ph"] == "X"}
    begins = {it["id"]: it for it in events if it["ph"] == "s"}
    ends = [it["id"] for it in events if it["ph"] == "f"]
    if len(ends) != len(set(ends)) or set(ends) != set(begins):
        yield "an arrow doesn't begin and end once"
    for it in events:
        if it["ph"] in "sf" and (it["pid"], it["tid"], it["ts"]) not in slices:
            yield f"bound to no slice: {it}"
        if it["ph"] == "f" and it["id"] in begins and begins[it["id"]]["ts"] > it["ts"]:
            yield f"ends before it begins: {it}"


def of_threads(events):
    """Slices of one thread lie one behind the other."""
    by_thread = collections.defaultdict(list)
    for it in events:
        if it["ph"] == "X":
            by_thread[it["pid"], it["tid"]].append((it["ts"], it["ts"] + it["dur"], it))
    for spans in by_thread.values():
        spans.sort(key=lambda span: span[:2])
        for (_, end, _), (start, _, it) in zip(spans, spans[1:]):
            if start < end - 1e-6 * max(1, end):
                yield f"lies over the slice before it: {it}"
