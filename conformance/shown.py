"""Calls, and what there is after them, in words."""
import model
from box import reply_of
from messages import Fixed
from shrink import loose

CODES = {code: name for name, code in model.STATUS.items()}
REFUSALS = {number: name for name, number in model.REFUSALS.items()}


def text(data):
    if len(data) > 80:
        return f"{text(data[:64])} .. ({len(data)} bytes)"
    return repr(data)[1:] if all(32 <= c < 127 for c in data) else data.hex()


def tree_lines(items, indent):
    for item in items:
        if isinstance(item, bytes):
            yield f"{indent}bytes {text(item)}"
            continue
        longer = f" (tag {item.long_tag} longer, form {item.long_form} longer)" if item.long_tag or item.long_form else ""
        if isinstance(item.content, list):
            yield f"{indent}{item.number} {{{longer}"
            yield from tree_lines(item.content, indent + "  ")
            yield indent + "}"
        else:
            shown = item.content if isinstance(item.content, int) else ("fixed " if isinstance(item.content, Fixed) else "") + text(item.content)
            yield f"{indent}{item.number}: {shown}{longer}"


def store_lines(store):
    entries = model.entries_of(store)
    if entries is None:
        yield f"store: {len(store)} bytes that break a rule"
        yield from block_lines(store)
        return
    yield f"store: {len(store) // 512} blocks, {len(entries)} used"
    for entry in entries[:12]:
        yield f"  {text(entry.key)} version {text(entry.version)} tag {text(entry.tag)} algorithm {entry.algorithm} value {text(entry.value)}"
    if len(entries) > 12:
        yield "  .."


FOUND = {model.WAS_BLANK: "blank", model.CHECK_WRONG: "check wrong", model.RULE_BROKEN: "a rule broken, check right", model.KEY_TWICE: "key of an earlier one"}


def block_lines(store):
    """Each block of a store of a right length that breaks a rule, up to the first 12."""
    refusal, _, found = model.rescue(store, bytes(len(store) // model.BLOCK))
    for n, (block, how) in enumerate(zip(model.blocks_of(store), found if refusal == 0 else b"")):
        if n == 12:
            yield "  .."
            return
        entry = model.entry_of(block)
        yield f"  block {n}: {', '.join(filter(None, (FOUND.get(how), entry and text(entry.key))))}"


def record_lines(record):
    table = model.table_of(record)
    if table is None:
        yield "device record: breaks a rule"
        return
    yield f"device record: cluster version {table.cluster}"
    for acl in table.acls:
        scopes = ", ".join(f"{sorted(s.permissions)}" + (f" {text(s.value)} at {s.offset}" if s.value else "") + (" TlsRequired" if s.tls else "")
                           for s in acl.scopes)
        yield f"  identity {acl.identity}, key {text(acl.key)}: {scopes}"


def readings_lines(lent):
    readings = model.readings_of(lent)
    if readings is None:
        yield f"readings: {text(lent)} ({len(lent)} bytes), which break a rule"
        return
    yield f"readings: {len(readings.temperatures)} temperatures, {len(readings.utilizations)} utilizations"
    for reading in readings.temperatures:
        yield f"  {text(reading.name)} unit {reading.unit} ({'Celsius' if reading.unit == 0 else 'Fahrenheit'}) {reading.bits:08x}"
    for reading in readings.utilizations:
        yield f"  {text(reading.name)} {reading.bits:08x}"


def call_lines(call):
    """What is lent to a call."""
    yield f"call: {call.name}" + (" (what has no bytes at NULL)" if call.null else "")
    for what, given in call.given.items():
        if what == "store":
            yield from store_lines(given)
        elif what == "record" and call.name == "answer":
            yield from record_lines(given)
        elif what == "connection" and call.name == "answer":
            its = model.connection_of(given)
            yield f"connection: number {its.number}, {'protected' if its.protected else 'plain'}{', closed' if its.closed else ''}, last sequence {its.last}"
        elif what == "readings":
            yield from readings_lines(given)
        elif what == "input":
            yield from input_lines(given)
        else:
            yield f"{what}: {text(given) if isinstance(given, bytes) else given}" + (f" ({len(given)} bytes)" if isinstance(given, bytes) else "")


def input_lines(data):
    how, message, value = model.framed(data)
    yield f"input: {len(data)} bytes, {data[:200].hex()}{'..' if len(data) > 200 else ''}"
    if how == "WHOLE":
        yield f"  a frame: message of {len(message)}, value part of {len(value)}, {len(data) - 9 - len(message) - len(value)} bytes after it"
        yield from tree_lines(loose(message, "Message"), "    ")


def after_line(call, after):
    """What a call gave."""
    if isinstance(after, str):
        return after
    if call.name != "answer":
        told = [what for what in ("digest", "part", "connection", "report") if what in after]
        return f"returned {after['returned']}" + "".join(f", {what} {text(after[what])}" for what in told)
    if after["returned"]:
        return f"refusal {after['returned']} {REFUSALS.get(after['returned'], '')}"
    reply, taken = reply_of(after)
    try:
        told = model.decode("Message", model.framed(reply)[1])
        command = model.decode("Reply", told[7])
        code = command[3].get(1)
        words = f"{CODES.get(code)} ({code})" + (", closing" if told.get(4) == 3 else "") + f", header {command[1]}, body {command.get(2)}"
    except (model.Refused, KeyError, TypeError):
        words = "a reply that can't be read"
    return f"{words}; took {taken}, wrote {len(reply)}: {reply[:300].hex()}{'..' if len(reply) > 300 else ''}"


def difference_lines(call, wanted, got):
    """What is not the same after a call, by document 01 and by the box."""
    if isinstance(got, str):
        yield f"the box: {got}"
        return
    for what in wanted:
        if wanted[what] != got.get(what):
            a, b = wanted[what], got.get(what)
            if not isinstance(a, bytes) or not isinstance(b, bytes) or len(a) != len(b):
                a, b = (x if isinstance(x, int) else f"{len(x or b'')} bytes" for x in (a, b))
                yield f"  {what}: {a} by document 01, {b} by the box"
                continue
            places = [n for n in range(len(a)) if a[n] != b[n]]
            first = places[0]
            touched = "" if what not in call.given or a != call[what] else " (which a box leaves as it was here)"
            a, b = (x[first:first + 24].hex() for x in (a, b))
            yield f"  {what}{touched}: {len(places)} bytes differ, the first at {first}: {a} by document 01, {b} by the box"
