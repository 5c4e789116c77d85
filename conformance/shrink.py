"""The smallest case that can be found on which a box still differs from the model: calls before it are dropped, then entries, ACLs, scopes, fields at any
depth (signed again where the message was), and bytes, as long as the difference stays."""
import dataclasses
import time

import model
from messages import INSIDE, SIGNED, Field, Fixed, encoded, levels, replaced, signed

TRIALS, SECONDS = 4000, 20


class Enough(Exception):
    pass


def shrunk(calls, differs):
    """A list of calls of which the last differs, and what `differs` says of such a list; a smaller one."""
    end, left = time.monotonic() + SECONDS, [TRIALS]

    def still(calls):
        left[0] -= 1
        if left[0] < 0 or time.monotonic() > end:
            raise Enough
        return differs(calls)

    best = [calls]
    try:
        fewer(best, still)
        smaller(best, still)
    except Enough:
        pass
    return best[0]


def fewer(best, still):
    """Calls before the last dropped: all, then the first half, then one by one."""
    if len(best[0]) > 1 and still(best[0][-1:]):
        best[0] = best[0][-1:]
        return
    size = len(best[0]) // 2
    while size:
        at = 0
        while at < len(best[0]) - 1:
            tried = best[0][:at] + best[0][min(at + size, len(best[0]) - 1):]
            if still(tried):
                best[0] = tried
            else:
                at += size
        size //= 2


def smaller(best, still):
    """The last call made smaller, greedily, until nothing helps."""
    again = True
    while again:
        again = False
        for step in STEPS:
            while True:
                for candidate in step(best[0][-1]):
                    if candidate != best[0][-1] and still(best[0][:-1] + [candidate]):
                        best[0] = best[0][:-1] + [candidate]
                        again = True
                        break
                else:
                    break


# ---- Candidates: each step gives calls that are smaller than the one given, the boldest first

def plainer(call):
    if call.null:
        yield call.changed(null=False)
    if call.given.get("room", 0) > model.ROOM:
        yield call.changed(room=model.ROOM)
    for what in "key", "text":
        if what in call.given:
            yield from (call.changed(**{what: data}) for data in shorter(call[what]))
    if any(call.given.get("report", b"")):
        yield call.changed(report=bytes(len(call["report"])))
    if "connection" in call.given and call.name == "answer":
        its = model.connection_of(call["connection"])
        for last, protected in (None, False), (its.last, False), (None, its.protected), (its.last, its.protected):
            data = model.connect(its.number, protected)
            data = data[:9] + bytes([its.closed, last is not None]) + data[11:16] + model.word(last or 0) + data[24:]
            if sum(map(bool, data)) < sum(map(bool, call["connection"])):
                yield call.changed(connection=data)


def with_store(call, store):
    """The call with a store that is not longer; a report of a byte for each block stays one."""
    report = call.given.get("report")
    if report is None or len(report) * model.BLOCK != len(call["store"]):
        return call.changed(store=store)
    return call.changed(store=store, report=report[:len(store) // model.BLOCK])


def plain_entries(entry):
    """Entries of the same key with less in them."""
    some = (model.Entry(entry.key), model.Entry(entry.key, entry.version),
            model.Entry(entry.key, entry.version, entry.tag, entry.algorithm, entry.value[:1]))
    return [plain for plain in some if plain != entry]


def bad_stores(store):
    """Stores smaller than one that breaks a rule: blocks left out, blanked, or with less in them."""
    for at in range(0, len(store), model.BLOCK):
        before, block, rest = store[:at], store[at:at + model.BLOCK], store[at + model.BLOCK:]
        entry = model.entry_of(block) if len(block) == model.BLOCK else None
        if before or rest:
            yield before + rest
        if any(block):
            yield before + bytes(len(block)) + rest
        yield from (before + model.block_of(plain) + rest for plain in (plain_entries(entry) if entry else []))


def good_stores(store, entries):
    blank = len(store) // model.BLOCK - len(entries)
    for count in {0, 1, blank - 1} & set(range(blank)):
        if entries or count:
            yield model.store_of(entries, (len(entries) + count) * model.BLOCK)
    for size in (len(entries) // 2, 1):
        for at in range(0, len(entries) if size else 0, size or 1):
            yield model.store_of(entries[:at] + entries[at + size:], len(store))
    for n, entry in enumerate(entries):
        yield from (model.store_of(entries[:n] + [plain] + entries[n + 1:], len(store)) for plain in plain_entries(entry))


def stores(call):
    store = call.given.get("store")
    if store is None:
        return
    entries = model.entries_of(store)
    yield from (with_store(call, other) for other in (bad_stores(store) if entries is None else good_stores(store, entries)))


def records(call):
    record = call.given.get("record")
    table = model.table_of(record) if record is not None else None
    if table is None:
        return
    plain = model.record_of(table)
    if plain != record:
        yield call.changed(record=plain)
    for n, acl in enumerate(table.acls):
        rest = table.acls[:n], table.acls[n + 1:]
        others = [()] if len(table.acls) > 1 else []
        others += [(model.Acl(acl.identity, acl.key, acl.scopes[:m] + acl.scopes[m + 1:]),) for m in range(len(acl.scopes)) if len(acl.scopes) > 1]
        for m, scope in enumerate(acl.scopes):
            plainer_scopes = [model.Scope(frozenset({min(scope.permissions)})), model.Scope(scope.permissions)]
            for other in plainer_scopes + [model.Scope(scope.permissions, scope.offset, scope.value)]:
                if other != scope:
                    others.append((model.Acl(acl.identity, acl.key, acl.scopes[:m] + (other,) + acl.scopes[m + 1:]),))
        for other in others:
            yield call.changed(record=model.record_of(model.Table(table.cluster, rest[0] + other + rest[1])))


def readings(call):
    lent = call.given.get("readings")
    if lent is None:
        return
    its = model.readings_of(lent)
    if its is None:
        yield call.changed(readings=lent[:model.READINGS])
        return
    if model.readings_bytes(its) != lent:
        yield call.changed(readings=model.readings_bytes(its))
    for name in "temperatures", "utilizations":
        some = getattr(its, name)
        for n, reading in enumerate(some):
            for other in (), (model.Reading(reading.name[:1], reading.bits, min(reading.unit, 1)),), (model.Reading(reading.name[:1], 0),):
                if other != (reading,):
                    yield call.changed(readings=model.readings_bytes(dataclasses.replace(its, **{name: some[:n] + other + some[n + 1:]})))


def shorter(data):
    """Bytes with parts left out: all, halves, quarters, .. single bytes."""
    size = len(data)
    while size:
        for at in range(0, len(data), size):
            yield data[:at] + data[at + size:]
        size = size // 2 if len(data) <= 256 or size > 16 else 0


def inputs(call):
    data = call.given.get("input")
    if not data:
        return
    how, message, value = model.framed(data)
    if how != "WHOLE":
        yield from (call.changed(input=less) for less in shorter(data))
        return
    whole = 9 + len(message) + len(value)
    if len(data) > whole:
        yield call.changed(input=data[:whole])
        yield call.changed(input=data[:whole + 1])
    yield from (call.changed(input=model.frame(message, less) + data[whole:]) for less in shorter(value))
    items, key = signed_tree(call, message)
    for other in smaller_trees(items):
        yield call.changed(input=model.frame(signed(other, key), value) + data[whole:])


def signed_tree(call, message):
    """A message as a tree, whose hmac is made again where it was right, and the key."""
    items, told, table = loose(message, "Message"), model.decoded("Message", message), model.table_of(call["record"])
    if told is None or table is None or 5 not in told or 7 not in told:
        return items, b""
    acl = next((acl for acl in table.acls if acl.identity == told[5].get(1)), None)
    if acl is None or told[5].get(2) != model.hmac_of(acl.key, told[7]):
        return items, b""
    return [with_digest(item, told[5][2]) for item in items], acl.key


def with_digest(item, digest):
    """An item of a message, where it is an HMACauth with this hmac marked to be signed again."""
    if not isinstance(item, Field) or item.number != 5 or not isinstance(item.content, list):
        return item
    return item._replace(content=[inner._replace(content=SIGNED) if isinstance(inner, Field) and (inner.number, inner.content) == (2, digest) else inner
                                  for inner in item.content])


def loose(data, kind):
    """Bytes as a tree, whatever they are: what can't be read stands as it is at the end."""
    items, at = [], 0
    try:
        while at < len(data):
            item, at = loose_field(data, at, kind)
            items.append(item)
    except model.Refused:
        items.append(data[at:])
    return items if encoded(items) == data else [data]


def loose_field(data, start, kind):
    tag, at = model.read_varint(data, start)
    number, wire, long_tag = tag >> 3, tag & 7, at - start - len(model.varint(tag))
    if number == 0 or tag >= 1 << 32 or wire not in (0, 1, 2, 5):
        raise model.Refused
    if wire in (1, 5):
        size = 8 if wire == 1 else 4
        if len(data) - at < size:
            raise model.Refused
        return Field(number, Fixed(data[at:at + size]), long_tag), at + size
    n, end = model.read_varint(data, at)
    long_form = end - at - len(model.varint(n))
    if wire == 0:
        return Field(number, n - model.WORD if n >> 63 else n, long_tag, long_form), end
    if len(data) - end < n:
        raise model.Refused
    content, inner = data[end:end + n], INSIDE.get((kind, number))
    return Field(number, loose(content, inner) if inner else content, long_tag, long_form), end + n


def smaller_trees(items):
    for _, level, way in list(levels(items)):
        for place, item in enumerate(level):
            for other in [[]] + [[one] for one in smaller_items(item)]:
                yield replaced(items, way, level[:place] + other + level[place + 1:])


def smaller_items(item):
    if isinstance(item, bytes):
        yield from shorter(item)
        return
    if item.long_tag or item.long_form:
        yield item._replace(long_tag=0, long_form=0)
    if isinstance(item.content, int) and item.content not in (0, 1):
        yield item._replace(content=0)
        yield item._replace(content=1)
    elif isinstance(item.content, bytes) and not isinstance(item.content, Fixed):
        yield from (item._replace(content=less) for less in shorter(item.content))


STEPS = [plainer, stores, records, readings, inputs]
