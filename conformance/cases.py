"""The sample cases of a folder (answers.jsonl, calls.jsonl, cr5.jsonl, cr2.jsonl; README.md beside them has their form) as calls, with what each expects
there to be after it.

The cases are another model's answers. They speak of a table, not of a record: one that a record can't hold is left out and counted. Those of answers.jsonl
are older than change requests 1, 2 and 5: one that sends messageType 24 or body field 6, or a field twice that may now come twice, is left out and counted
too; request 2 changes the answer of none of them.
"""
import json
import pathlib

import box
import model
from messages import Field, levels, part
from shrink import loose

READINGS = bytes(model.READINGS)  # none lent


class LeftOut(Exception):
    """Why a case is left out."""


NOT_HELD, LOG, TWICE = "of a table that no record can hold", "of what change request 1 changes", "of what change request 5 changes"


def asks_for_log(message):
    """Whether a message, as a tree, has a command with messageType 24 or body field 6."""
    header, body = (part(message, 7, number) for number in (1, 2))
    return Field(7, 24) in header or any(isinstance(item, Field) and item.number == 6 for item in body)


def sends_twice(message):
    """Whether a message, as a tree, has a field twice at some depth that change request 5 lets come twice."""
    for kind, items, _ in levels(message):
        numbers = [item.number for item in items if isinstance(item, Field)]
        singular = {n for n, form in model.LISTED[kind].items() if form != "r" and (kind, n) not in model.REPEATED | model.ONCE}
        if any(numbers.count(number) > 1 for number in singular):
            return True
    return False


def older(data):
    """Raises where an input is a message of what change requests 1 or 5 change."""
    message = loose(model.framed(data)[1] or b"", "Message")
    if asks_for_log(message):
        raise LeftOut(LOG)
    if sends_twice(message):
        raise LeftOut(TWICE)


def unhexed(said):
    return [x if isinstance(x, int) else bytes.fromhex(x) for x in said]


def store_bytes(said):
    if isinstance(said, str):
        return bytes.fromhex(said)
    if "zeros" in said:
        return bytes(said["zeros"])
    data = bytearray(b"".join(model.block_of(model.Entry(*unhexed(e))) for e in said["entries"]).ljust(said["blocks"] * model.BLOCK, b"\0"))
    for place, change in said.get("patch", []):
        data[place:place + len(change) // 2] = bytes.fromhex(change)
    return bytes(data)


def record_bytes(said):
    """The record of a table, good or not: a length or a count that is too large stands in its byte all the same, with what its place can hold."""
    data = bytearray(model.record_of(model.Table(said["cluster"], ())))
    data[8] = len(said["acls"])
    for n, acl in enumerate(said["acls"][:8]):
        at, key = 16 + n * model.ACL_PLACE, bytes.fromhex(acl["key"])
        data[at:at + 8] = model.word(acl["identity"])
        data[at + 8], data[at + 9] = len(key), len(acl["scopes"])
        data[at + 16:at + 80] = key[:64].ljust(64, b"\0")
        for m, scope in enumerate(acl["scopes"][:4]):
            if len(scope["permissions"]) > 9:
                raise LeftOut(NOT_HELD)  # the mask holds the set, and no more than nine are named
            to, value = at + 80 + m * model.SCOPE_PLACE, bytes.fromhex(scope["value"])
            data[to], data[to + 1], data[to + 4] = scope["offset"], len(value), scope["tls"]
            data[to + 2:to + 4] = model.mask_of(set(scope["permissions"])).to_bytes(2, "big")
            data[to + 8:to + 72] = value[:64].ljust(64, b"\0")
    return bytes(data)


def connection_bytes(said):
    data = model.connect(said["number"], said["protected"])
    last = said["last"]
    return data[:9] + bytes([said["closed"], last is not None]) + data[11:16] + model.word(last or 0) + data[24:]


def answer_case(said):
    wanted, data = said["expect"], bytes.fromhex(said["input"])
    if "crs" not in said:
        older(data)
    readings = bytes.fromhex(said["readings"]) if "readings" in said else READINGS
    call = box.Call("answer", store=store_bytes(said["store"]), record=record_bytes(said["table"]), connection=connection_bytes(said["conn"]),
                    readings=readings, input=data, room=said["out_len"])
    after = {"returned": wanted["refusal"] or 0, "store": call["store"] if wanted["store"] == "same" else store_bytes(wanted["store"]),
             "record": call["record"] if wanted["table"] == "same" else record_bytes(wanted["table"]), "connection": connection_bytes(wanted["conn"]),
             "readings": readings, "input": data, "out": box.FILL[:call["room"]], "counts": box.FILL[:16]}
    if not wanted["refusal"]:
        reply = bytes.fromhex(wanted["reply"])
        after.update(out=reply + after["out"][len(reply):], counts=box.counted(wanted["taken"], len(reply)))
    return call, after


def other_case(said):
    """As `answer_case`; a block is compared as what a PUT of its entry leaves in a store of one."""
    wanted, name = said["expect"], said["call"]
    if name == "format":
        call = box.Call("format", store=b"\5" * said["store_len"], record=b"\7" * model.RECORD, key=bytes.fromhex(said["key"]))
        refused = bool(wanted["refusal"])
        return call, {"returned": wanted["refusal"] or 0, "store": call["store"] if refused else store_bytes(wanted["store"]),
                      "record": call["record"] if refused else record_bytes(wanted["table"]), "key": call["key"]}
    if name == "connect":
        call = box.Call("connect", connection=b"\7" * model.CONNECTION, number=said["number"], protected=int(said["protected"]))
        return call, {"returned": 0, "connection": connection_bytes(wanted)}
    if name == "local_read":
        call = box.Call("find", store=store_bytes(said["store"]), key=bytes.fromhex(said["key"]))
        returned = {"found": 0, "not found": 1, 2: 2}[wanted["answer"]]
        return call, {"returned": returned, "store": call["store"], "key": call["key"],
                      "part": box.FILL[:16] if returned else box.counted(wanted["start"], wanted["length"])}
    if name == "block":
        return block_case(model.Entry(*unhexed(said["entry"])), bytes.fromhex(wanted))
    if name == "sha1":
        text = bytes.fromhex(said["data"])
        return box.Call("sha1", text=text), {"returned": 0, "text": text, "digest": bytes.fromhex(wanted)}
    key, text = bytes.fromhex(said["key"]), bytes.fromhex(said["data"])
    returned = 0 if wanted else 1 if len(key) > 128 else 2
    return box.Call("hmac", key=key, text=text), {"returned": returned, "key": key, "text": text,
                                                  "digest": bytes.fromhex(wanted) if wanted else box.FILL[:20]}


def block_case(entry, wanted):
    key = b"k"
    part = model.message((2, entry.version), (3, entry.key), (5, entry.tag), (6, entry.algorithm or None))
    command = model.message((1, model.header_of(0, 1, model.TYPES["PUT"])), (2, model.message((1, part))))
    record = model.record_of(model.Table(0, (model.Acl(1, key, (model.Scope(frozenset(model.PERMISSIONS)),)),)))
    call = box.Call("answer", store=bytes(512), record=record, connection=model.connect(0, 0), readings=READINGS,
                    input=model.frame(model.signed(1, key, command), entry.value), room=4096)
    return call, {"store": wanted}


def read(folder):
    """Each case of a folder: its name, and the call with what is expected of things after it, or why it is left out."""
    for name, made in ("answers.jsonl", answer_case), ("cr5.jsonl", answer_case), ("cr2.jsonl", answer_case), ("calls.jsonl", other_case):
        for number, line in enumerate((pathlib.Path(folder) / name).read_text().splitlines()):
            said = json.loads(line)
            try:
                yield said.get("name") or f"{said['call']}, line {number + 1} of {name}", made(said)
            except LeftOut as why:
                yield said["name"], str(why)
