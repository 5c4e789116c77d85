"""The image as docs/OPERATING.md lays it out, written here a second time: head of 64 bytes, device record, store."""
import hashlib
import pathlib

import model
from held import Failed, hold, same

MAGIC = b"RLADLE\0"
HIDDEN = {*range(0x20), *range(0x7f, 0xa0), 0xad, 0x61c, *range(0x200b, 0x2010), *range(0x2028, 0x202f), *range(0x2060, 0x2070), 0xfeff,
          *range(0xd800, 0xe000)}  # surrogates stand for bytes that are no UTF-8
RECORD_AT, STORE_AT = 64, 64 + model.RECORD


def used_of(store):
    """The number of blocks that are not blank."""
    return sum(any(store[at:at + model.BLOCK]) for at in range(0, len(store), model.BLOCK))


def image_of(box, layout=2):
    """The bytes of the image that holds a model's box."""
    digests = hashlib.sha1(box.record).digest() + hashlib.sha1(box.store).digest()
    used = used_of(box.store) if layout == 2 else 0
    head = MAGIC + bytes([layout]) + (len(box.store) // model.BLOCK).to_bytes(4, "big") + used.to_bytes(4, "big") + digests
    return head + (hashlib.sha1(head).digest()[:8] if layout == 2 else bytes(8)) + box.record + box.store


def box_of(data, layout=2):
    """The box that an image holds; fails where a digest, a length, the record or the store is wrong."""
    hold(f"an image of {len(data)} bytes", len(data) > STORE_AT)
    box = model.Box(data[STORE_AT:], data[RECORD_AT:STORE_AT])
    same("head of the image", data[:RECORD_AT], image_of(box, layout)[:RECORD_AT])
    hold("the record breaks an ACL rule", model.table_of(box.record) is not None)
    hold("the store breaks a block rule", model.entries_of(box.store) is not None)
    return box


def read(path):
    """The box of an image in a file."""
    try:
        return box_of(pathlib.Path(path).read_bytes())
    except OSError as why:
        raise Failed(f"the image can't be read: {why}") from None


def write(path, box):
    pathlib.Path(path).write_bytes(image_of(box))


def same_image(what, path, box):
    """The file holds exactly what the model's box holds."""
    data = pathlib.Path(path).read_bytes()
    if data != image_of(box):
        got = box_of(data)
        same(f"{what}: table", model.table_of(got.record), model.table_of(box.record))
        same(f"{what}: entries", model.entries_of(got.store), model.entries_of(box.store))
        same(f"{what}: image", data, image_of(box))


def formatted(key, blocks=128):
    """The model's box as `format` makes it."""
    box = model.Box(bytes(blocks * model.BLOCK), b"")
    hold("the model formats", model.format_box(box, key) == 0)
    return box


def text(data):
    """Bytes as the program prints them: control characters, what is not seen, and what is no UTF-8 as escapes."""
    def one(character):
        if ord(character) in HIDDEN:
            return "".join(f"\\x{byte:02x}" for byte in character.encode(errors="surrogateescape"))
        return "\\\\" if character == "\\" else character
    return "".join(map(one, data.decode(errors="surrogateescape")))
