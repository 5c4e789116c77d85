"""What a test holds, with an account of what was there instead."""
import time

PATIENCE = 300  # seconds after which waiting is given up, for whatever: so long that a slow machine is not a fault


class Failed(Exception):
    """Something is not as it must be."""


class Lost(Failed):
    """A connection ended before a reply was there."""


def hold(what, true):
    if not true:
        raise Failed(what)


def shortly(data):
    """Bytes as hex, anything else as Python writes it; the beginning of what is long."""
    words = data.hex() if isinstance(data, bytes) else repr(data)
    return words if len(words) <= 400 else f"{words[:400]} .. ({len(data) if hasattr(data, '__len__') else len(words)} in all)"


def same(what, got, wanted):
    if got == wanted:
        return
    where = ""
    if isinstance(got, bytes) and isinstance(wanted, bytes):
        place = next((n for n, pair in enumerate(zip(got, wanted)) if pair[0] != pair[1]), min(len(got), len(wanted)))
        where = f"\n  {len(got)} bytes instead of {len(wanted)}, from byte {place} on"
        got, wanted = got[max(0, place - 8):], wanted[max(0, place - 8):]
    raise Failed(f"{what}{where}\n  got    {shortly(got)}\n  wanted {shortly(wanted)}")


def soon(what, true):
    """What must become true; gives what it became."""
    end = time.monotonic() + PATIENCE
    while time.monotonic() < end:
        is_so = true()
        if is_so:
            return is_so
        time.sleep(.02)
    raise Failed(f"not within {PATIENCE} seconds: {what}")
