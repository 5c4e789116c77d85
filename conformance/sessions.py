"""Seeded random calls. Each function plays one session: it gives calls, each with what is to be held of the box's own answers, and takes what there is
after a call by document 01, from which it goes on. A session is drawn from its generator of random numbers alone, so that it can be played again.

    sessions   several connections and identities, all operations, mostly good, so that state builds up; in two of five boxes tenants, whose keys stand by
               turns and who are shown some of them; the store damaged and rescued from time to time
    damaged    the same with messages damaged: bits turned, bytes cut, put in, moved; with and without signing again
    unknown    the same with unlisted fields put in at every depth, and with fields sent again: the box answers as it does without; in the security part
               an unlisted field, a singular one sent again, or a second Security is INVALID_REQUEST
    calls      format, connect, find, rescue, sha1 and hmac

In all of them but the last, fields come twice in some of the messages (`repeated`).
"""
import dataclasses

import messages
import model
from box import Call, reply_of
from messages import HEADER, KEYVALUE, Field, Fixed, encoded, levels, part, replaced, request, sub, table_tree, tree

MOST, LEAST = (1 << 63) - 1, -1 << 63
EDGES = [0, 1, 2, 3, 5, 9, 32, 33, 63, 64, 65, 127, 128, 255, 256, (1 << 31) - 1, 1 << 31, 1 << 32, MOST, -1, -2, -(1 << 31), -(1 << 31) - 1, LEAST]
LENGTHS = [0, 1, 2, 15, 16, 17, 31, 32, 33, 63, 64, 65, 66, 383, 384, 385]
OPERATIONS = {"PUT": 30, "GET": 8, "GETVERSION": 4, "GETNEXT": 9, "GETPREVIOUS": 9, "GETKEYRANGE": 14, "DELETE": 12, "SETUP": 3, "GETLOG": 7, "SECURITY": 4,
              "NOOP": 3, "FLUSHALLDATA": 2}
PART = {**dict.fromkeys(("PUT", "GET", "GETVERSION", "GETNEXT", "GETPREVIOUS", "DELETE"), 1), "GETKEYRANGE": 2, "SETUP": 3, "GETLOG": 6, "SECURITY": 7}
# What a tenant may do with any key: all but to read and list.
ANY_KEY = frozenset(model.PERMISSIONS - {model.READ, model.RANGE})
# Bits of f32: zeros, subnormals, ends, infinities, no numbers, and numbers near those that a site has.
BITS = [0, 1 << 31, 1, 0x80000001, 0x007fffff, 0x00800000, 0x7f7fffff, 0xff7fffff, 0x7f800000, 0xff800000, 0x7fc00000, 0x7f800001, 0xffffffff, 0x3f800000,
        0x3f000000, 0x42000000, 0x41ffffff, 0x42000001, 0x42c53333, 0x43540000, 0xc3e5d5c3, 0x7e4ccccc, 0x7e4ccccd, 0x4e000001, 0x4e000002]


class Site:
    """What a host lends, and what clients of it draw by chance: `r` is the generator of random numbers."""

    def __init__(self, r):
        self.r = r
        self.shared = r.random() < .4  # by tenants
        self.keys = self.drawn_keys()
        self.store = self.drawn_store()
        self.record = self.drawn_record()
        self.connections = [self.drawn_connection() for _ in range(r.choice((1, 2, 3)))]
        self.readings = self.drawn_readings()

    # -- lent state

    def some(self, most, letters=b"ab\0\xff"):
        return bytes(self.r.choices(letters, k=self.r.randrange(most + 1)))

    def drawn_keys(self):
        r = self.r
        if self.shared:
            return [b"%02d/" % n + whose for n in range(r.choice((3, 6, 12))) for whose in (b"a", b"b", b"c")[:r.choice((2, 3))]]
        keys = [b"a", b"ab", b"abc", b"b", b"\0", b"\xff" * 64, b"a" * 64, b"a\0", b"key", b"key0", b"key1"]
        return r.sample(keys, r.choice((3, 5, 8, 11))) + [b"k" + self.some(63) for _ in range(r.choice((0, 0, 3, 30)))]

    def entry(self, key):
        r = self.r
        return model.Entry(key, self.some(r.choice((0, 1, 16))), self.some(r.choice((0, 4, 32))), r.randrange(7), self.some(r.choice((0, 9, 384))))

    def drawn_store(self):
        r = self.r
        blocks = r.choice((6, 12, 24, 40) if self.shared else (1, 2, 3, 4, 4, 6, 8, 12) * 6 + (40, 127, 128))
        if blocks > 12 and not self.shared:
            self.keys = [b"k%03d" % n + self.some(8) for n in range(150)]
        used = r.sample(self.keys, min(len(set(self.keys)), r.choice((0, 1, blocks // 2, blocks, blocks))))
        return model.store_of([self.entry(key) for key in sorted(set(used))[:blocks]], blocks * model.BLOCK)

    def scope(self):
        r = self.r
        permissions = model.PERMISSIONS if r.random() < .6 else r.sample(sorted(model.PERMISSIONS), r.choice((1, 2, 4, 8)))
        value = b"" if r.random() < .6 else r.choice(self.keys)[:r.choice((1, 1, 2, 64))]
        return model.Scope(frozenset(permissions), r.choice((0, 0, 0, 0, 1, 3, 64)), value, r.random() < .15)

    def narrow(self):
        """A scope to read or list by, or both, that fits those keys alone which have the same bytes at a place as one of them."""
        r, key = self.r, self.r.choice(self.keys)
        place = r.choice((0, 3, 3, 3, r.randrange(6))) % len(key)
        permissions = r.choice(({model.READ, model.RANGE}, {model.READ, model.RANGE}, {model.READ}, {model.RANGE}))
        return model.Scope(frozenset(permissions), place, key[place:place + r.choice((1, 1, 1, 1, 2, 64))], r.random() < .2)

    def acl(self, identity):
        r = self.r
        scopes = tuple(self.scope() for _ in range(r.choice((1, 1, 1, 2, 4))))
        if r.random() < (.7 if self.shared else .1):
            scopes = (model.Scope(ANY_KEY), *(self.narrow() for _ in range(r.choice((1, 2, 2, 3)))))
        elif r.random() < .6:
            scopes = (model.Scope(frozenset(model.PERMISSIONS)),) + scopes[1:]
        return model.Acl(identity, bytes(r.randrange(256) for _ in range(r.choice((1, 5, 20, 20, 63, 64)))), scopes)

    def table(self):
        r = self.r
        identities = r.sample([0, 1, 2, 3, -1, -2, 100, MOST, LEAST, 1 << 32, 256], r.choice((1, 2, 3, 8)))
        return model.Table(r.choice((0, 0, 0, 1, -1, 7, MOST, LEAST)), tuple(map(self.acl, identities)))

    def drawn_record(self):
        """A record, sometimes with bytes that its layout doesn't use at random."""
        r, table = self.r, self.table()
        data = bytearray(model.record_of(table))
        if r.random() < .3:
            free = [*range(9, 16), *range(16 + len(table.acls) * model.ACL_PLACE, model.RECORD)]
            for n, acl in enumerate(table.acls):
                at = 16 + n * model.ACL_PLACE
                free += [*range(at + 10, at + 16), *range(at + 16 + len(acl.key), at + 80), *range(at + 80 + len(acl.scopes) * 72, at + 368)]
                for m, scope in enumerate(acl.scopes):
                    free += [*range(at + 85 + m * 72, at + 88 + m * 72), *range(at + 88 + m * 72 + len(scope.value), at + 152 + m * 72)]
            for place in free:
                data[place] = r.randrange(256)
        return bytes(data)

    def drawn_connection(self):
        r = self.r
        data = bytearray(model.connect(r.choice((0, 1, 7, -1, MOST, LEAST, r.randrange(LEAST, MOST))), r.random() < .4))
        if r.random() < .2:
            data[8], data[11:16], data[24:] = r.choice((0, 1, 255)), r.randbytes(5), r.randbytes(8)
        return bytes(data)

    def bits(self):
        r = self.r
        return r.choice((r.choice(BITS), r.getrandbits(32), r.randrange(0x41000000, 0x43c00000) | r.getrandbits(1) << 31))

    def drawn_readings(self):
        """Lent readings, sometimes with places that don't count and bytes after the names at random."""
        r = self.r

        def some(most):
            return tuple(model.Reading(r.randbytes(r.choice((1, 3, 15, 16))) if r.random() < .5 else r.choice((b"HDA", b"EN0", b"board")), self.bits(),
                                       r.choice((0, 0, 1, 1, 255))) for _ in range(r.randrange(most + 1)))
        its = model.Readings(some(model.MOST_TEMPERATURES), some(model.MOST_UTILIZATIONS))
        data = bytearray(model.readings_bytes(its))
        if r.random() < .4:
            counted = [*range(len(its.temperatures)), *range(4, 4 + len(its.utilizations))]
            for place in range(6):
                at = 2 + place * model.READING_PLACE
                free = range(at + 2 + data[at + 1], at + 18) if place in counted else range(at, at + model.READING_PLACE)
                for n in free:
                    data[n] = r.randrange(256)
        return bytes(data)

    # -- requests

    def versioned(self, key):
        """The version that is stored under a key."""
        entries = model.entries_of(self.store) or []
        return next((entry.version for entry in entries if entry.key == key), b"")

    def key_value(self, operation):
        r = self.r
        key = r.choice(self.keys)
        entries = model.entries_of(self.store)
        if operation in ("GET", "GETVERSION", "DELETE") and entries and r.random() < .7:
            key = r.choice(entries).key
        version = self.versioned(key) if r.random() < .9 else self.some(16)
        part = tree((3, key))
        if operation == "PUT":
            part += tree((2, self.some(16) if r.random() < .6 else None), (5, self.some(32) if r.random() < .5 else None),
                         (6, r.randrange(1, 7) if r.random() < .5 else None))
        if version or r.random() < .1:
            part += tree((4, version))
        if r.random() < .15:
            part += tree((8, r.choice((0, 1, 1, 1 << 40))))
        if r.random() < .15:
            part += tree((7, r.choice((0, 1)) if operation not in ("PUT", "DELETE") else 0))
        if r.random() < .1:
            part += tree((9, r.choice((1, 2, 3))))
        return part

    def range(self):
        r = self.r
        ends = [r.choice(self.keys)[:r.choice((64, 64, 2, 0))] for _ in "12"]
        if r.random() < .8:
            ends.sort()
        if r.random() < .2:
            ends[1] = ends[0]
        elif r.random() < .3:
            ends = [b"", b"\xff" * 64]
        return tree((1, ends[0]), (2, ends[1]), *((number, r.choice((None, 0, 1, 2))) for number in (3, 4)), (5, r.choice((None, None, 0, 1, 2, 3, 31, 32))),
                    (6, r.choice((None, 0, 1))))

    def log(self):
        r = self.r
        types = r.choices((0, 1, 2, 6), k=r.choice((1, 1, 2, 4, 6)))
        if r.random() < .15:
            types[r.randrange(len(types))] = r.choice((3, 4, 5, 7, 7))
        return tree(*((1, kind) for kind in types))

    def body(self, operation):
        r, part = self.r, PART.get(operation)
        made = {1: lambda: self.key_value(operation), 2: self.range, 3: lambda: tree((1, r.choice((None, 0, 0, 1, -1, 7, r.choice(EDGES))))),
                6: self.log, 7: lambda: sub(table_tree(self.table()), 7)}
        items = [Field(number, make()) for number, make in made.items() if number == part or r.random() < .03]
        return items if items or r.random() < .1 else None

    def request(self, connection):
        """A request that is mostly good, by an identity of the table, on a connection."""
        r = self.r
        table, its = model.table_of(self.record), model.connection_of(connection)
        operation = r.choices(list(OPERATIONS), list(OPERATIONS.values()))[0]
        acl = r.choice(table.acls)
        tenants = [acl for acl in table.acls if acl.scopes[0].permissions == ANY_KEY]
        if operation in ("GETNEXT", "GETPREVIOUS", "GETKEYRANGE") and tenants and r.random() < .7:
            acl = r.choice(tenants)
        sequence = r.choice((0, 1, -5, 1 << 40)) if its.last is None else min(MOST, its.last + r.choice((1, 1, 1, 2, 100)))
        cluster = table.cluster if table.cluster or r.random() < .2 else None
        made = request(operation, self.body(operation), self.some(384) if operation == "PUT" else b"", acl.identity, acl.key, its.number, sequence, cluster)
        if r.random() < .15:
            extra = [(6, r.choice(EDGES)), (9, r.choice(EDGES)), (10, r.choice((0, 1))), (12, r.choice((1, 3, 5, 7, 9))), (13, r.choice(EDGES))]
            made = made.adding(*r.sample(extra, r.choice((1, 2, 5))), to=HEADER)
        if r.random() < .05:
            made = made.adding((3, self.some(9)), to=(7,))
        if r.random() < .05:
            made = made.adding((6, self.some(9)))
        return made

    def twisted(self, made):
        """A request with something changed: fields left out, doubled, moved, with another number, wire type or content; or another signature."""
        r = self.r
        for _ in range(r.choice((1, 1, 1, 2, 3))):
            made = r.choice((self.with_edge, self.with_edge, self.with_item, self.with_item, self.with_order, self.with_fact, self.with_fact))(made)
        return made

    def with_edge(self, made):
        """Another number, or bytes of another length, in some field."""
        r = self.r
        _, items, way = r.choice([level for level in levels(made.message) if any(isinstance(i, Field) and not isinstance(i.content, list) for i in level[1])])
        place = r.choice([n for n, i in enumerate(items) if isinstance(i, Field) and not isinstance(i.content, list)])
        item = items[place]
        content = r.choice(EDGES) if isinstance(item.content, int) else r.choice(self.keys + [b"x" * n for n in LENGTHS])
        if isinstance(item.content, int) and r.random() < .4:
            content = max(LEAST, min(MOST, item.content + r.choice((-1, 1))))
        return self.at_level(made, way, items[:place] + [item._replace(content=content)] + items[place + 1:])

    def with_item(self, made):
        """A field left out, doubled, or with another number or wire type; or one put in."""
        r = self.r
        kind, items, way = r.choice(list(levels(made.message)))
        place = r.randrange(len(items) + 1)
        listed = list(model.LISTED.get(kind, {1: "s"}))
        content = r.choice((r.choice(EDGES), self.some(4), Fixed(b"\1\0\0\0"), Fixed(b"\1" + bytes(7)), []))
        new = Field(r.choice(listed + [20]), content)
        if place == len(items) or r.random() < .3:
            return self.at_level(made, way, items[:place] + [new] + items[place:])
        item = items[place]
        how = r.choice(("out", "twice", "number", "content"))
        if isinstance(item, bytes) or how == "out":
            other = []
        else:
            other = {"twice": [item, item], "number": [item._replace(number=r.choice(listed + [20]))], "content": [item._replace(content=content)]}[how]
        return self.at_level(made, way, items[:place] + other + items[place + 1:])

    def with_order(self, made):
        r = self.r
        _, items, way = r.choice(list(levels(made.message)))
        items = list(items)
        r.shuffle(items)
        return self.at_level(made, way, items)

    def with_fact(self, made):
        """Something that document 01 judges, beside the single fields."""
        r = self.r
        hows = ["key", "digest", "identity", "sequence", "connection", "cluster", "type", "value", "metadata"]
        if any(kind == "Security" for kind, _, _ in levels(made.message)):
            hows = ["permissions", "offset", "hmac algorithm", "hmac algorithm", "count"]
        how = r.choice(hows)
        if how == "key":
            return dataclasses.replace(made, key=self.some(64))
        if how == "digest":
            return made.at(5, f2=r.choice((b"", bytes(20), model.hmac_of(made.key, b"")[:19], None)))
        if how == "value":
            return made.valued(b"w" * r.choice((1, 384, 385, 1024, 1025)))
        if how in ("permissions", "offset", "hmac algorithm", "count"):
            return self.with_acl_fact(made, how)
        if how == "metadata":
            return made.at(*KEYVALUE, f7=1)
        if how == "identity":
            return made.at(5, f1=r.choice(EDGES))
        if how == "sequence":
            now = sub(part(made.message, *HEADER), 4)
            return made.at(*HEADER, f4=max(LEAST, now - r.choice((1, 1, 2, 100))) if isinstance(now, int) else r.choice(EDGES))
        number, content = {"connection": (3, r.choice(EDGES)), "cluster": (1, r.choice((None, *EDGES))), "type": (7, r.randrange(-2, 50))}[how]
        return made.at(*HEADER, **{f"f{number}": content})

    def with_acl_fact(self, made, how):
        r = self.r
        found = [(kind, items, way) for kind, items, way in levels(made.message) if kind == {"hmac algorithm": "ACL", "count": "Security"}.get(how, "Scope")]
        if not found:
            return made
        kind, items, way = r.choice(found)
        if how == "permissions":
            items = [i for i in items if i.number != 3] + [Field(3, r.choice((0, 1, 2, 3, 4, 5, 7, 8, 9))) for _ in range(r.choice((0, 1, 9, 10)))]
        elif how == "offset":
            items = messages.put_in(items, 1, r.choice((-1, 0, 64, 65, *EDGES)))
        elif how == "hmac algorithm":
            items = messages.put_in(items, 3, r.choice((0, 1, 1, 2, -1)))
        else:
            items = (items * 9)[:r.choice((0, 1, 8, 9))]
        return self.at_level(made, way, items)

    @staticmethod
    def at_level(made, way, items):
        return dataclasses.replace(made, message=replaced(made.message, way, items))

    # -- calls

    def call(self, n, data, room=model.ROOM):
        return Call("answer", store=self.store, record=self.record, connection=self.connections[n], readings=self.readings, input=data, room=room)

    def went(self, n, after):
        """The state goes on; a connection that was closed is made anew."""
        self.store, self.record, self.connections[n] = after["store"], after["record"], after["connection"]
        if self.r.random() < .2:
            self.readings = self.drawn_readings()
        if self.connections[n][9]:
            self.connections[n] = self.drawn_connection()

    def turn(self):
        return self.r.randrange(len(self.connections))


def nothing_more(after):
    """The model says it all."""
    return None


def sessions(r):
    site = Site(r)
    for _ in range(40):
        n = site.turn()
        made = site.request(site.connections[n])
        if r.random() < .3:
            made = repeated(r, made)
        if r.random() < .25:
            made = site.twisted(made)
        data = made.bytes()
        if r.random() < .1:
            data += r.choice((data, data[:20], b"\0", b"\x46"))
        room = model.ROOM if r.random() < .95 else r.choice((0, 4095, 4097, 5000, 8192))
        after = yield site.call(n, data, room), nothing_more
        if r.random() < .06:
            yield from spoilt(site, n, data)
        if r.random() < .03:
            yield site.call(n, data[:r.randrange(len(data) + 1)]), nothing_more
        site.went(n, after)
        if r.random() < .05:
            yield from damaged_and_rescued(site, n)


def sealed(block):
    """A block with its check made right."""
    return bytes(block[:508]) + model.check_of(block[:508])


def spoilt(site, n, data):
    """The call with a byte of what is lent changed: it goes on as if it had not been."""
    r = site.r
    call = site.call(n, data)
    what = r.choice(("store", "store", "record", "record", "connection", "readings", "readings"))
    changed = bytearray(call[what])
    telling = {"store": [at + n for at in range(0, len(changed), 512) for n in (*range(9), 72, 88, 120, 503, 507, 508, 511)],
               "connection": [*range(11), 16, 23], "readings": [0, 0, 0, 1, 1, 1, *(at + n for at in range(2, 134, 22) for n in (0, 1, 1, 1, 2, 17, 18, 21))],
               "record": [8, *(at + n for at in range(16, model.RECORD, model.ACL_PLACE) for n in (0, 7, 8, 9, *range(80, 85), *range(152, 156)))]}[what]
    for _ in range(r.choice((1, 1, 2, 4))):
        place = r.choice(telling) if r.random() < .7 else r.randrange(len(changed))
        changed[place] = r.choice((changed[place] ^ 1 << r.randrange(8), changed[place] + 1 & 255, changed[place] - 1 & 255, r.randrange(256), 0))
    if what == "store" and r.random() < .6:  # the sums made right again, so that the other rules are met
        for at in range(0, len(changed) - 511, 512):
            if changed[at]:
                changed[at:at + 512] = sealed(changed[at:at + 512])
    if what == "store" and r.random() < .1:
        changed = changed[:r.randrange(len(changed))]
    if what == "readings" and r.random() < .3:
        changed = (changed + changed)[:r.choice((0, 1, 112, 133, 135, 156, 268))]
    yield call.changed(**{what: bytes(changed)}), nothing_more


# ---- Rescue

def worse(site, store):
    """A store with something done to its blocks: bytes changed with and without the check made right, blocks blanked, doubled, moved, other entries of
    their keys."""
    r, blocks = site.r, model.blocks_of(store)
    for _ in range(r.choice((1, 1, 2, 4, len(blocks)))):
        n, m, how = r.randrange(len(blocks)), r.randrange(len(blocks)), r.choice(("byte", "byte", "sealed", "sealed", "blank", "twice", "key", "swap", "all"))
        if how in ("byte", "sealed"):
            changed = bytearray(blocks[n])
            changed[r.choice((*range(9), 71, 72, 88, 120, 503, 504, 507, 508, 511, r.randrange(512)))] ^= 1 << r.randrange(8)
            blocks[n] = bytes(changed) if how == "byte" else sealed(changed)
        elif how == "blank":
            blocks[n] = model.BLANK
        elif how == "twice":
            blocks[n] = blocks[m]
        elif how == "key":
            entry = model.entry_of(blocks[m])
            blocks[n] = model.block_of(site.entry(entry.key if entry else r.choice(site.keys)))
        elif how == "swap":
            blocks[n], blocks[m] = blocks[m], blocks[n]
        else:
            r.shuffle(blocks)
    return b"".join(blocks)


def rescue_call(r, store):
    """Mostly with a report of the right length."""
    blocks = len(store) // model.BLOCK
    length = blocks if r.random() < .9 else r.choice((0, 1, max(blocks - 1, 0), blocks + 1, blocks + 256, len(store) % 600))
    return Call("rescue", r.random() < .5, store=store, report=r.randbytes(length))


def rescued_well(got):
    """The store is one that every call takes, with as many entries as are reported kept."""
    if got["returned"] != 0:
        return None
    entries, kept = model.entries_of(got["store"]), got["report"].count(model.KEPT)
    return None if entries is not None and len(entries) == kept else f"{kept} are reported kept, the store has {entries and len(entries)}"


def damaged_and_rescued(site, n):
    """The store is damaged, an answer mostly refused, the store rescued, once more, and it goes on with what is left."""
    r = site.r
    site.store = worse(site, site.store)
    data = site.request(site.connections[n]).bytes()
    yield site.call(n, data), nothing_more
    after = yield rescue_call(r, site.store), rescued_well
    if after["returned"]:
        after = yield Call("rescue", store=site.store, report=bytes(len(site.store) // model.BLOCK)), rescued_well
    site.store = after["store"]
    if r.random() < .3:
        yield rescue_call(r, site.store), rescued_well
    after = yield site.call(n, data), nothing_more
    site.went(n, after)


def damage(r, data):
    """Bytes with something done to them."""
    data = bytearray(data)
    for _ in range(r.choice((1, 1, 1, 2, 4))):
        place, how = r.randrange(len(data) + 1), r.randrange(8)
        if how < 2 and data:
            data[place % len(data)] ^= 1 << r.randrange(8)
        elif how == 2 and data:
            data[place % len(data)] = r.choice((0, 1, 2, 8, 16, 127, 128, 129, 255))
        elif how == 3:
            del data[place:]
        elif how == 4:
            data[place:place] = bytes(r.choice((0, 1, 8, 16, 128, 255)) for _ in range(r.choice((1, 1, 2, 9))))
        elif how == 5:
            del data[place:place + r.choice((1, 1, 2, 5))]
        elif how == 6:
            end = place + r.choice((1, 2, 5, 20))
            data[place:place] = data[place:end]
        else:
            end = place + r.choice((2, 4, 8))
            data[place:end] = data[place:end][::-1]
    return bytes(data)


def damaged(r):
    site = Site(r)
    for _ in range(12):
        n = site.turn()
        made = site.request(site.connections[n])
        if r.random() < .2:
            made = repeated(r, made)
        for _ in range(r.choice((1, 2, 3))):
            yield site.call(n, spoilt_bytes(r, made)), nothing_more
        after = yield site.call(n, made.bytes()), nothing_more
        site.went(n, after)


def spoilt_bytes(r, made):
    """A message damaged somewhere: in the frame, the message, the command with and without signing again, or one level of it with its length right."""
    how = r.choice(("frame", "message", "command", "signed", "signed", "level", "level", "level"))
    if how == "frame":
        return damage(r, made.bytes()[:r.choice((9, 9, 20))]) + made.bytes()[9:]
    if how == "message":
        return model.frame(damage(r, made.signed()), made.value)
    command = sub(made.message, 7)
    if how == "command":
        digest = model.hmac_of(made.key, encoded(command))
        return made.at(f7=damage(r, encoded(command))).at(5, f2=digest).bytes()
    if how == "signed":
        return made.at(f7=damage(r, encoded(command))).bytes()
    _, items, way = r.choice(list(levels(made.message)))
    return Site.at_level(made, way, [damage(r, encoded(items, model.hmac_of(made.key, encoded(command))))]).bytes()


# ---- Fields sent twice

# Other contents of enums that are judged later.
NAMED = {("Message", 4): (1, 2, 3, -1), ("Header", 7): (*model.TYPES.values(), 28, 29, -1)}


def other_content(r, kind, number):
    """A content of a listed field that decodes."""
    form = model.LISTED[kind][number]
    if isinstance(form, set) or (kind, number) in NAMED:
        return r.choice(sorted(form) if isinstance(form, set) else NAMED[kind, number])
    if form in ("b", "o"):
        return r.choice((b"", b"a", b"key", r.randbytes(r.choice((16, 17, 20, 64, 65)))))
    return r.choice((0, 1)) if form == "f" else r.choice([n for n in EDGES if form == "s" or -1 << 31 <= n < 1 << 31])


def again(r, kind, item, chance):
    """A field in several that mean the same: a message in parts, or one that counts after others that don't."""
    number, content = item.number, item.content
    if (kind, number) == ("Message", 7):
        before = [Field(7, r.choice((b"", r.randbytes(9), content))) for _ in range(r.choice((1, 1, 2)))]
        return before + [item._replace(content=twice(r, content, "Command", chance))]
    if not isinstance(content, list):
        return [Field(number, other_content(r, kind, number)) for _ in range(r.choice((1, 1, 2)))] + [item]
    cuts = sorted(r.randrange(len(content) + 1) for _ in range(r.choice((1, 1, 2))))
    return [Field(number, twice(r, content[a:b], messages.INSIDE[kind, number], chance)) for a, b in zip([0, *cuts], [*cuts, len(content)])]


def twice(r, items, kind, chance):
    """The items of a message with fields sent again, at every depth, in an order that keeps what counts."""
    queues = {}
    for item in items:
        inner, queue = messages.INSIDE.get((kind, item.number)), queues.setdefault(item.number, [])
        if (kind, item.number) not in model.REPEATED | model.ONCE and r.random() < chance:
            queue += again(r, kind, item, chance)
        elif isinstance(item.content, list) and inner not in model.STRICT:
            queue.append(item._replace(content=twice(r, item.content, inner, chance)))
        else:
            queue.append(item)
    order = [number for number, queue in queues.items() for _ in queue]
    if r.random() < .5:
        r.shuffle(order)
    return [queues[number].pop(0) for number in order]


def repeated(r, made):
    """A request that means the same, with fields sent twice."""
    return dataclasses.replace(made, message=twice(r, made.message, "Message", r.choice((.1, .3, .3, .8))))


# ---- Unlisted fields

def strange(r, kind, depth=0):
    """An unlisted field, well framed, in any form that is allowed."""
    listed = model.LISTED.get(kind, {})
    number = r.choice([n for n in (1, 2, 3, 4, 5, 6, 7, 8, 9, 10, 11, 14, 15, 16, 17, 31, 100, 2047, 2048, 1 << 20, (1 << 29) - 1,
                                   r.randrange(1, 1 << 29)) if n not in listed])
    content = r.choice((r.choice(EDGES), Fixed(r.randbytes(4)), Fixed(r.randbytes(8)), r.randbytes(r.choice((0, 1, 2, 5, 30))),
                        r.randbytes(r.choice((127, 128, 300))) if depth == 0 else b"",
                        encoded([strange(r, kind, 1)]) if depth == 0 else b"\x08"))
    tag_room = 10 - len(model.varint(number * 8))
    form_room = 10 - len(model.varint(content if isinstance(content, int) else len(content)))
    return Field(number, content, long_tag=r.randrange(tag_room + 1) if r.random() < .2 else 0,
                 long_form=r.randrange(form_room + 1) if r.random() < .2 else 0)


LOOKED_PAST = {("Message", 6), ("Command", 3)}


def with_strange(r, items, kind="Message", chance=.3):
    """The tree with unlisted fields put in at its field boundaries, lengths in any form, and contents that are not looked into changed, commandBytes that
    don't count among them; not in the security part, where an unlisted field refuses the command."""
    made = []
    counts = [item for item in items if isinstance(item, Field) and (kind, item.number) == ("Message", 7)][-1:]
    for item in items:
        while kind not in model.STRICT and r.random() < chance:
            made.append(strange(r, kind))
        if isinstance(item, Field):
            inner = messages.INSIDE.get((kind, item.number))
            past = (kind, item.number) in LOOKED_PAST or (kind, item.number) == ("Message", 7) and item is not counts[0]
            if past and isinstance(item.content, (bytes, list)) and not isinstance(item.content, Fixed):
                item = item._replace(content=r.randbytes(r.choice((0, 1, 7, 40))))
            elif isinstance(item.content, list) and inner:
                item = item._replace(content=with_strange(r, item.content, inner, chance))
            if r.random() < .1:
                tag_room = 10 - len(model.varint(item.number * 8))
                form_room = 10 - len(model.varint(item.content)) if isinstance(item.content, int) else 7
                item = item._replace(long_tag=r.randrange(tag_room + 1), long_form=r.randrange(form_room + 1))
        made.append(item)
    while kind not in model.STRICT and r.random() < chance:
        made.append(strange(r, kind))
    return made


def unknown(r):
    site = Site(r)
    for _ in range(14):
        n = site.turn()
        made = site.request(site.connections[n])
        twisted = r.random() < .2
        if twisted:
            made = site.twisted(repeated(r, made) if r.random() < .5 else made)
        first = []
        after = yield site.call(n, made.bytes()), (lambda got: first.append(got))
        for _ in range(r.choice((1, 2))):
            other = made if twisted or r.random() < .4 else repeated(r, made)
            other = dataclasses.replace(other, message=with_strange(r, other.message, chance=r.choice((0, .05, .2, .5))))
            data = other.bytes()
            if all(model.framed(message.bytes())[0] == "WHOLE" for message in (made, other)):
                yield site.call(n, data + r.choice((b"", b"\0", data[:30]))), (lambda got, data=data: same_as_without(first[0], got, len(data)))
        if r.random() < .4:
            yield from strange_security(site, n)
        site.went(n, after)


def same_as_without(before, got, length):
    """Demand 3: the reply and the state as without the unlisted fields and those sent again; exactly its own frame is taken."""
    if before["returned"] != 0 or got["returned"] != 0:
        return f"refusal {before['returned']} without the fields put in, {got['returned']} with them" if before["returned"] != got["returned"] else None
    wrong = [what for what in ("store", "record", "connection") if before[what] != got[what]]
    if reply_of(before)[0] != reply_of(got)[0]:
        wrong.append("reply")
    if reply_of(got)[1] != length:
        wrong.append("bytes taken")
    return f"the fields put in change the {', '.join(wrong)}" if wrong else None


def strange_security(site, n):
    """An unlisted field inside a Security, an ACL or a Scope, a singular one again, or a second Security in the same body or in another, of a SECURITY or of
    another operation: INVALID_REQUEST, and nothing changes."""
    r = site.r
    made = site.request(site.connections[n])
    if sub(part(made.message, 7, 2), 7) is None:
        made = made.at(7, 2, f7=sub(table_tree(site.table()), 7))
    how = r.choice(("unlisted", "unlisted", "again", "second"))
    if how == "second":
        second = tree((7, r.choice(([], part(made.message, 7, 2, 7)))))
        made = repeated(r, made.adding(*second, to=(7, 2)) if r.random() < .5 else made.adding((2, second), to=(7,)))
    else:
        kind, items, way = r.choice([level for level in levels(made.message) if level[0] in (model.STRICT if how == "unlisted" else ("ACL", "Scope"))])
        number = r.choice([item.number for item in items if how == "again" and (kind, item.number) in model.ONCE] or [None])
        place, new = r.randrange(len(items) + 1), strange(r, kind) if number is None else Field(number, other_content(r, kind, number))
        made = site.at_level(made, way, items[:place] + [new] + items[place:])
    call = site.call(n, made.bytes())
    yield call, (lambda got: refused_whole(call, got))


def refused_whole(call, got):
    if len(call["input"]) - 9 > model.MOST_MESSAGE:
        return None
    changed = [what for what in ("store", "record", "connection") if got[what] != call[what]]
    command = model.decode("Reply", model.decode("Message", model.framed(reply_of(got)[0])[1])[7]) if got["returned"] == 0 else None
    if changed or command is None or command[3] != {1: 16} or 6 in command[1] or command[1].get(7) != -1 or 2 in command:
        return f"what is not to be in the security part: {command}, changed {changed}; wanted INVALID_REQUEST without field 6, type -1, nothing changed"
    return None


# ---- The other calls

def calls(r):
    site = Site(r)
    junk = r.randbytes(model.RECORD)
    for _ in range(3):
        store = r.choice((site.store, bytes(r.choice((0, 511, 512, 1024, 66048))), r.randbytes(r.choice((512, 513, 1024)))))
        yield Call("format", r.random() < .5, store=store, record=r.choice((junk, site.record)),
                   key=r.randbytes(r.choice((0, 1, 5, 20, 63, 64, 65, 200)))), nothing_more
        yield Call("connect", connection=r.randbytes(32), number=r.choice((*EDGES, r.randrange(LEAST, MOST))),
                   protected=r.choice((0, 1, 2, 255))), nothing_more
    for key in [entry.key for entry in model.entries_of(site.store)][:4] + r.sample(site.keys, 2) + [b"", site.some(70)]:
        yield Call("find", r.random() < .5, store=site.store, key=key), nothing_more
        spoiled = bytearray(site.store)
        spoiled[r.randrange(len(spoiled))] ^= 1 << r.randrange(8)
        yield Call("find", store=bytes(spoiled), key=key), nothing_more
    for _ in range(4):
        store = worse(site, site.store)
        yield rescue_call(r, store), rescued_well
        if r.random() < .1:
            yield rescue_call(r, store[:r.randrange(len(store))] if r.random() < .5 else store + bytes(r.choice((1, 511, 65536)))), rescued_well
    text = r.randbytes(r.choice((r.randrange(300), r.randrange(300), r.randrange(5000))))
    yield Call("sha1", text=text), nothing_more
    yield Call("hmac", r.random() < .5, key=r.randbytes(r.choice((0, 1, 20, 63, 64, 65, 100, 127, 128, 129, 200))), text=text), nothing_more


PARTS = {"sessions": sessions, "damaged": damaged, "unknown": unknown, "calls": calls}
