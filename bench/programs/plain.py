"""One tenant's plain map, as docs/PROTOCOL.md tells it: what bench/siege compares every reply with."""
import bisect

OOM = b"-OOM memory was refused\r\n"
KEY, VALUE, NUMBER = 1024, 1_048_576, 2 ** 63 - 1
REFUSED = {
    "name": b"-ERR unknown command\r\n", "words": b"-ERR wrong number of arguments\r\n", "option": b"-ERR syntax error\r\n",
    "integer": b"-ERR value is not an integer or out of range\r\n", "overflow": b"-ERR increment or decrement would overflow\r\n",
    "key": b"-ERR key is too long\r\n", "value": b"-ERR value is too long\r\n", "keys": b"-ERR too many keys\r\n",
    "snapshots": b"-ERR too many snapshots\r\n", "snapshot": b"-ERR no such snapshot\r\n", "quota": b"-QUOTA byte quota exceeded\r\n",
}
# How many words a command has, its name counted: at least and at most.
WORDS = {
    b"PING": (1, 2), b"ECHO": (2, 2), b"GET": (2, 2), b"MGET": (2, 1024), b"STRLEN": (2, 2), b"EXISTS": (2, 1024), b"RANGE": (4, 4),
    b"SET": (3, 4), b"APPEND": (3, 3), b"INCR": (2, 2), b"DECR": (2, 2), b"INCRBY": (3, 3), b"DEL": (2, 1024), b"USAGE": (1, 1),
}
SNAPSHOTS = {b"TAKE": 2, b"LIST": 2, b"DROP": 3, b"GET": 4, b"RANGE": 6}


class Refused(Exception):
    """The request is refused, for this reason."""


def bulk(value):
    return b"$-1\r\n" if value is None else b"$%d\r\n%s\r\n" % (len(value), value)


def array(items):
    return b"*%d\r\n%s" % (len(items), b"".join(items))


def number(text):
    """The number that a text is, within signed 64 bits."""
    digits = text[1:] if text[:1] == b"-" else text
    plain = digits.isdigit() and (digits[:1] != b"0" or text == b"0")
    if not plain or not -NUMBER - 1 <= int(text) <= NUMBER:
        raise Refused("integer")
    return int(text)


class Plain:
    def __init__(self, quota):
        self.quota, self.rows, self.order = quota, {}, []
        self.snapshots, self.next = {}, 1
        self.versions, self.shown, self.charge = 0, {}, 0
        self.writes = self.commands = self.refusals = 0

    # ---- versions: each that the present or a live snapshot shows is charged once

    def cost(self, key, value):
        return len(key) + len(value) + 16

    def show(self, key, version):
        held = self.shown.get((key, version[1]), 0)
        self.shown[key, version[1]] = held + 1
        self.charge += 0 if held else self.cost(key, version[0])

    def hide(self, key, version):
        held = self.shown.pop((key, version[1])) - 1
        if held:
            self.shown[key, version[1]] = held
        else:
            self.charge -= self.cost(key, version[0])

    def charge_with(self, changes):
        """The charge once each of the keys has its new value, or none."""
        charge = self.charge
        for key, value in changes.items():
            old = self.rows.get(key)
            charge -= self.cost(key, old[0]) if old and self.shown[key, old[1]] == 1 else 0
            charge += 0 if value is None else self.cost(key, value)
        return charge

    def write(self, changes):
        after = self.charge_with(changes)
        if after > self.quota and after > self.charge:
            self.refusals += 1
            raise Refused("quota")
        for key, value in changes.items():
            if key in self.rows:
                self.hide(key, self.rows[key])
            if value is None:
                del self.rows[key]
                self.order.pop(bisect.bisect_left(self.order, key))
                continue
            if key not in self.rows:
                bisect.insort(self.order, key)
            self.versions += 1
            self.rows[key] = value, self.versions
            self.show(key, self.rows[key])
        self.writes += 1

    # ---- commands

    def answer(self, words):
        """The reply to a request, which is counted."""
        self.commands += 1
        try:
            return self.reply(words)
        except Refused as refused:
            return REFUSED[str(refused)]

    def reply(self, words):
        name = words[0].upper()
        if name == b"SNAPSHOT":
            return self.snapshot(words)
        least, most = WORDS.get(name) or self.refuse("name")
        if not least <= len(words) <= most:
            raise Refused("words")
        return getattr(self, name.decode().lower())(*words[1:])

    def refuse(self, why):
        raise Refused(why)

    def short(self, *keys):
        if any(len(key) > KEY for key in keys):
            raise Refused("key")

    def value(self, key, rows=None):
        found = (self.rows if rows is None else rows).get(key)
        return found and found[0]

    def ping(self, text=None):
        return b"+PONG\r\n" if text is None else bulk(text)

    def echo(self, text):
        return bulk(text)

    def get(self, key):
        self.short(key)
        return bulk(self.value(key))

    def mget(self, *keys):
        self.short(*keys)
        return array([bulk(self.value(key)) for key in keys])

    def strlen(self, key):
        self.short(key)
        return b":%d\r\n" % len(self.value(key) or b"")

    def exists(self, *keys):
        self.short(*keys)
        return b":%d\r\n" % sum(key in self.rows for key in keys)

    def range(self, start, end, count, rows=None, order=None):
        many = number(count)
        if not 0 <= many <= 1024:
            raise Refused("integer")
        self.short(start, end)
        rows, order = (self.rows, self.order) if rows is None else (rows, sorted(rows))
        at = bisect.bisect_left(order, start)
        found = [key for key in order[at : at + many] if not end or key < end]
        return array([item for key in found for item in (bulk(key), bulk(rows[key][0]))])

    def set(self, key, value, option=b""):
        if option.upper() not in (b"", b"NX", b"XX"):
            raise Refused("option")
        self.short(key)
        if option and (key in self.rows) == (option.upper() == b"NX"):
            return bulk(None)
        self.write({key: value})
        return b"+OK\r\n"

    def append(self, key, suffix):
        self.short(key)
        value = (self.value(key) or b"") + suffix
        if len(value) > VALUE:
            raise Refused("value")
        self.write({key: value})
        return b":%d\r\n" % len(value)

    def incrby(self, key, amount):
        amount = number(amount)
        self.short(key)
        total = number(self.rows[key][0] if key in self.rows else b"0") + amount
        if not -NUMBER - 1 <= total <= NUMBER:
            raise Refused("overflow")
        self.write({key: b"%d" % total})
        return b":%d\r\n" % total

    def incr(self, key):
        return self.incrby(key, b"1")

    def decr(self, key):
        return self.incrby(key, b"-1")

    def del_(self, *keys):
        if len(keys) > 64:
            raise Refused("keys")
        self.short(*keys)
        there = {key: None for key in keys if key in self.rows}
        if there:
            self.write(there)
        return b":%d\r\n" % len(there)

    locals()["del"] = del_

    def usage(self):
        told = {"rows": len(self.rows), "charge": self.charge, "quota": self.quota, "writes": self.writes,
                "commands": self.commands, "refusals": self.refusals, "snapshots": len(self.snapshots)}
        return array([item for name, count in told.items() for item in (bulk(name.encode()), b":%d\r\n" % count)])

    # ---- snapshots

    def snapshot(self, words):
        if len(words) < 2:
            raise Refused("words")
        what = words[1].upper()
        if len(words) != SNAPSHOTS[what]:
            raise Refused("words")
        if what == b"TAKE":
            return self.take()
        if what == b"LIST":
            return array([b":%d\r\n" % one for one in self.snapshots])
        live = number(words[2])
        if what == b"RANGE" and not 0 <= number(words[5]) <= 1024:
            raise Refused("integer")
        self.short(*words[3:5])
        if live not in self.snapshots:
            raise Refused("snapshot")
        rows = self.snapshots[live]
        if what == b"GET":
            return bulk(self.value(words[3], rows))
        if what == b"RANGE":
            return self.range(*words[3:], rows=rows)
        for key, version in self.snapshots.pop(live).items():
            self.hide(key, version)
        return b"+OK\r\n"

    def take(self):
        if len(self.snapshots) == 64:
            raise Refused("snapshots")
        self.snapshots[self.next] = dict(self.rows)
        for key, version in self.rows.items():
            self.show(key, version)
        self.next += 1
        return b":%d\r\n" % (self.next - 1)
