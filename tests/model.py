"""An independent model of what `hyder` answers, written from the definitions of its formats and rules and not from its code.

`answer(words, source, log, points, spare)` is the whole of it: the status, the text on standard output, and the bytes of the files
afterwards, for each command whose answer is determined: all but a `run` of two or more clients with programs. Such a run is
judged by `judge`, by the trace that it printed. All is plain and slow: sets, lists and dictionaries.
"""
import collections
import struct

PAGE = 256
GATE = 0x47
MAGIC = b"HYDERLOG"
MAGIC_OF_CUT = b"HYDERCUT"
STREAM_MAGIC = b"HYDERSTR"
STREAM_HEAD = 19
U64 = 2**64 - 1
MOST_CAP = 2147483648
MOST_HORIZON = 2147483648
MOST_SOURCE = 16777216

# The horizon is there from version 3 on, and none before.
Shape = collections.namedtuple("Shape", "group window cap version horizon", defaults=(1, None))
# points: ascending keys; spans: ascending (lo, hi); writes: ascending (key, bytes or None); whether it is at Snapshot isolation. A filler has client 0.
Entry = collections.namedtuple("Entry", "server client snap points spans writes snapshot", defaults=(False,))
Answer = collections.namedtuple("Answer", "status text log points spare", defaults=(None,))
# keeps: how many of its last boards each server keeps. tables: how many tables it has.
Script = collections.namedtuple("Script", "shape servers clients keeps tables", defaults=(1, 0))
Client = collections.namedtuple("Client", "server programs")
# as_of: the position that it asks for, or none.
Program = collections.namedtuple("Program", "commands snapshot as_of", defaults=(False, None))


def is_good(shape):
    return (1 <= shape.group <= 8 and 1 <= shape.window <= 64 and shape.group <= shape.cap <= MOST_CAP and shape.cap % shape.group == 0
            and 1 <= shape.version <= 3 and is_horizon(shape))


def has_horizon(version):
    return version >= 3


def is_horizon(shape):
    """Whether the horizon is one that a shape of its version may have."""
    if not has_horizon(shape.version):
        return shape.horizon is None
    return shape.horizon is not None and shape.group * shape.window <= shape.horizon <= MOST_HORIZON


def tells_isolation(version):
    """Whether an entry has a byte for its isolation."""
    return version >= 2


def most_body(version):
    return 18635 if tells_isolation(version) else 18634


def base_of(shape, number):
    """The premeld base of a group."""
    window = (number - 1) // shape.window
    return shape.group * shape.window * (window - 1) if window >= 1 else 0


def line_at(shape, position):
    """The line at a position: at or below it a deletion is no row any more. It moves at the ends of windows."""
    size = shape.group * shape.window
    return max(0, position // size * size - shape.horizon) if shape.horizon is not None else 0


def shape_line(shape):
    """The line of a script that asks for a shape."""
    told = {1: 3, 2: 4, 3: 5}[shape.version]
    return b" ".join([b"shape", *(b"%d" % number for number in shape[:told])])


def is_filler(entry):
    return entry.client == 0


def touches(entry, key):
    return key in entry.points or any(lo <= key <= hi for lo, hi in entry.spans) or any(key == other for other, _ in entry.writes)


# ---- bytes of entries

class Bad(Exception):
    """Bytes that break a grammar: the place of the first field refused, and the cause."""

    def __init__(self, place, why):
        super().__init__(place, why)
        self.place, self.why = place, why


class Reader:
    """Fields of some bytes from `at` up to `end`, one after another."""

    def __init__(self, data, at, end):
        self.data, self.at, self.end = data, at, end

    def field(self, size, check):
        """The number in the next bytes. `check` gives the cause why it is refused, or none."""
        place = self.at
        if place + size > self.end:
            raise Bad(place, "short")
        number = int.from_bytes(self.data[place:place + size], "little")
        why = check(number)
        if why:
            raise Bad(place, why)
        self.at += size
        return number

    def value(self):
        """Tag, length and bytes: a value, or none for a deletion."""
        if self.field(1, lambda tag: tag > 1 and "tag") == 0:
            return None
        length = self.field(2, lambda n: not 1 <= n <= 256 and "length")
        place = self.at
        if place + length > self.end:
            raise Bad(place, "short")
        found = self.data[place:place + length]
        for offset, byte in enumerate(found):
            if not 33 <= byte <= 126:
                raise Bad(place + offset, "byte")
        self.at += length
        return bytes(found)


def anything(_number):
    return None


def decode(body, version=1):
    reader = Reader(body, 0, len(body))
    filler = reader.field(1, lambda kind: kind > 1 and "kind") == 0
    server = reader.field(1, lambda n: not 1 <= n <= 8 and "server")
    client = reader.field(1, lambda n: (n != 0 if filler else not 1 <= n <= 128) and "client")
    snapshot = tells_isolation(version) and reader.field(1, lambda n: n > (0 if filler else 1) and "iso") == 1
    snap = reader.field(4, lambda n: filler and n != 0 and "snap")
    reads, most = 0 if filler or snapshot else 64, 0 if filler else 64
    counts = [reader.field(1, lambda n, least=least, upto=upto: not least <= n <= upto and "count") for least, upto in ((0, reads), (0, reads), (0 if filler else 1, most))]
    points, spans, writes = [], [], []
    for _ in range(counts[0]):
        points.append(reader.field(8, lambda key: bool(points) and key <= points[-1] and "order"))
    for _ in range(counts[1]):
        place = reader.at
        if place + 16 > reader.end:
            raise Bad(place, "short")
        span = struct.unpack_from("<QQ", body, place)
        if span[0] > span[1]:
            raise Bad(place, "span")
        if spans and span <= spans[-1]:
            raise Bad(place, "order")
        reader.at += 16
        spans.append(span)
    for _ in range(counts[2]):
        key = reader.field(8, lambda key: bool(writes) and key <= writes[-1][0] and "order")
        writes.append((key, reader.value()))
    if reader.at < reader.end:
        raise Bad(reader.at, "long")
    return Entry(server, client, snap, tuple(points), tuple(spans), tuple(writes), snapshot)


def decode_at(body, position, shape):
    entry = decode(body, shape.version)
    start = (position - 1) // shape.group * shape.group + 1
    if not is_filler(entry) and (entry.snap % shape.group or entry.snap > start - 1):
        raise Bad(4 if tells_isolation(shape.version) else 3, "snap")
    return entry


def value_bytes(value):
    return b"\0" if value is None else struct.pack("<BH", 1, len(value)) + value


def encode(entry, version=1):
    kind = 0 if is_filler(entry) else 1
    isolation = bytes([entry.snapshot]) if tells_isolation(version) else b""
    parts = [struct.pack("<BBB", kind, entry.server, entry.client) + isolation + struct.pack("<IBBB", entry.snap, len(entry.points), len(entry.spans), len(entry.writes))]
    parts += [struct.pack("<Q", key) for key in entry.points]
    parts += [struct.pack("<QQ", lo, hi) for lo, hi in entry.spans]
    parts += [struct.pack("<Q", key) + value_bytes(value) for key, value in entry.writes]
    return b"".join(parts)


# ---- the stream of a log

def stream_of(shape, entries):
    """The bytes that tell another host the shape and the entries."""
    frames = [encode(entry, shape.version) for entry in entries]
    head = STREAM_MAGIC + struct.pack("<BBBII", shape.version, shape.group, shape.window, shape.cap, shape.horizon or 0)
    return head + b"".join(struct.pack("<I", len(body)) + body for body in frames)


def read_stream(stream):
    """The shape and the entries of a whole stream, no shape where it has no byte."""
    if not stream:
        return None, []
    if len(stream) < STREAM_HEAD:
        raise Bad(0, "short")
    if stream[:8] != STREAM_MAGIC:
        raise Bad(0, "magic")
    version, group, window, cap, told = struct.unpack("<BBBII", stream[8:STREAM_HEAD])
    if version not in (1, 2, 3):
        raise Bad(8, "version")
    shape = Shape(group, window, cap, version, told if has_horizon(version) else None)
    if not is_good(shape) or told and not has_horizon(version):
        raise Bad(9, "shape")
    place, entries = STREAM_HEAD, []
    while place < len(stream):
        if place + 4 > len(stream):
            raise Bad(place, "short")
        length = int.from_bytes(stream[place:place + 4], "little")
        if len(entries) == cap:
            raise Bad(place, "cap")
        if not 1 <= length <= most_body(version):
            raise Bad(place, "length")
        if place + 4 + length > len(stream):
            raise Bad(place, "short")
        try:
            entries.append(decode_at(stream[place + 4:place + 4 + length], len(entries) + 1, shape))
        except Bad as bad:
            raise Bad(place + 4 + bad.place, bad.why)
        place += 4 + length
    return shape, entries


# ---- the device of the log

class BadPage(Exception):
    def __init__(self, page, why):
        super().__init__(page, why)
        self.page, self.why = page, why


class Config(Exception):
    def __init__(self, field, log, asked):
        super().__init__(field, log, asked)
        self.field, self.log, self.asked = field, log, asked


def header_of(shape, cut=0):
    """The header of a log that was cut at a position, or that wasn't."""
    head = bytes([GATE]) + (MAGIC_OF_CUT if cut else MAGIC) + struct.pack("<BBBI", shape.version, shape.group, shape.window, shape.cap)
    head += struct.pack("<II", shape.horizon or 0, cut)
    return head + bytes(PAGE - len(head))


def cut_in(page):
    """The position at which the log with this header was cut, 0 where it wasn't."""
    return int.from_bytes(page[20:24], "little") if page[1:9] == MAGIC_OF_CUT else 0


def may_cut(shape, cut):
    return 1 <= cut <= shape.cap and cut % (shape.group * shape.window) == 0


def shape_in(page):
    horizon = int.from_bytes(page[16:20], "little") if has_horizon(page[9]) else None
    return Shape(page[10], page[11], int.from_bytes(page[12:16], "little"), page[9], horizon)


def header_fault(page):
    """Why these 256 bytes behind their gate are no header, or none."""
    is_cut = page[1:9] == MAGIC_OF_CUT
    if not is_cut and page[1:9] != MAGIC:
        return "magic"
    if page[9] not in (1, 2, 3):
        return "version"
    if not is_good(shape_in(page)) or is_cut and not may_cut(shape_in(page), cut_in(page)):
        return "shape"
    fill = (b"" if has_horizon(page[9]) else page[16:20]) + (b"" if is_cut else page[20:24]) + page[24:PAGE]
    return "fill" if any(fill) else None


def is_unborn(device):
    if len(device) <= 1 or device[0] == 0:
        return True
    return device[0] != GATE and len(device) > PAGE and header_fault(device[:PAGE]) is None and device[PAGE] == 0


def pages_of(length):
    return (5 + length + 255) // 256


def record_of(body):
    record = bytes([GATE]) + struct.pack("<I", len(body)) + body
    return record + bytes(PAGE * pages_of(len(body)) - len(record))


def record_at(device, page, version=1):
    """The body of the record whose pages begin here, its gate aside, and the page behind it."""
    at = PAGE * page
    if at + 5 > len(device):
        raise BadPage(page, "short")
    length = int.from_bytes(device[at + 1:at + 5], "little")
    if not 1 <= length <= most_body(version):
        raise BadPage(page, "length")
    after = page + pages_of(length)
    if PAGE * after > len(device):
        raise BadPage(page, "short")
    if any(device[at + 5 + length:PAGE * after]):
        raise BadPage(page, "fill")
    return device[at + 5:at + 5 + length], after


def is_torn_batch(device, page, left, version):
    """Whether the rest of one to eight whole records stands behind the gate, and then a closed gate; `left` more have a place."""
    for _ in range(min(8, left)):
        try:
            _, page = record_at(device, page, version)
        except BadPage:
            return False
        if PAGE * page >= len(device):
            return False
        if device[PAGE * page] == 0:
            return True
        if device[PAGE * page] != GATE:
            return False
    return False


def read_log(device, asked=None):
    """The shape, bodies and frontier of a device that isn't unborn. The first body is that of the position behind the cut."""
    if device[0] != GATE:
        raise BadPage(0, "gate")
    if len(device) < PAGE:
        raise BadPage(0, "short")
    why = header_fault(device[:PAGE])
    if why:
        raise BadPage(0, why)
    shape = shape_in(device)
    if asked is not None:
        for field in Shape._fields:
            if getattr(shape, field) != getattr(asked, field):
                raise Config(field, getattr(shape, field), getattr(asked, field))
    bodies, page = [], 1
    places = shape.cap - cut_in(device)
    while PAGE * page + 1 < len(device) and device[PAGE * page] == GATE:
        if len(bodies) == places:
            raise BadPage(page, "cap")
        body, page = record_at(device, page, shape.version)
        bodies.append(body)
    if PAGE * page + 1 < len(device) and device[PAGE * page] != 0 and not is_torn_batch(device, page, places - len(bodies), shape.version):
        raise BadPage(page, "gate")
    return shape, bodies, page


def put_at(device, place, data):
    """The device after a write."""
    return device[:place] + data + device[place + len(data):]


def born(device, shape, cut=0):
    """An unborn device with a header of its own."""
    return put_at(put_at(put_at(device, 0, b"\0"), 1, header_of(shape, cut)[1:] + b"\0"), 0, bytes([GATE]))


def opened(device, asked=None):
    """The shape (none: unborn), bodies and frontier of a device, and its bytes once it is open."""
    if is_unborn(device):
        if asked is None:
            return None, [], 0, device
        return asked, [], 1, born(device, asked)
    shape, bodies, page = read_log(device, asked)
    return shape, bodies, page, put_at(device, PAGE * page, b"\0")


def appended(device, page, body):
    record = record_of(body)
    return put_at(device, PAGE * page, record + b"\0"), page + len(record) // PAGE


# ---- the device of the saved point

Point = collections.namedtuple("Point", "position base rows flags")


def point_of(shape, fold, position):
    base = base_of(shape, position // shape.group + 1)
    return Point(position, base, fold.rows(base), [pos in fold.committed for pos in range(base + 1, position + 1)])


def point_bytes(shape, point):
    body = struct.pack("<BBIIQ", shape.group, shape.window, point.position, point.base, len(point.rows))
    for key, writer, value in point.rows:
        body += struct.pack("<QI", key, writer) + value_bytes(value)
    body += bytes(point.flags)
    record = bytes([GATE]) + struct.pack("<Q", len(body)) + body
    return record + bytes(-len(record) % PAGE)


def saved(device, shape, point):
    """The points device after a save."""
    return put_at(device, 0, point_bytes(shape, point))


def read_point(device, shape):
    """The point that a device holds, or none."""
    if len(device) < PAGE or device[0] != GATE:
        return None
    length = int.from_bytes(device[1:9], "little")
    end = 9 + length
    last = (end + PAGE - 1) // PAGE * PAGE
    if last > len(device):
        raise Bad(1, "short")
    reader = Reader(device, 9, end)
    reader.field(1, lambda n: n != shape.group and "shape")
    reader.field(1, lambda n: n != shape.window and "shape")
    position = reader.field(4, lambda n: (n % shape.group != 0 or n > shape.cap) and "position")
    base = reader.field(4, lambda n: n != base_of(shape, position // shape.group + 1) and "base")
    count = reader.field(8, anything)
    rows = []
    for _ in range(count):
        key = reader.field(8, lambda key: bool(rows) and key <= rows[-1][0] and "order")
        place = reader.at
        writer = reader.field(4, lambda n: not 1 <= n <= base and "writer")
        value = reader.value()
        if value is None and writer <= line_at(shape, base):
            raise Bad(place, "writer")
        rows.append((key, writer, value))
    flags = [reader.field(1, lambda n: n > 1 and "flag") == 1 for _ in range(position - base)]
    if reader.at < end:
        raise Bad(reader.at, "long")
    if any(device[end:last]):
        raise Bad(end, "fill")
    return Point(position, base, rows, flags)


# A filler. It also stands in a list of entries for one that was cut: no rule looks at that.
FILLER = Entry(1, 0, 0, (), (), ())


# ---- validation, by sets

# For an old one `key` is its snapshot, and there is no `by`.
Verdict = collections.namedtuple("Verdict", "kind key by")
COMMIT = Verdict("commit", None, None)


class Fold:
    """The verdicts and rows of a log's whole groups. A point stands for what lies before its base: one writer for each row."""

    def __init__(self, shape, point=None):
        self.shape = shape
        self.entries = []
        self.decided = 0
        self.verdicts = {}
        self.committed = set()
        self.writers = collections.defaultdict(list)
        self.point = point
        if point:
            for key, writer, value in point.rows:
                self.writers[key].append((writer, value))

    def add(self, entry):
        self.entries.append(entry)
        if self.point and len(self.entries) <= self.point.position:
            self.told_by_point(entry, len(self.entries))
        elif len(self.entries) % self.shape.group == 0:
            self.decide(len(self.entries) // self.shape.group)

    def told_by_point(self, entry, position):
        self.decided = position // self.shape.group * self.shape.group
        if position > self.point.base and self.point.flags[position - self.point.base - 1]:
            self.commit(entry, position)

    def commit(self, entry, position):
        self.committed.add(position)
        for key, value in entry.writes:
            self.writers[key].append((position, value))

    def wrote(self, key, low, high):
        """The committed writers of a key past one position and up to another."""
        return [writer for writer, _ in self.writers[key] if low < writer <= high]

    def conflicts(self, entry, low, high):
        return [key for key in list(self.writers) if touches(entry, key) and self.wrote(key, low, high)]

    def decide(self, number):
        group, base = self.shape.group, base_of(self.shape, number)
        start = group * (number - 1) + 1
        members = range(start, start + group)
        joined = []
        for pos in members:
            entry = self.entries[pos - 1]
            if is_filler(entry):
                continue
            if self.shape.horizon is not None and start - 1 - entry.snap > self.shape.horizon:
                self.verdicts[pos] = Verdict("old", entry.snap, None)
                continue
            early = self.conflicts(entry, entry.snap, base)
            if early:
                self.verdicts[pos] = Verdict("pre", min(early), max(self.wrote(min(early), entry.snap, base)))
                continue
            mates = [(key, other) for other in joined for key, _ in self.entries[other - 1].writes if touches(entry, key)]
            if mates:
                self.verdicts[pos] = Verdict("mate", *min(mates))
                continue
            joined.append(pos)
        late = [key for pos in joined for key in self.conflicts(self.entries[pos - 1], max(self.entries[pos - 1].snap, base), start - 1)]
        fate = Verdict("final", min(late), max(self.wrote(min(late), 0, start - 1))) if late else COMMIT
        for pos in joined:
            self.verdicts[pos] = fate
        self.decided = start + group - 1
        if not late:
            for pos in joined:
                self.commit(self.entries[pos - 1], pos)

    def rows(self, position):
        """Each key with its last committed writer up to a position and that one's value, none for a deletion. Deletions at or below the line are left out."""
        found, line = [], line_at(self.shape, position)
        for key in sorted(self.writers):
            upto = [row for row in self.writers[key] if row[0] <= position]
            if upto:
                writer, value = max(upto, key=lambda row: row[0])
                if value is not None or writer > line:
                    found.append((key, writer, value))
        return found

    def live(self, position):
        return [row for row in self.rows(position) if row[2] is not None]


def fold_of(shape, entries, point=None):
    fold = Fold(shape, point)
    for entry in entries:
        fold.add(entry)
    return fold


# ---- tables

TABLE = 2**56
INDEX = 2**55
MOST_ROWS = 2**24
MOST_ATTRIBUTES = 2**31
MOST_TEXT = 200


def is_number(text):
    return text.isdigit() and text.isascii() and (text == b"0" or text[:1] != b"0") and len(text) <= 20 and int(text) <= U64


def row_key(table, row):
    return table * TABLE + row


def index_key(table, attribute, row):
    return table * TABLE + INDEX + attribute * MOST_ROWS + row


def attribute_of(value):
    """The attribute of a row with this value (or none), where it is a row's."""
    attribute, colon, text = (value or b"").partition(b":")
    if colon and is_number(attribute) and int(attribute) < MOST_ATTRIBUTES and 1 <= len(text) <= MOST_TEXT:
        return int(attribute)
    return None


def is_table_key(tables, key):
    return TABLE <= key < (tables + 1) * TABLE


def is_right(rows, key):
    """Whether a key of a table is a row of the form of one and with its entry in the index, or an entry for a row with its attribute."""
    table, rest = divmod(key, TABLE)
    if rest < MOST_ROWS:
        attribute = attribute_of(rows[key])
        return attribute is not None and index_key(table, attribute, rest) in rows
    if rest < INDEX:
        return False
    attribute, row = divmod(rest - INDEX, MOST_ROWS)
    return rows[key] == b"-" and attribute_of(rows.get(row_key(table, row))) == attribute


def table_fault(tables, rows):
    """The least key of the tables that isn't right, or none."""
    return min((key for key in rows if is_table_key(tables, key) and not is_right(rows, key)), default=None)


# ---- programs


Effects = collections.namedtuple("Effects", "answers points spans writes")


def execute(program, rows):
    """A program on a map of live rows: the lines that it is answered, its points, spans and writes. At Snapshot isolation it records no reads."""
    answers, points, spans, writes = [], set(), set(), {}

    def read(key):
        if key in writes:
            return writes[key]
        points.add(key)
        return rows.get(key)

    def scan(lo, hi, most):
        seen = {key: value for key, value in {**rows, **writes}.items() if value is not None and lo <= key <= hi}
        pairs = sorted(seen.items())[:most]
        spans.add((lo, pairs[-1][0] if len(pairs) == most else hi))
        answers.append(b"rows %d" % len(pairs))
        return pairs

    def delete_entry(table, row, attribute):
        if attribute is not None:
            writes[index_key(table, attribute, row)] = None

    for name, *args in program.commands:
        if name in ("get", "cell"):
            value = read(args[0] if name == "get" else row_key(*args))
            answers.append(b"none" if value is None else b"value " + value)
        elif name == "put":
            writes[args[0]] = args[1]
            answers.append(b"ok")
        elif name == "del":
            writes[args[0]] = None
            answers.append(b"ok")
        elif name == "add":
            value = read(args[0])
            if value is not None and not is_number(value):
                answers.append(b"notnum")
                continue
            total = (0 if value is None else int(value)) + args[1]
            if total > U64:
                answers.append(b"toobig")
                continue
            writes[args[0]] = b"%d" % total
            answers.append(b"sum %d" % total)
        elif name == "scan":
            answers += [b"pair %d %s" % pair for pair in scan(*args)]
        elif name == "row":
            table, row, attribute, text = args
            had = attribute_of(read(row_key(table, row)))
            if had != attribute:
                delete_entry(table, row, had)
            writes[row_key(table, row)] = b"%d:%s" % (attribute, text)
            writes[index_key(table, attribute, row)] = b"-"
            answers.append(b"ok")
        elif name == "unrow":
            found = read(row_key(*args))
            if found is not None:
                writes[row_key(*args)] = None
                delete_entry(*args, attribute_of(found))
            answers.append(b"none" if found is None else b"ok")
        else:
            table, attribute, most = args
            answers += [b"id %d" % (key % MOST_ROWS) for key, _ in scan(index_key(table, attribute, 0), index_key(table, attribute, MOST_ROWS - 1), most)]
    if program.snapshot:
        points, spans = set(), set()
    return Effects(answers, tuple(sorted(points)), tuple(sorted(spans)), tuple(sorted(writes.items())))


# ---- scripts

class Refused(Exception):
    def __init__(self, line, why):
        super().__init__(line, why)
        self.line, self.why = line, why


def lines_of(source):
    lines = source.split(b"\n")
    if lines[-1] == b"":
        lines.pop()
    return lines


# For each first word: the kinds of its other words. n is a number, v a value, x the text of a row.
COMMANDS = {b"get": "n", b"put": "nv", b"del": "n", b"add": "nn", b"scan": "nnn"}
TABLE_COMMANDS = {b"row": "nnnx", b"unrow": "nn", b"cell": "nn", b"find": "nnn"}
READS = (b"get", b"scan", b"cell", b"find")
MOST_VALUE = {"v": 256, "x": MOST_TEXT}
# As how many commands one counts.
COUNTS = {"row": 3, "unrow": 2}
EVENTS = {b"b": "n", b"a": "n", b"e": "n", b"f": "n", b"p": "n", b"r": "nn", b"t": "nn"}
WORDS = {b"shape": "nnn", b"servers": "n", b"tables": "n", b"client": "n", b"begin": "", b"end": "", b"schedule": "", **COMMANDS, **TABLE_COMMANDS, **EVENTS}


class ScriptReader:
    """Reads a script and its schedule line by line."""

    def __init__(self, simulated):
        self.simulated = simulated
        self.state = "shape"
        self.shape = self.servers = None
        self.keeps = 1
        self.tables = 0
        self.clients = []
        self.program = None
        self.events = []

    def may_begin(self):
        if self.state in ("shape", "servers"):
            return {self.state.encode()}
        if self.state == "events":
            return set(EVENTS)
        if self.program is not None:
            commands = {*COMMANDS, *(TABLE_COMMANDS if self.tables else ())}
            return {b"end", *(commands if self.program.as_of is None else commands.intersection(READS))}
        may_have_tables = not self.tables and not self.clients
        return {b"client", *([b"tables"] if may_have_tables else []), *([b"begin"] if self.clients else []), *([b"schedule"] if self.simulated else [])}

    def range_fault(self, word, numbers):
        if word == b"shape":
            return not is_good(Shape(*numbers))
        if word == b"servers":
            return not (1 <= numbers[0] <= 8 and all(1 <= keeps <= 64 for keeps in numbers[1:]))
        if word == b"tables":
            return not 1 <= numbers[0] <= 255
        if word in TABLE_COMMANDS:
            return self.table_range_fault(word, *numbers)
        if word in (b"put", b"del", b"add"):
            return is_table_key(self.tables, numbers[0])
        if word == b"begin":
            return any(asked % self.shape.group or asked > self.shape.cap for asked in numbers)
        if word in (b"client", b"p"):
            return not 1 <= numbers[0] <= self.servers
        if word == b"scan":
            return not 1 <= numbers[2] <= 1000
        if word in (b"b", b"a", b"e", b"f"):
            return not 1 <= numbers[0] <= len(self.clients)
        if word == b"r":
            return not (1 <= numbers[0] <= self.servers and numbers[1] <= 4294967295)
        if word == b"t":
            return not (1 <= numbers[0] <= 4 and numbers[1] <= 2)
        return False

    def table_range_fault(self, word, table, second, third=0, *_):
        """Whether the number of a table, a row, an attribute or of rows is out of its range."""
        row, attribute = (0, second) if word == b"find" else (second, third)
        return not (1 <= table <= self.tables and row < MOST_ROWS and attribute < MOST_ATTRIBUTES and (word != b"find" or 1 <= third <= 1000))

    def count_fault(self, word, numbers):
        if word == b"client":
            return sum(client.server == numbers[0] for client in self.clients) == 16
        if word == b"begin":
            return len(self.clients[-1].programs) == 10000
        if word not in COMMANDS and word not in TABLE_COMMANDS:
            return False
        return sum(COUNTS.get(name, 1) for name in (word.decode(), *(command[0] for command in self.program.commands))) > 64

    def read(self, number, line):
        word = line.split(b" ")[0]
        if word not in self.may_begin():
            raise Refused(number, "word")
        words = line.split(b" ")[1:]
        kinds = WORDS[word]
        if word == b"shape":
            kinds = {4: "nnnn", 5: "nnnnn"}.get(len(words), kinds)
            # Six words exactly where the fourth is the third version's.
            if len(words) in (4, 5) and (len(words) == 5) != (words[3] == b"3"):
                raise Refused(number, "form")
        if word == b"servers" and len(words) == 2:
            kinds = "nn"
        snapshot = word == b"begin" and words == [b"snapshot"]
        if snapshot:
            words = []
        if word == b"begin" and words and words[0] == b"at":
            words, kinds = words[1:], "n"
        if len(words) != len(kinds) or b"" in words:
            raise Refused(number, "form")
        if any(kind == "n" and not is_number(text) for kind, text in zip(kinds, words)):
            raise Refused(number, "number")
        if any(kind != "n" and not (len(text) <= MOST_VALUE[kind] and all(33 <= byte <= 126 for byte in text)) for kind, text in zip(kinds, words)):
            raise Refused(number, "value")
        fields = [int(text) if kind == "n" else text for kind, text in zip(kinds, words)]
        if self.range_fault(word, fields):
            raise Refused(number, "range")
        if word == b"scan" and fields[0] > fields[1]:
            raise Refused(number, "order")
        if self.count_fault(word, fields):
            raise Refused(number, "count")
        if snapshot and self.shape.version == 1:
            raise Refused(number, "version")
        self.take(number, word, fields, snapshot)

    def take(self, number, word, fields, snapshot):
        if word == b"shape":
            self.shape, self.state = Shape(*fields), "servers"
        elif word == b"servers":
            self.servers, *keeps = fields
            self.keeps, self.state = (keeps or [1])[0], "clients"
        elif word == b"tables":
            self.tables = fields[0]
        elif word == b"client":
            self.clients.append(Client(fields[0], []))
        elif word == b"begin":
            self.program = Program([], snapshot, *fields)
        elif word == b"end":
            self.clients[-1].programs.append(self.program)
            self.program = None
        elif word == b"schedule":
            self.state = "events"
        elif self.state == "events":
            self.events.append((number, (word.decode(), *fields)))
        else:
            self.program.commands.append((word.decode(), *fields))


def read_source(source, simulated):
    """A script, and its events with their lines."""
    if len(source) > MOST_SOURCE:
        raise Refused(0, "long")
    lines = lines_of(source)
    reader = ScriptReader(simulated)
    for number, line in enumerate(lines, 1):
        if line and not line.startswith(b"#"):
            reader.read(number, line)
    if reader.state in ("shape", "servers") or reader.program is not None:
        raise Refused(len(lines) + 1, "missing")
    return Script(reader.shape, reader.servers, reader.clients, reader.keeps, reader.tables), reader.events


# ---- runs

class NotEnabled(Exception):
    pass


class Core:
    """A run of a script over a log: its events one by one."""

    def __init__(self, script, entries=(), point=None):
        self.script = script
        self.fold = fold_of(script.shape, entries, point)
        whole = len(entries) // script.shape.group * script.shape.group
        # The boards that each server keeps, the newest last.
        self.kept = [[whole] for _ in range(script.servers)]
        self.next = [0] * len(script.clients)
        self.begun = [None] * len(script.clients)
        self.last = [0] * len(script.clients)
        self.armed = None
        self.replies = {}
        self.trace = []

    @property
    def length(self):
        return len(self.fold.entries)

    @property
    def boards(self):
        return [kept[-1] for kept in self.kept]

    def has_program(self, client):
        return self.next[client] < len(self.script.clients[client].programs)

    def server(self, client):
        return self.script.clients[client].server - 1

    def need(self, condition):
        if not condition:
            raise NotEnabled()

    def step(self, event):
        name, args = event[0], event[1:]
        shape = self.script.shape
        if name in "baef":
            self.client_event(name, args[0] - 1)
        elif name == "p":
            self.need(self.length % shape.group)
            while self.length % shape.group:
                if self.append(Entry(args[0], 0, 0, (), (), ()), None):
                    break
        elif name == "r":
            server, upto = args[0] - 1, args[1]
            self.need(upto % shape.group == 0 and self.boards[server] < upto <= self.length)
            self.kept[server] = [*self.kept[server], upto][-self.script.keeps:]
        else:
            self.need(self.armed is None and 1 <= args[0] <= 4 and args[1] <= 2)
            self.armed = args
        self.trace.append(event)

    def client_event(self, name, client):
        begun = self.begun[client]
        if name == "b":
            kept = self.kept[self.server(client)]
            self.need(begun is None and self.has_program(client) and kept[-1] >= self.last[client])
            program = self.script.clients[client].programs[self.next[client]]
            snap = kept[-1] if program.as_of is None else program.as_of
            if snap < kept[0]:
                self.finish(client, [], ("past", kept[0]))
            elif snap > kept[-1]:
                self.finish(client, [], ("notyet", kept[-1]))
            else:
                rows = {key: value for key, _, value in self.fold.live(snap)}
                self.begun[client] = (snap, execute(program, rows))
            return
        self.need(begun is not None)
        snap, effects = begun
        full = self.length == self.script.shape.cap
        if name == "e":
            self.need(not effects.writes)
            self.finish(client, effects.answers, ("read", snap))
        elif name == "f":
            self.need(effects.writes and full)
            self.finish(client, effects.answers, ("full",))
        else:
            self.need(effects.writes and not full)
            snapshot = self.script.clients[client].programs[self.next[client]].snapshot
            entry = Entry(self.server(client) + 1, client + 1, snap, effects.points, effects.spans, effects.writes, snapshot)
            if not self.append(entry, client):
                self.appended_by(client, effects)

    def appended_by(self, client, effects):
        self.last[client] = self.length
        self.finish(client, effects.answers, ("at", self.length))

    def finish(self, client, answers, outcome):
        self.replies[client, self.next[client]] = (answers, outcome)
        self.begun[client] = None
        self.next[client] += 1

    def append(self, entry, client):
        """Appends one entry. Answers whether an armed stop happened, and then has done all that it does."""
        if self.armed is None:
            self.fold.add(entry)
            return False
        call, pattern = self.armed
        self.armed = None
        if call >= 3 and pattern == 1:
            self.fold.add(entry)
            if client is not None:
                self.appended_by(client, self.begun[client][1])
        for other, begun in enumerate(self.begun):
            if begun is not None:
                self.finish(other, [], ("lost",))
        self.kept = [[self.length // self.script.shape.group * self.script.shape.group] for _ in self.kept]
        return True

    def tail_event(self):
        shape = self.script.shape
        ragged = self.length % shape.group
        for client in range(len(self.script.clients)):
            if self.begun[client] is not None:
                if not self.begun[client][1].writes:
                    return ("e", client + 1)
                return ("f" if self.length == shape.cap else "a", client + 1)
            if self.has_program(client):
                server = self.server(client)
                if self.boards[server] >= self.last[client]:
                    return ("b", client + 1)
                return ("p", server + 1) if ragged else ("r", server + 1, self.length)
        if ragged:
            return ("p", 1)
        for server, board in enumerate(self.boards):
            if board < self.length:
                return ("r", server + 1, self.length)
        return None

    def run_tail(self):
        while (event := self.tail_event()) is not None:
            self.step(event)

    def is_finished(self):
        busy = any(self.begun[client] is not None or self.has_program(client) for client in range(len(self.begun)))
        return not busy and all(board == self.length for board in self.boards)


# ---- texts

def lines_text(lines):
    return b"".join(line + b"\n" for line in lines)


def verdict_line(position, verdict):
    if verdict.kind == "commit":
        return b"at %d commit" % position
    if verdict.kind == "old":
        return b"at %d abort old %d" % (position, verdict.key)
    return b"at %d abort %s %d by %d" % (position, verdict.kind.encode(), verdict.key, verdict.by)


def row_lines(rows):
    return [b"row %d %s by %d" % (key, value, writer) for key, writer, value in rows]


def event_line(event):
    return b" ".join([event[0].encode(), *(b"%d" % number for number in event[1:])])


def report_lines(core):
    lines = []
    for client, home in enumerate(core.script.clients):
        for number in range(len(home.programs)):
            answers, outcome = core.replies[client, number]
            lines.append(b"program %d %d" % (client + 1, number + 1))
            lines += answers
            if outcome[0] == "at":
                lines.append(verdict_line(outcome[1], core.fold.verdicts[outcome[1]]))
            else:
                lines.append(b" ".join([outcome[0].encode(), *(b"%d" % position for position in outcome[1:])]))
    for server, board in enumerate(core.boards):
        rows = core.fold.live(board)
        lines.append(b"server %d at %d rows %d" % (server + 1, board, len(rows)))
        lines += row_lines(rows)
    return lines


def run_text(core):
    return lines_text([b"trace %d" % len(core.trace), *map(event_line, core.trace), *report_lines(core)])


def dump_text(shape, entries, cut=0):
    if shape is None:
        return b"empty\n"
    told = tells_isolation(shape.version)
    version = b" version %d" % shape.version if told else b""
    if shape.horizon is not None:
        version += b" horizon %d" % shape.horizon
    if cut:
        version += b" from %d" % cut
    lines = [b"log group %d window %d cap %d%s entries %d" % (*shape[:3], version, len(entries))]
    for position, entry in enumerate(entries, cut + 1):
        if is_filler(entry):
            lines.append(b"entry %d server %d filler" % (position, entry.server))
        else:
            counts = (len(entry.points), len(entry.spans), len(entry.writes))
            isolation = b" iso %d" % entry.snapshot if told else b""
            lines.append(b"entry %d server %d client %d snap %d points %d spans %d writes %d%s" % (position, entry.server, entry.client, entry.snap, *counts, isolation))
    return lines_text(lines)


def check_text(shape, entries):
    if shape is None:
        return b"empty\n"
    fold = fold_of(shape, entries)
    lines = []
    for position, entry in enumerate(entries, 1):
        if position > fold.decided:
            lines.append(b"at %d waits" % position)
        elif is_filler(entry):
            lines.append(b"at %d filler" % position)
        else:
            lines.append(verdict_line(position, fold.verdicts[position]))
    rows = fold.live(fold.decided)
    return lines_text(lines + [b"state %d rows %d" % (fold.decided, len(rows))] + row_lines(rows))


# ---- generated loads

def words_drawn(seed):
    """The words of PCG's generator with 64 bits of state and 32 of output, of stream 1."""
    mask, step, increment = U64, 6364136223846793005, 3
    state = ((seed + increment) * step + increment) & mask
    while True:
        old, state = state, (state * step + increment) & mask
        word = ((old >> 18) ^ old) >> 27 & 0xFFFFFFFF
        turn = old >> 59
        yield (word >> turn | word << (-turn & 31)) & 0xFFFFFFFF


def generated(seed, size):
    draw = words_drawn(seed)
    clients = [Client(number % 4 + 1, []) for number in range(8)]
    for number in range(size):
        x, y, z = next(draw), next(draw), next(draw)
        key, other, low = y % 500, 500 + z % 500, z % 500
        value = b"v%d" % number
        program = [
            [("add", key, 1), ("add", low, 1)],
            [("get", key), ("put", other, value)],
            [("scan", key, key + 9, 5), ("put", other, value)],
            [("get", other)],
        ][x % 4]
        clients[number % 8].programs.append(Program(program))
    return Script(Shape(4, 4, 8 * size), 4, clients)


def run_load(core):
    """The rounds of a generated schedule, and the tail."""
    turn = 0
    while any(core.begun[c] is not None or core.has_program(c) for c in range(8)):
        for client in range(8):
            if core.has_program(client) and turn % 2**core.server(client) == 0 and core.begun[client] is None:
                core.step(("b", client + 1))
        for client in range(8):
            if core.begun[client] is not None and (turn + 1) % 2**core.server(client) == 0:
                core.step(("a" if core.begun[client][1].writes else "e", client + 1))
        if core.length % 4:
            core.step(("p", 1))
        for server in range(4):
            if (turn + 1) % 2**server == 0 and core.boards[server] < core.length:
                core.step(("r", server + 1, core.length))
        turn += 1
    core.run_tail()


def summary_text(seed, size, core):
    kinds = collections.Counter(verdict.kind for verdict in core.fold.verdicts.values())
    reads = sum(outcome[0] == "read" for _, outcome in core.replies.values())
    return lines_text([
        b"load seed %d size %d" % (seed, size),
        b"entries %d fillers %d" % (core.length, sum(map(is_filler, core.fold.entries))),
        b"commit %d pre %d mate %d final %d read %d" % (kinds["commit"], kinds["pre"], kinds["mate"], kinds["final"], reads),
        b"state %d rows %d" % (core.length, len(core.fold.live(core.length))),
    ])


# ---- the whole call

USAGE = b"hyder: usage: run|sim|recover|check|load|compact|ship|follow\n"


class Fault(Exception):
    def __init__(self, status, line):
        super().__init__(status, line)
        self.status, self.line = status, line


def find_entries(shape, bodies, cut=0):
    """The entries of these bodies, the first of them at the position behind the cut."""
    entries = []
    for position, body in enumerate(bodies, cut + 1):
        try:
            entries.append(decode_at(body, position, shape))
        except Bad as bad:
            raise Fault(6, "log entry %d %s" % (position, bad.why))
    return entries


def opening_fault(script, entries, point=None):
    """The key of the tables for which a script is refused on a log, or none: in the rows of the whole groups, or else in those that
    there would be once fillers completed the last one."""
    if script.tables == 0:
        return None
    group = script.shape.group
    for found in (entries[:len(entries) // group * group], entries + [FILLER] * (-len(entries) % group)):
        rows = {key: value for key, _, value in fold_of(script.shape, found, point).live(len(found))}
        fault = table_fault(script.tables, rows)
        if fault is not None:
            return fault
    return None


class Call:
    """One call of the program. What it does to the files shows in `log`, `points` and `spare`, which are none where there is no file."""

    def __init__(self, log, points, spare):
        self.log, self.points, self.spare = log, points, spare
        self.cut = 0

    def opened(self, asked=None):
        self.log = self.log or b""
        try:
            shape, bodies, page, self.log = opened(self.log, asked)
        except BadPage as bad:
            raise Fault(6, "log page %d %s" % (bad.page, bad.why))
        except Config as config:
            raise Fault(7, "config %s log %d script %d" % (config.field, config.log, config.asked))
        self.cut = cut_in(self.log) if shape else 0
        return shape, find_entries(shape, bodies, self.cut), page

    def read_point(self, shape, length):
        self.points = self.points or b""
        try:
            point = read_point(self.points, shape)
        except Bad as bad:
            raise Fault(8, "point byte %d %s" % (bad.place, bad.why))
        if point and point.position > length:
            raise Fault(8, "point %d log %d" % (point.position, length))
        return point

    def run(self, options, source):
        script, _ = read_source(source, False)
        _, found, page = self.opened(script.shape)
        entries = [FILLER] * self.cut + found
        point = self.read_point(script.shape, len(entries)) if "--point" in options else None
        self.not_behind(point)
        fault = opening_fault(script, entries, point)
        if fault is not None:
            raise Fault(13, "table key %d" % fault)
        if sum(bool(client.programs) for client in script.clients) > 1:
            raise ValueError("the answer of this run is not determined")
        core = Core(script, entries, point)
        core.run_tail()
        for entry in core.fold.entries[len(entries):]:
            self.log, page = appended(self.log, page, encode(entry, script.shape.version))
        if "--save" in options:
            self.points = saved(self.points or b"", script.shape, point_of(script.shape, core.fold, core.length))
        return run_text(core)

    def not_behind(self, point):
        base = point.base if point else 0
        if base < self.cut:
            raise Fault(8, "point base %d log from %d" % (base, self.cut))

    def compact(self):
        shape, entries, _ = self.opened()
        point = self.read_point(shape, self.cut + len(entries)) if shape else None
        base = point.base if point else 0
        if base <= self.cut:
            raise Fault(10, "compact from %d base %d" % (self.cut, base))
        self.spare = self.spare or b""
        if not is_unborn(self.spare):
            raise Fault(11, "spare in use")
        kept = entries[base - self.cut:]
        self.spare, page = born(self.spare, shape, base), 1
        for entry in kept:
            self.spare, page = appended(self.spare, page, encode(entry, shape.version))
        return b"compact from %d entries %d\n" % (base, len(kept))

    def follow(self, source):
        try:
            if len(source) > MOST_SOURCE:
                raise Bad(MOST_SOURCE, "long")
            return check_text(*read_stream(source))
        except Bad as bad:
            raise Fault(12, "frame at %d %s" % (bad.place, bad.why))

    def simulate(self, source):
        script, events = read_source(source, True)
        core = Core(script)
        for line, event in events:
            try:
                core.step(event)
            except NotEnabled:
                raise Refused(line, "disabled")
        core.run_tail()
        return run_text(core)

    def obey(self, command, options, source):
        if command == "run":
            return self.run(options, source)
        if command == "sim":
            return self.simulate(source)
        if command == "load":
            seed, size = (int(options[options.index(name) + 1]) for name in ("--seed", "--size"))
            core = Core(generated(seed, size))
            run_load(core)
            return summary_text(seed, size, core)
        if command == "compact":
            return self.compact()
        if command == "follow":
            return self.follow(source)
        shape, entries, _ = self.opened()
        if command == "recover":
            return dump_text(shape, entries, self.cut)
        self.not_behind(None)
        if command == "ship":
            return stream_of(shape, entries) if shape else b""
        return check_text(shape, entries)


def answer(words, source=b"", log=None, points=None, spare=None):
    """What the words, the program's name left out, are answered. The words have to be a line or no command of the table."""
    call = Call(log, points, spare)
    if not words or words[0] not in ("run", "sim", "recover", "check", "load", "compact", "ship", "follow"):
        return Answer(1, USAGE, log, points, spare)
    try:
        return Answer(0, call.obey(words[0], words[1:], source), call.log, call.points, call.spare)
    except Refused as refused:
        status, line = 2, "script line %d %s" % (refused.line, refused.why)
    except Fault as fault:
        status, line = fault.status, fault.line
    return Answer(status, b"hyder: %s\n" % line.encode(), call.log, call.points, call.spare)


# ---- runs whose trace isn't determined

def judge(script, entries, text, point=None):
    """What is wrong with the text of a run over a log of these entries, or none; and the entries after it. A log that was cut has
    entries in place of those that are gone, and a point."""
    lines = text.split(b"\n")
    head = lines[0].split(b" ")
    if head[0] != b"trace" or len(head) != 2:
        return "no trace", []
    core = Core(script, entries, point)
    for line in lines[1:1 + int(head[1])]:
        name, *numbers = line.split(b" ")
        if name not in (b"b", b"a", b"e", b"f", b"p", b"r"):
            return "no event of a run: %r" % line, []
        try:
            core.step((name.decode(), *map(int, numbers)))
        except NotEnabled:
            return "an event that may not happen: %r" % line, []
    if not core.is_finished():
        return "the run is not finished", []
    wanted = run_text(core)
    if wanted != text:
        return "another report than that of the trace", []
    return None, core.fold.entries


def first_entries(device):
    """The shape and entries of a device that is good."""
    shape, bodies, _, _ = opened(device)
    return shape, find_entries(shape, bodies)
