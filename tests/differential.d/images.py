"""Images to ask about: published ones, damaged copies, and random ones of every shape. All of it hangs on the seed alone."""
import os

from mmdb import (
    ARRAY, BOOLEAN, BYTES, DOUBLE, FLOAT, I32, MAP, MARKER, TEXT, U128, U16, U32, U64, array, boolean, control, image_of, mapping,
    metadata_fields, named, pointer, text, value, whole,
)

KEYS = (b'a', b'b', b'en', b'names', b'', b'iso_code', b'location', '\u00e9t\u00e9'.encode(), b'k' * 28, b'k' * 29)
SIZES = (0, 1, 2, 3, 5, 8, 28, 29, 30, 284, 285, 286)
WIDEST = {U16: 2, U32: 4, I32: 4, U64: 8, U128: 16}
SCALARS = (TEXT, TEXT, TEXT, DOUBLE, BYTES, U16, U32, I32, U64, U128, BOOLEAN, FLOAT)


def published(folder):
    """The published images' paths, in a fixed order."""
    found = []
    for where, _, names in os.walk(folder):
        found += [os.path.join(where, n) for n in names if not n.endswith(('.md', '.json', '.txt')) and n not in ('LICENSE',)]
    return sorted(found)


# ---- data sections ----

class Section:
    """A data section as it grows: values are written at its end and may point to any place in it."""

    def __init__(self, chance, oddness, room=500):
        self.chance = chance
        self.room = room
        self.bytes = bytearray()
        self.starts = []
        self.oddness = oddness

    def odd(self):
        return self.chance.random() < self.oddness

    def put(self, depth=0):
        self.starts.append(len(self.bytes))
        c = self.chance
        # a long section has scalars only from here on
        pick = c.random() if len(self.bytes) < self.room else 1
        if depth < 6 and pick < 0.17:
            self.put_map(depth)
        elif depth < 6 and pick < 0.32:
            self.put_array(depth)
        elif pick < 0.45:
            self.put_pointer()
        elif self.odd() and pick < 0.75:
            self.put_odd(depth)
        else:
            self.put_scalar()

    def put_map(self, depth):
        c = self.chance
        n = c.choice((0, 1, 1, 2, 2, 3, 5)) if not self.odd() else c.choice((28, 29, 4, 300))
        self.bytes += control(MAP, n)
        if n > 5:
            n = c.randrange(n + 1)
        for _ in range(n):
            self.put_key()
            self.put(depth + 1)
            if len(self.bytes) > 2 * self.room:
                break

    def put_key(self):
        c = self.chance
        self.starts.append(len(self.bytes))
        if self.odd():
            # another kind, or text that is not UTF-8
            if c.random() < 0.5:
                self.put_scalar()
            else:
                self.bytes += value(TEXT, bytes(c.randrange(256) for _ in range(c.randrange(4))))
        elif c.random() < 0.2:
            self.put_pointer()
        else:
            self.bytes += value(TEXT, c.choice(KEYS))

    def put_array(self, depth):
        c = self.chance
        n = c.choice((0, 1, 2, 3, 4)) if not self.odd() else c.choice((28, 29, 31, 284, 285, 1000))
        self.bytes += control(ARRAY, n)
        if n > 5:
            n = c.randrange(n + 1)
            for _ in range(n):
                self.bytes += boolean(c.random() < 0.5)
            return
        for _ in range(n):
            self.put(depth + 1)

    def put_pointer(self):
        c = self.chance
        n = len(self.bytes)
        pick = c.random()
        if pick < 0.7 and self.starts:
            target = c.choice(self.starts)
        elif pick < 0.9:
            target = c.randrange(n + 40)
        elif pick < 0.95:
            target = n
        else:
            target = c.choice((2047, 2048, 2049, 526335, 526336, 134744063, 134744064, 4294967295, c.getrandbits(27)))
        classes = [k for k, (low, high) in enumerate(((0, 2048), (2048, 526336), (526336, 134744064), (0, 4294967296))) if low <= target < high]
        p = bytearray(pointer(target, c.choice(classes)))
        if p[0] >> 3 == 7 and c.random() < 0.5:
            # bits that say nothing in a pointer of this class; the last three are read otherwise by the crate
            p[0] |= c.randrange(1, 5) if c.random() < 0.8 else c.randrange(5, 8)
        self.bytes += p

    def put_scalar(self):
        c = self.chance
        kind = c.choice(SCALARS)
        wrong = self.odd()
        if kind == TEXT:
            n = c.choice(SIZES) if c.random() < 0.25 else c.randrange(7)
            s = bytes(c.randrange(32, 127) for _ in range(n))
            if c.random() < 0.2:
                s = ''.join(c.choice(('\u00e9', '\u20ac', '\U0001f600', 'x', '\u07ff', '\u0800', '\uffff', '\U0010ffff')) for _ in range(c.randrange(6))).encode()
            if wrong:
                s += c.choice((b'\xff', b'\xc0\x80', b'\xed\xa0\x80', b'\xf4\x90\x80\x80', b'\xe2\x82', b'\x80', b'\xf0\x80\x80\x80', b'\xe0\x80\x80', b'\xc3'))
            self.bytes += value(TEXT, s)
        elif kind == BYTES:
            n = c.choice(SIZES) if c.random() < 0.2 else c.randrange(6)
            self.bytes += value(BYTES, bytes(c.getrandbits(8) for _ in range(n)))
        elif kind == BOOLEAN:
            self.bytes += control(BOOLEAN, c.choice((0, 1)) if not wrong else c.choice((2, 29, 31)))
        elif kind in (DOUBLE, FLOAT):
            n = 8 if kind == DOUBLE else 4
            if wrong:
                n = c.choice((0, n - 1, n + 1, 16))
            self.bytes += value(kind, bytes(c.choice((0, 0x7f, 0xf0, 0xff, c.getrandbits(8))) for _ in range(n)))
        else:
            n = c.randrange(WIDEST[kind] + 1) if not wrong else WIDEST[kind] + c.choice((1, 2, 13))
            self.bytes += value(kind, bytes(c.choice((0, 255, 128, c.getrandbits(8))) for _ in range(n)))

    def put_odd(self, depth):
        c = self.chance
        pick = c.randrange(6)
        if pick == 0:
            # types that are none
            self.bytes += control(c.choice((12, 13, 16, 17, 255, 262)), c.randrange(4))
        elif pick == 1:
            self.bytes += bytes(c.getrandbits(8) for _ in range(c.randrange(1, 12)))
        elif pick == 2:
            self.put_nest()
        elif pick == 3:
            # a chain of pointers
            for _ in range(c.randrange(2, 6)):
                self.starts.append(len(self.bytes))
                self.bytes += pointer(self.starts[-1] + 2) if self.starts[-1] + 2 < 2048 else pointer(0)
            self.put_scalar()
        elif pick == 4:
            self.bytes += control(c.choice((TEXT, BYTES, MAP, ARRAY, U128)), c.choice((29, 284, 285, 65820, 65821, 16843036)))
        else:
            self.bytes += control(MAP, 0) if c.random() < 0.5 else control(ARRAY, 0)

    def put_nest(self):
        """Containers inside each other, about as deep as is allowed."""
        c = self.chance
        n = c.choice((126, 127, 128, 129, 130, 131))
        for _ in range(n):
            if c.random() < 0.3:
                self.bytes += control(MAP, 1) + text(b'a')
            else:
                self.bytes += control(ARRAY, 1)
        if c.random() < 0.5:
            self.put_scalar()
        else:
            self.bytes += control(ARRAY, 0)


def data_section(chance):
    oddness = chance.choice((0, 0.02, 0.1, 0.3))
    s = Section(chance, oddness)
    for _ in range(chance.choice((0, 1, 2, 4, 8, 12))):
        s.put()
        if len(s.bytes) > 700:
            break
    b = s.bytes
    if chance.random() < 0.1 and b:
        del b[chance.randrange(len(b)):]
    if chance.random() < 0.08:
        b = bytearray(chance.getrandbits(8) for _ in range(chance.randrange(120)))
    return bytes(b), s.starts


# ---- trees ----

def record_bytes(size, left, right):
    if size == 24:
        return (left & 0xffffff).to_bytes(3, 'big') + (right & 0xffffff).to_bytes(3, 'big')
    if size == 28:
        return (left & 0xffffff).to_bytes(3, 'big') + bytes([(left >> 24 & 15) << 4 | right >> 24 & 15]) + (right & 0xffffff).to_bytes(3, 'big')
    return (left & 0xffffffff).to_bytes(4, 'big') + (right & 0xffffffff).to_bytes(4, 'big')


class Tree:
    """Records as pairs; a leaf is written when the count of nodes is known."""

    def __init__(self, chance, starts, room):
        self.chance = chance
        self.starts = [s for s in starts if s < room] or [0]
        self.room = room
        self.nodes = []
        self.wild = chance.choice((0, 0, 0.02, 0.1))

    def leaf(self):
        """None: no data; a number below 0: -1 - offset; else a record above the count, by how much."""
        c = self.chance
        pick = c.random()
        if pick < self.wild:
            return ('over', c.choice((1, 2, 15, 16, 16 + self.room, 15 + self.room, 17 + self.room, c.getrandbits(c.choice((24, 28, 32))))))
        if pick < 0.4:
            return ('over', 0)
        if pick < 0.9:
            return ('over', 16 + c.choice(self.starts))
        return ('over', 16 + c.randrange(self.room + 1))

    def grow(self, depth, width, budget):
        """A subtree in which every path ends; its number."""
        n = len(self.nodes)
        self.nodes.append(None)
        sides = []
        for _ in range(2):
            if depth + 1 < width and len(self.nodes) < budget and self.chance.random() < 0.6:
                sides.append(('node', self.grow(depth + 1, width, budget)))
            else:
                sides.append(self.leaf())
        self.nodes[n] = tuple(sides)
        return n

    def thicket(self, depth, width, count):
        """A subtree of so many nodes, its leaves split at random; its number."""
        first = len(self.nodes)
        self.nodes.append([None, None])
        open_sides = [(first, 0, depth + 1), (first, 1, depth + 1)]
        for _ in range(count - 1):
            i = self.chance.randrange(len(open_sides))
            n, side, d = open_sides[i]
            open_sides[i] = open_sides[-1]
            open_sides.pop()
            if d < width:
                self.nodes[n][side] = ('node', len(self.nodes))
                open_sides += ((len(self.nodes), 0, d + 1), (len(self.nodes), 1, d + 1))
                self.nodes.append([None, None])
        for node in self.nodes[first:]:
            for side in (0, 1):
                if node[side] is None:
                    node[side] = self.leaf()
        return first

    def chain(self, length):
        """Nodes whose left record leads on; the last one's left record is still to be set."""
        first = len(self.nodes)
        for i in range(length):
            self.nodes.append((('node', first + i + 1), self.leaf()))
        return first

    def tangle(self, n, forward):
        """Records of chance: forward ones share subtrees, others make rings."""
        c = self.chance
        for i in range(n):
            sides = []
            for _ in range(2):
                if c.random() < 0.5:
                    if forward and i + 1 < n:
                        sides.append(('node', c.randrange(i + 1, n)))
                    elif forward:
                        sides.append(self.leaf())
                    else:
                        sides.append(('node', c.randrange(n)))
                else:
                    sides.append(self.leaf())
            self.nodes.append(tuple(sides))

    def written(self, size):
        n = len(self.nodes)
        out = bytearray()
        for left, right in self.nodes:
            l, r = (v if kind == 'node' else n + v for kind, v in (left, right))
            out += record_bytes(size, l, r)
        return n, bytes(out)


def tree(chance, version, starts, room):
    t = Tree(chance, starts, room)
    pick = chance.random()
    width = 32 if version == 4 else 128
    if chance.random() < 0.004:
        # a ladder: as many ways as powers of two, so that a walk may not end in any time
        rungs = chance.choice((8, 12, 20, 32, 42, 97))
        for i in range(1, rungs):
            t.nodes.append((('node', i), ('node', i)))
        t.nodes.append((t.leaf(), t.leaf()))
        return t
    if version == 6 and pick < 0.45:
        # the IPv4 addresses below 96 zeros, other ways leading there too
        depth = 96 if chance.random() < 0.8 else chance.randrange(1, 130)
        t.chain(min(depth, 127))
        start = len(t.nodes)
        t.grow(depth, width, start + chance.randrange(1, 30))
        for _ in range(chance.randrange(4)):
            i = chance.randrange(start)
            t.nodes[i] = (t.nodes[i][0], ('node', start))
        if chance.random() < 0.3:
            i = chance.randrange(start)
            t.nodes[i] = (t.leaf(), t.nodes[i][1])
    elif pick < 0.75:
        t.grow(0, width, chance.choice((1, 2, 5, 12, 40)))
    elif pick < 0.9:
        t.tangle(chance.randrange(1, 14), True)
    else:
        t.tangle(chance.randrange(1, 9), False)
    if version == 6 and chance.random() < 0.1:
        # a way on from a deep place: nodes at full width
        i = chance.randrange(len(t.nodes))
        t.nodes[i] = (('node', 0), t.nodes[i][1])
    return t


# ---- metadata ----

NAMES = [name for name, _ in metadata_fields()]


def odd_number(chance, kind):
    n = chance.choice((0, 1, 2, 3, 4, 6, 24, 28, 32, 255, 256, 65535, 65536, 2 ** 31, 2 ** 32 - 1, 2 ** 32, 2 ** 63 - 1, 2 ** 63, 2 ** 64 - 1))
    limit = 256 ** WIDEST[kind]
    b = whole(kind, n % limit)
    if chance.random() < 0.2:
        b = value(kind, bytes(chance.randrange(3)) + (n % limit).to_bytes(WIDEST[kind], 'big')[-2:])
    return b


def odd_value(chance):
    s = Section(chance, 0.15)
    s.put()
    return bytes(s.bytes)


def number_keys(chance):
    """Keys that are no text."""
    kind = chance.choice((U16, U32, U64, I32, U128, BYTES, BOOLEAN, DOUBLE, MAP, ARRAY))
    if kind == BYTES:
        return value(BYTES, chance.choice(NAMES).encode() if chance.random() < 0.7 else b'x')
    if kind in (BOOLEAN, MAP, ARRAY):
        return control(kind, chance.randrange(2) if kind == BOOLEAN else 0)
    if kind == DOUBLE:
        return value(DOUBLE, bytes(8))
    return whole(kind, chance.randrange(12))


def metadata(chance, version, nodes, size, oddness):
    """The metadata's bytes: the nine fields, and with more oddness whatever may go wrong in them."""
    c = chance
    languages = [c.choice(('en', 'de', 'pt-BR', '\u65e5', '')) for _ in range(c.randrange(4))]
    descriptions = [(c.choice(('en', 'de', 'fr', 'z', 'a', '')), c.choice(('x', '', 'a longer one', '\u00e9'))) for _ in range(c.randrange(1, 4))]
    if c.random() < 0.06:
        descriptions = []
    fields = metadata_fields(version=version, nodes=nodes, size=size, build=c.choice((0, 1, 1000, 2 ** 40, 2 ** 63 - 1)),
                             database=c.choice(('Test', 'T', '', 'x' * 29)) if c.random() < 0.3 else 'Test', descriptions=descriptions, languages=languages)
    pairs = [(text(n), v) for n, v in fields]
    # what is pointed to stands before the map, which then begins behind a pointer
    before = bytearray()

    def away(b):
        """The same value behind a pointer; the area in front starts at 5."""
        place = 5 + len(before)
        before.extend(b)
        if place < 2048 and c.random() < 0.7:
            return pointer(place)
        p = bytearray(pointer(place, 3))
        if c.random() < 0.3:
            p[0] |= c.randrange(1, 8)
        return bytes(p)

    if c.random() < 0.3:
        c.shuffle(pairs)
    while c.random() < 0.25:
        pairs.insert(c.randrange(len(pairs) + 1), (text(c.choice(('more', 'x', '\u00e9', 'k' * 40))), odd_value(c)))
    while c.random() < oddness:
        i = c.randrange(len(pairs)) if pairs else 0
        pick = c.randrange(15)
        if not pairs or pick == 0:
            pairs.insert(i, (number_keys(c), odd_value(c)))
        elif pick == 1:
            pairs[i] = (pairs[i][0], odd_value(c))
        elif pick == 2:
            del pairs[i]
        elif pick == 3:
            pairs.insert(i, c.choice(pairs))
        elif pick == 4:
            # the field's number or its name as bytes, as the crate would take it, or another key
            names = [text(n) for n in NAMES]
            if pairs[i][0] in names and c.random() < 0.8:
                n = names.index(pairs[i][0])
                k = value(BYTES, NAMES[n].encode()) if c.random() < 0.4 else whole(c.choice((U16, U32, U64)), n)
                pairs[i] = (away(k) if c.random() < 0.2 else k, pairs[i][1])
            else:
                pairs[i] = (number_keys(c), pairs[i][1])
        elif pick in (5, 6):
            name = c.choice(('binary_format_major_version', 'binary_format_minor_version', 'build_epoch', 'ip_version', 'node_count', 'record_size'))
            kind = {'build_epoch': U64, 'node_count': U32}.get(name, U16) if c.random() < 0.8 else c.choice((U16, U32, U64, I32, U128))
            pairs[:] = [(k, odd_number(c, kind) if k == text(name) else v) for k, v in pairs]
        elif pick == 7:
            pairs[i] = (pairs[i][0], away(pairs[i][1]))
        elif pick == 8:
            pairs[i] = (away(pairs[i][0]), pairs[i][1])
        elif pick == 9:
            pairs[i] = (pairs[i][0], away(away(pairs[i][1])))
        elif pick == 10:
            b = bytearray(pairs[i][1])
            if b:
                b[c.randrange(len(b))] ^= 1 << c.randrange(8)
            pairs[i] = (pairs[i][0], bytes(b))
        elif pick == 11:
            pairs[i] = (away(number_keys(c)), pairs[i][1])
        elif pick == 12:
            items = [text('en'), odd_value(c), away(text('de')), text(b'\xff')]
            pairs[:] = [(k, array(*[c.choice(items) for _ in range(c.randrange(4))]) if k == text('languages') else v) for k, v in pairs]
        elif pick == 13:
            items = [text('en'), odd_value(c), away(text('de')), text(b'\xff'), number_keys(c)]
            pairs[:] = [(k, mapping(*[(c.choice(items), c.choice(items)) for _ in range(c.randrange(4))]) if k == text('description') else v) for k, v in pairs]
        else:
            pairs.insert(i, (text('n'), bytes(control(ARRAY, 1)) * c.choice((126, 127, 128, 129)) + control(ARRAY, 0)))
    m = mapping(*pairs)
    if c.random() < oddness * 0.2:
        b = bytearray(m)
        b[c.randrange(len(b))] = c.getrandbits(8)
        m = bytes(b)
    if c.random() < oddness * 0.1:
        m = m[:c.randrange(len(m))]
    if before or c.random() < 0.02:
        return pointer(5 + len(before), 3) + bytes(before) + m
    return m


# ---- whole images ----

def small(chance):
    version = chance.choice((4, 6))
    size = chance.choice((24, 28, 32))
    section, starts = data_section(chance)
    t = tree(chance, version, starts, len(section))
    nodes, records = t.written(size)
    m = metadata(chance, version, nodes, size, chance.choice((0, 0, 0, 0.1, 0.3)))
    separator = bytes(16) if chance.random() < 0.95 else bytes(chance.choice((0, 0, 1)) for _ in range(16))
    return records + separator + section + MARKER + m


def odd_metadata(chance):
    version = chance.choice((4, 6))
    return image_of(record_bytes(24, 17, 1), control(MAP, 0), metadata(chance, version, 1, 24, chance.choice((0.3, 0.6, 0.75))))


def larger(chance):
    """More nodes and more data than a small one, and the limits on values and payload."""
    version = chance.choice((4, 6))
    size = chance.choice((24, 28, 32))
    s = Section(chance, 0.02, 20000)
    for _ in range(20):
        s.put()
    pick = chance.randrange(7)
    s.starts.append(len(s.bytes))
    if pick == 0:
        n = chance.choice((65534, 65535, 65536))
        s.bytes += control(ARRAY, n) + b'\x00\x07' * n
    elif pick == 1:
        n = chance.choice((32766, 32767, 32768))
        s.bytes += control(MAP, n) + (text('k') + boolean(True)) * n
    elif pick == 2:
        n = chance.choice((65820, 65821, 70000))
        s.bytes += value(TEXT, b'x' * n)
    elif pick == 3:
        # arrays in an array: charged as they are passed over
        n = chance.choice((255, 256, 257))
        s.bytes += control(ARRAY, 256) + (control(ARRAY, n - 1) + b'\x00\x07' * (n - 1)) * 256
    elif pick == 4:
        # a map whose keys are long texts, or point to one
        key = len(s.bytes)
        s.bytes += value(TEXT, b'k' * 65536)
        n = chance.choice((31, 32, 33))
        s.starts.append(len(s.bytes))
        s.bytes += control(MAP, n) + (pointer(key, 3) + boolean(True)) * (n - 1) + text('a') + boolean(False)
    elif pick == 5:
        for _ in range(300):
            s.put()
    else:
        s.bytes += bytes(chance.getrandbits(8) for _ in range(3000))
    t = Tree(chance, s.starts, len(s.bytes))
    if version == 6:
        t.chain(96)
    t.grow(96 if version == 6 else 0, 128 if version == 6 else 32, chance.choice((100, 500, 2000)))
    if version == 6:
        for _ in range(5):
            i = chance.randrange(96)
            t.nodes[i] = (t.nodes[i][0], ('node', 96))
    nodes, records = t.written(size)
    return records + bytes(16) + bytes(s.bytes) + MARKER + metadata(chance, version, nodes, size, 0)


def damaged(chance, image, others):
    """A copy with flipped, changed, moved, lost or foreign bytes, near the metadata as often as elsewhere."""
    b = bytearray(image)
    for _ in range(chance.choice((1, 1, 1, 2, 4))):
        if not b:
            break
        low = 0
        if chance.random() < 0.45:
            low = max(0, bytes(b).rfind(MARKER))
        i = chance.randrange(low, len(b))
        pick = chance.randrange(10)
        if pick < 4:
            b[i] ^= 1 << chance.randrange(8)
        elif pick < 7:
            b[i] = chance.choice((0, 255, chance.getrandbits(8), chance.getrandbits(8)))
        elif pick == 7:
            n = chance.choice((1, 1, 2, 16, 100))
            del b[i:i + n]
        elif pick == 8:
            other = chance.choice(others)
            j = chance.randrange(len(other)) if other else 0
            part = other[j:j + chance.choice((1, 4, 20, 100))]
            if chance.random() < 0.5:
                b[i:i + len(part)] = part
            else:
                b[i:i] = part
        elif chance.random() < 0.3:
            del b[chance.randrange(len(b)):]
        else:
            j = chance.randrange(low, len(b))
            part = b[j:j + chance.choice((1, 3, 8, 40))]
            b[i:i + len(part)] = part
    return bytes(b)


def large(chance, size):
    """An IPv6 tree of about a hundred thousand nodes, the IPv4 addresses below 96 zeros and aliases to them."""
    s = Section(chance, 0, 60000)
    while len(s.bytes) < 60000:
        s.put()
    t = Tree(chance, s.starts, len(s.bytes))
    t.wild = 0.0001
    t.chain(96)
    for i in range(0, 96, 2):
        t.nodes[i] = (t.nodes[i][0], ('node', t.thicket(i + 1, 128, 1600)))
    # the chain's last record leads to what comes now
    t.nodes[95] = (('node', t.thicket(96, 128, 25000)), t.nodes[95][1])
    start = t.nodes[95][0]
    for i in (1, 17, 33):
        t.nodes[i] = (t.nodes[i][0], start)
    nodes, records = t.written(size)
    return records + bytes(16) + bytes(s.bytes) + MARKER + metadata(chance, 6, nodes, size, 0)


def nested_offsets(chance):
    """Networks whose data lie inside one another, about as deep as verification goes: its verdict may hang on the order."""
    s = Section(chance, 0)
    if chance.random() < 0.5:
        s.bytes += pointer(2)
    for _ in range(chance.randrange(120, 132)):
        s.starts.append(len(s.bytes))
        if chance.random() < 0.1 and len(s.bytes) < 2000:
            s.bytes += pointer(len(s.bytes) + 2)
        else:
            s.bytes += control(ARRAY, 1)
    s.bytes += chance.choice((b'\xa0', control(ARRAY, 0), pointer(0), control(TEXT, 1)))
    t = Tree(chance, [0] + s.starts[:1] + s.starts[:6] + s.starts[-3:], len(s.bytes))
    t.wild = 0
    t.grow(0, 32, chance.choice((1, 2, 4)))
    nodes, records = t.written(24)
    return records + bytes(16) + bytes(s.bytes) + MARKER + metadata(chance, 4, nodes, 24, 0)


def high_nibbles():
    """Records of 28 bits whose upper bits count: a data section past 16 MiB, mostly zeros."""
    offsets = (0, 5, 0x00fffff0, 0x01000003, 0x01234567)
    room = 0x01240000
    section = bytearray(room)
    for i, o in enumerate(offsets):
        b = text('offset %d' % i)
        section[o:o + len(b)] = b
    nodes = 4
    over = [nodes + 16 + o for o in offsets]
    pairs = ((1, 2), (over[0], over[3]), (3, over[4]), (over[2], over[1]))
    records = b''.join(record_bytes(28, l, r) for l, r in pairs)
    return records + bytes(16) + bytes(section) + MARKER + named(metadata_fields(nodes=nodes, size=28))
