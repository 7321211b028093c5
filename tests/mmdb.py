"""What the scripts that record the crate's answers share: writing values and images, passing over them as the specification
says, asking the oracle, and the entries of a table.
"""
import random
import struct
import subprocess
import sys

TEXT, DOUBLE, BYTES, U16, U32, MAP, I32, U64, U128, ARRAY, BOOLEAN, FLOAT = 2, 3, 4, 5, 6, 7, 8, 9, 10, 11, 14, 15
POINTER = 1

MARKER = b'\xab\xcd\xefMaxMind.com'

# In every table an entry of question 0 brings what the rows after it are asked of.
SUBJECT = 0


# ---- writing values ----

def control(kind, size):
    """The bytes before a payload."""
    if size < 29:
        code, more = size, b''
    elif size < 285:
        code, more = 29, (size - 29).to_bytes(1, 'big')
    elif size < 65821:
        code, more = 30, (size - 285).to_bytes(2, 'big')
    else:
        code, more = 31, (size - 65821).to_bytes(3, 'big')
    if kind < 8:
        return bytes([kind * 32 + code]) + more
    return bytes([code, kind - 7]) + more


def value(kind, payload=b''):
    return control(kind, len(payload)) + payload


def text(s):
    return value(TEXT, s.encode() if isinstance(s, str) else s)


def boolean(b):
    return control(BOOLEAN, 1 if b else 0)


def array(*items):
    return control(ARRAY, len(items)) + b''.join(items)


def mapping(*pairs):
    return control(MAP, len(pairs)) + b''.join(k + v for k, v in pairs)


def pointer(target, pointer_class=None):
    if pointer_class is None:
        pointer_class = 0 if target < 2048 else 1 if target < 526336 else 2
    base, size = ((0, 1), (2048, 2), (526336, 3), (0, 4))[pointer_class]
    n = target - base
    high = n >> 8 * size
    assert 0 <= high < (1 if pointer_class == 3 else 8)
    return bytes([32 + pointer_class * 8 + high]) + (n & (256 ** size - 1)).to_bytes(size, 'big')


def whole(kind, n):
    """A whole number in as few bytes as it takes."""
    return value(kind, n.to_bytes((n.bit_length() + 7) // 8, 'big'))


def metadata_fields(version=4, nodes=1, size=24, build=1, database='Recorded', descriptions=(('en', 'values'),), languages=('en',)):
    """The nine fields by name, each with its value's bytes."""
    return [
        ('binary_format_major_version', whole(U16, 2)),
        ('binary_format_minor_version', whole(U16, 0)),
        ('build_epoch', whole(U64, build)),
        ('database_type', text(database)),
        ('description', mapping(*[(text(k), text(v)) for k, v in descriptions])),
        ('ip_version', whole(U16, version)),
        ('languages', array(*[text(l) for l in languages])),
        ('node_count', whole(U32, nodes)),
        ('record_size', whole(U16, size)),
    ]


def named(fields):
    """Fields by name as the map that metadata is."""
    return mapping(*[(text(name), v) for name, v in fields])


def packed_node(size, left, right):
    if size == 24:
        return left.to_bytes(3, 'big') + right.to_bytes(3, 'big')
    if size == 28:
        shared = (left >> 24) << 4 | right >> 24
        return (left & 0xffffff).to_bytes(3, 'big') + bytes([shared]) + (right & 0xffffff).to_bytes(3, 'big')
    return left.to_bytes(4, 'big') + right.to_bytes(4, 'big')


def image_of(tree, section, metadata):
    return tree + bytes(16) + section + MARKER + metadata


# ---- passing over values ----

class WidePointer(Exception):
    """A control byte 3D, 3E or 3F was come to, of which the crate makes something else than the specification."""


class Stuck(Exception):
    pass


def head(s, at):
    if at >= len(s):
        raise Stuck
    if 0x3d <= s[at] <= 0x3f:
        raise WidePointer
    kind, code, at = s[at] >> 5, s[at] & 31, at + 1
    if kind == 0:
        if at >= len(s):
            raise Stuck
        kind, at = s[at] + 7, at + 1
    if kind == POINTER or code < 29:
        return kind, code, at
    n = code - 28
    if at + n > len(s):
        raise Stuck
    return kind, (29, 285, 65821)[n - 1] + int.from_bytes(s[at:at + n], 'big'), at + n


def behind(s, at):
    """Kind, size, payload and what follows of the value that a place leads to."""
    kind, size, payload = head(s, at)
    if kind != POINTER:
        return kind, size, payload, payload + size
    n = size // 8 + 1
    if payload + n > len(s):
        raise Stuck
    base = (0, 2048, 526336, 0)[n - 1] + (0 if n == 4 else (size % 8) << 8 * n)
    kind, size, target = head(s, base + int.from_bytes(s[payload:payload + n], 'big'))
    if kind == POINTER:
        raise Stuck
    return kind, size, target, payload + n


def past(s, at):
    kind, size, payload = head(s, at)
    if kind == POINTER:
        size = size // 8 + 1
    elif kind in (MAP, ARRAY):
        for _ in range(size * 2 if kind == MAP else size):
            payload = past(s, payload)
        return payload
    elif kind == BOOLEAN:
        size = 0
    if payload + size > len(s):
        raise Stuck
    return payload + size


# ---- asking the crate ----

class Oracle:
    # a lookup's answers are d and n
    ANSWERS = ('ok', 'none', 'err', 'd', 'n')

    def __init__(self, program):
        self.child = subprocess.Popen([program], stdin=subprocess.PIPE, stdout=subprocess.PIPE, text=True)

    def ask(self, lines):
        self.child.stdin.write(''.join(l + '\n' for l in lines))
        self.child.stdin.flush()
        answers = [self.child.stdout.readline().rstrip('\n').split(' ') for _ in lines]
        for line, answer in zip(lines, answers):
            if answer[0] not in self.ANSWERS:
                sys.exit('the oracle says %r to %r' % (' '.join(answer), line[:200]))
        return answers

    def lines(self, question):
        """All lines of an answer: they end where the answer to another question begins."""
        self.child.stdin.write(question + '\nversion\n')
        self.child.stdin.flush()
        answers = []
        while True:
            line = self.child.stdout.readline().rstrip('\n')
            if line.startswith('ok maxminddb ') or line == '':
                break
            answers.append(line.split(' '))
        return answers


def unhex(s):
    return b'' if s == '-' else bytes.fromhex(s)


# What the crate's errors say, and the refusals that stand for them; any other error of opening is refusal 2.
OPENING_REFUSALS = (
    ('could not find', 1), ('binary_format_major_version -', 3), ('ip_version -', 4), ('node_count -', 5), ('build_epoch -', 6),
    ('record_size -', 7), ('beyond the metadata section', 8),
)
METADATA_REFUSAL = 2


def opening_refusal(answer):
    said = ' '.join(answer)
    numbers = [n for part, n in OPENING_REFUSALS if part in said]
    if len(numbers) > 1:
        sys.exit('two refusals for %r' % said)
    return numbers[0] if numbers else METADATA_REFUSAL


# ---- the table ----

def entry(question, place, steps, kind, number, content):
    return struct.pack('>B', question) + place.to_bytes(3, 'big') + len(steps).to_bytes(2, 'big') \
        + struct.pack('>B', kind) + len(content).to_bytes(3, 'big') + number.to_bytes(16, 'big') + steps + content


HEADER = len(entry(SUBJECT, 0, b'', 0, 0, b''))


def entries(table):
    """Each entry's place in the table, and where its content begins and ends."""
    at = 0
    while at < len(table):
        content = at + HEADER + int.from_bytes(table[at + 4:at + 6], 'big')
        end = content + int.from_bytes(table[at + 7:at + 10], 'big')
        yield at, content, end
        at = end


def flip(table, program, seed):
    """Changes a bit of every tenth answer, one at a time: the program must name that row."""
    chance = random.Random(seed)
    rows = [e for e in entries(table) if table[e[0]] != SUBJECT]
    tried, unnoticed = 0, []
    for number, (at, content, end) in enumerate(rows, 1):
        # every tenth row; of its kind, its number and its content one bit
        if number % 10:
            continue
        spot = chance.choice([at + 6] + list(range(at + 10, at + HEADER)) + ([chance.randrange(content, end)] * 9 if content < end else []))
        changed = bytearray(table)
        changed[spot] ^= 1 << chance.randrange(8)
        said = subprocess.run([program], input=bytes(changed), stdout=subprocess.PIPE).stdout.decode()
        tried += 1
        if ' 1 different\nthe first different row is %d\n' % number not in said:
            unnoticed.append(number)
    print('%d answers changed, %d unnoticed %s' % (tried, len(unnoticed), unnoticed or ''))
    if unnoticed:
        sys.exit(1)


def contents(path):
    with open(path, 'rb') as f:
        return f.read()
