"""The rows of the tables about whole images, made of the crate's answers: opening and lookups (crates/replay_images), walks
(crates/replay_walks), verdicts (crates/replay_verdicts). The README.md beside each table describes it. Nothing here decides an
answer.
"""
import sys

from mmdb import entry, opening_refusal, unhex

REFUSED = 0

IPV6_IN_IPV4, BAD_RECORD, TOO_DEEP, MALFORMED, PREFIX_LENGTH = 10, 11, 12, 14, 16
NO_DATABASE_TYPE, NO_DESCRIPTION, TOO_MANY, SEPARATOR, SPENT = 17, 18, 19, 20, 21


# ---- opening and lookups ----

OPENING, DATABASE_TYPE, LANGUAGE, DESCRIPTION, AGE, LOOKUP = range(1, 7)
QUESTIONS = {
    OPENING: 'opening', DATABASE_TYPE: 'database type', LANGUAGE: 'language', DESCRIPTION: 'description', AGE: 'age',
    LOOKUP: 'lookup',
}

# Kinds of answers. They leave the numbers of the refusals free, by which refused answers are counted.
OPENED, TEXT_IS, ABSENT, SECONDS, DATA, NO_DATA = range(12, 18)
NAMES = {
    REFUSED: 'refused', OPENED: 'opened', TEXT_IS: 'text', ABSENT: 'absent', SECONDS: 'seconds', DATA: 'data',
    NO_DATA: 'no data',
}


class Meta:
    """The crate's metadata, as the oracle's line has it."""

    def __init__(self, words):
        self.numbers = [int(w) for w in words[1:7]]
        self.database = unhex(words[7])
        at = 9 + int(words[8])
        self.languages = [unhex(w) for w in words[9:at]]
        rest = [unhex(w) for w in words[at + 1:]]
        self.descriptions = list(zip(rest[::2], rest[1::2]))
        assert len(self.descriptions) == int(words[at])


def opening_row(handle, meta):
    numbers = handle + meta.numbers + [len(meta.database), len(meta.languages), len(meta.descriptions)]
    return entry(OPENING, 0, b'', OPENED, 0, b''.join(n.to_bytes(8, 'big') for n in numbers))


def lookup_answer(answer):
    said = ' '.join(answer)
    if answer[0] == 'd':
        return DATA, int(answer[1]) << 64 | int(answer[2])
    if answer[0] == 'n':
        return NO_DATA, int(answer[1])
    if answer[1] == 'inp':
        return REFUSED, IPV6_IN_IPV4
    if 'data pointer resolves' in said:
        return REFUSED, BAD_RECORD
    sys.exit('a lookup answers %r' % said)


def lookup_row(address, answer):
    kind, number = lookup_answer(answer)
    return entry(LOOKUP, 0, address, kind, number, b'')


# ---- walks ----

WHOLE, IPV4, IPV6 = range(1, 4)
RANGES = {WHOLE: 'all addresses', IPV4: 'IPv4 range', IPV6: 'IPv6 range'}

# The lines of a walk, or sums of them where there are many.
LINES, SUMS = 17, 18
MOST_LINES = 40
LINE = 22

# Kinds of lines.
V4, V6, V4_IN_V6_SUBTREE, FAILED = range(4)
SHOWN = {'v4': V4, 'v6': V6, 's4': V4_IN_V6_SUBTREE}

ALIASED, DATALESS, SKIP_EMPTY = 1, 2, 4


def error_of_walk(words):
    said = ' '.join(words)
    if 'data pointer resolves' in said:
        return BAD_RECORD
    if 'traversal exceeded' in said:
        return TOO_DEEP
    if words[1] in ('db', 'dec', 'lim'):
        return MALFORMED
    sys.exit('a walk answers %r' % said)


def walk_line(words, depth4):
    """Kind, length, offset and key. The crate counts lengths below an IPv4 start from there, we in the tree; an offset counts
    from 1, so that 0 is no data."""
    if words[0] == 'err':
        return FAILED, 0, error_of_walk(words), 0
    kind = SHOWN[words[0]]
    key, length = words[1].split('/')
    depth = depth4 if kind == V4_IN_V6_SUBTREE else 0
    return kind, int(length) + depth, 0 if words[2] == '-' else int(words[2]) + 1, int(key, 16)


def packed_line(line):
    kind, length, offset, key = line
    return bytes([kind, length]) + offset.to_bytes(4, 'big') + key.to_bytes(16, 'big')


def sums(lines):
    """The sum of all numbers, and the sum of those sums, which their order changes; both below 2^64."""
    plain = ordered = 0
    for kind, length, offset, key in lines:
        for n in (kind, length, offset, key >> 64, key % 2 ** 64):
            plain = (plain + n) % 2 ** 64
            ordered = (ordered + plain) % 2 ** 64
    return plain, ordered


def letters(options):
    return ''.join(c for c, bit in (('a', ALIASED), ('n', DATALESS), ('s', SKIP_EMPTY)) if options & bit) or '-'


def walk_lines(oracle, spelled, options, depth4):
    """The lines of a walk, or the number of a refused start."""
    answers = oracle.lines('w %s %s' % (spelled, letters(options)))
    if answers[-1][0] != 'end':
        if len(answers) != 1 or answers[0][0] != 'err' or answers[0][1] not in ('inp', 'net'):
            sys.exit('a walk over %s ends with %r' % (spelled, ' '.join(answers[-1])))
        return IPV6_IN_IPV4 if answers[0][1] == 'inp' else PREFIX_LENGTH
    lines = [walk_line(words, depth4) for words in answers[:-1]]
    assert int(answers[-1][1]) == len(lines)
    return lines


def walk_row(question, options, budget, length, address, answer, most_lines=MOST_LINES):
    """Asked with a budget, a length and an address of four or sixteen bytes. Longer walks are recorded by their sums."""
    asked = budget.to_bytes(2, 'big') + bytes([length]) + address
    if isinstance(answer, int):
        return entry(question, options, asked, REFUSED, answer, b'')
    if len(answer) <= most_lines:
        return entry(question, options, asked, LINES, len(answer), b''.join(packed_line(l) for l in answer))
    plain, ordered = sums(answer)
    return entry(question, options, asked, SUMS, ordered << 64 | plain, len(answer).to_bytes(8, 'big'))


# ---- verdicts ----

ACCEPTED = 1

VERDICTS = (
    ('database_type -', NO_DATABASE_TYPE), ('description -', NO_DESCRIPTION), ('iterations)', TOO_MANY), ('data separator', SEPARATOR),
    ('data pointer resolves', BAD_RECORD), ('traversal exceeded', TOO_DEEP),
)


def verdict_refusal(answer):
    """The number of a refusal, 0 where accepted."""
    if answer[0] == 'ok':
        return 0
    numbers = [n for part, n in VERDICTS if part in ' '.join(answer)]
    assert len(numbers) < 2
    return numbers[0] if numbers else MALFORMED


def verdict_row(oracle, image, question, budget, runs=400):
    """The row of an image, or nothing where the verdict hangs on the order of a hash set.

    With its number goes what a budget of 0 gives: 21 once the metadata's graph, database type and description have passed. The
    number of distinct offsets is counted over the walk that verification makes.
    """
    opened = oracle.ask(['openhex ' + (image.hex() or '-')])[0]
    if opened[0] != 'ok':
        number = opening_refusal(opened)
        return entry(question, 0, budget.to_bytes(8, 'big'), REFUSED, number << 64 | number, b'')
    metadata, verdict = oracle.ask(['rawm vk 0', 'verify'])
    counts = oracle.lines('verifyn %d' % runs)[0]
    if len(counts) > 1:
        return None
    number = verdict_refusal(verdict)
    early = metadata[0] != 'ok' or number in (NO_DATABASE_TYPE, NO_DESCRIPTION)
    at_once = number if early else SPENT
    if number:
        return entry(question, 0, budget.to_bytes(8, 'big'), REFUSED, at_once << 64 | number, b'')
    offsets = {line[2] for line in walk_lines(oracle, 'all', DATALESS, 0) if line[2]}
    return entry(question, 0, budget.to_bytes(8, 'big'), ACCEPTED, at_once << 64 | len(offsets), b'')
