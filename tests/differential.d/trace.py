"""Where control bytes stand that a question may come to, and what a header says: for asking good questions and for telling
which entry of docs/DIFFERENCES.md a difference belongs to. Pointers are read as the specification says.
"""
from mmdb import ARRAY, BOOLEAN, MAP, POINTER

# Control bytes of pointers of which the crate makes something else.
WIDE = range(0x3d, 0x40)
PLAIN = 0x38


def header(s, at):
    """Kind, size and end of the header at a place, or None. A pointer's size is its class and three bits."""
    if at >= len(s):
        return None
    kind, code, at = s[at] >> 5, s[at] & 31, at + 1
    if kind == 0:
        if at >= len(s):
            return None
        kind, at = s[at] + 7, at + 1
    if kind == POINTER or code < 29:
        return kind, code, at
    n = code - 28
    if at + n > len(s):
        return None
    return kind, (29, 285, 65821)[n - 1] + int.from_bytes(s[at:at + n], 'big'), at + n


def target(s, size, at):
    """Where a pointer leads, and its end, or None."""
    n = size // 8 + 1
    if at + n > len(s):
        return None
    base = (0, 2048, 526336, 0)[n - 1] + (0 if n == 4 else (size % 8) << 8 * n)
    return base + int.from_bytes(s[at:at + n], 'big'), at + n


def resolved(s, at):
    """Kind, size, payload and end of what stands at a place, behind at most one pointer; None where it is refused."""
    h = header(s, at)
    if h is None or h[0] != POINTER:
        return h
    t = target(s, h[1], h[2])
    if t is None:
        return None
    h = header(s, t[0])
    return None if h is None or h[0] == POINTER else h


def after(s, at, levels=128):
    """The place past a value, or None."""
    h = header(s, at)
    if h is None:
        return None
    kind, size, at = h
    if kind == POINTER:
        size = size // 8 + 1
    elif kind in (MAP, ARRAY):
        if levels == 0 or size > 70000:
            return None
        for _ in range(size * 2 if kind == MAP else size):
            at = after(s, at, levels - 1)
            if at is None:
                return None
        return at
    elif kind == BOOLEAN:
        return at
    return at + size if at + size <= len(s) else None


def met(s, roots, most=20000):
    """The places of wide control bytes among all control bytes that lie under the roots, pointers followed."""
    found, begun, waiting, passed = set(), set(), list(roots), 0
    while waiting:
        at = waiting.pop()
        if at in begun:
            continue
        begun.add(at)
        # a run of values from a place on, as many as its containers have
        left = 1
        while left and passed < most:
            passed += 1
            if at < len(s) and s[at] in WIDE:
                found.add(at)
            h = header(s, at)
            if h is None:
                break
            kind, size, at = h
            left -= 1
            if kind == POINTER:
                t = target(s, size, at)
                if t is None:
                    break
                waiting.append(t[0])
                at = t[1]
            elif kind in (MAP, ARRAY):
                left += size * 2 if kind == MAP else size
            elif kind != BOOLEAN:
                at += size
    return found


def keys_of_metadata(s):
    """The kinds of the keys of the metadata's map, up to the first that can't be passed."""
    h = resolved(s, 0)
    if h is None or h[0] != MAP:
        return []
    kinds, at = [], h[2]
    for _ in range(min(h[1], 200)):
        k = resolved(s, at)
        if k is None:
            break
        kinds.append(k[0])
        at = after(s, at)
        at = None if at is None else after(s, at)
        if at is None:
            break
    return kinds
