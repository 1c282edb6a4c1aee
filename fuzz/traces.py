"""Traces: read and written by their definition (docs/FORMATS.md), made at random, and damaged."""
import hashlib
import struct

MOST = 0xFFFFFFFF
# the numbers of the records of a list, without the count of version 2
LISTS = (">H", ">HI", ">HH", ">HHI")


def layout(version, form):
    return form + "I" if version == 2 else form


def lists_of(bytes_of, version):
    """The four lists of records, or None where the length isn't what their numbers say."""
    at = 46 if version == 2 else 42
    found = []
    for form in LISTS:
        if at + 4 > len(bytes_of):
            return None
        count = int.from_bytes(bytes_of[at:at + 4], "big")
        size = struct.calcsize(layout(version, form))
        at += 4
        if at + count * size > len(bytes_of):
            return None
        found.append(list(struct.iter_unpack(layout(version, form), bytes_of[at:at + count * size])))
        at += count * size
    return found if at + 32 == len(bytes_of) else None


def is_sound(version, found):
    for form, rows in zip(LISTS, found):
        width = len(form) - 1
        keys = [row[:width] for row in rows]
        if any(a >= b for a, b in zip(keys, keys[1:])):
            return False
        for row in rows:
            small = [number for number, letter in zip(row, form[1:]) if letter == "H"]
            if not all(1 <= number <= 16383 for number in small) or 0 in row[len(small):]:
                return False
    return True


def read(bytes_of):
    """What a trace says, or the number by which it is refused."""
    if not bytes_of.startswith(b"ATAC"):
        return 60
    version = int.from_bytes(bytes_of[4:6], "big")
    if len(bytes_of) >= 6 and version not in (1, 2):
        return 61
    found = lists_of(bytes_of, version) if len(bytes_of) >= 6 else None
    if found is None:
        return 62
    runs = int.from_bytes(bytes_of[38:42], "big")
    old = int.from_bytes(bytes_of[42:46], "big") if version == 2 else runs
    if not is_sound(version, found) or old > runs:
        return 63
    if hashlib.sha256(bytes_of[:-32]).digest() != bytes_of[-32:]:
        return 64
    counted = [{row: 1 for row in rows} if version == 1 else {row[:-1]: row[-1] for row in rows} for rows in found]
    return {"digest": bytes_of[6:38], "runs": runs, "old": old, "lists": counted}


def sealed(body):
    return body + hashlib.sha256(body).digest()


def written(trace, version=2):
    """The bytes of a trace; in version 1 without its counts and old runs."""
    body = b"ATAC" + struct.pack(">H", version) + trace["digest"] + struct.pack(">I", trace["runs"])
    if version == 2:
        body += struct.pack(">I", trace["old"])
    for form, rows in zip(LISTS, trace["lists"]):
        body += struct.pack(">I", len(rows))
        for row in sorted(rows):
            body += struct.pack(layout(version, form), *row, *([rows[row]] if version == 2 else []))
    return sealed(body)


def summed(all_of):
    """The sum of traces of one program; numbers stop at the greatest of 32 bits."""
    total = {"digest": all_of[0]["digest"], "runs": 0, "old": 0, "lists": [{}, {}, {}, {}]}
    for trace in all_of:
        for name in ("runs", "old"):
            total[name] = min(MOST, total[name] + trace[name])
        for into, rows in zip(total["lists"], trace["lists"]):
            for row, count in rows.items():
                into[row] = min(MOST, into.get(row, 0) + count)
    return total


def number(draw, most=16383):
    return draw.choice((1, 2, 3, draw.randint(1, 8), draw.randint(1, 20), draw.randint(1, 20), draw.randint(1, most), most))


def made(draw, digest):
    """A sound trace with random facts."""
    lists = []
    for form in LISTS:
        rows = {}
        for _ in range(draw.choice((0, 1, 2, 5, 30, 100))):
            key = tuple(number(draw, 16383 if letter == "H" else MOST) for letter in form[1:])
            rows[key] = number(draw, MOST)
        lists.append(rows)
    runs = draw.choice((0, 1, 2, 1000, MOST - 1, MOST))
    return {"digest": digest, "runs": runs, "old": draw.choice((0, 0, runs, draw.randint(0, runs))), "lists": lists}


def damaged(draw, bytes_of):
    """The bytes with a few changes, sealed anew half of the time."""
    body = bytearray(bytes_of[:-32])
    for _ in range(draw.choice((1, 1, 2, 4))):
        at = draw.randrange(len(body) + 1)
        way = draw.choice((0, 1, 1, 1, 1, 2, 3, 4, 4))
        if way == 0:
            del body[at:]
        elif way == 1 and at < len(body):
            body[at] ^= 1 << draw.randrange(8)
        elif way == 2:
            body[at:at] = draw.choice((b"\0", b"\xff", b"\0\0\0\1", b"\0\1\0\0\0\1"))
        elif way == 3:
            del body[at:at + draw.choice((1, 2, 4, 6))]
        else:
            body[at:at + 4] = draw.choice((b"\0\0\0\0", b"\xff\xff\xff\xff", b"\x3f\xff\x3f\xff", b"\0\0\0\1"))
    if draw.random() < 0.6:
        return sealed(bytes(body))
    whole = bytearray(body + bytes_of[-32:])
    if draw.random() < 0.5:
        del whole[draw.randrange(len(whole) + 1):]
    return bytes(whole)
