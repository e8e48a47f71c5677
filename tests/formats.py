"""Images and logs, made and taken apart as docs/FORMATS.md says, without the program."""

import hashlib

BLOCK, HEADER, LOG_HEADER, DIGEST = 64, 37, 72, 32


def digest(*parts):
    return hashlib.sha256(b"".join(parts)).digest()


def number(value, places):
    return value.to_bytes(places, "big")


def entry(key, value):
    """An entry, whose value is None where the key is gone."""
    held = b"\0" if value is None else b"\1" + number(len(value), 2) + value
    return number(len(key), 1) + key + held


def header(kind, numbers, count):
    """What stands behind the letters of an image: its kind, number, base and place, and how many entries."""
    return number(["full", "partial"].index(kind), 1) + b"".join(number(it, 8) for it in numbers) + number(count, 4)


def seal(rest, entries):
    """An image in version 2, of what stands behind its letters."""
    front = b"CALCIMG2" + rest
    parts = [front, digest(front)]
    for at in range(0, len(entries), BLOCK):
        block = b"".join(entries[at : at + BLOCK])
        parts += [block, digest(parts[-1], block)]
    return b"".join(parts)


def seal_v1(rest, entries):
    front = b"CALCIMG1" + rest + b"".join(entries)
    return front + digest(front)


def entry_end(image, at):
    """Where the entry that begins at a place ends."""
    tag = at + 1 + image[at]
    return tag + 1 if image[tag] == 0 else tag + 3 + int.from_bytes(image[tag + 1 : tag + 3], "big")


def taken_apart(image):
    """What stands behind the letters of a sound image in either version, and its entries."""
    in_blocks = image[7:8] == b"2"
    count = int.from_bytes(image[HEADER - 4 : HEADER], "big")
    at, entries = HEADER + DIGEST * in_blocks, []
    for index in range(count):
        if in_blocks and index and index % BLOCK == 0:
            at += DIGEST
        end = entry_end(image, at)
        entries.append(image[at:end])
        at = end
    return image[8:HEADER], entries


def bodies(log):
    """The bodies of a log's records."""
    at, found = LOG_HEADER, []
    while at < len(log):
        end = at + 4 + int.from_bytes(log[at : at + 4], "big")
        found.append(log[at + 4 : end])
        at = end + DIGEST
    return found


def log(front, records):
    """A log of a header and of bodies."""
    parts, last = [front], digest(front)
    for body in records:
        last = digest(last, body)
        parts += [number(len(body), 4), body, last]
    return b"".join(parts)


def older(file):
    """The same image or log in version 1."""
    if file.startswith(b"CALCLOG"):
        return log(b"CALCLOG1" + file[8:LOG_HEADER], bodies(file))
    return seal_v1(*taken_apart(file))


def under(other, file):
    """The log of one's records under the header of another one."""
    return log(other[:LOG_HEADER], bodies(file))
