"""Messages as bytes, as docs/FORMATS.md tells them, for `world_model.py`: what forged bytes are read as, and how a message is written.

Nothing here is taken from the sources or specs of the crates. A message is its kind and what it says: a list nothing, an advertisement
the refs, a want what is wanted and what is had, a pack its objects, a push its commands, its objects (none where a body is at fault) and
whether it is atomic, a report for each command its name, the new id and the number of the reason, or none where it was accepted. Bytes
that are no message raise `Refused` with the number of their first fault.
"""
import re

import world_values
from world_values import LONGEST_BODY, Refused, name_of

ZERO = "0" * 40
MOST = 256  # commands of a push, wants, haves
LONGEST_LINE = 65_516
FLUSH = b"0000"
CAPABILITIES = b"report-status-v2"
ATOMIC = b"atomic"  # a word after them, in an advertisement and in an atomic push
TEXTS = {
    100: b"bad name",
    101: b"outside refs/heads and refs/tags",
    102: b"deletion prohibited",
    103: b"missing necessary objects",
    104: b"not a commit",
    105: b"non-fast-forward",
    106: b"already exists",
    107: b"name conflict",
    108: b"stale",
    109: b"unpacker error",
    117: b"atomic push failure",
}
NUMBERS = {words: number for number, words in TEXTS.items()}
ID, NAME = rb"([0-9a-fA-F]{40})", rb"([^ \n\0]+)"


# ---- writing


def line(data):
    return b"%04x" % (len(data) + 4) + data


def texts(lines):
    return b"".join(line(text + b"\n") for text in lines)


def write_stream(objects):
    lines = []
    for kind, body in (objects[it] for it in sorted(objects)):
        lines.append(texts([b"obj %s %d" % (kind.encode(), len(body))]))
        lines += [line(body[at : at + LONGEST_LINE]) for at in range(0, len(body), LONGEST_LINE)]
    return b"".join(lines) + FLUSH


def write_list():
    return texts([b"list"]) + FLUSH


def write_advert(refs):
    lines = [b"%s %s" % (it.encode(), name) for name, it in sorted(refs.items())] or [ZERO.encode() + b" capabilities^{}"]
    return texts([lines[0] + b"\0" + CAPABILITIES + b" " + ATOMIC, *lines[1:]]) + FLUSH


def write_want(wants, haves):
    return texts(b"want " + it.encode() for it in wants) + FLUSH + texts([*(b"have " + it.encode() for it in haves), b"done"])


def write_pack(objects):
    return texts([b"NAK"]) + write_stream(objects)


def write_push(commands, objects, is_atomic=False, words=None):
    """A push, with other words after its first line's name if they are given."""
    lines = [b"%s %s %s" % (old.encode(), new.encode(), name) for old, new, name in commands]
    carried = write_stream(objects) if any(new != ZERO for _, new, _ in commands) else b""
    words = (CAPABILITIES + b" " + ATOMIC if is_atomic else CAPABILITIES) if words is None else words
    return texts([lines[0] + b"\0" + words, *lines[1:]]) + FLUSH + carried


def write_report(results):
    lines = [b"unpack ok"]
    for name, new, reason in results:
        lines += [b"ok " + name, b"option new-oid " + new.encode()] if reason is None else [b"ng %s %s" % (name, TEXTS[reason])]
    return texts(lines) + FLUSH


WRITERS = {"list": write_list, "advert": write_advert, "want": write_want, "pack": write_pack, "push": write_push, "report": write_report}


def written(kind, content):
    return WRITERS[kind](*content)


# ---- reading


class Lines:
    """The lines that bytes begin with, and the rest."""

    def __init__(self, rest):
        self.rest = rest

    def data(self):
        """The data of the next line, or none for a flush."""
        if len(self.rest) < 4:
            raise Refused(83)
        if not re.fullmatch(rb"[0-9a-fA-F]{4}", self.rest[:4]):
            raise Refused(80)
        size = int(self.rest[:4], 16)
        if size in (1, 2, 3) or size > LONGEST_LINE + 4:
            raise Refused(80)
        if size > len(self.rest):
            raise Refused(83)
        data, self.rest = self.rest[4 : size or 4], self.rest[size or 4 :]
        return data if size else None

    def text(self):
        """The data of the next line without a last line feed, or none for a flush."""
        data = self.data()
        return data if data is None else data.removesuffix(b"\n")

    def texts(self):
        """The texts up to a flush."""
        return iter(self.text, None)


def parts(form, text):
    """What stands in a text of this form. Another text, or a flush, is refused."""
    found = text is not None and re.fullmatch(form, text, re.DOTALL)
    if not found:
        raise Refused(81)
    return found.groups()


def id_of(digits):
    return digits.decode().lower()


def add(items, item):
    if len(items) == MOST:
        raise Refused(84)
    items.append(item)


def read_body(lines, size):
    if size > LONGEST_BODY:
        raise Refused(3)
    body = b""
    while len(body) < size:
        data = lines.data()
        if data == b"":
            raise Refused(81)
        if data is None or len(body) + len(data) > size:
            raise Refused(82)
        body += data
    return body


def read_stream(lines, in_pack):
    """The objects of a stream, or none where a body is out of its kind's grammar: in a pack such a body is refused."""
    objects, is_good = {}, True
    for text in lines.texts():
        kind, size = parts(rb"obj (blob|tree|commit|tag) (0|[1-9][0-9]*)", text)
        kind, body = kind.decode(), read_body(lines, int(size[:9]))
        try:
            world_values.check(kind, body)
        except Refused as refused:
            if in_pack:
                raise Refused(81) from refused
            is_good = False
        objects[name_of(kind, body)] = kind, body
    return objects if is_good else None


def read_list(lines):
    if lines.text() is not None:
        raise Refused(81)
    return "list", ()


def read_advert(lines, it, name):
    refs = {name: id_of(it)}
    for text in lines.texts():
        it, name = parts(ID + b" " + NAME, text)
        if name in refs:
            raise Refused(81)
        refs[name] = id_of(it)
    return "advert", ({name: it for name, it in refs.items() if name != b"HEAD" and not name.endswith(b"^{}")},)


def read_want(lines, it):
    wants, haves = [id_of(it)], []
    for text in lines.texts():
        add(wants, id_of(*parts(b"want " + ID, text)))
    while (text := lines.text()) != b"done":
        add(haves, id_of(*parts(b"have " + ID, text)))
    return "want", (wants, haves)


def read_pack(lines):
    return "pack", (read_stream(lines, True),)


def read_push(lines, *first):
    found, words = [first[:3]], first[3].split(b" ")
    for text in lines.texts():
        add(found, parts(ID + b" " + ID + b" " + NAME, text))
    commands = [(id_of(old), id_of(new), name) for old, new, name in found]
    carries = any(new != ZERO for _, new, _ in commands)
    return "push", (commands, read_stream(lines, False) if carries else {}, ATOMIC in words)


def read_report(lines):
    results = []
    for text in lines.texts():
        if text.startswith(b"option ") and results and results[-1][2] is None:
            name, new, _ = results[-1]
            told = re.fullmatch(b"option new-oid " + ID, text)
            results[-1] = name, new or told and id_of(told[1]), None
        elif text.startswith(b"ok "):
            add(results, (*parts(b"ok " + NAME, text), None, None))
        else:
            name, words = parts(b"ng " + NAME + b" (.*)", text)
            add(results, (name, None, NUMBERS.get(words, 0)))
    return "report", ([(name, new or ZERO, reason) for name, new, reason in results],)


def read_error(_):
    return "error", ()


# Which message begins with a line: no two do with one.
READERS = {
    rb"list": read_list,
    ID + b" " + NAME + rb"(?:\0.*)?": read_advert,
    b"want " + ID + rb"(?: .*)?": read_want,
    rb"NAK|ACK [0-9a-fA-F]{40}": read_pack,
    ID + b" " + ID + b" " + NAME + rb"\0(.*)": read_push,
    rb"unpack .*": read_report,
    rb"ERR .*": read_error,
}


def read(text):
    """The message that bytes are."""
    lines = Lines(text)
    first = lines.text()
    for form, reader in READERS.items():
        found = first is not None and re.fullmatch(form, first, re.DOTALL)
        if found:
            message = reader(lines, *found.groups())
            if lines.rest:
                raise Refused(81)
            return message
    raise Refused(81)
