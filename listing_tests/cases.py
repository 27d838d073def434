"""Inputs of the listing program and what it must print. What is expected is written down here or made beside the input, by the
paper; nothing of it comes from the program. Each case: name, input, output, and whether the Rust reads it the same (it has no
limits like 10 to 13)."""
import random

H = b"ABX\0"
WINDOW = 65536
ROWS = 2048
PAIRS = 8192
STORE = 65536


def u16(n):
    return n.to_bytes(2, "big")


def sized(s):
    return u16(len(s)) + s


def new(s):
    return b"\xff\xff" + sized(s)


def column(s):
    return s.hex() if s else "="


def edges():
    """01, "Cases on each edge", and its example."""
    tag = b"\x32" + new(b"p")
    yield "example", H + bytes.fromhex("1032ffff0001706fffff000176000000033300 0011"), \
        "0 - - -\n2 70 - -\n15 76 6 00000003\n3 70 - -\n1 - - -\nend 4\n"
    yield "empty", b"", "refused 1 0\n"
    yield "three bytes", b"ABX", "refused 1 0\n"
    yield "another version", b"ABX\1", "refused 2 1094866945\n"
    yield "another version, more", b"ABX\1\x10\x11", "refused 2 1094866945\n"
    yield "header", H, "end 0\n"
    yield "text without a string", H + b"\x04", "4 - - =\nend 1\n"
    yield "empty text", H + b"\x24\0\0", "4 - - =\nend 1\n"
    yield "half a length", H + b"\x24\0", "refused 3 0\n"
    yield "half a string", H + b"\x24\0\2A", "refused 4 0\n"
    yield "attribute outside a tag", H + b"\x0f", "refused 9 15\n"
    yield "no such name", H + b"\x32\0\0", "refused 6 0\n"
    yield "attribute type 14", H + tag + b"\xef" + new(b"v"), "refused 8 224\n"
    yield "broken name", H + b"\x32" + new(b"\xc0"), "refused 7 0\n"
    yield "attribute by index", H + tag + b"\xcf\0\0", "2 70 - -\n15 70 12 -\nend 1\n"
    yield "tag at the end", H + tag, "2 70 - -\nend 1\n"
    yield "surrogate", H + b"\x24" + sized(b"\xed\xa0\x80"), "refused 7 0\n"
    yield "above 10FFFF", H + b"\x24" + sized(b"\xf4\x90\x80\x80"), "refused 7 0\n"
    yield "four octets", H + b"\x24" + sized(b"\xf0\x9f\x98\x80"), "4 - - f09f9880\nend 1\n"
    yield "half a blob", H + tag + b"\x4f" + new(b"v") + b"\0\2A", "refused 5 0\n"
    for command in (11, 12, 13, 14):
        yield "command %d" % command, H + bytes([command]), "refused 9 %d\n" % command
    yield "events before a refusal", H + b"\x10" + tag + b"\x33\0\0\x33\0\1", "0 - - -\n2 70 - -\n3 70 - -\nrefused 6 1\n"
    yield "an event after EndDocument", H + b"\x11\x10", "1 - - -\n0 - - -\nend 2\n"


def kinds():
    """Every kind and type once, names and values empty and not."""
    data, text, events = H, "", 0
    for command in range(4, 11):
        for s in (b"", b"\x00", "é€".encode()):
            data += bytes([0x20 + command]) + sized(s)
            text += "%d - - %s\n" % (command, column(s))
            events += 1
    for name in (b"", b"n", b"\xc3\xa9" * 20):
        for interned in (b"", b"longer"):
            data += b"\x32" + new(name)
            text += "2 %s - -\n" % column(name)
            values = [(1, b"", "-"), (12, b"", "-"), (13, b"", "-")]
            for type_ in (2, 4, 5):
                values += [(type_, sized(s), column(s)) for s in (b"", b"A", b"0123456789")]
            values += [(type_, n.to_bytes(4, "big"), "%08x" % n) for type_ in (6, 7, 10) for n in (0, 3, 0xABCDEF12, 0xFFFFFFFF)]
            values += [(type_, n.to_bytes(8, "big"), "%016x" % n) for type_ in (8, 9, 11) for n in (0, 3, 0xABCDEF12_00000001, 2**64 - 1)]
            values += [(3, new(interned), column(interned))]
            for type_, value, shown in values:
                data += bytes([type_ * 16 + 15]) + new(name) + value
                text += "15 %s %d %s\n" % (column(name), 2 if type_ == 3 else type_, shown)
            events += 1
    yield "kinds and types", data, text + "end %d\n" % events


def spaces():
    """The program's window, rows, pairs and name store, filled to the last byte and one over."""
    def text_of(length):
        return b"\x24" + sized(b"a" * (length - 3)), "4 - - %s\n" % ("61" * (length - 3))

    event, line = text_of(WINDOW)
    yield "event as long as the window", H + event, line + "end 1\n", True
    yield "the same twice", H + event + event + b"\x11", line + line + "1 - - -\nend 3\n", True
    event, line = text_of(WINDOW + 1)
    yield "event a byte longer", H + event, "refused 13 0\n", False
    yield "the same after an event", H + b"\x10" + event, "0 - - -\nrefused 13 0\n", False

    # a start tag is complete once a byte follows it
    def tag_of(length):
        return b"\x32" + new(b"t" * (length - 5)), "2 %s - -\n" % ("74" * (length - 5))

    event, line = tag_of(WINDOW - 1)
    yield "tag a byte under the window", H + event + b"\x11", line + "1 - - -\nend 2\n", True
    event, line = tag_of(WINDOW)
    yield "tag as long as the window", H + event, "refused 13 0\n", False

    def rows(n):
        return H + b"\x32" + new(b"p") + b"\xcf\0\0" * (n - 1) + b"\x11", "2 70 - -\n" + "15 70 12 -\n" * (n - 1) + "1 - - -\nend 2\n"

    yield "as many rows as there are", *rows(ROWS), True
    yield "a row more", rows(ROWS + 1)[0], "refused 10 0\n", False

    def names(n):
        data, text = H, ""
        for i in range(n):
            s = b"%x" % i
            data += b"\x33" + new(s)
            text += "3 %s - -\n" % s.hex()
        return data, text

    data, text = names(PAIRS)
    last = PAIRS - 1
    yield "as many names as there are pairs", data + b"\x33" + u16(last), text + "3 %s - -\nend %d\n" % ((b"%x" % last).hex(), PAIRS + 1), True
    yield "a name more", data + b"\x33" + new(b""), text + "refused 11 0\n", False

    data = H + (b"\x33" + new(b"n" * 1024)) * (STORE // 1024)
    text = ("3 %s - -\n" % ("6e" * 1024)) * (STORE // 1024)
    yield "a full name store", data + b"\x33" + new(b"") + b"\x33\0\0", text + "3 = - -\n3 %s - -\nend %d\n" % ("6e" * 1024, STORE // 1024 + 2), True
    yield "a byte of names more", data + b"\x33" + new(b"n"), text + "refused 12 0\n", False

    # the longest line: a name of the store and a value of the window, each nearly as long as these
    name, value = b"n" * (WINDOW - 5), b"v" * (WINDOW - 9)
    line = "15 %s 2 %s\n" % (name.hex(), value.hex())
    data = H + b"\x33" + new(name) + b"\x32\0\0\x2f\0\0" + sized(value) + b"\x11"
    yield "the longest line", data, "3 %s - -\n2 %s - -\n" % (name.hex(), name.hex()) + line + "1 - - -\nend 3\n", True


def large():
    """16 MiB: settings, the names by index."""
    data = H + b"\x10\x32" + new(b"settings") + b"\x2f" + new(b"name") + sized(b"first")
    text = "0 - - -\n2 %s - -\n15 %s 2 %s\n" % (b"settings".hex(), b"name".hex(), b"first".hex())
    events = 2
    block, lines = b"", ""
    for i in range(1000):
        block += b"\x32\0\0\x2f\0\1" + sized(b"key_%d" % i) + b"\x6f\0\1" + i.to_bytes(4, "big") + b"\x24" + sized(b"x" * (i % 50)) + b"\x33\0\0"
        lines += "2 %s - -\n15 %s 2 %s\n" % (b"settings".hex(), b"name".hex(), (b"key_%d" % i).hex())
        lines += "15 %s 6 %08x\n4 - - %s\n3 %s - -\n" % (b"name".hex(), i, column(b"x" * (i % 50)), b"settings".hex())
    times = (16 * 1024 * 1024 - len(data)) // len(block) + 1
    yield "16 MiB", data + block * times + b"\x11", text + lines * times + "1 - - -\nend %d\n" % (events + 3000 * times + 1)


def cases():
    for name, data, text in edges():
        yield name, data, text, True
    for name, data, text in kinds():
        yield name, data, text, True
    yield from spaces()
    for name, data, text in large():
        yield name, data, text, True


def seeded(seed, n):
    """Documents with a bit of everything, some cut short, some with a byte changed."""
    r = random.Random(seed)
    for _ in range(n):
        data = H
        names = 0
        for _ in range(r.randrange(8)):
            kind = r.randrange(6)
            name = new(bytes(r.choice(b"abc") for _ in range(r.randrange(4)))) if names == 0 or r.random() < 0.5 else u16(r.randrange(names))
            names += name[:2] == b"\xff\xff"
            if kind < 2:
                data += bytes([kind + 16])
            elif kind == 2:
                data += bytes([0x20 + r.randrange(4, 11)]) + sized("aé€"[:r.randrange(4)].encode())
            elif kind == 3:
                data += b"\x33" + name
            else:
                data += b"\x32" + name
                for _ in range(r.randrange(4)):
                    type_ = r.randrange(1, 14)
                    value = b""
                    if type_ in (2, 4, 5):
                        value = sized(bytes(r.choice(b"xyz") for _ in range(r.randrange(5))))
                    elif type_ == 3:
                        value = new(b"v") if r.random() < 0.5 else u16(r.randrange(names))
                    elif type_ in (6, 7, 10):
                        value = r.randbytes(4)
                    elif type_ in (8, 9, 11):
                        value = r.randbytes(8)
                    data += bytes([type_ * 16 + 15]) + u16(r.randrange(names)) + value
                    names += value[:2] == b"\xff\xff" and type_ == 3
        change = r.randrange(3)
        if change == 1:
            data = data[:r.randrange(len(data) + 1)]
        elif change == 2:
            at = r.randrange(len(data))
            data = data[:at] + r.randbytes(1) + data[at + 1:]
        yield data
