"""Inputs of the program abx2xml and what it must print. What is expected is written down here, or made from a listing of the events by a model
of the paper; nothing of it comes from the program. Each case: name, input, text, and the refusal's number and detail, or None."""
import importlib.util
import os
import re

# the listing program's cases, whose inputs and listings serve here too
_path = os.path.join(os.path.dirname(os.path.abspath(__file__)), "..", "listing_tests", "cases.py")
_spec = importlib.util.spec_from_file_location("listing_cases", _path)
listing = importlib.util.module_from_spec(_spec)
_spec.loader.exec_module(listing)
H, u16, sized, new = listing.H, listing.u16, listing.sized, listing.new

# ---- the model: a listing's lines as XML

ESCAPES = {"<": "&lt;", ">": "&gt;", "&": "&amp;", '"': "&quot;", "'": "&apos;"}
# XML 1.0, production 2
ILLEGAL = re.compile("[^\t\n\r\u0020-\ud7ff\ue000-\ufffd\U00010000-\U0010ffff]")
BASE64 = "ABCDEFGHIJKLMNOPQRSTUVWXYZabcdefghijklmnopqrstuvwxyz0123456789+/"
AROUND = {5: "<![CDATA[%s]]>", 6: "&%s;", 7: "%s", 8: "<?%s?>", 9: "<!--%s-->", 10: "<!DOCTYPE %s>"}


def escape(s):
    return "".join(ESCAPES.get(c, c) for c in s)


def base64(data):
    bits = "".join("{:08b}".format(b) for b in data)
    bits += "0" * (-len(bits) % 6)
    digits = "".join(BASE64[int(bits[i:i + 6], 2)] for i in range(0, len(bits), 6))
    return digits + "=" * (-len(digits) % 4)


def signed(digits, base):
    n = int(digits, 16)
    if n >= 16 ** len(digits) // 2:
        n -= 16 ** len(digits)
    return str(n) if base == 10 else "{:x}".format(n)


def value_text(of, column):
    data = b"" if column in "=-" else bytes.fromhex(column)
    if of == 2:
        return escape(data.decode())
    if of == 5:
        return base64(data)
    if of in (6, 8):
        return signed(column, 10)
    if of in (7, 9):
        return signed(column, 16)
    if of in (12, 13):
        return "true" if of == 12 else "false"
    # a blob's hex digits, a float's bits, or null
    return data.hex()


def of_listing(lines):
    """The text of the listed events, and the refusal that they end with: the listing's, or 20 before it."""
    text, event, refusal, illegal = [], "", None, False
    is_open = False
    for line in lines.split("\n"):
        columns = line.split(" ")
        starts_anew = columns[0] != "15"
        if starts_anew:
            # the event before is complete
            if is_open:
                event += ">"
            if illegal:
                return "".join(text), (20, 0)
            text.append(event)
            event, is_open = "", False
        if columns[0] in ("", "end"):
            break
        if columns[0] == "refused":
            refusal = (int(columns[1]), int(columns[2]))
            break
        kind, name, of, value = int(columns[0]), columns[1], columns[2], columns[3]
        name = "" if name in "=-" else bytes.fromhex(name).decode()
        string = bytes.fromhex(value).decode() if value not in "=-" and (kind in range(4, 11) or of == "2") else ""
        illegal = illegal or ILLEGAL.search(name + string) is not None
        if kind == 2:
            event, is_open = "<" + name, True
        elif kind == 3:
            event = "</%s>" % name
        elif kind == 4:
            event = escape(string)
        elif kind in AROUND:
            event = AROUND[kind] % string
        elif kind == 15:
            event += ' %s="%s"' % (name, value_text(int(of), value))
    return "".join(text), refusal


# ---- cases


def listed():
    """01, "Cases on each edge", its example, and every kind and type: the listing program's cases, as XML."""
    for cases in (listing.edges, listing.kinds):
        for name, data, lines in cases():
            yield name, data, *of_listing(lines)


def tag(name=b"p"):
    return b"\x32" + new(name)


def texts():
    """Written down by hand, with the paper's own words for what each prints."""
    yield "nothing at all", H + b"\x10\x11", "", None
    yield "the example", H + b"\x10" + tag() + b"\x6f" + new(b"v") + b"\0\0\0\x03" + b"\x33\0\0\x11", '<p v="3"></p>', None
    five = sized(b"<>&\"'")
    yield "escapes in a text", H + b"\x24" + five, "&lt;&gt;&amp;&quot;&apos;", None
    for command, text in ((5, "<![CDATA[<>&\"']]>"), (6, "&<>&\"';"), (7, "<>&\"'"), (8, "<?<>&\"'?>"), (9, "<!--<>&\"'-->"), (10, "<!DOCTYPE <>&\"'>")):
        yield "unescaped, command %d" % command, H + bytes([0x20 + command]) + five, text, None
    yield "a name unescaped", H + b"\x33\xff\xff" + five, "</<>&\"'>", None
    for of, value, text in (
        (1, "", ""), (2, "0003613c62", "a&lt;b"), (4, "000300abff", "00abff"), (5, "0000", ""), (5, "000166", "Zg=="), (5, "0002666f", "Zm8="),
        (5, "0003666f6f", "Zm9v"), (5, "0003fbffbf", "+/+/"), (6, "80000000", "-2147483648"), (6, "ffffffff", "-1"), (6, "7fffffff", "2147483647"),
        (7, "cafebabe", "-35014542"), (7, "80000000", "-80000000"), (7, "0000002a", "2a"), (8, "8000000000000000", "-9223372036854775808"),
        (8, "0000000100000000", "4294967296"), (9, "ffffffffffffffff", "-1"), (9, "8000000000000000", "-8000000000000000"),
        (10, "3f800000", "3f800000"), (10, "00000000", "00000000"), (11, "0000000000000001", "0000000000000001"), (12, "", "true"), (13, "", "false"),
    ):
        yield "type %d, %s" % (of, value), H + tag() + bytes([of * 16 + 15]) + new(b"v") + bytes.fromhex(value), '<p v="%s">' % text, None
    yield "a string that was interned", H + tag() + b"\x3f\0\0\0\0", '<p p="p">', None
    yield "nothing between events", H + b"\x24\0\1a\x24\0\1b" + tag() + b"\x33\0\0", "ab<p></p>", None
    yield "an event after EndDocument", H + b"\x11\x24\0\1a", "a", None


def refusals():
    """The text so far stays, whole events of it; then the refusal is told."""
    good, text = H + tag() + b"\x24\0\1a", "<p>a"
    for char in ("\0", "\x01", "\x08", "\x0b", "\x0c", "\x0e", "\x1f", "\ufffe", "\uffff"):
        data = char.encode()
        for command in range(4, 11):
            yield "%r by command %d" % (char, command), good + bytes([0x20 + command]) + sized(b"x" + data), text, (20, 0)
        yield "%r in a name" % char, good + tag(data) + b"\x11", text, (20, 0)
        yield "%r in an attribute's name" % char, good + tag() + b"\xcf\0\0\xcf" + new(data) + b"\x11", text, (20, 0)
        yield "%r in a value" % char, good + tag() + b"\xcf\0\0\x2f\0\0" + sized(data) + b"\x11", text, (20, 0)
    for char in ("\t", "\n", "\r", " ", "\x7f", "\u0080", "\ud7ff", "\ue000", "\ufffd", "\U00010000", "\U0010ffff"):
        yield "%r stays" % char, good + b"\x24" + sized(char.encode()), text + char, None
    yield "no such name", good + b"\x33\0\7", text, (6, 7)
    yield "no such name, nothing before", H + b"\x32\0\0", "", (6, 0)
    yield "broken UTF-8", good + b"\x24\0\1\xff", text, (7, 0)
    yield "cut", good + b"\x24\0\2a", text, (4, 0)
    # a tag is complete where a byte follows it
    yield "a tag, then a wrong token", H + tag() + b"\x0b", "<p>", (9, 11)
    yield "a wrong token in a tag", H + b"\x24\0\1a" + tag() + b"\xef\0\0", "a", (8, 224)


def long_ones():
    """Events that a buffer has no room for, and the program's limits."""
    longest = b"n" * 65535
    yield "the longest text", H + b"\x24" + sized(longest), "n" * 65535, None
    yield "the longest text of escapes", H + b"\x24" + sized(b"'" * 65535), "&apos;" * 65535, None
    yield "the longest blob", H + tag() + b"\x4f\0\0" + sized(longest) + b"\x11", '<p p="%s">' % ("6e" * 65535), None
    yield "the longest name", H + tag(longest) + b"\x11", "<%s>" % ("n" * 65535), None
    attributes = b"".join(b"\x2f\0\0" + sized(b'"' * 50000) for _ in range(20))
    yield "a tag of a megabyte", H + tag() + attributes + b"\x11", "<p" + ' p="%s"' % ("&quot;" * 50000) * 20 + ">", None
    yield "16,384 attributes", H + tag() + b"\xcf\0\0" * 16384 + b"\x11", "<p" + ' p="true"' * 16384 + ">", None
    # over the longest window: 1,048,576 bytes
    attributes = b"".join(b"\x4f\0\0" + sized(longest) for _ in range(17))
    yield "an event that no window has room for", H + b"\x24\0\1a" + tag() + attributes + b"\x11", "a", (13, 0)
    # over the program's name store, 1,048,576 bytes; over its rows, 98,304 of an event
    name = b"\x33" + new(b"n" * 60000)
    yield "names that its store has no room for", H + name * 18, ("</%s>" % ("n" * 60000)) * 17, (12, 0)
    yield "as many rows as it has", H + tag() + b"\xcf\0\0" * 98303 + b"\x11", "<p" + ' p="true"' * 98303 + ">", None
    yield "more rows than it has", H + b"\x24\0\1a" + tag() + b"\xcf\0\0" * 98304 + b"\x11", "a", (10, 0)
    # its pool has room for all names that can have an index; those after them are not kept
    yield "more names than can be", H + (b"\x33" + new(b"n")) * 65536, "</n>" * 65536, None


def large():
    """16 MiB: settings, the names by index."""
    data, text = H + b"\x10" + tag(b"settings") + b"\x2f" + new(b"name") + sized(b"first"), '<settings name="first">'
    block, lines = b"", ""
    for i in range(1000):
        block += b"\x32\0\0\x2f\0\1" + sized(b"key_%d" % i) + b"\x6f\0\1" + i.to_bytes(4, "big") + b"\x24" + sized(b"x>" * (i % 25)) + b"\x33\0\0"
        lines += '<settings name="key_%d" name="%d">%s</settings>' % (i, i, "x&gt;" * (i % 25))
    times = (16 * 1024 * 1024 - len(data)) // len(block) + 1
    yield "16 MiB", data + block * times + b"\x11", text + lines * times, None


# what the program says of each refusal that an input can have
WORDS = {
    1: "the input ends inside the header, its first four bytes",
    2: "this is no ABX file: it does not begin with ABX and a zero byte",
    3: "the input ends inside a token, length, index or number",
    4: "the input ends inside a string",
    5: "the input ends inside a blob",
    6: "a name is given by an index that no name has",
    7: "a string is not well-formed UTF-8",
    8: "an attribute is of an unknown type, told times 16",
    9: "an unknown command, or an attribute outside a start tag",
    10: "an event has over 98,304 rows: a start tag and its attributes",
    12: "all names together have over 1,048,576 bytes",
    13: "an event has over 1,048,576 bytes",
    20: "a name, text or value has a character that XML 1.0 does not allow",
}


def cases():
    yield from listed()
    yield from texts()
    yield from refusals()
    yield from long_ones()
    yield from large()


def repeated():
    """A name of 65,535 bytes, and a tag of 16,384 attributes of that name: a gigabyte of text. The input; then what comes first, what comes again and
    again, how often, and what comes last."""
    name = b"n" * 65535
    data = H + b"\x33" + new(name) + b"\x32\0\0" + b"\xcf\0\0" * 16384 + b"\x33\0\0"
    return data, b"</%s><%s" % (name, name), b' %s="true"' % name, 16384, b"></%s>" % name


# ---- nested lists for an outside parser


def nested(r):
    """A nested list's document, and what a parser of its text has to tell: start (name, attributes), end, text, comment, instruction, in order.
    White space that a parser changes (a carriage return; in a value also tab and line feed) is left out, and so is what ends a comment,
    a section or an instruction early."""
    data, told = [H, b"\x10"], []
    pool = {}

    def name_of(s):
        s = s.encode()
        if s in pool:
            return u16(pool[s])
        pool[s] = len(pool)
        return new(s)

    def string(more="", most=12):
        letters = "abcxyz<>&\"'é€\ufffd😀0 " + more
        return "".join(r.choice(letters) for _ in range(r.randrange(most)))

    def text(s):
        # texts one after another are one
        if s and told and told[-1][0] == "text":
            told[-1] = ("text", told[-1][1] + s)
        elif s:
            told.append(("text", s))

    def name():
        return r.choice("abcé_") + "".join(r.choice("abc-.0é中") for _ in range(r.randrange(6)))

    def value():
        of = r.choice([1, 2, 2, 2, 4, 5, 6, 7, 8, 9, 10, 11, 12, 13])
        if of == 2:
            s = string()
            return of, sized(s.encode()), s
        if of in (4, 5):
            blob = r.randbytes(r.randrange(7))
            return of, sized(blob), value_text(of, blob.hex() or "=")
        if of in (6, 7, 10):
            bits = r.randbytes(4)
        elif of in (8, 9, 11):
            bits = r.randbytes(8)
        else:
            return of, b"", value_text(of, "-")
        return of, bits, value_text(of, bits.hex())

    def element(depth):
        tag_name = name()
        data.append(b"\x32" + name_of(tag_name))
        attributes = []
        for attribute in dict.fromkeys(name() for _ in range(r.randrange(5))):
            of, bits, shown = value()
            data.append(bytes([of * 16 + 15]) + name_of(attribute) + bits)
            attributes += [attribute, shown]
        told.append(("start", tag_name, attributes))
        for _ in range(r.randrange(6)):
            kind = r.randrange(8)
            if kind < 2 and depth < 6:
                element(depth + 1)
            elif kind == 2:
                s = string("\t\n", 40)
                data.append(b"\x24" + sized(s.encode()))
                text(s)
            elif kind == 3:
                s = string("\n]").replace("]]>", "")
                data.append(b"\x25" + sized(s.encode()))
                text(s)
            elif kind == 4:
                s = r.choice(["amp", "lt", "gt", "quot", "apos", "#65", "#x20ac"])
                data.append(b"\x26" + sized(s.encode()))
                text({"amp": "&", "lt": "<", "gt": ">", "quot": '"', "apos": "'", "#65": "A", "#x20ac": "€"}[s])
            elif kind == 5:
                s = r.choice([" ", "\n", "\t \n"])
                data.append(b"\x27" + sized(s.encode()))
                text(s)
            elif kind == 6:
                s = string("\n").replace("?>", "").lstrip()
                data.append(b"\x28" + sized(("go " + s).encode()))
                told.append(("instruction", "go", s.lstrip(" \n")))
            elif kind == 7:
                s = string("\n")
                data.append(b"\x29" + sized(s.encode()))
                told.append(("comment", s))
        data.append(b"\x33" + name_of(tag_name))
        told.append(("end", tag_name))

    if r.random() < 0.3:
        data.append(b"\x2a" + sized(b"root"))
        told.append(("doctype", "root"))
    element(0)
    data.append(b"\x11")
    return b"".join(data), told
