#!/usr/bin/env python3
"""Turn a sheet written as text into packed bytes.

    python3 tools/pack.py SHEET.txt OUT.packed
    python3 tools/pack.py --many N OUT.packed

The first form packs what a merchant wrote.  The second form makes a large
sheet with at least N entries, for timing.

How a sheet is written (blanks and line ends separate):

    barley            a name: a letter or _, then letters, digits and _
    4.25              a literal: a number
    "Brot"            a literal: text on one line; the quotes are kept
    = < > ! ~ + - * / % ^ & | @ . , ; : # $ ? '
                      marks; in a run such as += all but the last are joint
    'pan              an apostrophe (always joint) and a name
    ( ) { } [ ]       groups
    ⟨ ⟩               an invisible group: a piece filled in from a template
    // words          a comment; it must have the line for itself, because
                      / is also a mark and # is also a mark
"""

import sys

# Kinds of entries.  A group's kind is also the number of its delimiter.
INVISIBLE, PARENTHESIS, BRACE, BRACKET = 0, 1, 2, 3
NAME, LITERAL, MARK, END = 4, 5, 6, 7

MARKS = "=<>!~+-*/%^&|@.,;:#$?'"
OPENERS = {"⟨": INVISIBLE, "(": PARENTHESIS, "{": BRACE, "[": BRACKET}
CLOSERS = {"⟩": INVISIBLE, ")": PARENTHESIS, "}": BRACE, "]": BRACKET}
OPENER_OF = {kind: char for char, kind in OPENERS.items()}
CLOSER_OF = {kind: char for char, kind in CLOSERS.items()}

MOST_ENTRIES = 65535  # the count of entries is a 16-bit number
MOST_OFFSET = 65535   # so is the offset of a pair
MOST_LENGTH = 255     # the length of a pair is an 8-bit number
MOST_OPEN = 60        # a reader refuses a sheet nested deeper than this

# Below this size the large sheet could not be made of whole keys only.
LEAST_MANY = 28


class Wrong(Exception):
    """Something is wrong with the sheet, on this line (None: no one line)."""

    def __init__(self, line, message):
        super().__init__(message)
        self.line = line
        self.message = message


class Sheet:
    """The entries, the pairs and the text of a sheet, while it grows."""

    def __init__(self, share):
        self.entries = []    # [kind, value]
        self.pairs = []      # (offset, length)
        self.text = bytearray()
        self.open = []       # (place of the group, line it was written on)
        # With sharing, equal texts use one pair.  Only the large sheet does
        # this: its texts would not fit 16-bit offsets otherwise.
        self.share = share
        self.known = {}

    def add(self, kind, value, line):
        # Room is kept for the Ends still to come: one for each open group,
        # and the one that closes the sheet.
        if kind != END and len(self.entries) + len(self.open) + 1 >= MOST_ENTRIES:
            raise Wrong(line, f"the sheet has more than {MOST_ENTRIES} entries")
        self.entries.append([kind, value])

    def words(self, kind, text, line):
        """Add a name or a literal."""
        data = text.encode("utf-8")
        if self.share and data in self.known:
            self.add(kind, self.known[data], line)
            return
        if not 1 <= len(data) <= MOST_LENGTH:
            raise Wrong(line, f"the text {text[:20]}... has {len(data)} bytes, "
                              f"but 1 to {MOST_LENGTH} are possible")
        if len(self.text) > MOST_OFFSET:
            raise Wrong(line, "the texts before this one are too long together: "
                              f"a text must start within the first {MOST_OFFSET + 1} bytes")
        self.add(kind, len(self.pairs), line)
        self.known[data] = len(self.pairs)
        self.pairs.append((len(self.text), len(data)))
        self.text += data

    def mark(self, char, joint, line):
        self.add(MARK, ord(char) + 256 * joint, line)

    def group(self, kind, line):
        if len(self.open) == MOST_OPEN:
            raise Wrong(line, f"more than {MOST_OPEN} groups are open here")
        # It is noted as open first, so that add() keeps room for its End.
        self.open.append((len(self.entries), line))
        # The distance is not known yet; end() fills it in.
        self.add(kind, 0, line)

    def end(self, kind, line):
        closer = CLOSER_OF[kind]
        if not self.open:
            raise Wrong(line, f"{closer} closes nothing: no group is open here")
        place, opened = self.open[-1]
        if self.entries[place][0] != kind:
            opener = OPENER_OF[self.entries[place][0]]
            raise Wrong(line, f"{closer} cannot close the {opener} of line {opened}")
        self.open.pop()
        distance = len(self.entries) - place
        self.entries[place][1] = distance
        self.add(END, distance, line)

    def packed(self):
        """Close the sheet and give its bytes."""
        if self.open:
            place, opened = self.open[-1]
            opener = OPENER_OF[self.entries[place][0]]
            raise Wrong(opened, f"this {opener} is never closed")
        self.add(END, 0, None)
        out = bytearray([1])
        out += len(self.entries).to_bytes(2, "little")
        out += len(self.pairs).to_bytes(2, "little")
        for kind, value in self.entries:
            out.append(kind)
            out += value.to_bytes(2, "little")
        for offset, length in self.pairs:
            out += offset.to_bytes(2, "little")
            out.append(length)
        return bytes(out + self.text)


def starts_name(char):
    return char == "_" or char.isalpha()


def in_name(char):
    return char == "_" or char.isalnum()


def is_digit(char):
    # Only 0 to 9: other scripts' digits would make a price hard to check.
    return "0" <= char <= "9"


def read_line(sheet, text, line):
    """Add the entries written on one line."""

    # A blank behind the line saves a check for the line's end everywhere:
    # a line end separates in the same way as a blank does.
    text += " "
    at = 0
    while at < len(text):
        char = text[at]
        after = at + 1
        if char in " \t":
            pass
        elif starts_name(char):
            while in_name(text[after]):
                after += 1
            sheet.words(NAME, text[at:after], line)
        elif is_digit(char):
            while is_digit(text[after]):
                after += 1
            # A dot belongs to the number only if a digit follows it.
            if text[after] == "." and is_digit(text[after + 1]):
                after += 1
                while is_digit(text[after]):
                    after += 1
            # 4kg is more often a slip than a number and a name.
            if in_name(text[after]):
                raise Wrong(line, f"the number {text[at:after]} runs into "
                                  f"{text[after]}: put a blank between them")
            sheet.words(LITERAL, text[at:after], line)
        elif char == '"':
            # There is no escape: the text ends at the next quote.
            close = text.find('"', after)
            if close < 0:
                raise Wrong(line, "this text has no closing quote on its line")
            after = close + 1
            sheet.words(LITERAL, text[at:after], line)
        elif char == "'":
            # An apostrophe is lawful only as the first half of a label.
            if not starts_name(text[after]):
                raise Wrong(line, "a name must stand directly behind an apostrophe")
            sheet.mark(char, True, line)
        elif char in MARKS:
            sheet.mark(char, text[after] in MARKS, line)
        elif char in OPENERS:
            sheet.group(OPENERS[char], line)
        elif char in CLOSERS:
            sheet.end(CLOSERS[char], line)
        else:
            raise Wrong(line, f"a sheet cannot hold this character here: {char!r}")
        at = after


def read_sheet(data):
    """Pack a sheet given as the bytes of its text file."""
    sheet = Sheet(share=False)
    # Some editors put a byte order mark in front; it is no part of the sheet.
    if data.startswith(b"\xef\xbb\xbf"):
        data = data[3:]
    for line, raw in enumerate(data.split(b"\n"), 1):
        # Lines are decoded one by one so that a bad one can be named.
        try:
            text = raw.decode("utf-8")
        except UnicodeDecodeError:
            raise Wrong(line, "this line is not UTF-8 text")
        text = text.rstrip("\r")
        if not text.lstrip(" \t").startswith("//"):
            read_line(sheet, text, line)
    return sheet.packed()


def short_name(number):
    """A short name for a key: a, b, ... z, aa, ab, ..."""
    name = ""
    while True:
        name = chr(ord("a") + number % 26) + name
        number = number // 26 - 1
        if number < 0:
            return name


def many_sheet(count):
    """Pack a large sheet of exactly max(count, LEAST_MANY) entries."""
    if count > MOST_ENTRIES:
        raise Wrong(None, f"a sheet has at most {MOST_ENTRIES} entries, not {count}")
    count = max(count, LEAST_MANY)

    # Three ways to write a key, of 4, 9 and 17 entries.  The letters n, p and
    # t stand for the key's own name, price and tare.
    bare = "n = p ;"
    written = "n = p { tare = t } ;"
    filled = "⟨ n = ⟨ p ⟩ ⟨ { tare = ⟨ t ⟩ } ⟩ ⟩ ;"

    sheet = Sheet(share=True)
    keys = 0
    while True:
        left = count - 1 - len(sheet.entries)
        if left == 0:
            return sheet.packed()
        if left > 60:
            form = (written, filled, bare, filled)[keys % 4]
        else:
            # Near the end only keys of 9 and of 4 entries are used, because
            # with them every size from 27 on is met exactly: 9 leaves one
            # over when 4s are taken out, so (left % 4) nines come first.
            form = written if left % 4 else bare
        # Names differ from key to key.  Prices and tares come back after a
        # while, so that their texts stay few.
        texts = {
            "n": (NAME, short_name(keys)),
            "p": (LITERAL, f"{keys * 7 % 1000 // 100}.{keys * 7 % 100:02}"),
            "t": (LITERAL, f"0.{keys * 3 % 100:02}"),
            "tare": (NAME, "tare"),
        }
        for piece in form.split():
            if piece in OPENERS:
                sheet.group(OPENERS[piece], None)
            elif piece in CLOSERS:
                sheet.end(CLOSERS[piece], None)
            elif piece in MARKS:
                sheet.mark(piece, False, None)
            else:
                sheet.words(*texts[piece], None)
        keys += 1


def main(arguments):
    if len(arguments) == 3 and arguments[0] == "--many" and arguments[1].isdecimal():
        source, target = "--many", arguments[2]
    elif len(arguments) == 2 and not arguments[0].startswith("--"):
        source, target = arguments
    else:
        print(__doc__.strip(), file=sys.stderr)
        return 2
    try:
        if source == "--many":
            packed = many_sheet(int(arguments[1]))
        else:
            with open(source, "rb") as file:
                packed = read_sheet(file.read())
        # The file is written last, so a wrong sheet leaves no half result.
        with open(target, "wb") as file:
            file.write(packed)
    except Wrong as wrong:
        where = source if wrong.line is None else f"{source}:{wrong.line}"
        print(f"{where}: {wrong.message}", file=sys.stderr)
        return 1
    except OSError as error:
        print(error, file=sys.stderr)
        return 1
    return 0


if __name__ == "__main__":
    sys.exit(main(sys.argv[1:]))
