"""Reads docs/FORMAT.md: finds the values that stand in its dumps, tables and sentences, and compares them with what the model gives."""
import re

DUMP = re.compile(r"\b((?:[0-9a-f]{2}, )*[0-9a-f]{2,3}): (zero|(?:[0-9a-f]{2} )*[0-9a-f]{2}\b)(?:, zero to ([0-9a-f]+))?")
SLOT = r"(\w[\w,]*)"
NUMBER_WORDS = {"one": "1", "two": "2", "four": "4", "nine": "9", "ten": "10", "eleven": "11"}
DUMP_LINE_BYTES = 16


def spaced(text):
    """A pattern for these words, with any white space between them."""
    return r"\s+".join(re.escape(word) for word in text.split(" "))


def written_out(value):
    """A value as the page writes it: a number, words, or a sector that is filled with one byte."""
    if isinstance(value, bytes):
        return "%02x" % value[0] if len(set(value)) == 1 else value.hex()
    return str(value).lower()


class NotFound(Exception):
    """The page has not the block that a check is about."""


class Page:
    """The page, how many of its values were compared, and the differences found."""

    def __init__(self, path):
        with open(path, encoding="utf-8") as file:
            self.text = file.read()
        self.path, self.compared, self.differences = path, 0, []

    def compare(self, position, stands, gives):
        self.compared += 1
        if stands != gives:
            self.differ(position, "there stands '%s', the model gives '%s'" % (stands, gives))

    def differ(self, position, what):
        line = self.text.count("\n", 0, position) + 1
        self.differences.append("%s:%d: %s" % (self.path, line, what))

    def not_found(self, what):
        self.differences.append("%s: not found: %s" % (self.path, what))

    def lines(self, start):
        """The lines from a position to the next empty one, with their positions."""
        for line in self.text[start:].split("\n\n", 1)[0].split("\n"):
            yield start, line
            start += len(line) + 1

    def block(self, words):
        """The lines from the one that has these words, which must be there once, to the next empty one, with their positions."""
        found = [match.start() for match in re.finditer(spaced(words), self.text)]
        if len(found) != 1:
            raise NotFound("'%s', once" % words)
        return list(self.lines(self.text.rfind("\n", 0, found[0]) + 1))

    def phrase(self, words, *values):
        """One sentence, each {} of which holds a value. Without values it tells how a case comes about, and has only to be there."""
        pattern = SLOT.join(spaced(part) for part in words.split("{}"))
        matches = list(re.finditer(pattern, self.text))
        if len(matches) != 1:
            self.not_found("'%s', once" % words)
            return
        if words.count("{}") != len(values):
            self.differ(matches[0].start(), "'%s', the model gives %d values" % (matches[0][0], len(values)))
            return
        for slot, value in enumerate(values, 1):
            stands = matches[0][slot].replace(",", "").lower()
            gives = written_out(value)
            self.compare(matches[0].start(slot), NUMBER_WORDS.get(stands, stands) if gives.isdigit() else stands, gives)

    def table(self, words):
        """The rows of the table whose first row has these words: of each its position and its cells. The ruled row is left out."""
        rows = [(position, [cell.strip() for cell in line.strip("|").split("|")]) for position, line in self.block(words)]
        return [(position, cells) for position, cells in rows if not set(cells[0]) == {"-"}]

    def matches(self, words, pattern):
        """What a pattern matches, line by line, in the block whose first line has these words: pairs of a line's position and a match."""
        found = [(position, match) for position, line in self.block(words) for match in re.finditer(pattern, line)]
        if not found:
            raise NotFound("values under '%s'" % words)
        return found

    def dumps(self, cases):
        """Every dump: it stands in a column under a heading, which names the bytes in `cases`. All bytes of every case must be there."""
        unseen = {heading: set(range(len(data))) for heading, data in cases.items()}
        for start in [match.start() for match in re.finditer(r"(?<=\n\n)    (?! )", self.text)]:
            block = list(self.lines(start))
            headings = [(match.start(), match[0]) for match in re.finditer(r"\S+(?: \S+)*", block[0][1])]
            for position, line in block:
                for match in DUMP.finditer(line):
                    heading = [text for column, text in headings if column <= max(match.start(), headings[0][0])][-1]
                    if heading in cases:
                        unseen[heading] -= self.compare_dump(position, match, cases[heading])
                    else:
                        self.differ(position, "a dump of '%s', but no case has this name" % heading)
        for heading in unseen:
            if unseen[heading]:
                self.not_found("bytes %s of the dump '%s'" % (", ".join("%02x" % byte for byte in sorted(unseen[heading])), heading))

    def compare_dump(self, position, match, data):
        """One match of DUMP; which bytes it showed."""
        shown = set()
        for offset in [int(offset, 16) for offset in match[1].split(", ")]:
            end = offset + DUMP_LINE_BYTES if match[2] == "zero" else offset + len(match[2].split())
            gives = data[offset:end]
            self.compare(position, match[2], "zero" if match[2] == "zero" and not any(gives) else gives.hex(" "))
            shown.update(range(offset, end))
            if match[3]:
                last = int(match[3], 16)
                self.compare(position, "zero to %x" % last, data[end:last + 1].hex(" ") if any(data[end:last + 1]) else "zero to %x" % last)
                shown.update(range(end, last + 1))
        return shown
