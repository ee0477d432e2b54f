"""WebAssembly modules: what they import and export."""

IMPORTS, EXPORTS = 2, 7
KINDS = ("function", "table", "memory", "global")


class Reader:
    def __init__(self, held):
        self.held, self.at = held, 0

    def number(self):
        """LEB128."""
        value = shift = 0
        while True:
            byte = self.held[self.at]
            self.at += 1
            value |= (byte & 127) << shift
            shift += 7
            if byte < 128:
                return value

    def text(self):
        length = self.number()
        self.at += length
        return self.held[self.at - length : self.at].decode()


def sections(held):
    """Number -> content."""
    reader, found = Reader(held), {}
    reader.at = 8
    while reader.at < len(held):
        kind, length = reader.number(), reader.number()
        found[kind] = held[reader.at : reader.at + length]
        reader.at += length
    return found


def imports(held):
    """How many there are."""
    return Reader(sections(held).get(IMPORTS, b"\0")).number()


def exports(held):
    """Name -> kind."""
    reader, found = Reader(sections(held).get(EXPORTS, b"\0")), {}
    for _ in range(reader.number()):
        name = reader.text()
        found[name] = KINDS[reader.number()]
        reader.number()
    return found
