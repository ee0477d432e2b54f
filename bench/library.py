"""The library as the bench asks it: every answer is its own, by tools/harness.c."""
from lent import ONE, SUPER_SET, TWO, one
from packets import SEND, Heard
from pieces import a_set
from served import SETUP, Served
from text import Mistake, piece
from words import IMAGE_LENGTH, Answer, packet_size

# The blocks that a part may lie in, by the protocol's numbers.
IN_SET, IN_SERIAL, IN_REPLY, IN_HIGH = range(4)
SPEED = 7


class Library(Served):
    """Is lent sets and a serial block, maybe to a row of ports, and gives answers."""

    lent, row, port = one(b""), None, 0

    def lend_all(self, lent, row=None, port=0):
        """What is lent from now on; where there is a row of records, events go to its port."""
        self.lent, self.row, self.port = lent, row, port
        super().lend(lent.sets[0], lent.serial)
        if lent.kind == TWO:
            super().lend_two(*lent.sets, lent.serial)

    def is_two(self):
        return self.lent.kind == TWO

    def set_in_use(self, image):
        """Of two sets, the one of the record's speed."""
        return self.lent.sets[image[SPEED] & 1 if self.is_two() and len(image) > SPEED else 0]

    def part_words(self, part, reply=b""):
        """The bytes of a part, and the words for its place."""
        block, offset, length = part
        whole = {IN_SET: self.lent.sets[0], IN_SERIAL: self.lent.serial, IN_REPLY: reply, IN_HIGH: self.lent.sets[-1]}[block]
        name = {IN_SET: "full-speed set" if self.is_two() else "set", IN_SERIAL: "serial block", IN_REPLY: "reply", IN_HIGH: "high-speed set"}[block]
        return whole[offset : offset + length], f" of the {name} at byte {offset}"

    def opened(self, image):
        return {ONE: self.open, TWO: self.two_open, SUPER_SET: self.super_open}[self.lent.kind](image)

    def happened(self, kind, carried, before):
        """An event, at its port where there is a row; the image is that port's record."""
        if self.row is None:
            return (self.two_event if self.is_two() else self.event)(kind, carried, before)
        records = self.row[: self.port] + [before] + self.row[self.port + 1 :] if self.port < len(self.row) else self.row
        number, given, part, row = self.port_event(self.port, kind, carried, b"".join(records), self.is_two())
        self.row = [row[at : at + IMAGE_LENGTH] for at in range(0, len(row), IMAGE_LENGTH)]
        return number, given, part, self.row[self.port] if self.port < len(self.row) else before

    def answer(self, event, before):
        """The answer to an event, or to opening where there is none."""
        number, given, part, image = self.opened(before) if event is None else self.happened(*event, before)
        given, place = self.part_words(part) if part[2] > 0 else (given, "")
        packets = []
        if given and event[0] == SETUP:
            packets = list(self.packets(len(given), int.from_bytes(event[1][6:8], "little"), packet_size(self.set_in_use(before))))
        return Answer(number, given, place, packets, before, image)

    def hear(self, kind, value, image, pipe, reply, setup):
        """What an event of the pipe gave; the packet is read where it lies."""
        number, given, part, order, room, image_left, pipe_left = self.pipe_event(kind, value, (image, pipe, reply), setup, self.is_two())
        given, place = self.part_words(part, reply) if part[2] > 0 else (given, "")
        return Heard(number, order, room, given if order == SEND else b"", place, pipe, pipe_left, image, image_left)

    def make_set(self, entries, serial):
        """The set of a text: by the library's writer; where that refuses, laid out for the opener to say why."""
        super().lend(b"", serial)
        number, data = self.write(b"".join(piece(entry) for _, entry in entries))
        if number == 0:
            return data
        try:
            return a_set(*sorted((entry for _, entry in entries), key=lambda entry: (entry[0], entry[2], entry[1])))
        except OverflowError:
            raise Mistake("these pieces are more than a set can count") from None
