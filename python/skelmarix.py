"""Skelmarix from Python: the calls of c/skelmarix.h, over the shared object that c/build-shared links.

    import skelmarix
    library = skelmarix.Skelmarix()
    card = skelmarix.Receiver(library)
    for ud in library.split(skelmarix.COMMAND, 8, 42, packet):
        taken = card.message(7, ud)

How a function is declared is read from the header, so there is no second list of parameters here. Octets are `bytes`; whatever bytes() takes may be
passed. A call that is refused raises Refused, with the number of the refusal, and has altered nothing (one exception: Receiver.message).

Threads: calls on different receivers may run at the same time; one receiver is used by one thread at a time. During a call other threads run.
"""
import ctypes
import re
from dataclasses import dataclass
from pathlib import Path

TOP = Path(__file__).resolve().parent.parent
COMMAND, RESPONSE = 0, 1
NUMBERS = {"uint8_t": ctypes.c_uint8, "uint16_t": ctypes.c_uint16, "uint32_t": ctypes.c_uint32, "skm_size": ctypes.c_uint64}


class Refused(Exception):
    """A call was refused: `number` as in the header, `name` as the header calls it."""

    def __init__(self, number, name):
        super().__init__(f"{number}, {name}")
        self.number, self.name = number, name


@dataclass(frozen=True)
class Packet:
    """A packet that was read. `fields` are those in the clear, in the order of the packet: of a plain command SPI, KIc, KID, TAR, CNTR, PCNTR, of a plain
    response TAR, CNTR, PCNTR, status, of a ciphered packet those before CNTR. `check` and `data` are empty if it is ciphered, `opaque` if it is plain."""

    ciphered: bool
    header: int
    fields: bytes
    check: bytes
    data: bytes
    opaque: bytes


@dataclass(frozen=True)
class Arrival:
    """What one message or page brings: its own octets; of a part its total, its number and its key. A single one has total and number 0."""

    own: bytes
    total: int
    number: int
    key: tuple


@dataclass(frozen=True)
class Taken:
    """What came of a message or a page: `what` is "kept", "held" or "packet"; of the first two the slot, and whether another series was displaced."""

    what: str
    slot: int = 0
    displaced: bool = False
    packet: bytes = b""


class Skelmarix:
    """The library. It keeps nothing between calls: one object serves a whole program."""

    def __init__(self, path=TOP / "target/shared/libskelmarix.so", header=TOP / "c/skelmarix.h"):
        text = re.sub(r"/\*.*?\*/", "", Path(header).read_text(), flags=re.S)
        pairs = re.findall(r"^#define SKM_(\w+) (\w+)", text, re.M) + re.findall(r"\bSKM_(\w+) = (\d+)", text)
        self.number = {name: int(value.rstrip("u"), 0) for name, value in pairs}
        refusals = re.search(r"enum skm_refusal \{(.*?)\}", text, re.S).group(1)
        self.refusals = {int(value): name for name, value in re.findall(r"SKM_(\w+) = (\d+)", refusals)}
        self.shared, self.calls = ctypes.CDLL(str(path)), {}
        for result, name, words in re.findall(r"^(\w+) skm_(\w+)\(([^)]*)\);", text, re.M):
            function = getattr(self.shared, "skm_" + name)
            function.restype = NUMBERS[result]
            self.calls[name] = function, [] if words == "void" else [self._declared(" ".join(word.split())) for word in words.split(",")]
        if self.shared.skm_version() != self.number["VERSION"]:
            raise ImportError(f"{path} is of another version than {header}")

    def _declared(self, word):
        """A parameter of the header: sort, type, how many elements."""
        lent, kind, star, name, count = re.fullmatch(r"(const )?(\w+) (\*)?(\w+)(?:\[(\w+)\])?", word).groups()
        if star or count:
            size = self.number[count[4:]] if count and not count.isdigit() else int(count or 1)
            return ("octets" if kind == "uint8_t" else "numbers") + ("" if lent else ", written"), NUMBERS[kind], size if count or kind != "uint8_t" else None
        return ("length" if name.endswith("_length") else "number"), NUMBERS[kind], None

    def call(self, name, *given):
        """Makes a call by its name without skm_. Given are its numbers, its octets, and a bytearray for each buffer of any length that it writes to, in the
        order of the header; lengths are not given. What it answers comes back as a list: for each lent number or buffer of a fixed length its value."""
        function, parameters = self.calls[name]
        given, words, answers = list(given), [], []
        for sort, kind, count in parameters:
            if sort == "length":
                words.append(kind(len(octets)))
            elif sort == "number":
                words.append(kind(given.pop(0)))
            elif sort == "octets":
                octets = bytes(given.pop(0))
                if count not in (None, len(octets)):
                    raise ValueError(f"{name}: {count} octets are needed, and there are {len(octets)}")
                words.append(ctypes.c_char_p(octets))
            elif sort == "octets, written" and (count is None or given and isinstance(given[0], bytearray)):
                octets = given.pop(0)
                if count not in (None, len(octets)):
                    raise ValueError(f"{name}: {count} octets are needed, and there are {len(octets)}")
                words.append((kind * max(len(octets), 1)).from_buffer(octets or bytearray(1)))
            else:
                answers.append((kind * count)())
                words.append(answers[-1])
        number = function(*words)
        if number:
            raise Refused(number, self.refusals.get(number, "unknown"))
        return [bytes(answer) if answer._type_ is ctypes.c_uint8 else answer[0] if len(answer) == 1 else list(answer) for answer in answers]

    def _written(self, name, size, *given):
        """A call that writes to the start of one buffer and answers a length."""
        out = bytearray(self.number[size])
        return bytes(out[: self.call(name, *given, out)[0]])

    # ---- packets
    def _packet(self, octets, fields, body, places):
        check, data, opaque = (bytes(octets[place : place + count]) for place, count in zip(places[0::2], places[1::2]))
        clear = fields[: places[4] - 3] if body[0] else fields
        return Packet(bool(body[0]), octets[2], clear, check, data, opaque)

    def parse_command(self, packet):
        """Reads a command, as a Packet. Refused 9, 12, 15."""
        return self._packet(packet, *self.call("parse_command", packet), *self.call("show_command", packet))

    def parse_response(self, packet, ciphered=False):
        """Reads a response; the caller says whether it is ciphered. Refused 9, 12."""
        return self._packet(packet, *self.call("parse_response", packet, ciphered), *self.call("show_response", packet, ciphered))

    def packet_formed(self, kind, packet):
        """Whether octets are a well-formed packet of that kind."""
        try:
            return self.call("packet_formed", kind, packet) == []
        except Refused:
            return False

    def build_command(self, fields, check, data):
        """A plain command. `fields`: 13 octets, SPI, KIc, KID, TAR, CNTR, PCNTR. Refused 10, 11, 12, 15."""
        return self._written("build_command", "PACKET_OCTETS", fields, check, data)

    def build_ciphered_command(self, clear, header, opaque):
        """A ciphered command. `clear`: 7 octets, SPI, KIc, KID, TAR; `header`: CHL; `opaque`: what follows TAR. Refused 10, 11, 12."""
        return self._written("build_ciphered_command", "PACKET_OCTETS", clear, header, opaque)

    def build_response(self, fields, check, data):
        """A plain response. `fields`: 10 octets, TAR, CNTR, PCNTR, status. Refused 11, 12."""
        return self._written("build_response", "PACKET_OCTETS", fields, check, data)

    def build_ciphered_response(self, tar, header, opaque):
        """A ciphered response. `header`: RHL. Refused 11, 12."""
        return self._written("build_ciphered_response", "PACKET_OCTETS", tar, header, opaque)

    def command_checksum(self, packet):
        """The octets that the checksum of a plain command covers. Refused 9, 10, 12, 15."""
        return self._written("command_checksum", "CHECKSUM_OCTETS", packet)

    def response_checksum(self, packet, ciphered=False):
        """The same of a response. Refused 9, 10, 12."""
        return self._written("response_checksum", "CHECKSUM_OCTETS", packet, ciphered)

    # ---- messages and pages
    def _arrival(self, octets, brought):
        return Arrival(bytes(octets[brought[1] :]), brought[2], brought[3], tuple(brought[4:]))

    def read_message(self, kind, sender, ud):
        """What user data brings, as an Arrival; nothing is kept. Refused 2 to 6."""
        return self._arrival(ud, *self.call("read_message", kind, sender, ud))

    def read_page(self, kind, page):
        """The same of a page. Refused 2, 4, 5."""
        return self._arrival(page, *self.call("read_page", kind, page))

    def write_message(self, kind, width, reference, number, packet):
        """Part `number` of a packet as user data: how many parts there are, and the octets. Refused 9, 12, 13, 14."""
        out = bytearray(self.number["USER_DATA_OCTETS"])
        (part,) = self.call("write_message", kind, width, reference, number, packet, out)
        return part[0], bytes(out[: part[1]])

    def write_page(self, serial, identifier, dcs, number, packet):
        """Page `number` of a command: how many pages there are, and the octets. Refused 5, 9, 12, 14."""
        out = bytearray(self.number["PAGE_OCTETS"])
        (part,) = self.call("write_page", serial, identifier, dcs, number, packet, out)
        return part[0], bytes(out)

    def split(self, kind, width, reference, packet):
        """All parts of a packet as user data, in order."""
        total, first = self.write_message(kind, width, reference, 1, packet)
        return [first] + [self.write_message(kind, width, reference, number, packet)[1] for number in range(2, total + 1)]

    # ---- USSD strings
    def read_ussd(self, pfi, dcs, string):
        """Reads the command in a USSD string: its fields, and the three numbers of `body` in the header. Refused 2, 5, 9, 15."""
        return tuple(self.call("read_ussd", pfi, dcs, string))

    def write_ussd(self, pfi, fields, check, data):
        """A plain command as a USSD string; fields as of build_command. Refused 10, 11, 12, 15."""
        return self._written("write_ussd", "USSD_OCTETS", pfi, fields, check, data)

    def write_ciphered_ussd(self, pfi, clear, header, opaque):
        """A ciphered command as a USSD string. Refused 10, 11, 12."""
        return self._written("write_ciphered_ussd", "USSD_OCTETS", pfi, clear, header, opaque)

    def ussd_checksum(self, um):
        """The octets that the checksum of a UM covers, which is a string without its first octet. Refused 9, 10, 15."""
        return self._written("ussd_checksum", "CHECKSUM_OCTETS", um)

    # ---- reports
    def write_report(self, spi_second, capacity, edition, response):
        """What goes out of a plain response: "nothing", "report", "announcement" or "submit", and the report. Refused 9, 12, 16, 17, 20."""
        out = bytearray(self.number["USER_DATA_OCTETS"])
        (going,) = self.call("write_report", spi_second, capacity, edition, response, out)
        return ("nothing", "report", "announcement", "submit")[going[0] - 1], bytes(out[: going[1]])

    def response_announces(self, response):
        """Whether a plain response says that another follows. Refused 9, 12."""
        return bool(self.call("response_announces", response)[0])

    # ---- captures
    def salvage(self, file):
        """The sound records of a capture. Refused 24."""
        out = bytearray(len(file))
        return bytes(out[: self.call("salvage", file, out)[0]])

    def skipped(self, file):
        """The runs of octets that salvaging skips, each as first place and count."""
        ((first, count, behind),) = self.call("next_skipped", file, 0)
        while count:
            yield first, count
            ((first, count, behind),) = self.call("next_skipped", file, behind)

    def read_captured(self, octets):
        """What one captured record is: "user data" or "page" with its own octets, or "unsound" with none."""
        ((what, start),) = self.call("read_captured", octets)
        return ("unsound", "user data", "page")[what], bytes(octets[start:]) if what else b""


class Receiver:
    """The unfinished series of one card, or of one server's card: a state, its cells and an output. To store it, store `state` and `cells` together, in one
    transaction; to bring it back, pass both. A state that is damaged is refused with 1 at every call (`formed` asks)."""

    def __init__(self, library, kind=COMMAND, slots=5, state=None, cells=None):
        self.library, self.out = library, bytearray(library.number["PACKET_OCTETS"])
        self.state = bytearray(state if state is not None else library.number["STATE_OCTETS"])
        self.cells = bytearray(cells if cells is not None else slots * library.number["SLOT_OCTETS"])
        if state is None:
            library.call("fresh_with", self.state, kind, slots)

    def message(self, sender, ud):
        """Takes user data from a sender. Refused 1 to 9; a complete series that is no packet is dropped, and refused with 9."""
        return self._taken(*self.library.call("take_message", self.state, sender, ud, self.cells, self.out))

    def page(self, page):
        """Takes a page. Refused 1, 2, 4, 5, 7, 8, 9."""
        return self._taken(*self.library.call("take_page", self.state, page, self.cells, self.out))

    def beat(self, limit):
        """Makes a beat, and says how many series were dropped. Refused 1, 18."""
        return self.library.call("beat", self.state, limit)[0]

    def formed(self):
        """Whether the state is one that the library can have made."""
        try:
            return self.library.call("state_formed", bytes(self.state)) == []
        except Refused:
            return False

    def _taken(self, taken):
        what, slot, displaced, length = taken
        return Taken(("kept", "held", "packet")[what - 1], slot, bool(displaced), bytes(self.out[:length]))
