"""python/replay.py [SCRIPT ANSWERS]: makes the calls of a script of the bench over the shared object, and compares with the answers that are stored. Without
words these are the files of crates/replay/data, in the order of crates/replay/args, and crates/replay/stdout. Lines of tables that the library for C does
not have, lines that the bench does not understand, and those of the plain engine are passed over. Status 1 if an answer differs. docs/BENCH.md has the lines."""
import sys
from pathlib import Path

from skelmarix import COMMAND, RESPONSE, TOP, Refused, Skelmarix

ROOM = 16384
PASSED = {"judge", "counters", "counter", "sent", "answered", "outstanding", "number"}
KINDS = {"command": COMMAND, "response": RESPONSE}
library = Skelmarix()


def octets(word):
    return b"" if word == "-" else bytes.fromhex(word)


def shown(data):
    return bytes(data).hex().upper() or "-"


class Bench:
    """What the bench keeps from line to line: a state, and three stores of which a part is lent."""

    def __init__(self):
        self.state, self.lent = bytearray(233), {}
        self.store = {name: bytearray(ROOM) for name in ("cells", "output", "buffer")}
        library.call("fresh", self.state, COMMAND)

    def lend(self, name, usual):
        return bytearray(self.store[name][: self.lent.get(name, usual)])

    def calls(self, name, given, *stores):
        """A call with parts of stores lent behind what is given; what it writes goes back to them, also if it is refused."""
        parts = [self.lend(store, usual) for store, usual in stores]
        try:
            return library.call(name, *given, *parts)
        finally:
            for (store, _), part in zip(stores, parts):
                self.store[store][: len(part)] = part

    def written(self, name, usual, *given, word="packet"):
        (length,) = self.calls(name, given, ("buffer", usual))
        return f"{word} {length} {shown(self.store['buffer'][:length])}"

    def slot(self, i):
        s = self.state[3 + 46 * i : 49 + 46 * i]
        head = f"{s[0]} {s[1]} {shown(s[2:6])} {s[6]} {s[7] * 256 + s[8]} {shown(s[9:11])} {shown(s[11:13])} {s[13]}"
        return head + "".join(f" {k + 1}{':' if s[30 + k] else '='}{s[14 + k]}" for k in range(16) if s[30 + k] or s[14 + k])

    def taking(self, name, *given):
        stores = ("cells", 2144 * self.state[2]), ("output", 2142)
        ((what, slot, displaced, length),) = self.calls(name, (self.state, *given), *stores)
        return [f"kept {slot} {'displaced' if displaced else 'no'}", f"held {slot}", f"packet {length} {shown(self.store['output'][:length])}"][what - 1]

    # ---- the lines, each by its first word
    def fresh(self, kind, n="5"):
        library.call("fresh_with", self.state, KINDS[kind], int(n))
        self.store["cells"][:], self.store["output"][:] = bytes(ROOM), bytes(ROOM)
        return "fresh"

    def message(self, sender, ud):
        return self.taking("take_message", int(sender, 16), octets(ud))

    def page(self, page):
        return self.taking("take_page", octets(page))

    def captured(self, sender, record):
        what, own = library.read_captured(octets(record))
        return self.taking("take_message", int(sender, 16), own) if what == "user data" else self.taking("take_page", own)

    def beat(self, limit):
        return f"beat {library.call('beat', self.state, int(limit))[0]}"

    def record(self):
        return "; ".join([f"record {'response' if self.state[1] else 'command'}"] + [self.slot(i) for i in range(min(self.state[2], 5))])

    def formed(self):
        try:
            library.call("state_formed", bytes(self.state))
        except Refused:
            return "no"
        return "yes"

    def parsed(self, fields, body, cuts, rest):
        clear = " ".join(shown(fields[a:b]) for a, b in cuts)
        if body[0]:
            return f"ciphered {clear} {body[1]} {shown(rest[len(rest) - body[2]:])}"
        check = rest[len(rest) - body[1] - body[2] : len(rest) - body[2]]
        return f"plain {clear} {shown(check)} {shown(rest[len(rest) - body[2]:])}"

    def command(self, packet, name="parse_command", *before):
        fields, body = library.call(name, *before, octets(packet))
        return self.parsed(fields, body, [(0, 2), (2, 3), (3, 4), (4, 7)] + [(7, 12), (12, 13)] * (not body[0]), octets(packet))

    def response(self, body, packet):
        fields, parts = library.call("parse_response", octets(packet), body.lower() == "ciphered")
        return self.parsed(fields, parts, [(0, 3)] + [(3, 8), (8, 9), (9, 10)] * (not parts[0]), octets(packet))

    def build(self, kind, body, *words, name="build_{}{}", before=(), usual=2142, word="packet"):
        fields = 4 if kind == "command" else 1
        name = name.format("ciphered_" if body == "ciphered" else "", kind)
        if body == "ciphered":
            given = octets("".join(words[:fields])), min(int(words[fields]), 65535), octets(words[fields + 1])
        else:
            given = octets("".join(words[:-2])), octets(words[-2]), octets(words[-1])
        return self.written(name, usual, *before, *given, word=word)

    def checksum(self, kind, *words):
        ciphered = [words[0].lower() == "ciphered"] if kind == "response" else []
        return self.written(f"{kind}_checksum", 2145, octets(words[-1]), *ciphered, word="octets")

    def ussd(self, what, *words):
        if what == "read":
            return self.command(words[2], "read_ussd", int(words[0], 16), int(words[1], 16))
        if what == "checksum":
            return self.written("ussd_checksum", 2145, octets(words[0]), word="octets")
        return self.build("command", words[1], *words[2:], name="write_{}ussd", before=(int(words[0], 16),), usual=160, word="string")

    def part(self, name, usual, *given):
        ((total, length),) = self.calls(name, given, ("buffer", usual))
        return f"part {total} {length} {shown(self.store['buffer'][:length])}"

    def write(self, kind, *words):
        if kind == "page":
            return self.part("write_page", 88, int(words[0], 16), int(words[1], 16), int(words[2], 16), int(words[3]), octets(words[4]))
        return self.part("write_message", 140, KINDS[kind], *map(int, words[:3]), octets(words[3]))

    def report(self, spi, capacity, response, edition="1"):
        ((what, length),) = self.calls("write_report", (octets(spi)[1], int(capacity), int(edition), octets(response)), ("buffer", 140))
        report = f" {length} {shown(self.store['buffer'][:length])}"
        return ["nothing", "report" + report, "announce" + report, "submit"][what - 1]

    def announces(self, response):
        return "yes" if library.response_announces(octets(response)) else "no"

    def read(self, kind, *words):
        if kind == "page":
            (brought,) = library.call("read_page", KINDS[words[0].lower()], octets(words[1]))
        else:
            (brought,) = library.call("read_message", KINDS[kind], int(words[0], 16), octets(words[1]))
        what, start, total, number, sender, width, reference, serial, identifier = brought
        return f"single {start}" if what == 1 else f"part {sender:08X} {width} {reference} {serial:04X} {identifier:04X} {total} {number} {start}"

    def show(self, kind, *words):
        if kind == "ussd":
            return None
        packet, ciphered = octets(words[-1]), [words[0].lower() == "ciphered"] if kind == "response" else []
        try:
            (places,) = library.call(f"show_{kind}", packet, *ciphered)
        except Refused:
            places = [0] * 6
        return "parts " + " ".join(shown(packet[at : at + count]) for at, count in zip(places[0::2], places[1::2]))

    # ---- lines that make no call
    def put_slot(self, i, rank, beats, sender, width, reference, serial, identifier, total, *parts):
        s = bytearray([int(rank), int(beats), *octets(sender), int(width), *int(reference).to_bytes(2, "big"), *octets(serial), *octets(identifier), int(total)]) + bytes(32)
        for part in parts:
            number, length = map(int, part.replace("=", ":").split(":"))
            s[13 + number], s[29 + number] = length, ":" in part
        self.state[3 + 46 * int(i) : 49 + 46 * int(i)] = s
        return f"slot {i} {self.slot(int(i))}"

    def slots(self, n):
        self.state[2] = int(n)
        return f"slots {n}"

    def lends(self, name, n="0"):
        self.lent = {} if name == "right" else self.lent | {name: int(n)}
        return "lent"

    def fill(self, octet):
        for store in self.store.values():
            store[:] = octets(octet) * ROOM
        return "filled"

    def look(self, name, first, count):
        return f"{name} {shown(self.store[name][int(first) : int(first) + int(count)])}"

    def answer(self, line):
        """What is answered to a line."""
        first, *words = line.split()
        first = first.lower()
        if words and words[0].isalpha() and first not in ("fill", "page", "command", "announces"):
            words[0] = words[0].lower()
        if first == "build" or first == "ussd":
            words = [word.lower() if word.lower() in ("plain", "ciphered") else word for word in words]
        if first in self.store:
            return self.look(first, *words)
        try:
            return getattr(self, {"lend": "lends", "slot": "put_slot"}.get(first, first))(*words)
        except Refused as refused:
            return f"refused {refused.number}"


def stored():
    """The files of the stored script, and its answers."""
    folder = TOP / "crates/replay"
    return [[folder / "data" / name for name in (folder / "args").read_text().split()], folder / "stdout"]


def main(scripts, answers):
    bench, compared, faults, numbered, plain = Bench(), 0, 0, False, False
    texts = [line for script in scripts for line in Path(script).read_text("latin-1").split("\n")]
    lines = [line for line in texts if line.strip() and not line.strip().startswith("#")]
    for line, stored in zip(lines, Path(answers).read_text("latin-1").split("\n")):
        stored = stored.split(" ", 1)[1] if numbered else stored
        first = line.split()[0].lower()
        numbered = numbered or first == "number" and stored == "numbered"
        if stored.startswith("engine "):
            plain, bench.state = stored.endswith("plain"), Bench().state
            bench.store["cells"], bench.store["output"] = bytearray(ROOM), bytearray(ROOM)
        if plain or stored.startswith(("line ", "engine ")) or first in PASSED:
            continue
        answer = bench.answer(line)
        if answer is None:
            continue
        compared += 1
        if answer != stored.removesuffix(" differs"):
            faults += 1
            print(f"{line[:150]}\n  stored: {stored[:150]}\n  is:     {answer[:150]}")
    print(f"python: {compared} lines of {len(lines)} compared, {faults} differ")
    return faults > 0


if __name__ == "__main__":
    if "--help" in sys.argv[1:]:
        sys.exit(print(__doc__))
    sys.exit(main(*([[sys.argv[1]], sys.argv[2]] if sys.argv[1:] else stored())))
