"""Random scripts over two hosts, with the output that the plain model gives them."""
import random
from struct import pack

from plain_device import BUFFER, PAGE
from plain_tpm import GET_CAPABILITY, GET_RANDOM, GET_TEST_RESULT, HASH, NO_REGISTER, NO_SESSIONS, PASSWORD, PCR_EXTEND, PCR_READ, SELF_TEST, SESSIONS, SHA256, SHA384, SHUTDOWN, STARTUP
from two_hosts import BAG, TwoHosts


def framed(tag, code, body=b""):
    return pack(">HII", tag, 10 + len(body), code) + body


def digest(draw):
    algorithm, size = draw.choice(((SHA256, 32), (SHA256, 32), (SHA384, 48)))
    return pack(">H", algorithm) + bytes(draw.randrange(256) for _ in range(size))


def extend(draw):
    authorisation = pack(">IHBH", PASSWORD, 0, draw.choice((0, 1, 255)), 0)
    count = draw.choice((0, 1, 1, 1, 2, 3, 17))
    register = draw.choice((*range(24), 24, NO_REGISTER))
    body = pack(">II", register, len(authorisation)) + authorisation + pack(">I", count)
    return framed(SESSIONS, PCR_EXTEND, body + b"".join(digest(draw) for _ in range(count)))


def read(draw):
    count = draw.choice((0, 1, 1, 2, 17))
    maps = (bytes(draw.choice((0, 1, 255, draw.randrange(256))) for _ in range(3)) for _ in range(count))
    entries = (pack(">HB", draw.choice((SHA256, SHA384)), 3) + m for m in maps)
    return framed(NO_SESSIONS, PCR_READ, pack(">I", count) + b"".join(entries))


def asked(draw):
    """GetCapability, from a key near one that is there."""
    key = draw.choice((0, 0, SHA256, SHA384, 0x112, STARTUP, PCR_EXTEND)) + draw.choice((0, 0, 1))
    body = pack(">III", draw.choice((0, 2, 5, 6, 6, 1)), draw.choice((0, key)), draw.choice((0, 1, 2, 9, 2**32 - 1)))
    return framed(NO_SESSIONS, GET_CAPABILITY, body)


def hashed(draw):
    message = bytes(draw.randrange(256) for _ in range(draw.choice((0, 1, 55, 56, 64, 200, 1024, 1025))))
    behind = pack(">HI", draw.choice((SHA256, SHA384, 4)), draw.choice((NO_REGISTER, NO_REGISTER, 0x4000000B)))
    return framed(NO_SESSIONS, HASH, pack(">H", len(message)) + message + behind)


def command(draw):
    """A command, well formed most of the time."""
    made = draw.choices(
        (
            framed(NO_SESSIONS, STARTUP, pack(">H", draw.choice((0, 0, 0, 1, 2)))),
            framed(NO_SESSIONS, SHUTDOWN, pack(">H", draw.choice((0, 1, 1)))),
            framed(NO_SESSIONS, GET_RANDOM, pack(">H", draw.choice((0, 1, 31, 32, 33, 65535)))),
            read(draw),
            extend(draw),
            framed(NO_SESSIONS, SELF_TEST, bytes([draw.choice((0, 1, 2))])),
            framed(NO_SESSIONS, GET_TEST_RESULT),
            asked(draw),
            hashed(draw),
        ),
        (25, 8, 12, 15, 30, 2, 2, 8, 4),
    )[0]
    how = draw.random()
    if how < 0.06:
        at = draw.randrange(len(made))
        return made[:at] + bytes([draw.randrange(256)]) + made[at + 1 :]
    if how < 0.10:
        cut = made[: draw.randrange(10, len(made) + 1)]
        return cut[:2] + pack(">I", len(cut)) + cut[6:]
    if how < 0.13:
        return made[:2] + pack(">I", len(made) + 1) + made[6:] + b"\x00"
    return made


def written(data, draw):
    """Writes of the bytes into the buffer."""
    at = 0
    while at < len(data):
        size = draw.choice((8, 8, 8, 4, 2, 1))
        size = size if at + size <= len(data) else 1
        yield "w %x %d %x" % (BUFFER + at, size, int.from_bytes(data[at : at + size], "little"))
        at += size


def access(draw):
    size = draw.choice((1, 2, 4, 8))
    offset = min(draw.choice((0, 8, 12, 0x30, 0x40, 0x44, 0x48, 0x4C, 0x58, 0x7C, 0x80, 0x88, draw.randrange(PAGE))), PAGE - size)
    if draw.random() < 0.7:
        return "r %x %d" % (offset, size)
    return "w %x %d %x" % (offset, size, draw.choice((0, 1, 2, draw.randrange(256**size))))


class Script:
    """Lines with their replies, as they are drawn."""

    def __init__(self, seed, piece):
        self.draw, self.model = random.Random(seed), TwoHosts(piece)
        self.rows = []

    def add(self, line):
        reply = self.model.line(line)
        self.rows.append((line, reply))
        return reply

    def number(self):
        """A number of a message: the latest, or an earlier one."""
        sent = len(self.model.bag)
        return max(sent, 1) if self.draw.random() < 0.85 else self.draw.randint(1, sent + 1)

    def fault(self):
        if self.draw.random() < 0.03:
            self.add("fail %s %d" % (self.draw.choice("ab"), self.draw.randint(1, 30)))

    def command(self):
        for line in ("w 8 4 1", "w 40 4 1", "w 48 4 0", *written(command(self.draw), self.draw), "w 4c 4 1"):
            self.add(line)
        for _ in range(self.draw.choice((0, 2, 4, 4, 4, 5))):
            self.fault()
            between = self.draw.random()
            if between < 0.2:
                self.add(self.draw.choice(("ask", "w 48 4 1", "reset", "offer")))
            self.add("work")
        for offset in range(BUFFER, BUFFER + self.draw.choice((8, 16, 64)), 8):
            self.add("r %x 8" % offset)

    def move(self):
        self.add("offer")
        for _ in range(200):
            self.fault()
            reply = self.add("deliver %d" % self.number())
            how = self.draw.random()
            if how < 0.06:
                self.add(self.draw.choice(("again", "giveup", access(self.draw), "show %d" % self.number())))
            if reply in ("running", "resumed", "took") or how > 0.97:
                return

    def go_on(self):
        """Where no guest runs, what may bring it back."""
        self.add(self.draw.choice(("again", "deliver %d" % self.number(), "deliver %d" % self.number(), "giveup")))

    def turn(self):
        if self.model.name_at("running") is None and self.draw.random() < 0.9:
            return self.go_on()
        how = self.draw.random()
        if how < 0.35:
            self.command()
        elif how < 0.65:
            self.move()
        else:
            self.add(self.draw.choice((access(self.draw), "work", "ask", "reset", "deliver %d" % self.number(), "show %d" % self.number())))

    def texts(self):
        """The script and its output."""
        return [b"".join(b"%s\n" % row[at].encode() for row in self.rows) for at in (0, 1)]


def random_script(seed, size, piece=4096):
    """A script of at least so many lines, and its output."""
    script = Script(seed, piece)
    while len(script.rows) < size:
        script.turn()
    return script.texts()


def full_bag():
    """A script whose last message but one takes the last place in the bag, and its output."""
    script = Script(0, 4096)
    for _ in range(BAG // 2 - 1):
        script.add("offer")
        script.add("giveup")
    script.add("offer")
    for number in (BAG - 1, BAG, BAG, BAG + 1):
        script.add("deliver %d" % number)
    for line in ("show %d" % BAG, "giveup", "r 44 4"):
        script.add(line)
    return script.texts()


def move_of_bytes():
    """A Startup, and the move of the guest in pieces of one byte, to the response at the other host."""
    script = Script(0, 1)
    for line in ("w 8 4 1", "w 40 4 1", *written(framed(NO_SESSIONS, STARTUP, bytes(2)), script.draw), "w 4c 4 1", "offer"):
        script.add(line)
    while script.add("deliver %d" % len(script.model.bag)) != "running":
        pass
    for line in (*["work"] * 4, "r 80 8", "r 88 2"):
        script.add(line)
    return script.texts()
