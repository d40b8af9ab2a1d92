"""A plain model of two hosts and the messages between them, by lines and replies.

It follows the tables of docs/MIGRATION.md and docs/PROGRAMS.md, and shares nothing with the program. There is one device
and one TPM: what a host sends is made of them, and they never move.
"""
from struct import pack

from plain_device import CLAIMED, EXECUTION, HEADER, LOST, SENT, WAITING, Device
from plain_tpm import CANCELED, Tpm, short

OFFER, NEED, PIECE, PREPARED, COMMIT, ABORT, REFUSE = range(1, 8)
LINK = 5
BAG = 16384
# The calls on the wires for a piece of each part.
CALLS = (0, 3, 3, 3)


class Host:
    def __init__(self, stage):
        self.stage = stage
        self.epoch = self.top = 0
        # The part and the place that it asks for next.
        self.part = self.place = 0
        # How many calls are left up to the one that is to fail; None: none is to fail.
        self.left = None

    def fails(self, calls):
        """Whether the injected fault occurs in so many calls; it is over then, and they are counted else."""
        if self.left is None or calls == 0:
            return False
        if self.left <= calls:
            self.left = None
            return True
        self.left -= calls
        return False


class TwoHosts:
    def __init__(self, piece=4096):
        self.hosts = {"a": Host("running"), "b": Host("empty")}
        self.device, self.tpm = Device(), Tpm()
        self.piece = piece
        self.bag = []
        # The four parts of each offer.
        self.offered = {}

    def name_at(self, stage):
        return next((name for name, host in self.hosts.items() if host.stage == stage), None)

    def send(self, source, kind, epoch, body=(), data=b""):
        """The number of the message that the other host is to get; 0 where the bag is full."""
        if len(self.bag) == BAG:
            return 0
        to = "b" if source == "a" else "a"
        content = pack(">BBQ", kind, to == "b", epoch) + data
        self.bag.append((to, kind, epoch, body, b"CRBM\x01" + pack(">I", len(content)) + content))
        return len(self.bag)

    # The lines of the guest

    def guest(self, line):
        """The reply to a line of the guest."""
        name = self.name_at("running")
        if line == "work" and (drains := self.name_at("draining")):
            return self.drain(drains)
        if name is None:
            return "stopped"
        word, *rest = line.split()
        if word == "r":
            offset, size = int(rest[0], 16), int(rest[1])
            return "%0*x" % (2 * size, self.device.read(offset, size))
        if word == "w":
            self.device.write(int(rest[0], 16), int(rest[1]), int(rest[2], 16))
            return "ok"
        return {"work": self.work, "ask": self.ask, "reset": self.reset}[word](self.hosts[name])

    def ask(self, host):
        # Where the first of the two calls doesn't fail, the emulator hears of it.
        heard = host.left != 1
        fails = host.fails(2)
        if heard and self.device.phase == EXECUTION and self.device.stage == SENT:
            self.device.asked = True
        return "link" if fails else "asked"

    def reset(self, host):
        if self.device.phase == LOST:
            return "failed device"
        if self.device.is_under_way():
            return "not yet"
        self.device = Device(self.device.number)
        if host.fails(2):
            self.device.phase = LOST
            return "link"
        self.tpm.power_on()
        return "reset"

    def work(self, host):
        device = self.device
        if device.phase != EXECUTION:
            return "idle"
        word = self.step(host, device)
        return "%s %d" % (word, device.number)

    def drain(self, name):
        """The reply to a step of the worker while its host drains. The offer follows the end of the command."""
        host = self.hosts[name]
        reply = self.work(host)
        word = reply.split()[0]
        if word not in ("done", "cancelled", "lost"):
            return reply
        host.stage = "running"
        return reply if word == "lost" else reply + " " + self.make_offer(name)

    def step(self, host, device):
        if device.stage == WAITING:
            device.stage = CLAIMED
            return "claim"
        if device.stage == CLAIMED and device.cancelled or device.stage == HEADER and device.asked:
            device.end(short(CANCELED))
            return "cancelled"
        if device.stage == HEADER:
            response = self.tpm.copy().execute(device.command)
            if host.fails(1 if len(response) > 10 else 0):
                return self.lose()
            device.end(self.tpm.execute(device.command))
            return "done"
        if host.fails(1):
            return self.lose()
        device.stage += 1
        return "sent" if device.stage == SENT else "exec"

    def lose(self):
        self.device.phase = LOST
        return "lost"

    # The lines of two hosts

    def line(self, line):
        """The reply to any line."""
        word, *rest = line.split()
        if word == "fail":
            self.hosts[rest[0]].left = int(rest[1])
            return "ok"
        if word in ("deliver", "show"):
            number = int(rest[0])
            if number > len(self.bag):
                return "no message"
            return self.bag[number - 1][4].hex() if word == "show" else self.deliver(number)
        lines = {"offer": self.offer, "giveup": self.give_up, "again": self.again}
        return lines[word]() if word in lines else self.guest(line)

    def offer(self):
        name = self.name_at("running")
        if name is None:
            return "stopped"
        host = self.hosts[name]
        if self.device.phase == LOST:
            return "failed device"
        if self.device.is_under_way():
            host.stage = "draining"
            return "draining %d" % self.device.number
        return self.make_offer(name)

    def make_offer(self, name):
        host = self.hosts[name]
        if host.fails(9):
            return "link"
        host.top += 1
        host.stage, host.epoch = "offering", host.top
        parts = self.offered[host.top] = [self.device.record(), *self.tpm.blobs()]
        number = self.send(name, OFFER, host.top, (), b"".join(pack(">I", len(part)) for part in parts))
        return "offered %d sent %d" % (host.top, number)

    def give_up(self):
        if drains := self.name_at("draining"):
            self.hosts[drains].stage = "running"
            return "resumed"
        name = self.name_at("offering")
        if name is None:
            return "not offering"
        self.hosts[name].stage = "running"
        return "resumed sent %d" % self.send(name, ABORT, self.hosts[name].epoch)

    def again(self):
        name = self.name_at("prepared")
        if name is None:
            return "not prepared"
        return "sent %d" % self.send(name, PREPARED, self.hosts[name].epoch)

    def deliver(self, number):
        name, kind, epoch, body, _ = self.bag[number - 1]
        host = self.hosts[name]
        if kind == OFFER:
            return self.take_offer(name, epoch) if epoch > host.top else "ignored"
        if kind == PREPARED and host.stage == "released" and host.epoch == epoch:
            return "sent %d" % self.send(name, COMMIT, epoch)
        takes = {
            NEED: ("offering",),
            PIECE: ("filling",),
            PREPARED: ("offering",),
            COMMIT: ("prepared",),
            ABORT: ("filling", "prepared"),
            REFUSE: ("offering",),
        }
        if host.stage not in takes[kind] or host.epoch != epoch:
            return "ignored"
        return {NEED: self.give_piece, PIECE: self.take_piece}.get(kind, self.turn)(name, kind, epoch, body)

    def refuse(self, name, epoch):
        self.hosts[name].stage = "empty"
        return "refused link sent %d" % self.send(name, REFUSE, epoch, (), pack(">BI", LINK, 0))

    def need(self, name, epoch):
        host = self.hosts[name]
        return "sent %d" % self.send(
            name, NEED, epoch, (host.part, host.place), pack(">BI", host.part, host.place)
        )

    def take_offer(self, name, epoch):
        host = self.hosts[name]
        host.top = epoch
        if host.fails(2):
            return self.refuse(name, epoch)
        host.stage, host.epoch, host.part, host.place = "filling", epoch, 0, 0
        return self.need(name, epoch)

    def give_piece(self, name, _, epoch, body):
        part, place = body
        if self.hosts[name].fails(CALLS[part]):
            return "link"
        data = self.offered[epoch][part][place : place + self.piece]
        head = pack(">BIH", part, place, len(data))
        return "sent %d" % self.send(name, PIECE, epoch, (part, place, len(data)), head + data)

    def take_piece(self, name, _, epoch, body):
        host = self.hosts[name]
        part, place, count = body
        if (part, place) != (host.part, host.place):
            return "ignored"
        is_whole = place + count == len(self.offered[epoch][part])
        # With the last piece of all the emulator is switched on.
        if host.fails(5 if is_whole and part == 3 else CALLS[part]):
            return self.refuse(name, epoch)
        host.place += count
        if is_whole:
            host.part, host.place = part + 1, 0
        if host.part < 4:
            return self.need(name, epoch)
        host.stage = "prepared"
        return "sent %d" % self.send(name, PREPARED, epoch)

    def turn(self, name, kind, epoch, _):
        host = self.hosts[name]
        if kind == PREPARED:
            host.stage = "released"
            return "sent %d" % self.send(name, COMMIT, epoch)
        host.stage = "empty" if kind == ABORT else "running"
        return {COMMIT: "running", ABORT: "took", REFUSE: "resumed"}[kind]
