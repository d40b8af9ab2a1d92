"""A plain model of the TPM: nine commands, and one or two banks of registers.

It follows the tables of docs/TPM.md and docs/STATE.md, and shares nothing with the program.
"""
import hashlib
from struct import pack, unpack

NO_SESSIONS, SESSIONS, OLD_TAG = 0x8001, 0x8002, 0x00C4
STARTUP, SHUTDOWN, GET_RANDOM, PCR_READ, PCR_EXTEND = 0x144, 0x145, 0x17B, 0x17E, 0x182
SELF_TEST, GET_CAPABILITY, GET_TEST_RESULT, HASH = 0x143, 0x17A, 0x17C, 0x17D
COMMANDS = (SELF_TEST, STARTUP, SHUTDOWN, GET_CAPABILITY, GET_RANDOM, GET_TEST_RESULT, HASH, PCR_READ, PCR_EXTEND)
SHA256, SHA384 = 0x000B, 0x000C
# How many bytes a digest has by each algorithm, and what makes it.
ALGORITHMS = {SHA256: (32, hashlib.sha256), SHA384: (48, hashlib.sha384)}
PASSWORD, NO_REGISTER = 0x40000009, 0x40000007
COUNT, KEPT, BLOCK = 24, 16, 32
LONGEST_MESSAGE = 1024
HASH_TICKET = bytes.fromhex("8024400000070000")
BAD_TAG, CANCELED = 0x1E, 0x909
# The capabilities, and the properties of the last of them.
ALGORITHM_LIST, COMMAND_LIST, BANK_LIST, PROPERTY_LIST = 0, 2, 5, 6
PROPERTIES = {0x100: 0x322E3000, 0x105: 0x43524254, 0x112: COUNT, 0x11E: 3968, 0x11F: 3968, 0x129: len(COMMANDS)}


def short(code):
    """A response that has a code alone."""
    return pack(">HII", OLD_TAG if code == BAD_TAG else NO_SESSIONS, 10, code)


def blob(magic, body, version=1):
    return magic + bytes([version]) + pack(">I", len(body)) + body


class Refused(Exception):
    """A command is answered by this code alone."""


class Cut(Exception):
    """A parameter isn't there."""


class Reader:
    def __init__(self, data):
        self.data = data
        # The parameter that a refusal names.
        self.parameter = 1

    def take(self, count):
        if count > len(self.data):
            raise Cut
        taken, self.data = self.data[:count], self.data[count:]
        return taken

    def number(self, count):
        return int.from_bytes(self.take(count), "big")


class Tpm:
    def __init__(self, seed=bytes(32), banks=2):
        self.seed = seed
        self.banks = [SHA256, SHA384][:banks]
        self.boots = 1
        self.saved = None
        self.forget()

    def forget(self):
        """What a power cycle takes away."""
        self.started = False
        self.draws = self.counter = 0
        self.registers = {a: [self.zeros(a)] * COUNT for a in self.banks}

    @staticmethod
    def zeros(algorithm):
        return bytes(ALGORITHMS[algorithm][0])

    def copy(self):
        other = Tpm(self.seed, len(self.banks))
        other.__dict__.update(self.__dict__, registers={a: list(bank) for a, bank in self.registers.items()})
        return other

    def power_on(self):
        self.boots = (self.boots + 1) % 2**64
        self.forget()

    def execute(self, command):
        """The response to a command. Where it is refused, nothing is changed."""
        try:
            code, handle, parameters = self.read(command)
            tag, body = self.do(code, handle, parameters)
        except Refused as refused:
            return short(refused.args[0])
        return pack(">HII", tag, 10 + len(body), 0) + body

    # The checks, in their order

    def read(self, command):
        if len(command) < 10:
            raise Refused(0x142)
        tag, size, code = unpack(">HII", command[:10])
        if tag not in (NO_SESSIONS, SESSIONS):
            raise Refused(BAD_TAG)
        if size != len(command):
            raise Refused(0x142)
        if code not in COMMANDS:
            raise Refused(0x143)
        if self.started == (code == STARTUP):
            raise Refused(0x100)
        if code == PCR_EXTEND and tag == NO_SESSIONS:
            raise Refused(0x125)
        if code != PCR_EXTEND and tag == SESSIONS:
            raise Refused(0x145)
        rest, handle = command[10:], None
        if code == PCR_EXTEND:
            handle, rest = self.authorised(rest)
        reader = Reader(rest)
        try:
            parameters = self.parameters(code, reader)
        except Cut:
            raise Refused(reader.parameter << 8 | 0xDA) from None
        if reader.data:
            raise Refused(0x142 if code == GET_TEST_RESULT else reader.parameter << 8 | 0xD5)
        if handle is not None and 17 <= handle <= 22:
            raise Refused(0x907)
        return code, handle, parameters

    @staticmethod
    def authorised(rest):
        """The handle, and what stands behind an authorisation by an empty password."""
        if len(rest) < 4:
            raise Refused(0x19A)
        handle = int.from_bytes(rest[:4], "big")
        if handle >= COUNT and handle != NO_REGISTER:
            raise Refused(0x184)
        size, rest = rest[4:8], rest[8:]
        if len(size) < 4 or not 9 <= int.from_bytes(size, "big") <= len(rest):
            raise Refused(0x144)
        size = int.from_bytes(size, "big")
        session, nonce, _, password = unpack(">IHBH", rest[:9])
        if session != PASSWORD:
            raise Refused(0x984)
        if nonce != 0 or 9 + password != size:
            raise Refused(0x144)
        if password != 0:
            raise Refused(0x9A2)
        return handle, rest[size:]

    def parameters(self, code, reader):
        if code in (STARTUP, SHUTDOWN):
            kind = reader.number(2)
            if kind > 1 or (code == STARTUP and kind == 1 and self.saved is None):
                raise Refused(0x1C4)
            return kind
        if code == GET_RANDOM:
            return reader.number(2)
        if code == SELF_TEST:
            if reader.number(1) > 1:
                raise Refused(0x1C4)
            return None
        if code == GET_TEST_RESULT:
            return None
        if code == HASH:
            return self.message(reader)
        if code == GET_CAPABILITY:
            return self.page(reader)
        count = reader.number(4)
        if count > 16:
            raise Refused(0x1D5)
        entries = []
        for _ in range(count):
            algorithm = reader.number(2)
            if algorithm not in self.banks:
                raise Refused(0x1C3)
            if code == PCR_EXTEND:
                entries.append((algorithm, reader.take(ALGORITHMS[algorithm][0])))
                continue
            if reader.number(1) != 3:
                raise Refused(0x1C4)
            entries.append((algorithm, reader.take(3)))
        return entries

    def message(self, reader):
        """The algorithm of a hash, and what is hashed."""
        size = reader.number(2)
        if size > LONGEST_MESSAGE:
            raise Refused(0x1D5)
        message = reader.take(size)
        reader.parameter = 2
        algorithm = reader.number(2)
        if algorithm not in self.banks:
            raise Refused(0x2C3)
        reader.parameter = 3
        if reader.number(4) != NO_REGISTER:
            raise Refused(0x3C4)
        return algorithm, message

    @staticmethod
    def page(reader):
        """A capability, the key that its page begins at, and how many entries are asked for."""
        capability = reader.number(4)
        if capability not in (ALGORITHM_LIST, COMMAND_LIST, BANK_LIST, PROPERTY_LIST):
            raise Refused(0x1C4)
        reader.parameter = 2
        key = reader.number(4)
        if capability == BANK_LIST and key != 0:
            raise Refused(0x2C4)
        reader.parameter = 3
        return capability, key, reader.number(4)

    # What each command does

    def do(self, code, handle, parameters):
        if code == STARTUP:
            return NO_SESSIONS, self.start(parameters)
        if code == SHUTDOWN:
            kept = {a: bank[:KEPT] for a, bank in self.registers.items()}
            self.saved = (self.counter, kept) if parameters == 1 else None
            return NO_SESSIONS, b""
        if code == GET_RANDOM:
            return NO_SESSIONS, self.random(parameters)
        if code == PCR_READ:
            return NO_SESSIONS, self.read_registers(parameters)
        if code == SELF_TEST:
            return NO_SESSIONS, b""
        if code == GET_TEST_RESULT:
            return NO_SESSIONS, bytes(6)
        if code == HASH:
            size, hasher = ALGORITHMS[parameters[0]]
            return NO_SESSIONS, pack(">H", size) + hasher(parameters[1]).digest() + HASH_TICKET
        if code == GET_CAPABILITY:
            return NO_SESSIONS, self.listed(*parameters)
        if handle != NO_REGISTER:
            self.extend(handle, parameters)
        return SESSIONS, bytes.fromhex("000000000000010000")

    def start(self, kind):
        none = {a: [self.zeros(a)] * KEPT for a in self.banks}
        self.counter, kept = self.saved if kind == 1 else (0, none)
        for a in self.banks:
            zeros = self.zeros(a)
            self.registers[a] = list(kept[a]) + [zeros] + [b"\xff" * len(zeros)] * 6 + [zeros]
        self.started, self.saved = True, None
        return b""

    def random(self, asked):
        if asked == 0:
            return bytes(2)
        block = hashlib.sha256(b"CRBR" + self.seed + pack(">QQ", self.boots, self.draws)).digest()
        self.draws = (self.draws + 1) % 2**64
        count = min(asked, BLOCK)
        return pack(">H", count) + block[:count]

    def read_registers(self, maps):
        read, digests = [], []
        for algorithm, chosen in maps:
            shown = [0, 0, 0]
            for i in range(COUNT):
                if chosen[i // 8] >> i % 8 & 1 and len(digests) < 8:
                    shown[i // 8] |= 1 << i % 8
                    digests.append(self.registers[algorithm][i])
            read.append(pack(">HB", algorithm, 3) + bytes(shown))
        head = pack(">II", self.counter, len(maps)) + b"".join(read) + pack(">I", len(digests))
        return head + b"".join(pack(">H", len(digest)) + digest for digest in digests)

    def listed(self, capability, key, count):
        """A page of a list of (key, entry)."""
        entries = {
            ALGORITHM_LIST: [(a, pack(">HI", a, 4)) for a in self.banks],
            COMMAND_LIST: [(code, pack(">I", code | (code == PCR_EXTEND) << 25)) for code in COMMANDS],
            BANK_LIST: [(a, pack(">HB", a, 3) + b"\xff" * 3) for a in self.banks],
            PROPERTY_LIST: [(name, pack(">II", name, value)) for name, value in PROPERTIES.items()],
        }[capability]
        found = [entry for at, entry in entries if at >= key]
        given = found if capability == BANK_LIST else found[:count]
        return pack(">BII", len(given) < len(found), capability, len(given)) + b"".join(given)

    def extend(self, register, digests):
        for algorithm, digest in digests:
            bank = self.registers[algorithm]
            bank[register] = ALGORITHMS[algorithm][1](bank[register] + digest).digest()
            self.counter = (self.counter + 1) % 2**32
        if digests:
            self.saved = None

    def blobs(self):
        """Its permanent, its volatile and its saved state."""
        volatile, saved = b"\x00", b"\x00"
        if self.started:
            volatile = b"\x01" + pack(">QI", self.draws, self.counter) + self.joined(self.registers)
        if self.saved is not None:
            saved = b"\x01" + pack(">I", self.saved[0]) + self.joined(self.saved[1])
        return [
            blob(b"CRBP", self.seed + pack(">Q", self.boots), len(self.banks)),
            blob(b"CRBV", volatile, len(self.banks)),
            blob(b"CRBZ", saved, len(self.banks)),
        ]

    def joined(self, registers):
        """The registers of each bank, one bank behind the other."""
        return b"".join(value for algorithm in self.banks for value in registers[algorithm])
