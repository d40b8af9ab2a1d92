"""A plain model of the CRB device: its register page, its phases and the command that it starts.

It follows the tables of docs/DEVICE.md and docs/STATE.md, and shares nothing with the program.
"""
from struct import pack

from plain_tpm import blob

IDLE, READY, RECEPTION, EXECUTION, COMPLETION, LOST = range(6)
# How far the worker is with a command.
WAITING, CLAIMED, SENT, HEADER = range(4)
BUFFER, SIZE, PAGE = 0x80, 3968, 0x1000
FIXED = {
    offset + i: byte
    for offset, value, size in (
        (0x30, 0x00025811, 4),
        (0x34, 0x1014, 4),
        (0x58, SIZE, 4),
        (0x5C, 0xFED40080, 4),
        (0x64, SIZE, 4),
        (0x68, 0xFED40080, 8),
    )
    for i, byte in enumerate(value.to_bytes(size, "little"))
}


class Device:
    def __init__(self, number=0):
        self.granted, self.cancel = False, 0
        self.phase, self.buffer = IDLE, bytearray(SIZE)
        self.number = number
        # The command, how far the worker is with it, and whether it was cancelled: before its claim, and at the emulator.
        self.command, self.stage = None, WAITING
        self.cancelled = self.asked = False

    def byte(self, offset):
        if offset >= BUFFER:
            shown = self.phase in (READY, RECEPTION, COMPLETION)
            return self.buffer[offset - BUFFER] if shown else 0xFF
        return {
            0x00: 0x81 | self.granted << 1,
            0x0C: int(self.granted),
            0x44: int(self.phase == LOST) | (self.phase == IDLE) << 1,
            0x48: self.cancel,
            0x4C: int(self.phase == EXECUTION),
        }.get(offset, FIXED.get(offset, 0))

    def read(self, offset, size):
        return int.from_bytes(bytes(self.byte(offset + i) for i in range(size)), "little")

    def write(self, offset, size, value):
        if self.phase == LOST:
            return
        if offset >= BUFFER:
            if self.phase in (READY, RECEPTION):
                self.phase = RECEPTION
                self.buffer[offset - BUFFER : offset - BUFFER + size] = value.to_bytes(size, "little")
        elif size < 8:
            # A register takes its values alone, and only at its first byte.
            act = {0x08: self.access, 0x40: self.request, 0x48: self.set_cancel, 0x4C: self.start}.get(offset)
            if act:
                act(value)

    def access(self, value):
        if value in (1, 2):
            self.granted = value == 1

    def request(self, value):
        if value == 1 and self.phase in (IDLE, COMPLETION):
            self.phase, self.buffer = READY, bytearray(SIZE)
        if value == 2 and self.phase in (READY, RECEPTION, COMPLETION):
            self.phase, self.buffer = IDLE, bytearray(SIZE)

    def set_cancel(self, value):
        if value in (0, 1):
            self.cancel = value
            if value == 1 and self.phase == EXECUTION and self.stage == WAITING:
                self.cancelled = True

    def start(self, value):
        if value == 1 and self.granted and self.phase == RECEPTION:
            self.phase, self.number = EXECUTION, (self.number + 1) % 2**64
            size = int.from_bytes(self.buffer[2:6], "big")
            self.command = bytes(self.buffer[: max(10, min(size, SIZE))])
            self.stage, self.cancelled, self.asked = WAITING, self.cancel == 1, False

    def end(self, response):
        self.phase = COMPLETION
        self.buffer = bytearray(response + bytes(SIZE - len(response)))

    def is_under_way(self):
        return self.phase == EXECUTION and self.stage != WAITING

    def record(self):
        content = bytes(self.buffer).rstrip(b"\x00")
        cancelled = self.phase == EXECUTION and self.cancelled
        head = bytes([self.granted, self.cancel, self.phase, cancelled])
        return blob(b"CRBD", head + pack(">QH", self.number, len(content)) + content)
