#!/usr/bin/env python3
"""Prints a random trace of devices that do what no device of ours does, the same for the same seed: any phases in any order, any messages,
bytes begun anew, messages broken off, callings without an answer, resets. Bytes cross asynchronously, and no fault strikes.

    tools/comparisons/random_trace.py SEED

Some three of five are lawful. It is meant for comparing programs that read traces.
"""
import random
import sys

BSY, SEL, CD, IO, MSG, REQ, ACK, ATN, RST = (1 << bit for bit in range(9, 18))
PHASE = {"message out": MSG | CD, "message in": MSG | CD | IO, "command": CD, "status": CD | IO, "data out": 0, "data in": IO}
OUT = [[0x80], [0xC0], [0x20, 0], [0x20, 1], [0x21, 2], [0x22, 1], [1, 3, 1, 25, 8], [6], [0x0D], [0x0E], [0x0C], [5], [9], [9], [9], [7], [8]]
IN = [[0], [1, 3, 1, 25, 8], [2], [2], [3], [3], [4], [7], [0x20, 0], [0x20, 1], [0x80]]
COMMANDS = {0x00: 6, 0x08: 6, 0x12: 6, 0x28: 10}


def with_parity(byte):
    return byte | (0 if bin(byte).count("1") % 2 else 256)


class Bus:
    """The rows so far, and what each device drives."""

    def __init__(self, seed):
        self.random = random.Random(seed)
        self.time = 0
        self.free = 0
        self.rows = []
        self.driven = [0] * 8

    def chance(self, share):
        return self.random.random() < share

    def drive(self, dev, lines, after=0):
        self.time += after
        if self.driven[dev] != lines:
            self.rows.append("%d %d %05x" % (self.time, dev, lines))
            self.driven[dev] = lines

    def change(self, dev, on=0, off=0, after=0):
        self.drive(dev, (self.driven[dev] & ~off) | on, after)


class Connection:
    """An initiator and a target."""

    def __init__(self, bus, initiator, target, again):
        self.bus, self.initiator, self.target, self.again = bus, initiator, target, again

    def begin(self):
        """Arbitration and selection or reselection; false where the other device does not answer."""
        bus, caller, other = self.bus, *((self.target, self.initiator) if self.again else (self.initiator, self.target))
        bus.time = max(bus.time, bus.free + 1300)
        bus.drive(caller, BSY | 1 << caller)
        bus.drive(caller, BSY | SEL | 1 << caller, 2400)
        bus.drive(caller, BSY | SEL | (IO if self.again else ATN) | with_parity(1 << caller | 1 << other), 1200)
        bus.change(caller, off=BSY, after=90)
        if not self.again and bus.chance(0.05):
            bus.drive(caller, SEL | ATN, 250000000)
            bus.drive(caller, 0, 200090)
            bus.free = bus.time
            return False
        bus.drive(other, BSY, 450)
        if self.again:
            bus.drive(caller, SEL | BSY | IO | (bus.driven[caller] & 511), 100)
            bus.drive(caller, BSY | IO, 100)
            bus.drive(other, ATN if bus.chance(0.2) else 0, 50)
        else:
            bus.drive(caller, ATN, 100)
        return True

    def enter(self, phase):
        self.bus.change(self.target, on=PHASE[phase], off=(MSG | CD | IO) & ~PHASE[phase], after=500)

    def send(self, byte, last=False, attention=False):
        """A byte to the target."""
        bus, initiator, target = self.bus, self.initiator, self.target
        bus.change(target, on=REQ, after=450)
        if last:
            bus.change(initiator, off=ATN, after=100)
        bus.change(initiator, on=with_parity(byte), after=200)
        bus.change(initiator, on=ACK, after=100)
        bus.change(target, off=REQ, after=50)
        if attention:
            bus.change(initiator, on=ATN, after=20)
        bus.drive(initiator, bus.driven[initiator] & ATN, 100)

    def give(self, byte, attention=0):
        """A byte to the initiator, which may raise ATN with ACK (2) or after it (1)."""
        bus, initiator, target = self.bus, self.initiator, self.target
        bus.change(target, on=with_parity(byte), after=900)
        bus.change(target, on=REQ, after=100)
        bus.change(initiator, on=ACK | (ATN if attention == 2 else 0), after=50)
        bus.change(target, off=REQ | 511, after=50)
        if attention == 1:
            bus.change(initiator, on=ATN, after=10)
        bus.change(initiator, off=ACK, after=120)

    def message_out(self, first):
        bus, choose = self.bus, self.bus.random
        self.enter("message out")
        for again in range(choose.choices([1, 2, 3], [12, 3, 1])[0]):
            sent = []
            for _ in range(choose.choices([1, 2, 3], [5, 4, 2])[0]):
                opens = first and not sent
                sent += choose.choice([[0x80], [0xC0], [0x81], [0xC1], [6], [0x0C]] if opens else OUT)
            if bus.chance(0.05):
                sent = sent[:-1] or sent
            if again and bus.chance(0.4) and not bus.driven[self.initiator] & ATN:
                bus.change(self.initiator, on=ATN, after=100)
            for at, byte in enumerate(sent):
                last = at == len(sent) - 1 and bus.chance(0.9)
                self.send(byte, last, last and bus.chance(0.15))

    def message_in(self, first):
        bus, choose = self.bus, self.bus.random
        self.enter("message in")
        for at in range(choose.choices([1, 2, 3], [6, 3, 1])[0]):
            for byte in [0x80 | choose.randrange(3)] if first and not at else choose.choice(IN):
                attention = choose.choices([0, 1, 2], [15, 3, 2])[0]
                self.give(byte, attention)
                if (attention and bus.chance(0.9)) or bus.chance(0.04):
                    return

    def transfer(self, phase):
        bus, choose = self.bus, self.bus.random
        self.enter(phase)
        if phase == "command":
            code, length = choose.choice(list(COMMANDS.items()))
            length = length if bus.chance(0.9) else choose.randrange(1, length)
            moved = [code] + [choose.randrange(256) for _ in range(length - 1)]
        elif phase == "status":
            moved = [choose.choice([0, 2, 8]) for _ in range(choose.choice([0, 1, 1, 1, 2]))]
        else:
            moved = [choose.randrange(256) for _ in range(choose.randrange(5))]
        for byte in moved:
            if PHASE[phase] & IO:
                self.give(byte, 1 if bus.chance(0.08) else 0)
            else:
                self.send(byte, attention=bus.chance(0.08))

    def go_on(self):
        bus = self.bus
        for step in range(bus.random.randrange(9)):
            if step == 0:
                phase = "message in" if self.again else "message out"
            elif bus.driven[self.initiator] & ATN and bus.chance(0.85):
                phase = "message out"
            else:
                phase = bus.random.choices(list(PHASE), [1, 5, 3, 3, 2, 3])[0]
            if phase == "message out":
                self.message_out(step == 0)
            elif phase == "message in":
                self.message_in(step == 0)
            else:
                self.transfer(phase)


def reset(bus):
    dev = bus.random.randrange(8)
    bus.drive(dev, RST, 300)
    for other in range(8):
        if other != dev:
            bus.drive(other, 0, 10)
    bus.drive(dev, 0, 25100)
    bus.free = bus.time


def trace(seed):
    bus = Bus(seed)
    for at in range(bus.random.randrange(1, 6)):
        again = at > 0 and bus.chance(0.45)
        connection = Connection(bus, bus.random.choice([7, 7, 6]), bus.random.choice([0, 0, 1]), again)
        if not connection.begin():
            continue
        connection.go_on()
        if bus.chance(0.08):
            reset(bus)
            continue
        if at and bus.chance(0.03):
            break
        bus.drive(connection.target, 0, 500)
        bus.drive(connection.initiator, 0, 100)
        bus.free = bus.time
    return "".join(line + "\n" for line in ["trace 1"] + bus.rows + ["end %d" % (bus.time + 10)])


if __name__ == "__main__":
    sys.stdout.write(trace(int(sys.argv[1])))
