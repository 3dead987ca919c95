#!/usr/bin/env python3
"""Prints what the program `tray` should print, worked out from the rules in docs/MACHINE.md.

It shares no code with the program: the layers are written here a second time, as functions
from a place to a word or a fault, and the socket as a class.
`tools/tray_stdout.py > crates/tray/stdout` stores it.
"""
from functools import reduce
from operator import xor

CAUSES = {1: "beyond the end", 2: "unreadable", 3: "check failed"}
LAST = 2**32 - 1


class Fault(Exception):
    def __init__(self, layer, cause, place):
        self.text = f"layer {layer}, cause {cause} ({CAUSES[cause]}), place {place}"


def image(data):
    def ask(p):
        if 4 * p + 4 > len(data):
            raise Fault(0, 1, p)
        return int.from_bytes(data[4 * p:4 * p + 4], "big")
    return ask


def window(below, layer, base, length):
    def ask(p):
        if p < length and base + p <= LAST:
            return below(base + p)
        raise Fault(layer, 1, p)
    return ask


def patch(below, words):
    return lambda p: words[p] if p in words else below(p)


def check(below, layer):
    def ask(p):
        start = p // 8 * 9
        if start + 8 > LAST:
            raise Fault(layer, 1, p)
        group = [below(start + k) for k in range(9)]
        if reduce(xor, group[:8]) != group[8]:
            raise Fault(layer, 3, p)
        return group[p % 8]
    return ask


HEADER = [0x54524159, 1, 16, 2]
GROUPS = [
    [0xFFFFFFFF, 0xAA995566, 0x20000000, 0x30008001, 0x00000007, 0x30018001, 0x03727093, 0x30002001],
    [0x00400D00, 0x30004065, 0x89ABCDEF, 0x01234567, 0xDEADBEEF, 0x30008001, 0x0000000D, 0x20000000],
]
NEW = list(GROUPS[0])
NEW[6] = 0x0362D093
PATCHES = {6: NEW[6], 8: reduce(xor, NEW)}


def turn(word):
    return int.from_bytes(bytes(int(f"{b:08b}"[::-1], 2) for b in word.to_bytes(4, "big")), "big")


def show(words):
    for k in range(0, len(words), 8):
        print("".join(f" {w:08x}" for w in words[k:k + 8]))


def read(data):
    words = []
    stack = check(patch(window(image(data), 1, 4, 18), PATCHES), 3)
    for p in range(16):
        try:
            words.append(stack(p))
            print(f"  place {p:>2}: {words[p]:08x}")
        except Fault as fault:
            print(f"  place {p:>2}: no word; fault: {fault.text}")
            return words
    print("  the whole file was read")
    return words


def load(words):
    # A partition of the plane has 160 / 8 = 20 words, more than the file.
    print(f"Loaded the file into partition 3 of a plane, through a bit-turn layer, which took {min(20, len(words))} words:")
    show(words)
    print("In the plane itself they are:")
    show([turn(w) for w in words])
    # On the tape a mark goes before the words of each load.
    free = 20
    for s in (3, 5):
        taken = min(free - 1, len(words))
        free -= 1 + taken
        print(f"Loaded it into partition {s} of a tape of 20 records, which took {taken} words:")
        show(words[:taken])
    if free == 0:
        print("The tape is spent: partition 3 cannot be opened again, and keeps its words.")


class Socket:
    """A socket that never fails: which stop kind, software start and reset each module asks for."""
    OUTPUTS = {0: 2, 1: 1, 2: 4, 4: 2, 5: 10, 6: 16, 7: 0}
    STOPS = {0: [], 1: [1], 2: [1, 2], 3: [2, 1]}

    def __init__(self, kinds, starts, resets):
        self.kinds, self.starts, self.resets = kinds, starts, resets
        self.shutdown, self.state, self.module = True, 0, 0
        self.level, self.held, self.pending = 0, False, None

    def restart(self, module):
        self.shutdown, self.state, self.module = False, 7, module

    def next_stop(self):
        # after the last stop step the socket waits for its new module
        self.state = self.stops.pop(0) if self.stops else 4
        if self.state == 4:
            self.module = self.new

    def start(self, states):
        # the first of the states that the module asks for, or full
        asked = {5: self.starts[self.module], 6: self.resets[self.module] is not None}
        self.state = next((s for s in states if asked[s]), 7)
        self.left = self.resets[self.module]

    def step(self):
        if self.state == 7 and self.held:
            self.shutdown, self.held, self.pending = True, False, None
        elif self.state == 7 and self.pending is not None:
            self.new, self.pending = self.pending, None
            self.stops = list(self.STOPS[self.kinds[self.module]])
            self.next_stop()
        elif self.state == 1 and self.level == 1:
            self.next_stop()
        elif self.state == 6:
            self.left -= 1
            self.state = 6 if self.left >= 0 else 7

    def proceed(self):
        if self.state == 2:
            self.next_stop()
        elif self.state == 5:
            self.start([6])

    def show(self, event):
        shown = self.level if self.shutdown else self.state
        word = self.module << 8 | self.shutdown << 7 | shown
        print(f"  status {word:08x}, outputs {self.OUTPUTS[self.state]:05b}: {event}")


def walk():
    print("Made a socket of 2 modules and 2 triggers, and led it from module 0 to module 1:")
    socket = Socket(kinds=[2, 0], starts=[False, True], resets=[None, 1])
    socket.show("made, empty and in shutdown")
    socket.restart(0)
    socket.show("restarted, full with module 0")
    socket.pending = 1
    socket.show("trigger 1 is pending")
    socket.step()
    socket.show("it was taken up: hardware stop")
    socket.level = 1
    socket.step()
    socket.show("the tray acknowledged it: software stop")
    socket.proceed()
    socket.show("proceeded: uncoupled, and waiting for module 1")
    print("  the file has 64 bytes from byte 64 on")
    socket.level = 0
    socket.start([5, 6])
    socket.show("loaded: software start")
    socket.proceed()
    socket.show("proceeded: module reset")
    for _ in range(2):
        socket.step()
        socket.show("a tick later")
    socket.held = True
    socket.show("shutdown is held until the next tick")
    socket.step()
    socket.show("in shutdown, with module 1")


def main():
    on_card = HEADER + [w for g in GROUPS for w in g + [reduce(xor, g)]]
    card = b"".join(w.to_bytes(4, "big") for w in on_card)
    print("Made a module file of 16 words in 2 groups, each with its check word,")
    print(f"and put it on a card of {len(on_card)} words, from word 4 on.")
    print("Read it through a check layer on a patch layer on a window on the card's image,")
    print(f"with place 6 of the window patched to {PATCHES[6]:08x} and its check word to {PATCHES[8]:08x}:")
    words = read(card)
    damaged = bytearray(card)
    damaged[61] ^= 16
    print("Read a copy of the card with one bit of byte 61 flipped:")
    read(bytes(damaged))
    print("Read a copy of the card that was cut off after 82 bytes:")
    read(card[:82])
    load(words)
    walk()


main()
