#!/usr/bin/env python3
"""The other end of a link, written from the pages of formats in plain Python: nothing but the standard library.

As a module it has ciphers, frames and messages, and `Unit`, which holds a running `sdls run` over pipes. As a program
it tries all of them on units that it makes in a temporary folder, and prints what came out. With a word it is the
ground's side of a verification of keys:

    python3 examples/ground.py [--sdls PROGRAM]
    python3 examples/ground.py challenge KEY
    python3 examples/ground.py verify COMMANDS KEYS < ANSWERS

`challenge` prints a line of recorded input that asks to verify a key by 16 octets that nobody can foresee. `verify`
takes the files COMMANDS, which has such lines, and KEYS, which has the `key` lines of a plan. It looks for the replies
among the lines of `sdls_text answers`. The status is 0 if each challenge has a right reply, 1 if one has none, and 2 if
a file or the words are at fault.

PROGRAM is the launcher `sdls` of the clone or of the installed copy, or else the one on the path. The keys are
published test keys: never use them on a link. The ciphers are written to be read. They are slow, and how long they take
depends on the key.
"""
import argparse
import hmac
import os
import pathlib
import random
import shutil
import signal
import struct
import subprocess
import sys
import tempfile
from dataclasses import dataclass

MAC_LENGTH = 16


def number_of(octets):
    return int.from_bytes(octets, "big")


def octets_of(number, length):
    return number.to_bytes(length, "big")


def xor(left, right):
    return bytes(a ^ b for a, b in zip(left, right))


# -- ciphers: FIPS 197, SP 800-38B, SP 800-38D ------------------------------------------------------------------------


def doubled(octet):
    """The product by 2 in the field of AES."""
    return octet << 1 ^ (0x11B if octet & 0x80 else 0)


def make_box():
    """The substitution box: of each octet its inverse in the field, and an affine change of that."""
    box = [0x63] * 256
    power, inverse = 1, 1
    while True:
        power ^= doubled(power)  # by 3, which goes through all octets but 0
        for shift in (1, 2, 4):  # and its inverse, divided by 3
            inverse ^= inverse << shift & 0xFF
        inverse ^= 0x09 if inverse & 0x80 else 0
        box[power] = 0x63
        for turn in range(5):
            box[power] ^= (inverse << turn | inverse >> 8 - turn) & 0xFF
        if power == 1:
            return box


BOX = make_box()


class Aes:
    """AES with a key of 16 or 32 octets. Both suites need the forward cipher alone."""

    def __init__(self, key):
        words = [key[i : i + 4] for i in range(0, len(key), 4)]
        of_key, constant = len(words), 1
        while len(words) < 4 * (of_key + 7):
            word = words[-1]
            if len(words) % of_key == 0:
                word = bytes(BOX[octet] for octet in word[1:] + word[:1])
                word = xor(word, bytes([constant, 0, 0, 0]))
                constant = doubled(constant)
            elif of_key == 8 and len(words) % of_key == 4:
                word = bytes(BOX[octet] for octet in word)
            words.append(xor(words[-of_key], word))
        self.round_keys = [b"".join(words[i : i + 4]) for i in range(0, len(words), 4)]

    def encrypt(self, block):
        state = xor(block, self.round_keys[0])
        for round_key in self.round_keys[1:-1]:
            state = xor(mixed(substituted(state)), round_key)
        return xor(substituted(state), self.round_keys[-1])


def substituted(state):
    """SubBytes and ShiftRows."""
    return bytes(BOX[state[5 * i % 16]] for i in range(16))


def mixed(state):
    """MixColumns."""
    out = []
    for i in range(16):
        column = state[i & 12 : (i & 12) + 4]
        a, b, c, d = (column[(i + k) % 4] for k in range(4))
        out.append(doubled(a) ^ doubled(b) ^ b ^ c ^ d)
    return bytes(out)


def cmac(key, text):
    """The MAC of SP 800-38B, 16 octets."""
    aes = Aes(key)
    subkey = subkey_of(aes.encrypt(bytes(16)))
    whole = max(0, (len(text) - 1) // 16 * 16)
    last = text[whole:]
    if len(last) < 16:
        subkey = subkey_of(subkey)
        last = last + b"\x80" + bytes(15 - len(last))
    state = bytes(16)
    for i in range(0, whole, 16):
        state = aes.encrypt(xor(state, text[i : i + 16]))
    return aes.encrypt(xor(xor(state, last), subkey))


def subkey_of(block):
    number = number_of(block) << 1
    return octets_of(number ^ (1 << 128 | 0x87 if number >> 128 else 0), 16)


def product(left, right):
    """The product in the field of GCM, in which the first bit is the one of the lowest power."""
    out = 0
    for i in range(128):
        if left >> 127 - i & 1:
            out ^= right
        right = right >> 1 ^ (0xE1 << 120 if right & 1 else 0)
    return out


def padded(octets):
    return octets + bytes(-len(octets) % 16)


def gcm(key, vector, text, additional, is_sealing):
    """The text sealed, or the sealed text in clear, and the tag. The vector has 12 octets."""
    aes = Aes(key)
    stream = b"".join(aes.encrypt(vector + octets_of(2 + i, 4)) for i in range((len(text) + 15) // 16))
    out = xor(text, stream)
    sealed = out if is_sealing else text
    lengths = octets_of(8 * len(additional), 8) + octets_of(8 * len(sealed), 8)
    hashed = padded(additional) + padded(sealed) + lengths
    key_of_hash, state = number_of(aes.encrypt(bytes(16))), 0
    for i in range(0, len(hashed), 16):
        state = product(state ^ number_of(hashed[i : i + 16]), key_of_hash)
    return out, xor(octets_of(state, 16), aes.encrypt(vector + octets_of(1, 4)))


# -- frames: docs/FRAMES.md, "Transfer frames" ------------------------------------------------------------------------


class Refused(Exception):
    """A frame that is not in order; it has the word of the first failed check."""


def error_control(octets):
    """The frame error control field over these octets."""
    register = 0xFFFF
    for octet in octets:
        register ^= octet << 8
        for _ in range(8):
            register = register << 1 ^ (0x11021 if register & 0x8000 else 0)
    return octets_of(register, 2)


@dataclass(frozen=True)
class Link:
    """The line of a link in a plan, with the usual mask."""

    kind: str  # tc, tm or aos
    has_segment: bool = False  # a segment header, of TC
    has_error_control: bool = False
    insert: int = 0  # the octets of the insert zone, of AOS
    has_control_field: bool = False  # an operational control field, of AOS

    def split(self, frame):
        """Prefix, room and operational control field of a frame without error control."""
        prefix = self.prefix_length(frame)
        end = len(frame) - self.control_length(frame)
        return frame[:prefix], frame[prefix:end], frame[end:]

    def prefix_length(self, frame):
        if self.kind == "tc":
            return 6 if self.has_segment else 5
        if self.kind == "tm":
            return 6 + (frame[6] % 64 + 1 if frame[4] & 0x80 else 0)
        return 6 + self.insert

    def control_length(self, frame):
        """The operational control field has 4 octets; of TM a bit in the header says whether it is there."""
        if self.kind == "tm":
            return 4 * (frame[1] & 1)
        return 4 * self.has_control_field

    def covered(self, prefix):
        """The prefix under the usual mask: what the MAC covers of it."""
        masks = {"tc": "c3fffc0000ff", "tm": "fffe00000000", "aos": "ffff00000000"}
        mask = bytes.fromhex(masks[self.kind])
        return bytes(a & b for a, b in zip(prefix, mask + bytes(len(prefix))))

    def with_length(self, prefix, octets):
        """The prefix of a frame of so many octets: only TC has a length field."""
        if self.kind != "tc":
            return prefix
        return prefix[:2] + octets_of(prefix[2] >> 2 << 10 | octets - 1, 2) + prefix[4:]

    def with_error_control(self, frame):
        return frame + error_control(frame) if self.has_error_control else frame

    def without_error_control(self, frame):
        """Raises Refused if the field is there and wrong."""
        if not self.has_error_control:
            return frame
        if error_control(frame[:-2]) != frame[-2:]:
            raise Refused("layout")
        return frame[:-2]


@dataclass
class Association:
    """One direction of a link, at the end that this program plays.

    An end that sends for more than a test keeps `number` on a disk, and stores the next one there before it uses a
    number: a number that is used twice under one GCM key breaks that key.
    """

    link: Link
    spi: int
    suite: str  # cmac or gcm
    key: bytes
    device: bytes = bytes(4)  # under GCM: no other sender with this key has this device field
    window: int = 64
    number: int = 1  # the next one to send
    high: int = 0  # the highest one accepted

    def protect(self, clear):
        """The protected frame of a clear one, which has no error control."""
        prefix, data, control = self.link.split(clear)
        header = octets_of(self.spi, 2) + self.next_vector()
        octets = len(clear) + len(header) + MAC_LENGTH + 2 * self.link.has_error_control
        prefix = self.link.with_length(prefix, octets)
        text, mac = self.seal(self.link.covered(prefix) + header, data)
        return self.link.with_error_control(prefix + header + text + mac + control)

    def open(self, frame):
        """The data field of a protected frame. Raises Refused if a check fails."""
        prefix, room, _ = self.link.split(self.link.without_error_control(frame))
        width = 6 if self.suite == "cmac" else 14
        if len(room) < width + MAC_LENGTH or room[:2] != octets_of(self.spi, 2):
            raise Refused("spi")
        header, text, mac = room[:width], room[width:-MAC_LENGTH], room[-MAC_LENGTH:]
        data, wanted = self.unseal(self.link.covered(prefix) + header, text)
        if not hmac.compare_digest(mac, wanted):
            raise Refused("mac")
        number = number_of(header[-8:] if self.suite == "gcm" else header[-4:])
        if not self.high < number <= self.high + self.window:
            raise Refused("number")
        self.high = number
        return data

    def next_vector(self):
        number = self.number
        self.number += 1
        return octets_of(number, 4) if self.suite == "cmac" else self.device + octets_of(number, 8)

    def seal(self, covered, data):
        """The text of the frame, and its MAC."""
        if self.suite == "cmac":
            return data, cmac(self.key, covered + data)
        return gcm(self.key, covered[-12:], data, covered, True)

    def unseal(self, covered, text):
        """The data field, and the MAC that the frame should have."""
        if self.suite == "cmac":
            return text, cmac(self.key, covered + text)
        return gcm(self.key, covered[-12:], text, covered, False)


def tc_frame(spacecraft, channel, sequence, data, map_id=None):
    """A clear TC frame, with a segment header (one unsegmented piece) if there is a MAP."""
    room = data if map_id is None else bytes([0xC0 | map_id]) + data
    return struct.pack(">HHB", spacecraft, channel << 10 | 4 + len(room), sequence & 0xFF) + room


def tm_frame(spacecraft, channel, count, data):
    """A clear TM frame without secondary header and operational control field."""
    return struct.pack(">HBBH", spacecraft << 4 | channel << 1, count & 0xFF, count & 0xFF, 0x1800) + data


def aos_frame(spacecraft, channel, count, data):
    """A clear AOS frame; insert zone and operational control field are the ends of `data`."""
    return struct.pack(">HI", 1 << 14 | spacecraft << 6 | channel, (count & 0xFFFFFF) << 8) + data


# -- messages: docs/FRAMES.md, "Procedure messages" -------------------------------------------------------------------

TAGS = {
    "rekeying": 0x01, "activate": 0x02, "deactivate": 0x03, "verify": 0x04, "destroy": 0x06, "inventory": 0x07,
    "compose": 0x08, "read-number": 0x10, "create": 0x11, "delete": 0x14, "set-window": 0x15, "rekey": 0x16,
    "expire": 0x19, "set-number": 0x1A, "start": 0x1B, "stop": 0x1E, "status": 0x1F,
}  # fmt: skip


def message(procedure, *fields):
    """A command: each field is a number of two octets (a key, an SPI), or octets."""
    data = b"".join(field if isinstance(field, bytes) else octets_of(field, 2) for field in fields)
    return bytes([TAGS[procedure]]) + octets_of(8 * len(data), 2) + data


def rekeying(master, master_key, vector, keys):
    """The command that loads keys (a map from identifiers to octets), sealed under a master key.

    As with frames, no two messages under one master key may have the same vector.
    """
    items = b"".join(octets_of(key, 2) + bytes([len(octets)]) + octets for key, octets in keys.items())
    additional = message("rekeying", master, vector, items, bytes(MAC_LENGTH))[:5]
    sealed, tag = gcm(master_key, vector, items, additional, True)
    return message("rekeying", master, vector, sealed, tag)


def is_verified(reply, key, octets, challenge):
    """Whether the reply of Verify shows that the unit has this key with these octets."""
    if reply[:1] != bytes([0x80 | TAGS["verify"]]) or reply[3:5] != octets_of(key, 2):
        return False
    if key >= 32768:
        return hmac.compare_digest(reply[9:], cmac(octets, b"\xff" * 4 + reply[5:9] + challenge))
    vector, sealed, tag = reply[5:17], reply[17:33], reply[33:]
    text, wanted = gcm(octets, vector, sealed, b"\xff" * 4 + octets_of(key, 2), False)
    return hmac.compare_digest(tag, wanted) and hmac.compare_digest(text, challenge)


# -- verification in lines of text: docs/RECORDS.md, "Recorded input as text" and "Answers as text" -------------------


class Fault(Exception):
    """Why there is no verdict."""


def challenges_of(commands):
    """The key and the challenge of each line of recorded input that asks to verify a key."""
    lines = [line.split("#")[0].replace(",", " ").lower().split() for line in commands.splitlines()]
    asked = [words[3:] for words in lines if words[:1] == ["command"] and words[2:3] == ["verify"]]
    try:
        found = [(int(key), bytes.fromhex(challenge)) for key, challenge in asked]
    except ValueError as error:
        raise Fault(f"a line that asks to verify a key is at fault: {error}") from error
    if not found:
        raise Fault("no line asks to verify a key")
    return found


def replies_of(answers):
    """The key and the octets of each reply of Verify."""
    lines = [line.split() for line in answers.splitlines()]
    # behind the number of the record: done verify entry P drawn K N, and then the names and values of the reply
    replies = [dict(zip(words[8::2], words[9::2])) for words in lines if words[1:3] == ["done", "verify"]]
    try:
        return [(int(values["key"]), reply_of(values)) for values in replies]
    except (KeyError, ValueError, OverflowError) as error:
        raise Fault(f"an answer to verify is at fault: {error}") from error


def reply_of(values):
    """The octets of a reply of Verify, by its names and values."""
    sealed = [bytes.fromhex(values[name]) for name in ("vector", "sealed", "tag") if name in values]
    if not sealed:
        sealed = [octets_of(int(values["number"]), 4), bytes.fromhex(values["mac"])]
    octets = message("verify", int(values["key"]), *sealed)
    return bytes([0x80 | octets[0]]) + octets[1:]


def verify(commands, keys, answers):
    """Prints of each challenge whether it has a right reply. Returns whether each has."""
    replies, all_right = replies_of(answers), True
    for key, challenge in challenges_of(commands):
        octets = key_of(keys, key)
        of_key = [reply for replied, reply in replies if replied == key]
        right = [reply for reply in of_key if is_verified(reply, key, octets, challenge)]
        if right:
            print(f"key {key}: verified, {number_used(right[0], key)}")
        elif of_key:
            print(f"key {key}: NOT verified: the unit has other octets, or replied to another challenge")
        else:
            print(f"key {key}: NOT verified: there is no reply")
        all_right = all_right and bool(right)
    return all_right


def number_used(reply, key):
    """The number or the vector of a reply; the vector begins with the device field of the unit that replied."""
    return f"number {number_of(reply[5:9])}" if key >= 32768 else f"vector {reply[5:17].hex()}"


def key_of(plan, identifier):
    """The octets of a key in the text of a plan. No digit of it is printed."""
    lines = (line.split() for line in plan.splitlines())
    found = [words[3] for words in lines if words[:2] == ["key", str(identifier)] and len(words) == 4]
    if len(found) != 1:
        raise Fault(f"of {identifier} there is not one key line, but {len(found)}")
    try:
        octets = bytes.fromhex(found[0])
    except ValueError:
        octets = b""
    if len(octets) not in (16, 32):
        raise Fault(f"the line of key {identifier} has not 32 or 64 hexadecimal digits")
    return octets


# -- a unit over pipes: docs/RECORDS.md, "The recorded input" and "An answer" -----------------------------------------

CODES = {
    0x00: "protected", 0x01: "accepted", 0x02: "clear", 0x03: "done", 0x04: "refused", 0x05: "monitored",
    0x06: "monitor-fault", 0x10: "layout", 0x11: "channel", 0x12: "spi", 0x13: "direction", 0x14: "state",
    0x15: "coverage", 0x16: "mac", 0x17: "number", 0x20: "exhausted", 0x31: "site-fault", 0x32: "stopped",
    0x33: "no-memory", 0xFF: "end",
}  # fmt: skip
FENCE, PROTECT, OPEN, COMMAND, MONITOR = 0, 1, 2, 3, 4


@dataclass(frozen=True)
class Answer:
    word: str
    detail: int
    key: int
    number: int
    body: bytes


class Unit:
    """A unit in a folder of its own, and its run, which stays open from `start` to `stop` or `crash`."""

    def __init__(self, program, folder, plan):
        self.program, self.folder, self.run = program, folder, None
        folder.mkdir()
        subprocess.run([program, "init"], cwd=folder, input=plan.encode("ascii"), check=True)
        self.start()

    def start(self):
        # a group of processes of its own, so that a crash meets the launcher and the program at once
        self.run = subprocess.Popen([self.program, "run"], cwd=self.folder, stdin=subprocess.PIPE,
                                    stdout=subprocess.PIPE, start_new_session=True)  # fmt: skip
        self.run.stdin.write(b"SDLSREC1")

    def ask(self, *records):
        """Hands in records, each with its kind, link and octets, and returns their answers.

        Answers come when a segment ends, so a fence follows the records; there may be at most 1,024 of them.
        """
        lane = 0
        for kind, link, octets in records + ((FENCE, 0, b""),):
            self.run.stdin.write(struct.pack(">BBBBH", kind, lane, link, 0, len(octets)) + octets)
        self.run.stdin.flush()
        return [self.read_answer() for _ in records]

    def read_answer(self):
        code, detail, key, length, _, number = struct.unpack(">BBHIQQ", self.read(24))
        return Answer(CODES[code], detail, key, number, self.read(length))

    def read(self, length):
        octets = self.run.stdout.read(length)
        if len(octets) != length:
            raise SystemExit("the unit has ended in the middle of an answer")
        return octets

    def protect(self, link, clear):
        return self.ask((PROTECT, link, clear))[0]

    def open(self, link, frame):
        return self.ask((OPEN, link, frame))[0]

    def command(self, *words):
        return self.ask((COMMAND, 0, message(*words)))[0]

    def stop(self):
        """Ends the run as it should end, by the end of its input, and returns the exit status."""
        self.run.stdin.close()
        end = self.read_answer()
        status = self.run.wait()
        expect("End has the status", (end.word, end.detail), ("end", status))
        return status

    def crash(self):
        """Ends the run as a power cut would."""
        os.killpg(self.run.pid, signal.SIGKILL)
        self.run.wait()
        self.run.stdout.read()


# -- what is tried ----------------------------------------------------------------------------------------------------


def expect(title, seen, wanted):
    if seen != wanted:
        raise SystemExit(f"{title}: {seen!r}, and not {wanted!r}")


def opened(association, frame):
    """The data field of a frame that this end opens, or the word of the check that fails."""
    try:
        return association.open(frame)
    except Refused as refused:
        return str(refused)


def with_bit_changed(octets, place):
    return octets[:place] + bytes([octets[place] ^ 1]) + octets[place + 1 :]


def try_ciphers():
    """Published vectors: FIPS 197, C.1 and C.3; SP 800-38B, D.1; test case 4 of GCM; CRC-16 of the ASCII digits."""
    text = bytes.fromhex("00112233445566778899aabbccddeeff")
    expect("AES-128", Aes(bytes(range(16))).encrypt(text).hex(), "69c4e0d86a7b0430d8cdb78070b4c55a")
    expect("AES-256", Aes(bytes(range(32))).encrypt(text).hex(), "8ea2b7ca516745bfeafc49904b496089")
    key = bytes.fromhex("2b7e151628aed2a6abf7158809cf4f3c")
    text = bytes.fromhex("6bc1bee22e409f96e93d7e117393172aae2d8a571e03ac9c9eb76fac45af8e5130c81c46a35ce411")
    expect("CMAC of nothing", cmac(key, b"").hex(), "bb1d6929e95937287fa37d129b756746")
    expect("CMAC of a block", cmac(key, text[:16]).hex(), "070a16b46b4d4144f79bdd9dd04a287c")
    expect("CMAC of 40 octets", cmac(key, text).hex(), "dfa66747de9ae63030ca32611497c827")
    key, vector = bytes.fromhex("feffe9928665731c6d6a8f9467308308"), bytes.fromhex("cafebabefacedbaddecaf888")
    text = bytes.fromhex("d9313225f88406e5a55909c5aff5269a86a7a9531534f7da2e4c303d8a318a72"
                         "1c3c0c95956809532fcf0e2449a6b525b16aedf5aa0de657ba637b39")  # fmt: skip
    additional = bytes.fromhex("feedfacedeadbeeffeedfacedeadbeefabaddad2")
    sealed, tag = gcm(key, vector, text, additional, True)
    expect("GCM: text", sealed[:16].hex(), "42831ec2217774244b7221b784d0d49c")
    expect("GCM: tag", tag.hex(), "5bc94fbc3221a5db94fae95ae7121a47")
    expect("GCM: opened", gcm(key, vector, sealed, additional, False), (text, tag))
    expect("FECF", error_control(b"123456789").hex(), "29b1")
    print("ciphers: AES, CMAC, GCM and FECF give the published values")


# Of each kind of frame the link, and a frame in clear on a virtual channel. A protected TM or AOS frame has 96 octets.
KINDS = {
    "tc": (Link("tc", has_segment=True, has_error_control=True), lambda channel, data: tc_frame(
        42, channel, 9, data[:31], map_id=3)),
    "tm": (Link("tm", has_error_control=True), lambda channel, data: tm_frame(42, channel, 9, data)),
    "aos": (Link("aos", insert=2, has_control_field=True), lambda channel, data: aos_frame(42, channel, 9, data)),
}  # fmt: skip
FRAMES_PLAN = """sdls 1
device d0000001
slots 256
block 16
accept 4
link 0 tc seg fecf -
link 1 tm 96 fecf -
link 2 aos 96 2 ocf nofecf -
"""


def frames_plan(pairs):
    """A plan with a channel for each pair of kind and suite, with an association and a key for each direction."""
    lines = []
    for i, (link, _, suite) in enumerate(pairs):
        send, receive = keys_of(i, suite)
        lines.append(f"channel {i} {link} 42 {i} {3 if link == 0 else '-'}")
        lines += [f"key {key} active {test_key(key).hex()}" for key in (send, receive)]
        lines.append(f"sa {i + 1} send {suite} {send} 1 1 {i}")
        lines.append(f"sa {i + 101} receive {suite} {receive} 1 64 {i}")
    return FRAMES_PLAN + "\n".join(lines) + "\n"


def keys_of(i, suite):
    first = 32769 if suite == "cmac" else 256
    return first + 2 * i, first + 2 * i + 1


def test_key(key):
    """The octets of a test key; keys with an odd identifier have 32."""
    return (octets_of(key, 2) * 16)[: 32 if key % 2 else 16]


def try_frames(program, folder):
    """Each kind of frame under each suite, in both directions, and with a bit changed on the way."""
    pairs = [(link, kind, suite) for link, kind in enumerate(KINDS) for suite in ("cmac", "gcm")]
    unit = Unit(program, folder / "frames", frames_plan(pairs))
    for i, (number, kind, suite) in enumerate(pairs):
        link, make = KINDS[kind]
        gain = (22 if suite == "cmac" else 30) + 2 * link.has_error_control
        clear = make(i, bytes(range(96 - 6 - gain)))
        data = link.split(clear)[1]
        send, receive = keys_of(i, suite)
        try_down(unit, number, clear, data, Association(link, i + 1, suite, test_key(send)))
        far = Association(link, i + 101, suite, test_key(receive), device=bytes.fromhex("d00000ff"))
        try_up(unit, number, clear, data, far)
        print(f"{kind} {suite}: the unit's frames were opened here, and ours by the unit")
    expect("status", unit.stop(), 0)


def try_down(unit, link, clear, data, far):
    """The unit protects a frame, and this end opens it."""
    answer = unit.protect(link, clear)
    expect("protected by the unit", (answer.word, answer.number), ("protected", 1))
    broken = far.link.with_error_control(with_bit_changed(far.link.without_error_control(answer.body), 30))
    expect("a bit changed on the way down", opened(far, broken), "mac")
    expect("opened here", opened(far, answer.body), data)
    expect("a second time", opened(far, answer.body), "number")


def try_up(unit, link, clear, data, far):
    """This end protects a frame, and the unit opens it."""
    frame = far.protect(clear)
    broken = far.link.with_error_control(with_bit_changed(far.link.without_error_control(frame), 30))
    expect("a bit changed on the way up", unit.open(link, broken).word, "mac")
    answer = unit.open(link, frame)
    expect("opened by the unit", (answer.word, answer.number, answer.body), ("accepted", 1, data))
    expect("a second time", unit.open(link, frame).word, "number")


def try_messages(program, folder, plan):
    """A key is made here, loaded and verified on board, and taken by the telemetry."""
    board = Unit(program, folder / "messages", plan)
    new_key = bytes(range(0x40, 0x50))
    vector = bytes.fromhex("d00000ff") + octets_of(1, 8)
    loading = rekeying(1, key_of(plan, 1), vector, {300: new_key})
    expect("a bit changed in rekeying", board.ask((COMMAND, 0, with_bit_changed(loading, 20)))[0].word, "refused")
    expect("rekeying", board.ask((COMMAND, 0, loading))[0].word, "done")
    expect("activate", board.command("activate", 300).word, "done")
    challenge = os.urandom(16)
    other_challenge = with_bit_changed(challenge, 15)
    for key, octets in (300, new_key), (1, key_of(plan, 1)), (32769, key_of(plan, 32769)):
        reply = board.command("verify", key, challenge).body
        expect(f"verify {key}", is_verified(reply, key, octets, challenge), True)
        expect(f"verify {key}: other octets", is_verified(reply, key, with_bit_changed(octets, 0), challenge), False)
        expect(f"verify {key}: another challenge", is_verified(reply, key, octets, other_challenge), False)
    for words in ("stop", 9), ("expire", 9), ("rekey", 9, 300, octets_of(2, 8)), ("start", 9), ("destroy", 256):
        expect(words[0], board.command(*words).word, "refused" if words[0] == "destroy" else "done")
    answer = board.protect(1, tm_frame(42, 2, 0, bytes(26)))
    far = Association(Link("tm", has_error_control=True), 9, "gcm", new_key)
    expect("telemetry under the new key", (answer.number, opened(far, answer.body)), (2, bytes(26)))
    expect("status", board.stop(), 0)
    print("messages: key 300 was sealed here, loaded and verified on board, and protects the telemetry")


class LossyLink:
    """A way for frames that loses one of four, and notes what the two ends did."""

    def __init__(self):
        self.luck = random.Random(1)
        self.sent, self.lost, self.refused, self.used, self.accepted = 0, 0, 0, [], []

    def carry(self, sender, receiver, link, clear):
        """Has one unit protect a frame and the other open it. Returns the data field, or nothing."""
        answer = sender.protect(link, clear)
        expect("protected", answer.word, "protected")
        self.sent += 1
        self.used.append((answer.key, answer.number))
        if self.luck.random() < 0.25:
            self.lost += 1
            return None
        answer = receiver.open(link, answer.body)
        if answer.word == "number":  # behind a crash of the receiver: at most `accept` - 1 numbers
            self.refused += 1
            return None
        expect("opened", answer.word, "accepted")
        self.accepted.append((answer.key, answer.number))
        return answer.body


def try_link(program, folder, ground_plan, board_plan):
    """A ground station and a spacecraft: 60 telecommands go up, and telemetry says which was the last one done.

    A telecommand is sent until telemetry confirms it, each time in a new frame with a new number. A frame that the unit
    refuses, or that never came, needs nothing else. Each telecommand has a count of its own, since the one before it
    may have been done though its confirmation was lost.
    """
    ground, board = Unit(program, folder / "ground", ground_plan), Unit(program, folder / "board", board_plan)
    way, done, confirmed, tries = LossyLink(), [], 0, 0
    while confirmed < 60:
        tries += 1
        if tries in (30, 60):
            crash_and_start(board if tries == 30 else ground)
        wanted = octets_of(confirmed + 1, 4)
        got = way.carry(ground, board, 0, tc_frame(42, 5, tries, wanted, map_id=3))
        if got is not None and number_of(got) not in done:
            done.append(number_of(got))
        last = octets_of(done[-1] if done else 0, 4)
        told = way.carry(board, ground, 1, tm_frame(42, 2, tries, last + bytes(22)))
        confirmed = confirmed if told is None else number_of(told[:4])
    expect("each telecommand was done once, in order", done, list(range(1, 61)))
    expect("no number twice", len(way.used), len(set(way.used)))
    expect("no frame accepted twice", len(way.accepted), len(set(way.accepted)))
    expect("statuses", (ground.stop(), board.stop()), (0, 0))
    print(f"lossy link: 60 telecommands done, in {way.sent} frames up and down; {way.lost} were lost, and {way.refused}"
          " refused after a crash")  # fmt: skip
    print("two crashes: no number was used twice, and none was accepted twice")


def crash_and_start(unit):
    unit.crash()
    unit.start()


def find_program():
    """The launcher of the clone, or of the copy that `./install PREFIX` made, or the one on the path."""
    here = pathlib.Path(__file__)
    places = here.absolute().parent.parent / "sdls", here.resolve().parent / "../../../../bin/sdls"
    return next((str(place) for place in places if os.access(place, os.X_OK)), None) or shutil.which("sdls")


def identifier(word):
    """The identifier of a key, as a word of the command line."""
    number = int(word)
    if not 1 <= number <= 65535:
        raise argparse.ArgumentTypeError("a key is 1 to 65535")
    return number


def read_words():
    words = argparse.ArgumentParser(description=__doc__.splitlines()[0], epilog="Without a word all is tried on units.")
    words.add_argument("--sdls", default=find_program(), help="the program, or its launcher")
    further = words.add_subparsers(dest="word")
    challenge = further.add_parser("challenge", help="print a line that asks to verify a key")
    challenge.add_argument("key", type=identifier)
    verifying = further.add_parser("verify", help="check the replies among the answers on standard input")
    verifying.add_argument("commands", type=pathlib.Path, help="a file with the lines of `challenge`")
    verifying.add_argument("keys", type=pathlib.Path, help="a file with the key lines of a plan")
    return words.parse_args()


def main():
    words = read_words()
    if words.word == "challenge":
        print(f"command 0 verify {words.key} {os.urandom(16).hex()}")
        return 0
    if words.word == "verify":
        try:
            return 0 if verify(words.commands.read_text(), words.keys.read_text(), sys.stdin.read()) else 1
        except (Fault, OSError, UnicodeDecodeError) as error:
            print(f"ground.py: {error}", file=sys.stderr)
            return 2
    return try_all(words.sdls)


def try_all(program):
    if program is None:
        raise SystemExit("there is no `sdls` beside this folder or on the path: name it by --sdls")
    plans = pathlib.Path(__file__).absolute().parent
    ground_plan, board_plan = ((plans / name).read_text() for name in ("plan-on-ground.txt", "plan-on-board.txt"))
    try_ciphers()
    with tempfile.TemporaryDirectory() as name:
        folder = pathlib.Path(name)
        try_frames(program, folder)
        try_messages(program, folder, board_plan)
        try_link(program, folder, ground_plan, board_plan)
    return 0


if __name__ == "__main__":
    sys.exit(main())
