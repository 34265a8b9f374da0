#!/usr/bin/python3
"""Frames of the baseline mode of CCSDS 355.0-B-2, made and opened with another library: python3-cryptography.

It shares no code with the unit, and none with `ground.py`. The headers are the tables of fields of CCSDS 232.0-B-4,
132.0-B-3 and 732.0-B-4. ApplySecurity and ProcessSecurity are those of 355.0-B-2, as we read it. AES, CMAC and GCM are
the library's, and the frame error control field is that of Python's `binascii`. As a module it has `Link`,
`Association`, `Frame`, `apply_security` and `process_security`. As a program:

    baseline.py                                      makes and opens frames of each kind, as a test of itself
    baseline.py protect KIND SUITE --key HEX CLEAR   prints the protected frame of a clear one
    baseline.py open KIND SUITE --key HEX FRAME      prints the number and the data field of a protected frame

KIND is tc, tm or aos, SUITE is cmac or gcm. CLEAR and FRAME are hexadecimal. A clear frame has no frame error control
field. `baseline.py protect --help` names the settings of a link and of an association, and the widths of the fields.

The status is 0, or 1 if the frame is refused, 2 for other words, and 77 if the library is missing. A key on a command
line stands in the list of processes: use test keys.
"""
import argparse
import binascii
import sys
from dataclasses import dataclass, replace

NOT_TRIED = 77

try:
    from cryptography.exceptions import InvalidTag
    from cryptography.hazmat.primitives import constant_time
    from cryptography.hazmat.primitives.ciphers import Cipher, algorithms, modes
    from cryptography.hazmat.primitives.cmac import CMAC
except ImportError as missing:
    print(f"baseline.py: {sys.executable} has no library `cryptography` ({missing}). Debian's package "
          "python3-cryptography is for /usr/bin/python3", file=sys.stderr)  # fmt: skip
    sys.exit(NOT_TRIED)


class Refused(Exception):
    """A frame that is not accepted; it has a word for the check that failed."""


def require(is_so, word):
    if not is_so:
        raise Refused(word)


def number_of(octets):
    return int.from_bytes(octets, "big")


def low_octets(number, count):
    return (number % (1 << 8 * count)).to_bytes(count, "big")


# -- transfer frames --------------------------------------------------------------------------------------------------

# Transfer Frame Primary Header of TC, TM and AOS: each field, and how many bits it has.
FIELDS = {
    "tc": {
        "version": 2, "bypass": 1, "control_command": 1, "spare": 2, "spacecraft": 10, "virtual_channel": 6,
        "length": 10, "sequence": 8,
    },
    "tm": {
        "version": 2, "spacecraft": 10, "virtual_channel": 3, "has_control_field": 1, "master_count": 8,
        "channel_count": 8, "has_secondary_header": 1, "synchronization": 1, "packet_order": 1,
        "segment_length": 2, "first_header_pointer": 11,
    },
    "aos": {
        "version": 2, "spacecraft": 8, "virtual_channel": 6, "count": 24, "replay": 1, "count_usage": 1, "spare": 2,
        "count_cycle": 4,
    },
}  # fmt: skip
VERSIONS = {"tc": 0, "tm": 0, "aos": 1}
HEADER_LENGTHS = {kind: sum(fields.values()) // 8 for kind, fields in FIELDS.items()}
CONTROL_FIELD_LENGTH = 4
ERROR_CONTROL_LENGTH = 2

# What `-` in a plan of the unit stands for; a segment header has the octet behind those of the primary header.
USUAL_MASKS = {"tc": "c3fffc0000ff", "tm": "fffe00000000", "aos": "ffff00000000"}


@dataclass(frozen=True)
class Link:
    """The managed parameters of a physical channel."""

    kind: str  # tc, tm or aos
    mask: bytes  # the authentication bit mask of what stands before the security header; past its end it is 00
    length: int = 0  # of each frame, of TM and AOS; 0 if it is not known
    has_segment_header: bool = False  # of TC
    insert: int = 0  # the octets of the insert zone, of AOS
    has_control_field: bool = False  # of AOS; of TM each frame says it
    has_error_control: bool = False


@dataclass(frozen=True)
class Frame:
    """A transfer frame by its parts."""

    fields: dict  # of the primary header, by their names
    optional: bytes = b""  # the segment header of TC, the secondary header of TM, the insert zone of AOS
    room: bytes = b""  # the data field; of a protected frame security header, data field and security trailer
    control: bytes = b""  # the operational control field


def pack_header(kind, fields):
    """The octets of a primary header."""
    bits = 0
    for name, width in FIELDS[kind].items():
        if fields[name] >> width:
            raise ValueError(f"{name} has {width} bits")
        bits = bits << width | fields[name]
    return bits.to_bytes(HEADER_LENGTHS[kind], "big")


def unpack_header(kind, octets):
    """The fields of a primary header."""
    bits, fields = number_of(octets), {}
    for name, width in reversed(FIELDS[kind].items()):
        fields[name] = bits % (1 << width)
        bits >>= width
    return fields


def error_control(octets):
    """The frame error control field over these octets: the CRC of the CCITT, preset to ones."""
    return binascii.crc_hqx(octets, 0xFFFF).to_bytes(ERROR_CONTROL_LENGTH, "big")


def write_frame(link, frame):
    """The octets of a frame. A TC frame gets its length field, and each frame of the link its error control field."""
    behind = frame.optional + frame.room + frame.control
    fields = frame.fields
    if link.kind == "tc":
        octets = HEADER_LENGTHS["tc"] + len(behind) + ERROR_CONTROL_LENGTH * link.has_error_control
        fields = {**fields, "length": octets - 1}
    octets = pack_header(link.kind, fields) + behind
    return octets + error_control(octets) if link.has_error_control else octets


def read_frame(link, octets):
    """The parts of a frame of the link. Raises Refused if it is none."""
    body = octets
    if link.has_error_control:
        body, last = octets[:-ERROR_CONTROL_LENGTH], octets[-ERROR_CONTROL_LENGTH:]
        require(error_control(body) == last, "layout")
    start = HEADER_LENGTHS[link.kind]
    require(len(body) >= start, "layout")
    fields = unpack_header(link.kind, body[:start])
    require(is_header_right(link, fields, len(octets)), "layout")
    optional_end = start + length_of_optional(link, fields, body[start:])
    end = len(body) - length_of_control_field(link, fields)
    require(optional_end <= end, "layout")
    return Frame(fields, body[start:optional_end], body[optional_end:end], body[end:])


def is_header_right(link, fields, octets):
    """Whether version, spare bits and length are those of a frame of so many octets."""
    length = fields["length"] + 1 if link.kind == "tc" else link.length or octets
    return fields["version"] == VERSIONS[link.kind] and fields.get("spare", 0) == 0 and length == octets


def length_of_optional(link, fields, behind):
    """The octets of the segment header, the secondary header or the insert zone, which `behind` begins with."""
    if link.kind == "tc":
        return int(link.has_segment_header and not fields["control_command"])
    if link.kind == "aos":
        return link.insert
    if not fields["has_secondary_header"]:
        return 0
    require(behind and behind[0] >> 6 == 0, "layout")  # its version
    return behind[0] % 64 + 1


def length_of_control_field(link, fields):
    if link.kind == "tc":
        return 0
    return CONTROL_FIELD_LENGTH * (fields["has_control_field"] if link.kind == "tm" else link.has_control_field)


def is_clear(link, fields):
    """Whether a frame carries no security: a control command of TC, and idle data of AOS."""
    if link.kind == "tc":
        return fields["control_command"] == 1
    return link.kind == "aos" and fields["virtual_channel"] == 63


# -- security associations --------------------------------------------------------------------------------------------


@dataclass(frozen=True)
class Widths:
    """The octets of the fields of security header and trailer, behind the security parameter index, which has two."""

    vector: int  # initialization vector
    sequence: int  # sequence number
    pad: int  # pad length
    mac: int

    def header(self):
        """The octets of the security header."""
        return 2 + self.vector + self.sequence + self.pad


WIDTHS = ("vector", "sequence", "pad", "mac")
BASELINE = {"cmac": Widths(vector=0, sequence=4, pad=0, mac=16), "gcm": Widths(vector=12, sequence=0, pad=0, mac=16)}


@dataclass
class Association:
    """One direction of a security association.

    Its number is the sequence number, or the initialization vector as one number if there is no sequence number beside
    it: a counter of all bits of the field. It is in memory alone. An end that sends for more than a test keeps it on a
    disk, and stores the next one before it uses a number: a vector that is used twice under one GCM key breaks it.
    """

    spi: int
    suite: str  # cmac or gcm
    key: bytes
    number: int = 1  # the next one to send, or the lowest one to accept
    window: int = 64
    widths: Widths = None  # or else those of the baseline mode

    def __post_init__(self):
        self.widths = self.widths or BASELINE[self.suite]

    def next_header(self):
        """The security header with the next number."""
        widths, number = self.widths, self.number
        self.number += 1
        vector, sequence = low_octets(number, widths.vector), low_octets(number, widths.sequence)
        return SecurityHeader(low_octets(self.spi, 2), vector, sequence, bytes(widths.pad))

    def accept(self, number):
        """Takes a number, or raises Refused if it is not in the window."""
        require(self.number <= number < self.number + self.window, "number")
        self.number = number + 1


@dataclass(frozen=True)
class SecurityHeader:
    spi: bytes
    vector: bytes
    sequence: bytes
    pad: bytes

    def octets(self):
        return self.spi + self.vector + self.sequence + self.pad

    def number(self):
        return number_of(self.sequence or self.vector)


def split_room(association, room):
    """Security header, text and MAC of a protected frame's room. Raises Refused if they are not the association's."""
    widths, places = association.widths, [0, 2]
    for width in (widths.vector, widths.sequence, widths.pad):
        places.append(places[-1] + width)
    require(len(room) >= places[-1] + widths.mac, "mac")
    header = SecurityHeader(*(room[start:end] for start, end in zip(places, places[1:])))
    require(number_of(header.spi) == association.spi, "spi")
    end = len(room) - widths.mac
    return header, room[places[-1] : end], room[end:]


def covered_text(link, octets, frame, header):
    """What the MAC covers before the data field: what stands before the security header under the mask, and that."""
    prefix = octets[: HEADER_LENGTHS[link.kind] + len(frame.optional)]
    mask = link.mask[: len(prefix)].ljust(len(prefix), b"\0")
    masked = number_of(prefix) & number_of(mask)
    return masked.to_bytes(len(prefix), "big") + header.octets()


def mac_over(key, text):
    running = CMAC(algorithms.AES(key))
    running.update(text)
    return running.finalize()


def seal(association, vector, covered, data):
    """The text of the frame, and its MAC."""
    key, octets = association.key, association.widths.mac
    if association.suite == "cmac":
        return data, mac_over(key, covered + data)[:octets]
    cipher = Cipher(algorithms.AES(key), modes.GCM(vector)).encryptor()
    cipher.authenticate_additional_data(covered)
    text = cipher.update(data) + cipher.finalize()
    return text, cipher.tag[:octets]


def unseal(association, vector, covered, text, mac):
    """The data field. Raises Refused if the MAC is wrong."""
    key = association.key
    if association.suite == "cmac":
        require(constant_time.bytes_eq(mac_over(key, covered + text)[: len(mac)], mac), "mac")
        return text
    cipher = Cipher(algorithms.AES(key), modes.GCM(vector, mac, min_tag_length=len(mac))).decryptor()
    cipher.authenticate_additional_data(covered)
    try:
        return cipher.update(text) + cipher.finalize()
    except InvalidTag:
        raise Refused("mac") from None


def apply_security(link, association, clear):
    """The octets of the protected frame of a clear one (ApplySecurity)."""
    header = association.next_header()
    # zeros in the place of the MAC, so that the length field is that of the protected frame
    frame = replace(clear, room=header.octets() + clear.room + bytes(association.widths.mac))
    covered = covered_text(link, write_frame(link, frame), frame, header)
    text, mac = seal(association, header.vector, covered, clear.room)
    return write_frame(link, replace(clear, room=header.octets() + text + mac))


def process_security(link, association, octets):
    """The number and the data field of a protected frame (ProcessSecurity). Raises Refused if a check fails."""
    frame = read_frame(link, octets)
    require(not is_clear(link, frame.fields), "clear")
    header, text, mac = split_room(association, frame.room)
    data = unseal(association, header.vector, covered_text(link, octets, frame, header), text, mac)
    association.accept(header.number())
    return header.number(), data


def clear_link(link, association):
    """The layout of clear frames: without error control, and shorter by what a frame gains."""
    widths = association.widths
    gain = widths.header() + widths.mac + ERROR_CONTROL_LENGTH * link.has_error_control
    return replace(link, has_error_control=False, length=link.length and link.length - gain)


# -- as a program -----------------------------------------------------------------------------------------------------


def protect(link, association, clear):
    """The protected frame of the octets of a clear one."""
    return apply_security(link, association, read_frame(clear_link(link, association), clear))


def expect(title, seen, wanted):
    if seen != wanted:
        raise SystemExit(f"baseline.py: {title}: {seen!r}, and not {wanted!r}")


def opened(link, association, octets):
    """Number and data field of a frame, or the word of the check that failed."""
    try:
        return process_security(link, association, octets)
    except Refused as refused:
        return str(refused)


def try_printed_frames():
    """The two protected frames that docs/FRAMES.md prints ("Protected frames")."""
    key = bytes.fromhex("2b7e151628aed2a6abf7158809cf4f3c")
    link = Link("tc", bytes.fromhex(USUAL_MASKS["tc"]), has_segment_header=True)
    frame = protect(link, Association(7, "cmac", key), bytes.fromhex("002a140509c3"))
    expect("tc cmac", frame.hex(), "002a141b09c30007000000017cf76aa4d9748ee706403df61c55efee")
    link = Link("tm", bytes.fromhex(USUAL_MASKS["tm"]), length=64, has_error_control=True)
    number = number_of(bytes.fromhex("d00000010000000000000001"))
    clear = "02a51122980003aabbcc101112131415161718191a1b1c1d1e1f202101020304"
    frame = protect(link, Association(9, "gcm", bytes(range(16)), number), bytes.fromhex(clear))
    expect("tm gcm", frame.hex(), "02a51122980003aabbcc0009d00000010000000000000001b719ee1fa4785981df835274a212f71e3b2b"
           "673ef5a4ad6a45627aa9eec31b8af84e010203040db3")  # fmt: skip
    print("the two frames that docs/FRAMES.md prints were made, octet for octet")


def clear_frame(kind, data):
    """A clear frame of the kind: with segment header, with secondary header, or with an insert zone of two octets."""
    fields = {name: 0 for name in FIELDS[kind]}
    fields.update(version=VERSIONS[kind], spacecraft=42, virtual_channel=5)
    if kind == "tc":
        return Frame(fields, b"\xc3", data)
    if kind == "tm":
        fields.update(has_secondary_header=1, has_control_field=1)
        return Frame(fields, b"\x01\xaa", data, bytes(4))
    return Frame(fields, b"\x11\x22", data, bytes(4))


def try_itself(kind, suite):
    """A frame is made, and opened once; with a bit changed it is refused, and so it is a second time."""
    link = Link(kind, bytes.fromhex(USUAL_MASKS[kind]), has_segment_header=True, insert=2, has_control_field=True)
    sender, receiver = (Association(7, suite, bytes(range(32))) for _ in range(2))
    frame = apply_security(link, sender, clear_frame(kind, b"data"))
    broken = frame[:30] + bytes([frame[30] ^ 1]) + frame[31:]
    expect(f"{kind} {suite}, a bit changed", opened(link, receiver, broken), "mac")
    expect(f"{kind} {suite}", opened(link, receiver, frame), (1, b"data"))
    expect(f"{kind} {suite}, a second time", opened(link, receiver, frame), "number")
    print(f"{kind} {suite}: made and opened")


def octets_word(text):
    """Octets of a command line."""
    return bytes.fromhex(text)


def number_word(text):
    return int(text, 0)


def read_words():
    settings = argparse.ArgumentParser(add_help=False)
    settings.add_argument("kind", choices=("tc", "tm", "aos"))
    settings.add_argument("suite", choices=("cmac", "gcm"))
    settings.add_argument("frame", type=octets_word, metavar="FRAME", help="the clear or the protected frame")
    settings.add_argument("--key", type=octets_word, required=True, metavar="HEX", help="16 or 32 octets; a test key")
    settings.add_argument("--spi", type=int, default=7, metavar="N", help="security parameter index (7)")
    settings.add_argument("--number", type=number_word, default=1, metavar="N", help="sequence number, or under gcm "
                          "initialization vector, decimal or 0x and hexadecimal (1); `open` takes any")  # fmt: skip
    settings.add_argument("--mask", type=octets_word, metavar="HEX", help="authentication bit mask (the unit's `-`)")
    settings.add_argument("--segment", action="store_true", help="TC frames have a segment header")
    settings.add_argument("--insert", type=int, default=0, metavar="N", help="octets of the insert zone of AOS (0)")
    settings.add_argument("--ocf", action="store_true", help="AOS frames have an operational control field")
    settings.add_argument("--fecf", action="store_true", help="frames have a frame error control field")
    for name in WIDTHS:
        settings.add_argument(f"--{name}-octets", type=int, metavar="N", help="another width than the baseline's")
    parser = argparse.ArgumentParser(description=__doc__.splitlines()[0], epilog="Without words it tries itself.")
    parsers = parser.add_subparsers(dest="word")
    for name in ("protect", "open"):
        parsers.add_parser(name, parents=[settings])
    return parser, parser.parse_args()


def link_of(words):
    mask = words.mask or bytes.fromhex(USUAL_MASKS[words.kind])
    return Link(words.kind, mask, 0, words.segment, words.insert, words.ocf, words.fecf)


def association_of(words):
    given = {name: getattr(words, f"{name}_octets") for name in WIDTHS}
    widths = replace(BASELINE[words.suite], **{name: width for name, width in given.items() if width is not None})
    return Association(words.spi, words.suite, words.key, words.number, 1, widths)


def open_any(link, association, octets):
    """Number and data field of a frame with any number, as a line."""
    association.number, association.window = 0, 1 << 128
    number, data = process_security(link, association, octets)
    as_said = f"0x{number:024x}" if association.suite == "gcm" else number
    return f"number {as_said} data {data.hex() or '-'}"


def try_all():
    try_printed_frames()
    for kind in FIELDS:
        for suite in BASELINE:
            try_itself(kind, suite)


def answer(words):
    """What the words `protect` and `open` print."""
    link, association = link_of(words), association_of(words)
    if words.word == "protect":
        return protect(link, association, words.frame).hex()
    return open_any(link, association, words.frame)


def main():
    parser, words = read_words()
    if not words.word:
        try_all()
        return 0
    try:
        print(answer(words))
    except Refused as refused:
        print(f"baseline.py: refused: {refused}", file=sys.stderr)
        return 1
    except ValueError as error:  # for instance a key of another length
        parser.error(str(error))
    return 0


if __name__ == "__main__":
    sys.exit(main())
