#!/usr/bin/env python3
"""A second opinion: a translator written from the RFCs and the manual alone, which shares nothing with `siit`.

    translator.py run CONFIG LEFT RIGHT OUTLEFT OUTRIGHT REPORT
    translator.py wkp IN OUT
    translator.py make N SEED CONFIG LEFT OUTLEFT OUTRIGHT REPORT
    translator.py map CONFIG DEVICE ADDRESS

writes what `siit` has to write, prints the line that it has to print and ends with its status. A configuration has to be without fault.
It is written for reading: packets are read into fields and written anew, and a table is searched entry by entry. Its rules and tables stand
in the order of docs/RULES.md. Needs Python 3.11 where a configuration is read.
"""
import struct
import sys
from functools import cached_property
from ipaddress import IPv4Address, IPv6Address, ip_address, ip_network
from typing import NamedTuple

TCP, UDP, ICMP4, ICMP6 = 6, 17, 1, 58
HOP_BY_HOP, ROUTING, FRAGMENT, DESTINATION_OPTIONS = 0, 43, 44, 60


# The rules, in order: the first that holds for an arrival `a` drops it. A condition may rely on all earlier ones not to hold.

class Rule(NamedTuple):
    number: int
    name: str
    answer: tuple  # type and code of the ICMP error, or SILENT
    holds: object = None
    rest: object = lambda a: 0  # bytes 4 to 7 of the ICMP error


SILENT = None
NOT_IP = Rule(1, "NotIp", SILENT)
OTHER_FAMILY = Rule(2, "OtherFamily", SILENT)

RULES4 = [
    Rule(10, "Short4", SILENT, lambda a: len(a.data) < 20 or a.version == 4 and a.header >= 20 and len(a.data) < max(a.header, a.total)),
    Rule(11, "BadHeader4", SILENT, lambda a: a.version != 4 or a.header < 20 or a.total < a.header or residue(a.data[: a.header]) != 0),
    Rule(12, "BadSource4", SILENT, lambda a: is_bad4(a.source)),
    Rule(13, "BadDestination4", SILENT, lambda a: is_bad4(a.destination)),
    Rule(14, "FragmentShape4", SILENT, lambda a: is_bad_fragment(a)),
    Rule(15, "Expired4", (11, 0), lambda a: a.hops < 2),
    Rule(16, "SourceRoute4", (3, 5), lambda a: has_source_route(a.options)),
    Rule(17, "Igmp4", SILENT, lambda a: a.protocol == 2),
    Rule(18, "ProtocolClash4", (3, 13), lambda a: a.protocol in (0, 43, 44, 58, 60)),
    Rule(19, "UpperShort4", SILENT, lambda a: a.offset == 0 and len(a.payload) < {TCP: 20, UDP: 8, ICMP4: 8}.get(a.protocol, 0)),
    Rule(20, "IcmpFragment4", SILENT, lambda a: a.protocol == ICMP4 and a.is_fragment),
    Rule(21, "UdpZeroFragment4", SILENT, lambda a: a.is_bare and a.is_fragment),
    Rule(22, "UdpZero4", SILENT, lambda a: a.is_bare and not a.device.computes),
    Rule(23, "UdpLength4", SILENT, lambda a: a.is_bare and get16(a.payload, 4) != len(a.payload)),
    Rule(24, "IcmpType4", SILENT, lambda a: a.protocol == ICMP4 and not has_type(TYPES46, a.payload)),
    Rule(25, "IcmpCode4", SILENT, lambda a: a.protocol == ICMP4 and new_type(TYPES46, a.payload) is None),
    Rule(26, "IcmpPointer4", SILENT, lambda a: a.protocol == ICMP4 and a.payload[0] == 12 and a.payload[4] not in POINTERS46),
    Rule(27, "RoleSource4", (3, 13), lambda a: {"edge": a.from_.means != "eam", "customer": a.from_.means != "local"}.get(a.device.role)),
    Rule(28, "RoleDestination4", (3, 13), lambda a: a.device.role == "customer" and a.to.means == "local"),
    Rule(29, "SourceMap4", (3, 13), lambda a: a.from_.address is None),
    Rule(30, "DestinationMap4", (3, 13), lambda a: a.to.address is None),
    Rule(31, "QuoteShort4", SILENT, lambda a: a.is_error and (len(a.part) < 20 or a.quote.version == 4 and len(a.part) < a.quote.header >= 20)),
    Rule(32, "QuoteBad4", SILENT, lambda a: a.is_error and (a.quote.version != 4 or a.quote.header < 20 or a.quote.total < a.quote.header)),
    Rule(33, "NestedTwice4", SILENT, lambda a: a.is_error and is_nested(a.quote)),
    Rule(34, "QuoteType4", SILENT, lambda a: a.is_error and (a.quote.protocol in (0, 2, 43, 44, 58, 60) or is_no_echo(a.quote))),
    Rule(35, "QuoteAddress4", SILENT, lambda a: a.is_error and None in (a.quote_from.address, a.quote_to.address)),
    Rule(36, "TooBig4", (3, 4), lambda a: a.df and not a.is_error and a.total + a.growth > a.device.mtu6, lambda a: a.device.mtu6 - a.growth),
]

RULES6 = [
    Rule(50, "Short6", SILENT, lambda a: len(a.data) < 40 or a.version == 6 and len(a.data) < 40 + a.length),
    Rule(51, "BadHeader6", SILENT, lambda a: a.version != 6),
    Rule(52, "BadSource6", SILENT, lambda a: is_bad6(a.source)),
    Rule(53, "BadDestination6", SILENT, lambda a: is_bad6(a.destination)),
    Rule(54, "ShortExt6", SILENT, lambda a: a.trouble == "ShortExt6"),
    Rule(55, "ExtOrder6", SILENT, lambda a: a.trouble == "ExtOrder6"),
    Rule(56, "ExtAfterFragment6", SILENT, lambda a: a.trouble == "ExtAfterFragment6"),
    Rule(57, "FragmentShape6", SILENT, lambda a: is_bad_fragment(a)),
    Rule(58, "Expired6", (3, 0), lambda a: a.hops < 2),
    Rule(59, "SegmentsLeft6", (4, 0), lambda a: a.segments_left is not None, lambda a: a.segments_left),
    Rule(60, "ProtocolClash6", (1, 1), lambda a: a.protocol == ICMP4),
    Rule(61, "UpperShort6", SILENT, lambda a: a.offset == 0 and len(a.payload) < {TCP: 20, UDP: 8, ICMP6: 8}.get(a.protocol, 0)),
    Rule(62, "IcmpFragment6", SILENT, lambda a: a.protocol == ICMP6 and a.is_fragment),
    Rule(63, "IcmpType6", SILENT, lambda a: a.protocol == ICMP6 and not has_type(TYPES64, a.payload)),
    Rule(64, "IcmpCode6", SILENT, lambda a: a.protocol == ICMP6 and new_type(TYPES64, a.payload) is None),
    Rule(65, "IcmpPointer6", SILENT, lambda a: a.protocol == ICMP6 and a.payload[:2] == b"\4\0" and get32(a.payload, 4) not in POINTERS64),
    Rule(66, "RoleSource6", (1, 5), lambda a: a.device.role == "customer" and a.from_.means == "local"),
    Rule(67, "RoleDestination6", (1, 1), lambda a: {"edge": a.to.means != "eam", "customer": a.to.means != "local"}.get(a.device.role)),
    Rule(68, "SourceMap6", (1, 5), lambda a: not a.is_error and a.from_.address is None),
    Rule(69, "DestinationMap6", (1, 1), lambda a: a.to.address is None),
    Rule(70, "HairpinSource6", (1, 1), lambda a: a.turn == REFUSED),
    Rule(71, "QuoteShort6", SILENT, lambda a: a.is_error and (len(a.part) < 40 or a.quote.version == 6 and a.quote.trouble == "ShortExt6")),
    Rule(72, "QuoteBad6", SILENT, lambda a: a.is_error and (a.quote.version != 6 or a.quote.trouble is not None
                                                            or a.quote.segments_left is not None or 20 + a.quote.sent > 65535)),
    Rule(73, "NestedTwice6", SILENT, lambda a: a.is_error and is_nested(a.quote)),
    Rule(74, "QuoteType6", SILENT, lambda a: a.is_error and (a.quote.protocol == ICMP4 or is_no_echo(a.quote))),
    Rule(75, "QuoteAddress6", SILENT, lambda a: a.is_error and (None in (a.quote_from.address, a.quote_to.address)
                                                                or a.is_turned and a.quote_turn in (NOT, REFUSED))),
    Rule(76, "TooBig6", (2, 0), lambda a: not a.is_turned and 40 + a.length > 1280 and 20 + len(a.new_payload) > a.device.mtu4,
         lambda a: max(1280, a.device.mtu4 + 20)),
]


def is_bad4(a):
    """0.0.0.0, 255.255.255.255, 127.0.0.0/8 and 224.0.0.0/4 are neither source nor destination."""
    return a in (0, 0xFFFFFFFF) or a >> 24 == 127 or a >> 28 == 14


def is_bad6(x):
    """::, ::1, ff00::/8 and fe80::/10 are neither source nor destination."""
    return x in (0, 1) or x >> 120 == 0xFF or x >> 118 == 0xFE80 >> 6


def is_bad_fragment(p):
    size = len(p.payload)
    return p.is_fragment and (size == 0 or p.more and size % 8 != 0 or 8 * p.offset + size > 65535)


def has_source_route(options):
    """Whether a source route has hops left (RFC 791 section 3.1). Options that don't hang together end the search."""
    while options and options[0] != 0:
        if options[0] == 1:
            options = options[1:]
            continue
        if len(options) < 2 or not 2 <= options[1] <= len(options):
            return False
        kind, length = options[0], options[1]
        if kind in (131, 137):
            if length < 3:
                return False
            if options[2] <= length:
                return True
        options = options[length:]
    return False


def is_nested(quote):
    return quote.protocol == quote.icmp and quote.offset == 0 and len(quote.payload) > 0 and is_error_type(quote.icmp, quote.payload[0])


def is_no_echo(quote):
    """A quoted ICMP message that can't be translated: a fragment, too short, or neither echo request nor reply."""
    echo = ECHO46 if quote.icmp == ICMP4 else ECHO64
    return quote.protocol == quote.icmp and (quote.is_fragment or len(quote.payload) < 8 or quote.payload[0] not in echo)


# Numbers and checksums

def get16(data, at):
    return int.from_bytes(data[at : at + 2], "big")


def get32(data, at):
    return int.from_bytes(data[at : at + 4], "big")


def put16(data, at, value):
    return data[:at] + value.to_bytes(2, "big") + data[at + 2 :]


def residue(data):
    """The sum of the 16-bit words modulo 65535; an odd last byte is padded with zero. (65536 is 1 there, so this is the whole number's remainder.)"""
    return int.from_bytes(data + bytes(len(data) % 2), "big") % 65535


def checksum(data):
    """The checksum of data whose checksum field is 0, below 0xffff."""
    return -residue(data) % 65535


def pseudo4(source, destination, protocol, length):
    """RFC 793 section 3.1. ICMPv4 has none."""
    return b"" if protocol == ICMP4 else struct.pack(">IIBBH", source, destination, 0, protocol, length)


def pseudo6(source, destination, protocol, length):
    """RFC 8200 section 8.1."""
    return source.to_bytes(16, "big") + destination.to_bytes(16, "big") + struct.pack(">IHBB", length, 0, 0, protocol)


PLACES = {TCP: 16, UDP: 6, ICMP4: 2, ICMP6: 2}  # of the checksum


def with_moved_checksum(protocol, old_pseudo, old, new_pseudo, new):
    """`new` with the checksum that keeps the residue of pseudo-header and upper part (RFC 1624): a wrong checksum stays wrong by as much."""
    place = PLACES[protocol]
    value = (residue(old_pseudo) + residue(old) - residue(new_pseudo) - residue(put16(new, place, 0))) % 65535
    return put16(new, place, 65535 if protocol == UDP and value == 0 else value)


# Addresses

def network(text):
    """A prefix as its first address and its length."""
    parsed = ip_network(text)
    return int(parsed.network_address), parsed.prefixlen


def holds(prefix, address, bits):
    return prefix[0] >> (bits - prefix[1]) == address >> (bits - prefix[1])


NON_GLOBAL = [network(text) for text in (
    "0.0.0.0/8 10.0.0.0/8 127.0.0.0/8 169.254.0.0/16 172.16.0.0/12 192.0.0.0/24 192.0.2.0/24 192.168.0.0/16 "
    "198.18.0.0/15 198.51.100.0/24 203.0.113.0/24 224.0.0.0/4 240.0.0.0/4").split()]
WELL_KNOWN = network("64:ff9b::/96")


def octet_places(prefix):
    """RFC 6052 section 2.2: the four octets stand behind the prefix, but never in byte 8."""
    return [place for place in range(prefix[1] // 8, 16) if place != 8][:4]


def embedded(prefix, a):
    address = bytearray(prefix[0].to_bytes(16, "big"))
    for place, octet in zip(octet_places(prefix), a.to_bytes(4, "big")):
        address[place] = octet
    return int.from_bytes(address, "big")


def extracted(prefix, x):
    return int.from_bytes(bytes(x.to_bytes(16, "big")[place] for place in octet_places(prefix)), "big")


class Mapped(NamedTuple):
    """An address of the other family, with the means `eam`, `prefix` or `local` and the entry's number; or None, with why as the means."""

    address: int
    means: str
    entry: int = 0


NOT, REFUSED = "not", "refused"


class Mapping:
    def __init__(self, device):
        self.prefix = network(device["prefix"])
        self.entries = [(network(four), network(six)) for four, six in device.get("eam", [])]
        self.local4 = network(device["local4"]) if "local4" in device else None
        self.local6 = network(device["local_prefix6"]) if "local4" in device else None

    def entry_of(self, address, family):
        """The number, from 0, of the longest entry that holds an address, or None (RFC 7757 section 3.3)."""
        side, bits = (0, 32) if family == 4 else (1, 128)
        held = [number for number, entry in enumerate(self.entries) if holds(entry[side], address, bits)]
        return max(held, key=lambda number: self.entries[number][side][1], default=None)

    def up(self, number, a):
        (p4, l4), (p6, l6) = self.entries[number]
        return p6 + ((a - p4) << (96 + l4 - l6))

    def down(self, number, x):
        (p4, l4), (p6, l6) = self.entries[number]
        return p4 + ((x - p6) >> (96 + l4 - l6))

    def refusal(self, a):
        """Why an IPv4 address has no form under the prefix, or None (RFC 6052 section 3.1)."""
        if a >> 28 == 14:
            return "NoMapping"
        return "WkpNonGlobal" if self.prefix == WELL_KNOWN and any(holds(net, a, 32) for net in NON_GLOBAL) else None

    def prefix_form(self, a):
        return None if self.refusal(a) else embedded(self.prefix, a)

    def to6(self, a):
        if self.local4 and holds(self.local4, a, 32):
            return Mapped(embedded(self.local6, a), "local")
        entry = self.entry_of(a, 4)
        if entry is not None:
            return Mapped(self.up(entry, a), "eam", entry + 1)
        return Mapped(self.prefix_form(a), self.refusal(a) or "prefix")

    def to4(self, x):
        if self.local6 and holds(self.local6, x, 128):
            a = extracted(self.local6, x)
            return Mapped(a, "local") if holds(self.local4, a, 32) else Mapped(None, "LocalMismatch")
        entry = self.entry_of(x, 6)
        if entry is not None:
            return Mapped(self.down(entry, x), "eam", entry + 1)
        if not holds(self.prefix, x, 128):
            return Mapped(None, "NoMapping")
        a = extracted(self.prefix, x)
        if self.local4 and holds(self.local4, a, 32):
            return Mapped(None, "LocalMismatch")
        refusal = self.refusal(a)
        return Mapped(None, refusal) if refusal else Mapped(a, "prefix")

    def turn(self, s, x):
        """Where hairpinning sends what goes from the IPv4 address s to x (RFC 7757 section 4): NOT, REFUSED, or new source and destination."""
        d = self.to4(x)
        entry = self.entry_of(d.address, 4) if d.means == "prefix" else None
        if entry is None:
            return NOT
        source = self.prefix_form(s)
        return REFUSED if source is None else (source, self.up(entry, d.address))


# Packets as read. Of a quoted packet the end may be missing: `payload` is what is there, `sent` the length that it was sent with.

class Packet4:
    icmp = ICMP4

    def __init__(self, data):
        self.data = data
        first, self.tos, self.total, self.id, word, self.hops, self.protocol, _, self.source, self.destination = struct.unpack(
            ">BBHHHBBHII", data[:20].ljust(20, b"\0"))
        self.version, self.header = first >> 4, (first & 15) * 4
        self.df, self.more, self.offset = bool(word & 0x4000), bool(word & 0x2000), word & 0x1FFF
        self.is_fragment = self.more or self.offset > 0
        self.options, self.payload = data[20 : self.header], data[self.header : self.total]
        self.sent = self.total - self.header


class Packet6:
    icmp = ICMP6

    def __init__(self, data):
        self.data = data
        head = data[:40].ljust(40, b"\0")
        first, self.length, self.next, self.hops = struct.unpack(">IHBB", head[:8])
        self.version, self.tos, self.flow = first >> 28, first >> 20 & 0xFF, first & 0xFFFFF
        self.source, self.destination = int.from_bytes(head[8:24], "big"), int.from_bytes(head[24:], "big")
        self.body = data[40 : 40 + self.length]
        self.trouble = self.segments_left = self.protocol = None
        self.has_fragment_header, self.id, self.offset, self.more, self.at = False, 0, 0, False, 0
        self.walk()
        self.is_fragment = self.more or self.offset > 0
        self.payload, self.sent = self.body[self.at :], self.length - self.at

    def walk(self):
        """Over the extension headers (RFC 8200 section 4) to the upper part. Ends with a trouble, or with the upper protocol."""
        number = self.next
        while True:
            rest = self.body[self.at :]
            if number == HOP_BY_HOP and self.at > 0:
                self.trouble = "ExtOrder6"
                return
            if number not in (HOP_BY_HOP, ROUTING, FRAGMENT, DESTINATION_OPTIONS):
                self.protocol = number
                return
            size = 8 if number == FRAGMENT or len(rest) < 2 else 8 * (rest[1] + 1)
            if len(rest) < size:
                self.trouble = "ShortExt6"
                return
            if number == FRAGMENT:
                self.read_fragment_header(rest)
                return
            if number == ROUTING and rest[3] != 0 and self.segments_left is None:
                self.segments_left = 40 + self.at + 3
            number, self.at = rest[0], self.at + size

    def read_fragment_header(self, rest):
        if rest[0] in (0, 43, 44, 51, 60, 135, 139, 140):
            self.trouble = "ExtAfterFragment6"
            return
        self.has_fragment_header, self.protocol, self.at = True, rest[0], self.at + 8
        self.offset, self.more, self.id = get16(rest, 2) >> 3, bool(rest[3] & 1), get32(rest, 4) & 0xFFFF


# Packets as written

def header4(tos, length, ident, df, more, offset, ttl, protocol, source, destination):
    head = struct.pack(">BBHHHBBHII", 0x45, tos, length, ident, df << 14 | more << 13 | offset, ttl, protocol, 0, source, destination)
    return put16(head, 10, checksum(head))


def header6(traffic_class, flow, length, number, hop, source, destination):
    head = struct.pack(">IHBB", 6 << 28 | traffic_class << 20 | flow, length, number, hop)
    return head + source.to_bytes(16, "big") + destination.to_bytes(16, "big")


def fragment_header(number, offset, more, ident):
    return struct.pack(">BBHI", number, 0, offset << 3 | more, ident)


def pieces(payload, offset, more, room):
    """Payloads of at most `room` bytes, each with its offset and its More flag (RFC 791 section 3.2)."""
    unit = room // 8 * 8
    for at in range(0, len(payload), unit):
        yield payload[at : at + unit], offset + at // 8, more or at + unit < len(payload)


def new_protocol(protocol):
    return {ICMP4: ICMP6, ICMP6: ICMP4}.get(protocol, protocol)


# ICMP types (RFC 7915 sections 4.2 and 5.2)

ECHO46, ECHO64 = {8: 128, 0: 129}, {128: 8, 129: 0}
LENGTH, SAME, MTU, POINTER, SIX, ZERO = "length", "same", "mtu", "pointer", "six", "zero"  # what bytes 4 to 7 become
ANY = None  # any code; the new code None is the old one

TYPES46 = {
    (8, ANY): (128, None, SAME),
    (0, ANY): (129, None, SAME),
    **{(3, code): (1, 0, LENGTH) for code in (0, 1, 5, 6, 7, 8, 11, 12)},
    (3, 2): (4, 1, SIX),
    (3, 3): (1, 4, LENGTH),
    (3, 4): (2, 0, MTU),
    **{(3, code): (1, 1, LENGTH) for code in (9, 10, 13, 15)},
    (11, ANY): (3, None, LENGTH),
    **{(12, code): (4, 0, POINTER) for code in (0, 2)},
}
TYPES64 = {
    (128, ANY): (8, None, SAME),
    (129, ANY): (0, None, SAME),
    **{(1, code): (3, 1, LENGTH) for code in (0, 2, 3)},
    (1, 1): (3, 10, LENGTH),
    (1, 4): (3, 3, LENGTH),
    (2, ANY): (3, 4, MTU),
    (3, ANY): (11, None, LENGTH),
    (4, 0): (12, 0, POINTER),
    (4, 1): (3, 2, ZERO),
}
POINTERS46 = {0: 0, 1: 1, 2: 4, 3: 4, 8: 7, 9: 6, **dict.fromkeys(range(12, 16), 8), **dict.fromkeys(range(16, 20), 24)}
POINTERS64 = {0: 0, 1: 1, 4: 2, 5: 2, 6: 9, 7: 8, **dict.fromkeys(range(8, 24), 12), **dict.fromkeys(range(24, 40), 16)}
PLATEAUS = (65535, 32000, 17914, 8166, 4352, 2002, 1492)  # RFC 1191 section 7, those of at least 1280


def is_error_type(icmp, kind):
    return kind in (3, 4, 5, 11, 12) if icmp == ICMP4 else kind < 128


def has_type(table, message):
    return any(message[0] == kind for kind, _ in table)


def new_type(table, message):
    """New type, new code, and what becomes of bytes 4 to 7; or None."""
    row = table.get((message[0], message[1])) or table.get((message[0], ANY))
    return row and (row[0], message[1] if row[1] is None else row[1], row[2])


def mtu46(m, quoted_total, mtu4, mtu6):
    if m == 0:
        m = max((plateau for plateau in PLATEAUS if plateau < quoted_total), default=0)
    return max(1280, min(m + 20, mtu6, mtu4 + 20))


def mtu64(m, mtu4, mtu6):
    return min(max(m, 88) - 20, mtu4, mtu6 - 20)


# ICMP errors with extensions (RFC 4884)

LENGTH_OCTETS = {ICMP4: dict.fromkeys((3, 11, 12), 5), ICMP6: dict.fromkeys((1, 3), 4)}  # by type, the octet that tells the quote's length
UNITS = {ICMP4: 4, ICMP6: 8}


def parted(icmp, message):
    """The part of an ICMP error that holds the quote, and its extension or None."""
    place = LENGTH_OCTETS[icmp].get(message[0])
    size = message[place] * UNITS[icmp] if place else 0
    body = message[8:]
    if size == 0:
        return body, None
    part, rest = body[:size], body[size:]
    is_extension = len(part) == size >= 128 and len(rest) >= 4 and len(rest) % 4 == 0 and rest[0] >> 4 == 2
    return part, rest if is_extension else None


def joined(icmp, quote, extension):
    """The body of an ICMP error, and its length octet."""
    if extension is None:
        return quote, 0
    unit = UNITS[icmp]
    size = max(128, (len(quote) + unit - 1) // unit * unit)
    return quote.ljust(size, b"\0") + extension, size // unit


# One arrival at a device, with what its rules ask of it

class Arrival:
    """What both families share. `other` maps an address to the other family."""

    def __init__(self, device, data):
        self.device = device
        super().__init__(data)

    @cached_property
    def from_(self):
        return self.other(self.source)

    @cached_property
    def to(self):
        return self.other(self.destination)

    @property
    def is_error(self):
        return self.protocol == self.icmp and is_error_type(self.icmp, self.payload[0])

    @cached_property
    def part(self):
        return parted(self.icmp, self.payload)[0]

    @cached_property
    def extension(self):
        return parted(self.icmp, self.payload)[1]

    @cached_property
    def quote_from(self):
        return self.other(self.quote.source)

    @cached_property
    def quote_to(self):
        return self.other(self.quote.destination)

    @property
    def may_be_answered(self):
        """No error about a later fragment, an ICMP error, or ICMP without a type (RFC 1122 section 3.2.2)."""
        is_unsure = self.protocol == self.icmp and (len(self.payload) == 0 or is_error_type(self.icmp, self.payload[0]))
        return self.offset == 0 and not is_unsure

    def new_tos(self, tos):
        return 0 if self.device.zeroes else tos


class Arrival4(Arrival, Packet4):
    """From IPv4 to IPv6 (RFC 7915 section 4)."""

    rules = RULES4

    def other(self, a):
        return self.device.mapping.to6(a)

    @property
    def is_bare(self):
        """UDP without checksum."""
        return self.protocol == UDP and self.offset == 0 and get16(self.payload, 6) == 0

    @property
    def growth(self):
        return 28 if self.is_fragment else 20

    @cached_property
    def quote(self):
        return Packet4(self.part)

    def answer(self, rule):
        message = bytes([*rule.answer, 0, 0]) + struct.pack(">I", rule.rest(self)) + self.data[: self.total][:548]
        message = put16(message, 2, checksum(message))
        return header4(0, 20 + len(message), 0, 0, 0, 0, 64, ICMP4, self.device.address4, self.source) + message

    def upper(self, p, source, destination):
        """The payload of the packet or its quote, between new addresses."""
        number = new_protocol(p.protocol)
        old, new = pseudo4(p.source, p.destination, p.protocol, p.sent), pseudo6(source, destination, number, p.sent)
        return translated_upper(p, old, new, ECHO46)

    def new_error(self):
        """The ICMPv6 error that becomes of an ICMPv4 error (RFC 7915 sections 4.2 and 4.3)."""
        q, message = self.quote, self.payload
        kind, code, becomes = new_type(TYPES46, message)
        number, source, destination = new_protocol(q.protocol), self.quote_from.address, self.quote_to.address
        text = self.upper(q, source, destination)
        if q.is_fragment:
            text = fragment_header(number, q.offset, q.more, q.id) + text
        size, first = (q.sent + 8, FRAGMENT) if q.is_fragment else (q.sent, number)
        quote = header6(self.new_tos(q.tos), 0, size, first, q.hops, source, destination) + text
        is_carried = self.extension is not None and kind in (1, 3) and len(self.extension) <= 1104
        extension = self.extension if is_carried else None
        room = 1232 - len(extension) if is_carried else 1232
        body, octet = joined(ICMP6, quote[: room // 8 * 8], extension)
        rest = {
            LENGTH: lambda: octet << 24,
            MTU: lambda: mtu46(get16(message, 6), q.total, self.device.mtu4, self.device.mtu6),
            POINTER: lambda: POINTERS46[message[4]],
            SIX: lambda: 6,
        }[becomes]()
        new = bytes([kind, code, 0, 0]) + struct.pack(">I", rest) + body
        pseudo = pseudo6(self.from_.address, self.to.address, ICMP6, len(new))
        return with_moved_checksum(ICMP6, b"", message, pseudo, new)

    def new_payload(self):
        source, destination = self.from_.address, self.to.address
        if self.is_error:
            return self.new_error()
        if self.is_bare:
            pseudo = pseudo6(source, destination, UDP, len(self.payload))
            return put16(self.payload, 6, checksum(pseudo + self.payload) or 65535)
        return self.upper(self, source, destination)

    def leaving(self):
        """Which way, and what packets."""
        payload, number = self.new_payload(), new_protocol(self.protocol)

        def packet(body, first):
            return header6(self.new_tos(self.tos), 0, len(body), first, self.hops - 1, self.from_.address, self.to.address) + body

        form = (48 if self.is_fragment else 40) + len(payload)
        is_cut = not self.df and not self.is_error and form > self.device.lowest
        if not is_cut and not self.is_fragment:
            return "on", [packet(payload, number)]
        cut = pieces(payload, self.offset, self.more, self.device.lowest - 48 if is_cut else 65536)
        return "on", [packet(fragment_header(number, offset, more, self.id) + piece, FRAGMENT) for piece, offset, more in cut]


class Arrival6(Arrival, Packet6):
    """From IPv6 to IPv4 (RFC 7915 section 5), or back to IPv6 by hairpinning."""

    rules = RULES6

    def other(self, x):
        return self.device.mapping.to4(x)

    @cached_property
    def quote(self):
        return Packet6(self.part)

    @cached_property
    def turn(self):
        if not self.device.hairpin:
            return NOT
        s = self.device.address4 if self.from_.address is None else self.from_.address
        return self.device.mapping.turn(s, self.destination)

    @property
    def is_turned(self):
        return self.turn not in (NOT, REFUSED)

    @cached_property
    def quote_turn(self):
        """The quoted packet went the other way."""
        return self.device.mapping.turn(self.quote_to.address, self.quote.source)

    @cached_property
    def new_id(self):
        return self.id if self.has_fragment_header else self.device.next_id

    @cached_property
    def new_source(self):
        """An ICMPv6 error of a router without an IPv4 address comes from the pool (RFC 6791)."""
        pool = self.device.pool4
        return pool[self.new_id % len(pool)] if self.from_.address is None else self.from_.address

    def answer(self, rule):
        message = bytes([*rule.answer, 0, 0]) + struct.pack(">I", rule.rest(self)) + self.data[: 40 + self.length][:1232]
        message = put16(message, 2, checksum(pseudo6(self.device.address6, self.source, ICMP6, len(message)) + message))
        return header6(0, 0, len(message), ICMP6, 64, self.device.address6, self.source) + message

    def upper(self, p, source, destination):
        """The payload of the packet or its quote, between new IPv4 addresses."""
        number = new_protocol(p.protocol)
        old, new = pseudo6(p.source, p.destination, p.protocol, p.sent), pseudo4(source, destination, number, p.sent)
        return translated_upper(p, old, new, ECHO64)

    def new_error(self):
        """The ICMPv4 error that becomes of an ICMPv6 error (RFC 7915 sections 5.2 and 5.3)."""
        q, message = self.quote, self.payload
        kind, code, becomes = new_type(TYPES64, message)
        source, destination = self.quote_from.address, self.quote_to.address
        df = not q.has_fragment_header and 20 + q.sent > 1260
        quote = header4(self.new_tos(q.tos), 20 + q.sent, q.id, df, q.more, q.offset, q.hops, new_protocol(q.protocol), source, destination)
        quote += self.upper(q, source, destination)
        extension = self.extension if kind in (3, 11) else None
        body, octet = joined(ICMP4, quote if extension is None else quote[:1020], extension)
        rest = {
            LENGTH: lambda: octet << 16,
            MTU: lambda: mtu64(get32(message, 4), self.device.mtu4, self.device.mtu6),
            POINTER: lambda: POINTERS64[get32(message, 4)] << 24,
            ZERO: lambda: 0,
        }[becomes]()
        new = bytes([kind, code, 0, 0]) + struct.pack(">I", rest) + body
        pseudo = pseudo6(self.source, self.destination, ICMP6, len(message))
        return with_moved_checksum(ICMP4, pseudo, message, b"", new)

    @cached_property
    def new_payload(self):
        return self.new_error() if self.is_error else self.upper(self, self.new_source, self.to.address)

    def leaving(self):
        """Which way, and what packets."""
        if self.is_turned:
            return "back", [self.turned()]
        if not self.has_fragment_header:
            self.device.take_id(self.new_id)
        payload, number = self.new_payload, new_protocol(self.protocol)

        def packet(body, df, offset, more):
            return header4(self.new_tos(self.tos), 20 + len(body), self.new_id, df, more, offset,
                           self.hops - 1, number, self.new_source, self.to.address) + body

        form = 20 + len(payload)
        if form > self.device.mtu4:
            return "on", [packet(piece, False, *rest) for piece, *rest in pieces(payload, self.offset, self.more, self.device.mtu4 - 20)]
        return "on", [packet(payload, not self.has_fragment_header and form > 1260, self.offset, self.more)]

    def turned(self):
        source, destination = self.turn
        payload = self.turned_error() if self.is_error else self.turned_upper(self, source, destination)
        head = header6(self.tos, self.flow, self.at + len(payload), self.next, self.hops - 1, source, destination)
        return head + self.body[: self.at] + payload

    @staticmethod
    def turned_upper(p, source, destination):
        old, new = pseudo6(p.source, p.destination, p.protocol, p.sent), pseudo6(source, destination, p.protocol, p.sent)
        return translated_upper(p, old, new, {128: 128, 129: 129})

    def turned_error(self):
        q, message = self.quote, self.payload
        destination, source = self.quote_turn
        quote = header6(q.tos, q.flow, q.length, q.next, q.hops, source, destination)
        quote += q.body[: q.at] + self.turned_upper(q, source, destination)
        body, octet = joined(ICMP6, quote, self.extension)
        first = bytes([octet]) if message[0] in LENGTH_OCTETS[ICMP6] else message[4:5]
        new = message[:2] + b"\0\0" + first + message[5:8] + body
        old_pseudo, new_pseudo = pseudo6(self.source, self.destination, ICMP6, len(message)), pseudo6(*self.turn, ICMP6, len(new))
        return with_moved_checksum(ICMP6, old_pseudo, message, new_pseudo, new)


def translated_upper(p, old_pseudo, new_pseudo, echo):
    """The payload of a packet or a quote with its checksum moved, where there is one: not in a later fragment, not behind a quote's end."""
    place = PLACES.get(p.protocol) if p.protocol not in (ICMP4, ICMP6) or p.protocol == p.icmp else None
    if place is None or p.offset > 0 or len(p.payload) < place + 2:
        return p.payload
    if p.protocol == UDP and get16(p.payload, place) == 0:
        return p.payload
    new = p.payload
    if p.protocol == p.icmp:
        new = bytes([echo[new[0]]]) + new[1:]
    return with_moved_checksum(p.protocol, old_pseudo, p.payload, new_pseudo, new)


class Device:
    def __init__(self, settings):
        self.role, self.mapping = settings["role"], Mapping(settings)
        self.address4, self.address6 = int(IPv4Address(settings["address4"])), int(IPv6Address(settings["address6"]))
        self.pool4 = [int(IPv4Address(text)) for text in settings.get("pool4", [settings["address4"]])]
        self.mtu4, self.mtu6, self.lowest = settings.get("mtu4", 1500), settings.get("mtu6", 1500), settings.get("lowest_mtu6", 1280)
        self.zeroes = settings.get("tos", "copy") == "zero"
        self.computes = settings.get("udp_zero", "drop") == "compute"
        self.hairpin = self.role in ("plain", "border") and settings.get("hairpin", True)
        self.next_id = 1

    def take_id(self, taken):
        self.next_id = (taken + 1) % 65536

    def event(self, family, data):
        """What a packet that arrives becomes: the way `on` or `back`, packets, and None or the drop's rule with whether it was answered."""
        arrival = Arrival4(self, data) if family == 4 else Arrival6(self, data)
        rule = next((rule for rule in arrival.rules if rule.holds(arrival)), None)
        if rule is None:
            return (*arrival.leaving(), None)
        is_answered = rule.answer is not SILENT and arrival.may_be_answered
        return "back", [arrival.answer(rule)] if is_answered else [], (rule, is_answered)


# Captures

class Fault(Exception):
    """A fault of a capture: its name and its place."""


class Record(NamedTuple):
    seconds: int
    nanoseconds: int
    packet: tuple  # family and bytes, or None

    @property
    def time(self):
        return self.seconds, self.nanoseconds


class Capture:
    """A capture that is read record by record, to its first fault."""

    FORMS = {"a1b2c3d4": (">", 1000), "d4c3b2a1": ("<", 1000), "a1b23c4d": (">", 1), "4d3cb2a1": ("<", 1)}

    def __init__(self, data):
        self.data, self.at = data, 24
        if len(data) >= 4 and data[:4].hex() not in self.FORMS:
            raise Fault("BadMagic", 0)
        if len(data) < 24:
            raise Fault("CutRecord", 0)
        self.order, self.scale = self.FORMS[data[:4].hex()]
        *version, _, _, _, self.link = struct.unpack(self.order + "HHIIII", data[4:24])
        if version != [2, 4]:
            raise Fault("BadVersion", 0)
        if self.link not in (1, 101, 228, 229):
            raise Fault("BadLinkType", 0)

    def next(self):
        """The next record, or None at the end."""
        head = self.data[self.at : self.at + 16]
        if not head:
            return None
        if len(head) < 16:
            raise Fault("CutRecord", self.at)
        seconds, fraction, length, _ = struct.unpack(self.order + "IIII", head)
        if length > 262144:
            raise Fault("RecordTooLong", self.at)
        if fraction * self.scale >= 10**9:
            raise Fault("BadTime", self.at)
        frame = self.data[self.at + 16 : self.at + 16 + length]
        if len(frame) < length:
            raise Fault("CutRecord", self.at)
        self.at += 16 + length
        return Record(seconds, fraction * self.scale, packet_of(self.link, frame))


def packet_of(link, frame):
    """Family and bytes of the IP packet in a frame of link type 1 (Ethernet), 101 (raw IP), 228 (IPv4) or 229 (IPv6), or None."""
    if link != 1:
        family = {228: 4, 229: 6}.get(link, frame[0] >> 4 if frame else 0)
        return (family, frame) if frame and family in (4, 6) else None
    at = 12
    while at < 20 and frame[at : at + 2].hex() in ("8100", "88a8"):
        at += 4
    family = {"0800": 4, "86dd": 6}.get(frame[at : at + 2].hex())
    return (family, frame[at + 2 :]) if family else None


EMPTY = struct.pack("<IHHIIII", 0xA1B23C4D, 2, 4, 0, 0, 262144, 101)  # the head of an output, and a capture without records


class Run:
    """A chain of devices, from left to right, and what it has written. A link is numbered as the device on its right, from 0."""

    def __init__(self, left_family, devices):
        self.left_family, self.devices = left_family, devices
        self.out, self.report = {"L": [EMPTY], "R": [EMPTY]}, []

    def family(self, link):
        return self.left_family if link % 2 == 0 else 10 - self.left_family

    def carry(self, origin, link, way, data):
        """A packet on a link that moves left or right, and all that comes of it: each packet to its end before the next."""
        place = link if way == "R" else link - 1
        if not 0 <= place < len(self.devices):
            *_, record = origin
            self.out[way].append(struct.pack("<IIII", *record.time, len(data), len(data)) + data)
            return
        turn, packets, drop = self.devices[place].event(self.family(link), data)
        if drop:
            self.drop(origin, place + 1, *drop)
        for packet in packets:
            if turn == "on":
                self.carry(origin, link + 1 if way == "R" else link - 1, way, packet)
            else:
                self.carry(origin, link, "L" if way == "R" else "R", packet)

    def drop(self, origin, device, rule, is_answered):
        end, number, _ = origin
        family = 4 if rule in RULES4 else 6
        answer = "icmp{}/{}/{}".format(family, *rule.answer) if is_answered else "silent"
        self.report.append(f"{end} {number} {device} {rule.number} {rule.name} {answer}\n")

    def enter(self, end, number, record):
        """A record enters the chain at an end."""
        origin = end, number, record
        link, way = (0, "R") if end == "L" else (len(self.devices), "L")
        if record.packet is None:
            return self.drop(origin, 0, NOT_IP, False)
        family, data = record.packet
        if family != self.family(link):
            return self.drop(origin, 0, OTHER_FAMILY, False)
        self.carry(origin, link, way, data[:65575])

    def all(self, left, right):
        """Carries two captures by time, the left one first at equal times. Gives the line that is printed, and the status."""
        captures, waiting, numbers, drops = {}, {"L": None, "R": None}, {"L": 0, "R": 0}, self.report
        end = "L"
        try:
            for end, data in ("L", left), ("R", right):
                captures[end] = Capture(data)
            while True:
                for end in "LR":
                    waiting[end] = waiting[end] or captures[end].next()
                ready = [end for end in "LR" if waiting[end]]
                if not ready:
                    break
                first = min(ready, key=lambda end: waiting[end].time)
                numbers[first] += 1
                self.enter(first, numbers[first], waiting[first])
                waiting[first] = None
        except Fault as fault:
            name, place = fault.args
            return f"siit: bad capture: {'left' if end == 'L' else 'right'} at {place}: {name}\n", 6
        line = f"end {numbers['L']} {numbers['R']} {len(self.out['L']) - 1} {len(self.out['R']) - 1} {len(drops)}\n"
        self.report.append(line)
        return line, 0


# Commands

WKP = {"role": "plain", "prefix": "64:ff9b::/96", "address4": "203.0.113.1", "address6": "2001:db8:ffff::1"}


def read(name):
    with open(name, "rb") as file:
        return file.read()


def write(name, data):
    with open(name, "wb") as file:
        file.write(data)


def read_config(name):
    import tomllib  # from Python 3.11 on

    config = tomllib.loads(read(name).decode())
    return config["left"], config["device"]


def run(config, left, right, out_left, out_right, report):
    left_family, devices = read_config(config)
    chain = Run(left_family, [Device(device) for device in devices])
    answer = chain.all(*(EMPTY if name == "-" else read(name) for name in (left, right)))
    write(out_left, b"".join(chain.out["L"]))
    write(out_right, b"".join(chain.out["R"]))
    write(report, "".join(chain.report).encode())
    return answer


def wkp(name_in, name_out):
    chain = Run(4, [Device(WKP)])
    answer = chain.all(read(name_in), EMPTY)
    write(name_out, b"".join(chain.out["R"]))
    return answer


def generated(count, seed):
    """The capture of so many UDP packets that `make` writes: a linear congruential generator chooses their addresses, sizes and DF."""
    yield EMPTY
    for place in range(count):
        seed = (seed * 6364136223846793005 + 1442695040888963407) % 2**64
        rest, size = divmod(seed // 65536, 1473)
        rest, df = divmod(rest, 2)
        source, destination = int(IPv4Address("8.8.4.1")) + rest % 254, int(IPv4Address("192.0.2.1")) + rest // 254 % 4
        data = bytes((place + at) % 256 for at in range(size))
        datagram = struct.pack(">HHHH", 1024 + place % 64000, 53, 8 + size, 0) + data
        datagram = put16(datagram, 6, checksum(pseudo4(source, destination, UDP, 8 + size) + datagram) or 65535)
        packet = header4(0, 28 + size, place % 65536, df, False, 0, 64, UDP, source, destination) + datagram
        yield struct.pack("<IIII", place // 1000, place % 1000 * 10**6, len(packet), len(packet)) + packet


def make(count, seed, config, left, *outputs):
    write(left, b"".join(generated(int(count), int(seed))))
    return run(config, left, "-", *outputs)


def map_address(config, number, text):
    _, devices = read_config(config)
    if not 1 <= int(number) <= len(devices):
        return "siit: no device\n", 10
    mapping, address = Mapping(devices[int(number) - 1]), ip_address(text)
    found = mapping.to6(int(address)) if address.version == 4 else mapping.to4(int(address))
    if found.address is None:
        return f"{address} refused {found.means}\n", 0
    other = IPv6Address(found.address) if address.version == 4 else IPv4Address(found.address)
    return f"{address} {other} {found.means}{f' {found.entry}' if found.entry else ''}\n", 0


COMMANDS = {"run": run, "wkp": wkp, "make": make, "map": map_address}


def main(words):
    line, status = COMMANDS[words[0]](*words[1:])
    sys.stdout.write(line)
    return status


if __name__ == "__main__":
    sys.exit(main(sys.argv[1:]))
