#!/usr/bin/env python3
"""DNS64 (RFC 6147 section 5) and prefix discovery (RFC 7050 section 3), computed anew. It shares nothing with siit.

dns64 PREFIX QUERY AAAA A OUT     writes the answer and prints what is said of it; - for A is no A response
discover ANSWER                   prints the prefixes
make FOLDER                       writes the example messages
"""
import ipaddress
import struct
import sys

NON_GLOBAL = [
    ipaddress.ip_network(n)
    for n in (
        "0.0.0.0/8 10.0.0.0/8 127.0.0.0/8 169.254.0.0/16 172.16.0.0/12 192.0.0.0/24 192.0.2.0/24 192.168.0.0/16 "
        "198.18.0.0/15 198.51.100.0/24 203.0.113.0/24 224.0.0.0/4 240.0.0.0/4"
    ).split()
]
A, NS, CNAME, SOA, PTR, MX, AAAA = 1, 2, 5, 6, 12, 15, 28
WELL_KNOWN = ipaddress.ip_network("64:ff9b::/96")


class Bad(Exception):
    """An item at fault, by its place."""


class Refused(Exception):
    pass


def read_name(b, start):
    """The name at a place as labels, and the place behind it."""
    labels, place, end, run = [], start, None, start
    while True:
        if place >= len(b):
            raise ValueError("past the end")
        first = b[place]
        if first >= 0xC0:
            if place + 1 >= len(b):
                raise ValueError("past the end")
            target = (first & 0x3F) << 8 | b[place + 1]
            if end is None:
                end = place + 2
            if target >= run:
                raise ValueError("not below")
            place = run = target
        elif first >= 0x40:
            raise ValueError("reserved")
        elif first == 0:
            return labels, (end if end is not None else place + 1)
        else:
            if place + 1 + first > len(b):
                raise ValueError("past the end")
            labels.append(b[place + 1 : place + 1 + first])
            if sum(len(l) + 1 for l in labels) + 1 > 255:
                raise ValueError("too long")
            place += 1 + first


def written(labels):
    return b"".join(bytes([len(l)]) + l for l in labels) + b"\0"


def item(b, place, read):
    try:
        return read()
    except ValueError as error:
        raise Bad(place) from error


def read_rdata(b, kind, start, length):
    """RDATA with its names written out."""
    end = start + length
    if end > len(b):
        raise ValueError("past the end")
    raw = b[start:end]
    if kind == A and length != 4 or kind == AAAA and length != 16:
        raise ValueError("length")
    if kind in (NS, CNAME, PTR):
        name, place = read_name(b, start)
        out = written(name)
    elif kind == SOA:
        one, place = read_name(b, start)
        two, place = read_name(b, place)
        out = written(one) + written(two) + b[place : place + 20]
        place += 20
    elif kind == MX:
        name, place = read_name(b, start + 2)
        out = b[start : start + 2] + written(name)
    else:
        return raw
    if place != end:
        raise ValueError("not filled")
    return out


def read_message(b):
    if len(b) < 12:
        raise Bad(0)
    ident, flags, questions, *counts = struct.unpack(">6H", b[:12])
    if questions != 1:
        raise Bad(4)
    name, place = item(b, 12, lambda: read_name(b, 12))
    if place + 4 > len(b):
        raise Bad(place)
    kind, cls = struct.unpack(">HH", b[place : place + 4])
    place += 4
    records = []
    for section, count in enumerate(counts):
        for _ in range(count):
            owner, at = item(b, place, lambda: read_name(b, place))
            if at + 10 > len(b):
                raise Bad(at)
            rk, rc, ttl, length = struct.unpack(">HHIH", b[at : at + 10])
            at += 10
            data = item(b, at, lambda: read_rdata(b, rk, at, length))
            records.append((section, owner, rk, rc, ttl, data))
            place = at + length
    if place < len(b):
        raise Bad(place)
    return dict(id=ident, flags=flags, name=name, kind=kind, cls=cls, records=records)


def lower(labels):
    return [l.lower() for l in labels]


def judge(b, word, want, other):
    try:
        message = read_message(b)
    except Bad as bad:
        raise Refused(f"word {word}: at {bad.args[0]}") from bad
    if not want(message):
        raise Refused(f"word {word}: {other}")
    return message


PLACES = {32: (4, 5, 6, 7), 40: (5, 6, 7, 9), 48: (6, 7, 9, 10), 56: (7, 9, 10, 11), 64: (9, 10, 11, 12), 96: (12, 13, 14, 15)}


def embed(prefix, address):
    out = bytearray(prefix.network_address.packed)
    for place, octet in zip(PLACES[prefix.prefixlen], address.packed):
        out[place] = octet
    return bytes(out)


def record(owner, kind, cls, ttl, data):
    return written(owner) + struct.pack(">HHIH", kind, cls, ttl, len(data)) + data


def dns64(query, aaaa, a, prefixes):
    """The answer and how many records are made."""
    q = judge(query, 2, lambda m: not m["flags"] >> 15 and m["cls"] == 1 and m["kind"] == AAAA, "not query")
    answers = lambda kind: lambda m: (
        m["flags"] >> 15 == 1 and lower(m["name"]) == lower(q["name"]) and m["cls"] == 1 and m["kind"] == kind
    )
    six = judge(aaaa, 3, answers(AAAA), "not answer")
    four = None if a is None else judge(a, 4, answers(A), "not answer")
    passed = struct.pack(">H", q["id"]) + aaaa[2:], 0
    code = six["flags"] & 15
    if code == 3 or four is None or four["flags"] & 15:
        return passed
    if code == 0:
        for section, _, kind, cls, _, data in six["records"]:
            if (section, kind, cls) == (0, AAAA, 1) and data[:12] != bytes(10) + b"\xff\xff":
                return passed
    soas = [r[4] for r in six["records"] if r[0] == 1 and r[2] == SOA]
    limit = soas[0] if soas else 600
    counts, body, made = [0, 0, 0], b"", 0
    for section, owner, kind, cls, ttl, data in four["records"]:
        if (section, kind, cls) == (0, A, 1):
            address = ipaddress.ip_address(data)
            for prefix in prefixes:
                if prefix == WELL_KNOWN and any(address in n for n in NON_GLOBAL):
                    continue
                body += record(owner, AAAA, 1, min(ttl, limit), embed(prefix, address))
                made += 1
                counts[0] += 1
        else:
            body += record(owner, kind, cls, ttl, data)
            counts[section] += 1
    if not made:
        return passed
    flags = 0x8000 | q["flags"] & 0x0110 | four["flags"] & 0x0080
    message = struct.pack(">6H", q["id"], flags, 1, *(c % 65536 for c in counts)) + written(q["name"])
    message += struct.pack(">HH", q["kind"], q["cls"]) + body
    if len(message) > 65535:
        raise Refused("word 4: answer too long")
    return message, made


def candidates(address):
    found = []
    if address[8] == 0:
        for length, places in PLACES.items():
            octets = bytes(address[p] for p in places)
            if octets in (b"\xc0\0\0\xaa", b"\xc0\0\0\xab"):
                found.append((address[: length // 8].ljust(16, b"\0"), length, octets))
    return found


def discover(answer):
    want = lambda m: m["flags"] >> 15 == 1 and lower(m["name"]) == [b"ipv4only", b"arpa"] and (m["kind"], m["cls"]) == (AAAA, 1)
    message = judge(answer, 1, want, "not answer")
    sets = [candidates(r[5]) for r in message["records"] if (r[0], r[2], r[3]) == (0, AAAA, 1)]
    found = []
    for index, own in enumerate(sets):
        for prefix, length, octets in own:
            others = [c for i, s in enumerate(sets) if i != index for c in s]
            pair = any(p == prefix and l == length and o != octets for p, l, o in others)
            if (len(own) == 1 or pair) and (prefix, length) not in found:
                found.append((prefix, length))
    return [f"{ipaddress.ip_address(p)}/{l}" for p, l in found]


def discover_line(path):
    """What `discover` prints of a file, without the last line feed."""
    try:
        with open(path, "rb") as file:
            return "\n".join(discover(file.read())) or "none"
    except Refused as refused:
        return f"siit: bad message: {refused.args[0]}"


def dns64_line(prefix, query, aaaa, a, out):
    """What `dns64` prints, without the line feed; the answer is in OUT where there is one."""
    read = lambda path: None if path.endswith("/-") or path == "-" else open(path, "rb").read()
    try:
        message, made = dns64(read(query), read(aaaa), read(a), [ipaddress.ip_network(prefix)])
    except Refused as refused:
        return f"siit: bad message: {refused.args[0]}"
    with open(out, "wb") as file:
        file.write(message)
    return f"made {made}" if made else "passed"


def make(folder):
    """Messages in the form in which name servers send them: names are compressed, and an OPT record closes the responses."""
    name = b"\3www\7example\0"
    opt = b"\0" + struct.pack(">HHIH", 41, 1232, 0, 0)
    head = lambda flags, *counts: struct.pack(">6H", 0x4D2, flags, 1, *counts)
    ask = lambda kind: name + struct.pack(">HH", kind, 1)
    rr = lambda owner, kind, ttl, data: owner + struct.pack(">HHIH", kind, 1, ttl, len(data)) + data
    soa = b"\2ns\xc0\x10" + b"\5admin\xc0\x10" + struct.pack(">5I", 2024010100, 7200, 3600, 1209600, 300)
    alias = b"\4edge\xc0\x10"
    query = head(0x0100, 0, 0, 1) + ask(AAAA) + opt
    aaaa = head(0x8180, 0, 1, 1) + ask(AAAA) + rr(b"\xc0\x10", SOA, 300, soa) + opt
    cname = rr(b"\xc0\x0c", CNAME, 3600, alias)
    owner = struct.pack(">H", 0xC000 | 12 + len(name) + 4 + 12)
    addresses = b"".join(rr(owner, A, ttl, ipaddress.ip_address(x).packed) for ttl, x in ((120, "198.41.0.4"), (900, "8.8.8.8")))
    a = head(0x8180, 3, 0, 1) + ask(A) + cname + addresses + opt
    only = b"\10ipv4only\4arpa\0" + struct.pack(">HH", AAAA, 1)
    known = b"".join(rr(b"\xc0\x0c", AAAA, 86400, ipaddress.ip_address(x).packed) for x in ("2001:db8:64:64:c0:0:aa00:0", "2001:db8:64:64:c0:0:ab00:0"))
    files = dict(query=query, aaaa=aaaa, a=a, ipv4only=struct.pack(">6H", 7, 0x8180, 1, 2, 0, 0) + only + known)
    files["expected"], _ = dns64(query, aaaa, a, [ipaddress.ip_network("2001:db8:122:344::/96")])
    for key, value in files.items():
        with open(f"{folder}/{key}.bin", "wb") as out:
            out.write(value)


def main(words):
    read = lambda path: None if path == "-" else open(path, "rb").read()
    try:
        if words[0] == "dns64":
            message, made = dns64(read(words[2]), read(words[3]), read(words[4]), [ipaddress.ip_network(words[1])])
            with open(words[5], "wb") as out:
                out.write(message)
            print(f"made {made}" if made else "passed")
        elif words[0] == "discover":
            line = discover_line(words[1])
            print(line)
            return 9 if line.startswith("siit: ") else 0
        elif words[0] == "make":
            make(words[1])
    except Refused as refused:
        print(f"siit: bad message: {refused.args[0]}")
        return 9
    return 0


if __name__ == "__main__":
    sys.exit(main(sys.argv[1:]))
