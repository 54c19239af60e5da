#!/usr/bin/env python3
"""Takes the capture `exchange/in.pcap`: real programs talk over the loopback interface, and what they send is kept.

curl fetches a page from Python's web server, and logger sends two lines to a port where nobody listens, without the name of the
machine. What others send over the interface isn't kept. The frames lose their Ethernet headers (link type 101, raw IP), the two
ends get addresses in place of 127.0.0.1, and all checksums are put right afterwards, in quoted packets too. The addresses are
stand-ins: they are global, as `siit wkp` asks, and belong to two root name servers, which sent none of this. Needs root, curl and
logger. Usage: take_capture.py OUT
"""
import os
import socket
import struct
import subprocess
import sys
import tempfile
import threading
import time

CLIENT = bytes([193, 0, 14, 129])
SERVER = bytes([198, 41, 0, 4])
SERVER_PORTS = {8080, 5514}


def checksum(data):
    if len(data) % 2:
        data += b"\0"
    total = sum(struct.unpack(f">{len(data) // 2}H", data))
    while total > 0xFFFF:
        total = (total & 0xFFFF) + (total >> 16)
    return 0xFFFF - total


def is_ours(packet):
    """Whether a packet is of this talk: to or from a port of the server, or an ICMP error about one."""
    length = (packet[0] & 15) * 4
    protocol = packet[9]
    upper = packet[length:]
    if protocol == 1:
        return upper[0] == 3 and is_ours(upper[8:])
    return protocol in (6, 17) and not SERVER_PORTS.isdisjoint(struct.unpack(">HH", upper[:4]))


def rewritten(packet):
    """The packet between the two global addresses, with right checksums. A quoted packet may be cut."""
    length = (packet[0] & 15) * 4
    protocol = packet[9]
    upper = bytearray(packet[length:])
    if protocol == 1:
        source, destination = SERVER, CLIENT
        upper[8:] = rewritten(bytes(upper[8:]))
        upper[2:4] = b"\0\0"
        upper[2:4] = struct.pack(">H", checksum(bytes(upper)))
    else:
        from_server = struct.unpack(">H", upper[:2])[0] in SERVER_PORTS
        source, destination = (SERVER, CLIENT) if from_server else (CLIENT, SERVER)
        place = 16 if protocol == 6 else 6
        upper[place : place + 2] = b"\0\0"
        pseudo = source + destination + struct.pack(">BBH", 0, protocol, len(upper))
        upper[place : place + 2] = struct.pack(">H", checksum(pseudo + bytes(upper)) or 0xFFFF)
    head = bytearray(packet[:length])
    head[12:20] = source + destination
    head[10:12] = b"\0\0"
    head[10:12] = struct.pack(">H", checksum(bytes(head)))
    return bytes(head + upper)


def frames_of(talk):
    """The IPv4 packets that cross the loopback interface while `talk` runs."""
    listener = socket.socket(socket.AF_PACKET, socket.SOCK_RAW, socket.ntohs(0x0800))
    listener.bind(("lo", 0))
    listener.settimeout(0.2)
    frames = []
    done = threading.Event()

    def listen():
        while not done.is_set():
            try:
                frame, origin = listener.recvfrom(65536)
            except socket.timeout:
                continue
            if origin[2] != socket.PACKET_OUTGOING and is_ours(frame[14:]):
                frames.append((time.time_ns(), frame[14:]))

    thread = threading.Thread(target=listen)
    thread.start()
    talk()
    time.sleep(0.5)
    done.set()
    thread.join()
    return frames


def talk():
    with tempfile.TemporaryDirectory() as folder:
        with open(os.path.join(folder, "index.html"), "w") as page:
            page.write("<!doctype html><title>siit</title><p>" + "A line of the page. " * 50 + "</p>\n")
        server = subprocess.Popen(
            [sys.executable, "-m", "http.server", "8080", "--bind", "127.0.0.1", "--directory", folder],
            stdout=subprocess.DEVNULL,
            stderr=subprocess.DEVNULL,
        )
        time.sleep(1)
        subprocess.run(["curl", "-s", "-o", os.devnull, "http://127.0.0.1:8080/index.html"], check=True)
        for line in ["interface up", "one more line of the log"]:
            server_words = ["-n", "127.0.0.1", "-P", "5514", "-d"]
            subprocess.run(["logger", *server_words, "--rfc5424=nohost", "-t", "siit", line], check=True)
        server.terminate()


def main():
    with open(sys.argv[1], "wb") as out:
        out.write(bytes.fromhex("d4c3b2a1020004000000000000000000") + struct.pack("<II", 262144, 101))
        for at, packet in frames_of(talk):
            packet = rewritten(packet)
            seconds, nanoseconds = divmod(at, 10**9)
            out.write(struct.pack("<IIII", seconds, nanoseconds // 1000, len(packet), len(packet)) + packet)


main()
