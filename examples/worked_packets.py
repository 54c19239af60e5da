#!/usr/bin/env python3
"""The packets that siit_device's examples work by hand, asked of translator.py. Prints nothing where all are as worked."""
import ipaddress
import struct
import sys

sys.dont_write_bytecode = True
from translator import EMPTY, Device, Packet6, Run, checksum, get16, header4, header6, pseudo6, put16

ENTRY = [['192.0.2.1/32', '2001:db8:6464::1/128']]
BORDER = {'role': 'border', 'prefix': '64:ff9b::/96', 'eam': ENTRY, 'address4': '192.0.2.254', 'address6': '2001:db8:ffff::1'}
EDGE = {'role': 'edge', 'prefix': '64:ff9b::/96', 'eam': ENTRY, 'address4': '192.0.2.253', 'address6': '2001:db8:ffff::2'}
HAIRPIN = {'role': 'border', 'prefix': '2001:db8:46::/96', 'address4': '192.0.2.254', 'address6': '2001:db8:ffff::1',
           'eam': [['192.0.2.1/32', '2001:db8:a::1/128'], ['192.0.2.2/32', '2001:db8:b::2/128']]}
EIGHTS, SERVER = 0x08080808, 0xc0000201


def words(text):
    return bytes.fromhex(text.replace(' ', ''))


def six(text):
    return int(ipaddress.IPv6Address(text))


ARRIVING = words('45000028 00014000 400668be 08080808 c0000201 c0000050 00000001 00000000 50022000 fd7f0000')
BETWEEN = words('60000000 0014063f 0064ff9b 00000000 00000000 08080808 20010db8 64640000 00000000 00000001 c0000050 00000001 00000000 50022000 2d630000')
LEAVING = words('45000028 00010000 3e06aabe 08080808 c0000201 c0000050 00000001 00000000 50022000 fd7f0000')


def event(settings, side, packet):
    way, packets, drop = Device(settings).event(side, packet)
    return way, packets, drop and (drop[0].name, drop[1])


def from_eights(protocol, payload, flags=0):
    return header4(0, 20 + len(payload), 0, flags >> 1 & 1, flags & 1, 0, 64, protocol, EIGHTS, SERVER) + payload


def check_tcp():
    assert event(BORDER, 4, ARRIVING) == ('on', [BETWEEN], None)
    assert event(EDGE, 6, BETWEEN) == ('on', [LEAVING], None)


def check_bare_udp():
    datagram = words('10000035 000c0000 61626364')
    assert event(BORDER, 4, from_eights(17, datagram))[2] == ('UdpZero4', False)
    assert get16(event({**BORDER, 'udp_zero': 'compute'}, 4, from_eights(17, datagram))[1][0], 46) == 0x88ac
    assert event(BORDER, 4, from_eights(17, datagram + bytes(4), 1))[2] == ('UdpZeroFragment4', False)
    assert event(BORDER, 4, from_eights(17, datagram, 1))[2] == ('FragmentShape4', False)


def check_sizes():
    long = words('10000035 05c81234') + bytes(1472)
    assert [len(piece) for piece in event(BORDER, 4, from_eights(17, long))[1]] == [1280, 296]
    way, packets, drop = event(BORDER, 4, from_eights(6, bytes(1480), 2))
    assert (way, drop, len(packets[0]), get16(packets[0], 26)) == ('back', ('TooBig4', True), 576, 1480)


def check_errors():
    unreachable = words('0303dba2 00000000 45000028 00004000 3f1169b4 c0000201 08080808 00351000 00141111')
    translated = words('0104f79b 00000000 60000000 0014113f 20010db8 64640000 00000000 00000001 0064ff9b 00000000 00000000 08080808 00351000 001440f4')
    assert event(BORDER, 4, from_eights(1, unreachable))[1][0][40:] == translated
    extended = words('0b000000 00200000') + ARRIVING + bytes(88) + words('2000ddf4 00080101 00010101')
    extended = put16(extended, 2, checksum(extended))
    there = event(BORDER, 4, from_eights(1, extended))[1][0]
    assert (there[40], there[44], get16(there, 4), there[-12:]) == (3, 16, 148, extended[-12:])
    back = event(EDGE, 6, there)[1][0]
    assert (len(back), back[25], back[-12:]) == (168, 32, extended[-12:])


def check_expired():
    """Answered by the edge, and carried back through the border."""
    packet = put16(put16(ARRIVING, 8, 0x0206), 10, 0xa6be)
    capture = EMPTY + struct.pack('<4I', 1, 5, len(packet), len(packet)) + packet
    run = Run(4, [Device(BORDER), Device(EDGE)])
    assert run.all(capture, EMPTY) == ('end 1 0 1 0 1\n', 0)
    assert run.report[0] == 'L 1 2 58 Expired6 icmp6/3/0\n'
    assert run.out['L'][1][16:] == words('45000044 00010000 3f01a8aa c00002fe 08080808 0b00c72b 00000000 45000028 00000000 0106e7bf '
                                         '08080808 c0000201 c0000050 00000001 00000000 50022000 fd7f0000')


def check_hairpin():
    first, second = six('2001:db8:a::1'), six('2001:db8:b::2')
    under = lambda a: six('2001:db8:46::') + a
    sent = header6(0, 0, 8, 17, 64, first, under(0xc0000202)) + words('10000035 00085555')
    way, packets, drop = event(HAIRPIN, 6, sent)
    turned = Packet6(packets[0])
    assert (way, drop, turned.source, turned.destination, get16(turned.payload, 6)) == ('back', None, under(0xc0000201), second, 0x5554)
    message = bytes([1, 4, 0, 0, 0, 0, 0, 0]) + packets[0]
    message = put16(message, 2, checksum(pseudo6(second, under(0xc0000201), 58, len(message)) + message))
    error = Packet6(event(HAIRPIN, 6, header6(0, 0, len(message), 58, 64, second, under(0xc0000201)) + message)[1][0])
    quoted = Packet6(error.payload[8:])
    assert (error.destination, quoted.source, quoted.destination, get16(quoted.payload, 6)) == (first, first, under(0xc0000202), 0x5555)


def main():
    for check in (check_tcp, check_bare_udp, check_sizes, check_errors, check_expired, check_hairpin):
        check()


if __name__ == '__main__':
    main()
