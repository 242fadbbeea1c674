#!/usr/bin/env python3
"""Writes the test texts of the program `prefixes`: crates/prefixes/stdin and crates/prefixes/stdout.

The program reads lines and answers each by one line. A line is `4 TEXT` or `6 TEXT`, TEXT being a
prefix or an address alone, of IPv4 or IPv6. The answer is `+ CANONICAL` or `! LINE LAYER NUMBER COLUMN`.
Lines and columns count from 1, columns in bytes. The layer is t for number 1, k for numbers 2 and 3.

Lines. A line ends at byte 10; the last one may lack it. One space parts two fields, so that two spaces
in a row, or one at either end of the line, make an empty field. A fault is reported at the first column
of its field, or one past the end of the line where the field is missing. In this order:
  - the first field is exactly `4` or `6`, else t 1 1 (an empty line has none);
  - there is a second field, else t 1 2;
  - TEXT is judged by the rules below, its faults being at column 3;
  - there is no third field, else t 1 and the column of that field.

Texts. The rules are narrower than RFC 4291, section 2.2, and RFC 4007, section 11:
  - A number is one or more decimal digits, and a first digit 0 stands alone: `01` and `00` are malformed.
    An octet is a number up to 255, a length one up to 65535; a larger one is malformed.
  - An IPv4 address is four octets joined by dots.
  - An IPv6 address is eight groups of one to four hexadecimal digits, in either case, joined by colons.
    `::` may stand once, for one or more zero groups. There is no dotted tail and no zone.
  - A text with a slash is a prefix: an address, the slash, a length. One without is an address.
  - Any other text, whatever bytes are in it, is malformed: number 1, tested before the other two.
  - A length above the width, 32 or 128, is number 2.
  - Else a bit of the address set at or behind the length is number 3.

Canonical texts. IPv4 as it is read. IPv6 in lower case, without leading zeros, with `::` for the whole of
the leftmost run of two or more zero groups, also where a later run is longer (RFC 5952, section 4.2.3,
takes the longest); a single zero group is written 0. A prefix is its address, a slash, and the length.

The answers of the table are written by hand from these rules. The RFCs' examples were quoted from memory,
with no copy of the documents at hand: compare them with the sections named before relying on that. The script
then holds every line against Python's `ipaddress` (3.9.5 or later, which refuses leading zeros in octets)
and the system's `inet_pton`. Where such a tool finds well formed what the rules call malformed, the line
names it. If a check fails, the script says which, writes nothing, and exits with status 1.
"""

import ipaddress
import pathlib
import re
import socket
import sys
from typing import NamedTuple

FOLDER = pathlib.Path(__file__).resolve().parent.parent / "crates" / "prefixes"

# The tools that may be named in a malformed line, as wider than the rules.
IPADDRESS = "ipaddress"
INET_PTON = "inet_pton"


class Row(NamedTuple):
    """One line of the test, without its end, and its answer."""

    line: bytes
    canonical: str = ""  # of an accepted line
    fault: str = ""  # of a refused line: LAYER NUMBER COLUMN
    reason: str = ""  # of a refused line
    wider: tuple = ()  # the tools that find the text of a malformed line well formed


def yes(line, canonical):
    """A line to be accepted."""
    return Row(line, canonical=canonical)


def no(line, fault, reason, *wider):
    """A line to be refused."""
    return Row(line, fault=fault, reason=reason, wider=wider)


TABLE = [
    # RFC 4291, section 2.2, form 1 and form 2: the preferred form and the compressed one.
    yes(b"6 ABCD:EF01:2345:6789:ABCD:EF01:2345:6789", "abcd:ef01:2345:6789:abcd:ef01:2345:6789"),
    yes(b"6 2001:DB8:0:0:8:800:200C:417A", "2001:db8::8:800:200c:417a"),
    yes(b"6 FF01:0:0:0:0:0:0:101", "ff01::101"),
    yes(b"6 0:0:0:0:0:0:0:1", "::1"),
    yes(b"6 0:0:0:0:0:0:0:0", "::"),
    yes(b"6 2001:DB8::8:800:200C:417A", "2001:db8::8:800:200c:417a"),
    yes(b"6 FF01::101", "ff01::101"),
    yes(b"6 ::1", "::1"),
    yes(b"6 ::", "::"),
    # RFC 4291, section 2.2, form 3: the dotted tail, which the rules leave out; then the last of
    # these addresses in groups.
    no(b"6 0:0:0:0:0:0:13.1.68.3", "t 1 3", "dotted tail", IPADDRESS, INET_PTON),
    no(b"6 0:0:0:0:0:FFFF:129.144.52.38", "t 1 3", "dotted tail", IPADDRESS, INET_PTON),
    no(b"6 ::13.1.68.3", "t 1 3", "dotted tail", IPADDRESS, INET_PTON),
    no(b"6 ::FFFF:129.144.52.38", "t 1 3", "dotted tail", IPADDRESS, INET_PTON),
    yes(b"6 ::FFFF:8190:3426", "::ffff:8190:3426"),
    # RFC 4291, section 2.3: the legal spellings of one prefix, those that are not, and the node address
    # that is there combined with its subnet, which is no prefix here.
    yes(b"6 2001:0DB8:0000:CD30:0000:0000:0000:0000/60", "2001:db8:0:cd30::/60"),
    yes(b"6 2001:0DB8::CD30:0:0:0:0/60", "2001:db8:0:cd30::/60"),
    yes(b"6 2001:0DB8:0:CD30::/60", "2001:db8:0:cd30::/60"),
    no(b"6 2001:0DB8:0:CD3/60", "t 1 3", "four groups"),
    no(b"6 2001:0DB8::CD30/60", "k 3 3", "the last group is CD30, behind bit 60"),
    no(b"6 2001:0DB8::CD3/60", "k 3 3", "the last group is CD3, behind bit 60"),
    yes(b"6 2001:0DB8:0:CD30:123:4567:89AB:CDEF", "2001:db8:0:cd30:123:4567:89ab:cdef"),
    no(b"6 2001:0DB8:0:CD30:123:4567:89AB:CDEF/60", "k 3 3", "a node address has bits behind bit 60"),
    # RFC 4291, sections 2.4 and 2.7.1: the prefixes of address types, and the solicited-node addresses.
    yes(b"6 ::/128", "::/128"),
    yes(b"6 ::1/128", "::1/128"),
    yes(b"6 FF00::/8", "ff00::/8"),
    yes(b"6 FE80::/10", "fe80::/10"),
    yes(b"6 FF02:0:0:0:0:1:FF00::/104", "ff02::1:ff00:0/104"),
    yes(b"6 4037::01:800:200E:8C6C", "4037::1:800:200e:8c6c"),
    # RFC 4007, section 11: addresses and prefixes with a zone, which the rules leave out.
    no(b"6 fe80::1%eth0", "t 1 3", "zone", IPADDRESS),
    no(b"6 fe80::%2/64", "t 1 3", "zone", IPADDRESS),
    # RFC 5952, sections 1 and 2: spellings that are not the canonical one.
    yes(b"6 2001:db8::0:1:0:0:1", "2001:db8::1:0:0:1"),
    yes(b"6 2001:db8:0000:0:1::1", "2001:db8::1:0:0:1"),
    yes(b"6 2001:db8:aaaa:bbbb:cccc:dddd::1", "2001:db8:aaaa:bbbb:cccc:dddd:0:1"),
    # RFC 5952, section 4.2: what `::` is written for. The RFC writes the third as 2001:0:0:1::1.
    yes(b"6 2001:db8:0:0:0:0:2:1", "2001:db8::2:1"),
    yes(b"6 2001:db8::1:1:1:1:1", "2001:db8:0:1:1:1:1:1"),
    yes(b"6 2001:0:0:1:0:0:0:1", "2001::1:0:0:0:1"),
    # RFC 5952, section 6: addresses with a port. The second spells another address.
    no(b"6 [2001:db8::1]:80", "t 1 3", "bracket"),
    yes(b"6 2001:db8::1:80", "2001:db8::1:80"),
    no(b"6 2001:db8::1 port 80", "t 1 15", "third field"),
    # The canonical rule of the head of this file: ties, longer later runs, single zero groups.
    yes(b"6 1:0:0:2:0:0:3:4", "1::2:0:0:3:4"),
    yes(b"6 0:0:1:0:0:0:0:1", "::1:0:0:0:0:1"),
    yes(b"6 1:0:2:0:0:3:0:0", "1:0:2::3:0:0"),
    yes(b"6 0:1:0:0:0:0:0:0", "0:1::"),
    yes(b"6 0:1:0:1:0:1:0:1", "0:1:0:1:0:1:0:1"),
    yes(b"6 0:0:0:0:0:0:1:0", "::1:0"),
    yes(b"6 1:2::5:6:7:0:0", "1:2:0:5:6:7::"),
    yes(b"6 1:0:0:1::/64", "1::1:0:0:0:0/64"),
    # RFC 4291, section 2.2, form 2: `::` in front, inside and at the end, for one to seven groups, some of
    # them beside zero groups that are written; then the shapes that are malformed.
    yes(b"6 ::2:3:4:5:6:7:8", "0:2:3:4:5:6:7:8"),
    yes(b"6 1::3:4:5:6:7:8", "1:0:3:4:5:6:7:8"),
    yes(b"6 1:2:3:4::6:7:8", "1:2:3:4:0:6:7:8"),
    yes(b"6 1:2:3:4:5:6:7::", "1:2:3:4:5:6:7:0"),
    yes(b"6 1:2:3:0::6:7:8", "1:2:3::6:7:8"),
    yes(b"6 ::3:4:5:6:7:8", "::3:4:5:6:7:8"),
    yes(b"6 1:2:3::7:8", "1:2:3::7:8"),
    yes(b"6 1:2::7:8", "1:2::7:8"),
    yes(b"6 1:2:3::", "1:2:3::"),
    yes(b"6 1::8", "1::8"),
    yes(b"6 1::", "1::"),
    yes(b"6 0::0", "::"),
    yes(b"6 0:0:0:0:0:0:0::", "::"),
    no(b"6 1:2:3:4::5:6:7:8", "t 1 3", "`::` would stand for no group"),
    no(b"6 ::1:2:3:4:5:6:7:8", "t 1 3", "`::` would stand for no group"),
    no(b"6 1:2:3:4:5:6:7:8::", "t 1 3", "`::` would stand for no group"),
    no(b"6 1::4::8", "t 1 3", "`::` twice"),
    no(b"6 ::1::", "t 1 3", "`::` twice"),
    no(b"6 :::", "t 1 3", "three colons"),
    no(b"6 1:::8", "t 1 3", "three colons"),
    no(b"6 :", "t 1 3", "single colon"),
    no(b"6 :2:3:4:5:6:7:8", "t 1 3", "single colon in front"),
    no(b"6 1:2:3:4:5:6:7:", "t 1 3", "single colon at the end"),
    no(b"6 :1:2:3:4:5:6:7:8", "t 1 3", "single colon in front of eight groups"),
    no(b"6 1:2:3:4:5:6:7:8:", "t 1 3", "single colon behind eight groups"),
    no(b"6 :1::8", "t 1 3", "single colon in front"),
    # RFC 4291, section 2.2, form 1: groups, their digits and their number.
    yes(b"6 0001:0023:0456:7890:000a:00bc:0def:ffff", "1:23:456:7890:a:bc:def:ffff"),
    yes(b"6 aBcD:Ef:FfFf:0:0A:b0::C", "abcd:ef:ffff:0:a:b0:0:c"),
    yes(b"6 FFFF:FFFF:FFFF:FFFF:FFFF:FFFF:FFFF:FFFF/128", "ffff:ffff:ffff:ffff:ffff:ffff:ffff:ffff/128"),
    no(b"6 12345::", "t 1 3", "five digits"),
    no(b"6 00001::", "t 1 3", "five digits"),
    no(b"6 1", "t 1 3", "one group"),
    no(b"6 1:2:3:4:5:6:7", "t 1 3", "seven groups"),
    no(b"6 1:2:3:4:5:6:7:8:9", "t 1 3", "nine groups"),
    no(b"6 ::ffff:0.0.0.0/96", "t 1 3", "dotted tail", IPADDRESS, INET_PTON),
    no(b"6 ::ffff:1.2.3.4/129", "t 1 3", "dotted tail, tested before the length", IPADDRESS, INET_PTON),
    no(b"6 g::", "t 1 3", "g is no hexadecimal digit"),
    no(b"6 ::G", "t 1 3", "G is no hexadecimal digit"),
    no(b"6 @::", "t 1 3", "@, the byte before A"),
    no(b"6 ::`", "t 1 3", "`, the byte before a"),
    no(b"6 0x1::", "t 1 3", "x is no hexadecimal digit"),
    no(b"6 +1::", "t 1 3", "sign"),
    # The other family's texts.
    no(b"4 ::1", "t 1 3", "text of IPv6"),
    no(b"6 1.2.3.4", "t 1 3", "text of IPv4"),
    # RFC 4632, section 3.1: its two prefixes, and instances of its table of lengths, from the host route
    # to the default route.
    yes(b"4 172.16.0.0/16", "172.16.0.0/16"),
    yes(b"4 192.168.99.0/24", "192.168.99.0/24"),
    yes(b"4 192.168.99.77/32", "192.168.99.77/32"),
    yes(b"4 192.168.99.76/31", "192.168.99.76/31"),
    yes(b"4 192.168.98.0/23", "192.168.98.0/23"),
    yes(b"4 192.168.128.0/17", "192.168.128.0/17"),
    yes(b"4 10.0.0.0/8", "10.0.0.0/8"),
    yes(b"4 128.0.0.0/1", "128.0.0.0/1"),
    yes(b"4 0.0.0.0/0", "0.0.0.0/0"),
    # RFC 4632, section 6: the blocks of a provider and of two of its sites.
    yes(b"4 10.24.0.0/13", "10.24.0.0/13"),
    yes(b"4 10.24.16.0/20", "10.24.16.0/20"),
    yes(b"4 10.24.12.0/22", "10.24.12.0/22"),
    # RFC 1519, section 5: the same example in older numbers, its masks here as lengths; then four
    # further blocks in this manner, and one that its length does not fit.
    yes(b"4 192.24.0.0/13", "192.24.0.0/13"),
    yes(b"4 192.24.8.0/22", "192.24.8.0/22"),
    yes(b"4 192.24.16.0/20", "192.24.16.0/20"),
    yes(b"4 192.24.0.0/22", "192.24.0.0/22"),
    yes(b"4 192.24.32.0/20", "192.24.32.0/20"),
    yes(b"4 192.24.64.0/19", "192.24.64.0/19"),
    yes(b"4 10.24.0.0/18", "10.24.0.0/18"),
    no(b"4 192.24.12.0/21", "k 3 3", "12 is no multiple of 8"),
    # The rule of octets, in the usual notation of RFC 4632, section 3.1.
    yes(b"4 0.0.0.0", "0.0.0.0"),
    yes(b"4 255.255.255.255", "255.255.255.255"),
    yes(b"4 9.10.99.100", "9.10.99.100"),
    no(b"4 256.2.3.4", "t 1 3", "octet above 255"),
    no(b"4 1.2.3.256", "t 1 3", "octet above 255"),
    no(b"4 1.999.3.4", "t 1 3", "octet above 255"),
    no(b"4 1.2.1000.4", "t 1 3", "octet above 255"),
    no(b"4 1.2.3.4294967300", "t 1 3", "octet above 255, though 4 in 32 bits"),
    no(b"4 1.2.3.18446744073709551620", "t 1 3", "octet above 255, though 4 in 64 bits"),
    no(b"4 01.2.3.4", "t 1 3", "leading zero"),
    no(b"4 1.2.3.04", "t 1 3", "leading zero"),
    no(b"4 1.00.3.4", "t 1 3", "leading zero"),
    no(b"4 1..3.4", "t 1 3", "empty octet"),
    no(b"4 1.2.3.", "t 1 3", "empty octet"),
    no(b"4 .1.2.3.4", "t 1 3", "dot in front"),
    no(b"4 1.2.3.4.", "t 1 3", "dot at the end"),
    no(b"4 1.2.3", "t 1 3", "three octets"),
    no(b"4 1.2.3.4.5", "t 1 3", "five octets"),
    no(b"4 16909060", "t 1 3", "one number"),
    no(b"4 192.168.64/19", "t 1 3", "three octets"),
    no(b"4 0x1.2.3.4", "t 1 3", "hexadecimal octet"),
    no(b"4 +1.2.3.4", "t 1 3", "sign"),
    no(b"4 1.2.3:4", "t 1 3", "colon, the byte behind 9"),
    # The rule of lengths: up to the width, up to 65535, and above.
    yes(b"4 255.255.255.255/32", "255.255.255.255/32"),
    yes(b"6 ::/0", "::/0"),
    yes(b"6 ::/33", "::/33"),
    no(b"4 0.0.0.0/33", "k 2 3", "length above 32"),
    no(b"4 0.0.0.0/128", "k 2 3", "length above 32"),
    no(b"4 0.0.0.0/255", "k 2 3", "length above 32"),
    no(b"4 0.0.0.0/256", "k 2 3", "length above 32, though 0 in 8 bits"),
    no(b"4 0.0.0.0/65535", "k 2 3", "length above 32"),
    no(b"4 0.0.0.0/65536", "t 1 3", "length above 65535"),
    no(b"4 0.0.0.0/4294967328", "t 1 3", "length above 65535, though 32 in 32 bits"),
    no(b"4 0.0.0.0/99999999999999999999", "t 1 3", "length above 65535"),
    no(b"6 ::/129", "k 2 3", "length above 128"),
    no(b"6 ::/256", "k 2 3", "length above 128, though 0 in 8 bits"),
    no(b"6 ::/65535", "k 2 3", "length above 128"),
    no(b"6 ::/65536", "t 1 3", "length above 65535"),
    no(b"6 ::/18446744073709551744", "t 1 3", "length above 65535, though 128 in 64 bits"),
    # The rule of lengths: their texts, which are decimal in RFC 4632, section 3.1.
    no(b"4 10.0.0.0/", "t 1 3", "empty length"),
    no(b"4 10.0.0.0/ ", "t 1 3", "empty length, tested before the third field"),
    no(b"4 10.0.0.0/-1", "t 1 3", "sign"),
    no(b"4 10.0.0.0/+8", "t 1 3", "sign"),
    no(b"4 128.0.0.0/01", "t 1 3", "leading zero", IPADDRESS),
    no(b"4 0.0.0.0/00", "t 1 3", "leading zero", IPADDRESS),
    no(b"6 2001:db8::/032", "t 1 3", "leading zero", IPADDRESS),
    no(b"6 ::/a", "t 1 3", "hexadecimal length"),
    no(b"4 10.0.0.0/255.0.0.0", "t 1 3", "mask", IPADDRESS),
    no(b"4 10.0.0.0/8/8", "t 1 3", "two slashes"),
    no(b"6 ::/64/", "t 1 3", "two slashes"),
    no(b"4 /8", "t 1 3", "no address"),
    no(b"6 /", "t 1 3", "no address, empty length"),
    # The order of the rules: 1 before 2 before 3.
    no(b"4 10.0.0.256/33", "t 1 3", "malformed, and its length above 32"),
    no(b"4 10.0.0.1/65536", "t 1 3", "malformed, and a bit set behind any length"),
    no(b"4 10.0.0.1/33", "k 2 3", "length above 32, and a bit set in front of it"),
    no(b"6 ::1/129", "k 2 3", "length above 128, and a bit set in front of it"),
    # The rule of bits: the last one in front of the length, the first one behind it, the last of all.
    yes(b"4 11.0.0.0/8", "11.0.0.0/8"),
    no(b"4 10.128.0.0/8", "k 3 3", "first bit behind"),
    no(b"4 10.0.0.1/8", "k 3 3", "last bit"),
    no(b"4 128.0.0.0/0", "k 3 3", "first bit"),
    no(b"4 255.255.255.255/31", "k 3 3", "last bit"),
    yes(b"6 8000::/1", "8000::/1"),
    no(b"6 4000::/1", "k 3 3", "first bit behind"),
    no(b"6 ::1/0", "k 3 3", "last bit"),
    no(b"6 ::1/127", "k 3 3", "last bit"),
    yes(b"6 ::2/127", "::2/127"),
    yes(b"6 0:0:0:1::/64", "::1:0:0:0:0/64"),
    no(b"6 0:0:0:1::/63", "k 3 3", "first bit behind"),
    yes(b"6 ::8000:0:0:0/65", "::8000:0:0:0/65"),
    no(b"6 ::8000:0:0:0/64", "k 3 3", "first bit behind"),
    # The rule of lines: the first field.
    no(b"", "t 1 1", "empty line"),
    no(b" ", "t 1 1", "empty first field"),
    no(b" 4 1.2.3.4", "t 1 1", "empty first field"),
    no(b"5 1.2.3.4", "t 1 1", "no family"),
    no(b"44 1.2.3.4", "t 1 1", "no family"),
    no(b"46 ::", "t 1 1", "no family"),
    no(b"1.2.3.4", "t 1 1", "text without a family"),
    no(b"4\t1.2.3.4", "t 1 1", "a tab parts no fields"),
    no(b"4\r", "t 1 1", "carriage return in the first field"),
    # The rule of lines: the second field missing, or empty.
    no(b"4", "t 1 2", "second field missing"),
    no(b"6", "t 1 2", "second field missing"),
    no(b"4 ", "t 1 3", "empty text"),
    no(b"4  1.2.3.4", "t 1 3", "empty text, tested before the third field"),
    # The rule of lines: a field too many, at the columns counted here.
    no(b"4 1.2.3.4 x", "t 1 11", "third field"),
    no(b"4 1.2.3.4 ", "t 1 11", "empty third field"),
    no(b"4 1.2.3.4  ", "t 1 11", "empty third field, and a fourth"),
    no(b"4 10.0.0.0/8 10.0.0.0/8", "t 1 14", "third field"),
    no(b"6 :: ::", "t 1 6", "third field"),
    no(b"4 1.2.3. 4", "t 1 3", "empty octet, tested before the third field"),
    no(b"4 0.0.0.0/33 x", "k 2 3", "length above 32, tested before the third field"),
    no(b"6 ::1/64 x", "k 3 3", "last bit, tested before the third field"),
    # The rule of bytes: none outside the texts of RFC 4291 and RFC 4632 is passed over.
    no(b"4 1.2.3.4\r", "t 1 3", "carriage return"),
    no(b"4 1.2.3.4\t", "t 1 3", "tab"),
    no(b"4 1.2.3.4\x00", "t 1 3", "byte 0"),
    no(b"6 ::/64\x00", "t 1 3", "byte 0"),
    no(b"4\x00 1.2.3.4", "t 1 1", "byte 0"),
    no(b"4 1.2.3.\xff", "t 1 3", "byte 255"),
    no(b"\xff", "t 1 1", "byte 255"),
    no(b"4 1.2.3.4 \xff", "t 1 11", "third field"),
    no(b"4 1.2.3.\xb4", "t 1 3", "byte 180, which is 128 above the digit 4"),
    no(b"6 ::\x11", "t 1 3", "byte 17, which is 32 below the digit 1"),
    no(b"6 ::\xc3\xa9", "t 1 3", "the letter e with an acute accent in UTF-8"),
    no(b"4 1.2.3.\xd9\xa4", "t 1 3", "the Arabic-Indic digit 4 in UTF-8"),
    no(b"\xef\xbb\xbf4 1.2.3.4", "t 1 1", "byte order mark in UTF-8"),
    # Long lines.
    no(b"4 " + b"1" * 300, "t 1 3", "300 digits"),
    no(b"4 1.2.3." + b"0" * 299 + b"4", "t 1 3", "leading zeros"),
    no(b"4 0.0.0.0/" + b"9" * 300, "t 1 3", "length above 65535"),
    no(b"6 " + b"f" * 300, "t 1 3", "300 digits"),
    no(b"6 ::" + b"0" * 299 + b"1", "t 1 3", "300 digits"),
    no(b"4" * 300 + b" 1.2.3.4", "t 1 1", "no family"),
    no(b"4 1.2.3.4 " + b"x" * 300, "t 1 11", "third field"),
    # The last line, which is written without byte 10.
    yes(b"6 2001:DB8::/32", "2001:db8::/32"),
]

WIDTHS = {b"4": 32, b"6": 128}
ADDRESSES = {b"4": ipaddress.IPv4Address, b"6": ipaddress.IPv6Address}
NETWORKS = {b"4": ipaddress.IPv4Network, b"6": ipaddress.IPv6Network}
SOCKETS = {b"4": socket.AF_INET, b"6": socket.AF_INET6}

LETTERS = {b"4": rb"[0-9.]*", b"6": rb"[0-9A-Fa-f:]*"}


def ipaddress_reads(family, text):
    """What `ipaddress` reads in a text: the number of the address and the length of the prefix.

    The length is None for an address. The answer is None where the text is refused, as it is where a bit
    is set behind the length. A byte above 127 becomes a letter that no tool takes for a digit.
    """
    try:
        if b"/" in text:
            network = NETWORKS[family](text.decode("latin-1"))
            return int(network.network_address), network.prefixlen
        return int(ADDRESSES[family](text.decode("latin-1"))), None
    except ValueError:
        return None


def inet_pton_reads(family, text):
    """The number that `inet_pton` reads in the text of an address, or None where it refuses."""
    try:
        return int.from_bytes(socket.inet_pton(SOCKETS[family], text.decode("latin-1")), "big")
    except (OSError, ValueError):
        return None


def is_length(text):
    """Whether a text is a number up to 65535."""
    return re.fullmatch(rb"0|[1-9][0-9]*", text) is not None and int(text) <= 65535


def narrow(family, text):
    """Whether a text has only the bytes of an address of its family and, behind a slash, a length.

    This is all in which the rules are narrower than the tools: no dotted tail, no zone, no mask, no zeros
    before a length.
    """
    address, slash, length = text.partition(b"/")
    return re.fullmatch(LETTERS[family], address) is not None and (not slash or is_length(length))


def takes(tool, family, text):
    """Whether a tool finds a text well formed.

    That is, it reads the address, and what stands behind a slash is a length up to 65535, a bound no tool
    has. Besides, `ipaddress` reads some prefixes as a whole that have a mask, or zeros before the length.
    """
    if tool == IPADDRESS and ipaddress_reads(family, text) is not None:
        return True
    reads = ipaddress_reads if tool == IPADDRESS else inet_pton_reads
    address, slash, length = text.partition(b"/")
    return reads(family, address) is not None and (not slash or is_length(length))


def parts(family, text):
    """The number of the address and the length of a text that is well formed; the length is None without
    a slash.

    The two are read apart, so that the length need not fit the address. A ValueError is raised where the
    text is malformed.
    """
    if not narrow(family, text):
        raise ValueError("a byte or the length is not in the rules")
    address, slash, length = text.decode("ascii").partition("/")
    return int(ADDRESSES[family](address)), int(length) if slash else None


def canonical(family, number, length):
    """The canonical text, made of numbers alone."""
    if family == b"4":
        text = ".".join(str(octet) for octet in number.to_bytes(4, "big"))
    else:
        groups = [number >> shift & 0xFFFF for shift in range(112, -16, -16)]
        start = next((i for i in range(7) if groups[i] == groups[i + 1] == 0), None)
        words = ["%x" % group for group in groups]
        if start is None:
            text = ":".join(words)
        else:
            end = start
            while end < 8 and groups[end] == 0:
                end += 1
            text = ":".join(words[:start]) + "::" + ":".join(words[end:])
    return text if length is None else "%s/%d" % (text, length)


def check_accepted(row):
    """Yields what is wrong with an accepted line."""
    fields = row.line.split(b" ")
    if len(fields) != 2 or fields[0] not in WIDTHS:
        yield "it is no family and one text"
        return
    family, text = fields
    expected = row.canonical.encode("ascii")
    number, length = parts(family, text)
    if parts(family, expected) != (number, length):
        yield "the canonical text has another number or length"
    if canonical(family, number, length) != row.canonical:
        yield "the canonical text should be " + canonical(family, number, length)
    for spelling in (text, expected):
        if ipaddress_reads(family, spelling) != (number, length):
            yield "ipaddress does not read it so"
        if inet_pton_reads(family, spelling.partition(b"/")[0]) != number:
            yield "inet_pton does not read it so"


def check_refused(row):
    """Yields what is wrong with a refused line."""
    if not row.reason:
        yield "it has no reason"
    fields = row.line.split(b" ")
    family = fields[0]
    if row.fault == "t 1 1":
        if family in WIDTHS:
            yield "its first field is a family"
        return
    if family not in WIDTHS:
        yield "its first field is no family"
        return
    if row.fault == "t 1 2":
        if len(fields) != 1:
            yield "it has a second field"
        return
    if len(fields) == 1:
        yield "it has no second field"
        return
    text = fields[1]
    if row.fault == "t 1 3":
        for tool in (IPADDRESS, INET_PTON):
            if takes(tool, family, text) and tool not in row.wider:
                yield tool + " finds it well formed"
        if row.wider and narrow(family, text):
            yield "nothing in it is narrower than the tools"
    elif row.fault in ("k 2 3", "k 3 3"):
        number, length = parts(family, text)
        width = WIDTHS[family]
        if inet_pton_reads(family, text.partition(b"/")[0]) != number:
            yield "inet_pton does not read its address so"
        if ipaddress_reads(family, text) is not None:
            yield "ipaddress accepts it"
        if length is None:
            yield "it has no length"
        elif row.fault == "k 2 3":
            if not width < length <= 65535:
                yield "its length is not above the width, or above 65535"
        elif length > width or number % 2 ** (width - length) == 0:
            yield "no bit is set behind its length"
    elif len(fields) < 3:
        yield "it has no third field"
    else:
        if row.fault != "t 1 %d" % (len(family) + len(text) + 3):
            yield "its third field is at another column"
        if ipaddress_reads(family, text) != parts(family, text):
            yield "ipaddress refuses its text"


def failures():
    """Yields everything that is wrong with the table."""
    for place, row in enumerate(TABLE, 1):
        check = check_accepted if row.canonical else check_refused
        try:
            wrong = list(check(row))
        except ValueError as error:
            wrong = [str(error)]
        if b"\n" in row.line:
            wrong.append("it has byte 10 in it")
        for message in wrong:
            yield "line %d, %r: %s" % (place, row.line, message)
    if len({row.line for row in TABLE}) != len(TABLE):
        yield "a line stands twice"
    if not TABLE[-1].line:
        yield "the last line is empty, so without byte 10 there is none"


def differences():
    """Yields the lines on which a tool differs from the rules, in what it accepts or in what it writes."""
    for row in TABLE:
        fields = row.line.split(b" ")
        if row.canonical:
            family, text = fields
            number, length = parts(family, text)
            address = row.canonical.partition("/")[0]
            written = {
                IPADDRESS: str(ADDRESSES[family](number)),
                "inet_ntop": socket.inet_ntop(SOCKETS[family], number.to_bytes(WIDTHS[family] // 8, "big")),
            }
            for tool, other in written.items():
                if other != address:
                    yield "%r: %s writes %s, not %s" % (row.line, tool, other, address)
        elif row.fault == "t 1 3":
            for tool in (IPADDRESS, INET_PTON):
                if takes(tool, *fields[:2]):
                    yield "%r: %s finds it well formed (%s)" % (row.line, tool, row.reason)


def main():
    wrong = list(failures())
    if wrong:
        sys.exit("\n".join(wrong))
    answers = [
        "+ %s\n" % row.canonical if row.canonical else "! %d %s\n" % (place, row.fault)
        for place, row in enumerate(TABLE, 1)
    ]
    FOLDER.mkdir(parents=True, exist_ok=True)
    (FOLDER / "stdin").write_bytes(b"\n".join(row.line for row in TABLE))
    (FOLDER / "stdout").write_bytes("".join(answers).encode("ascii"))
    accepted = sum(1 for row in TABLE if row.canonical)
    print("%d lines, %d accepted, %d refused" % (len(TABLE), accepted, len(TABLE) - accepted))
    print("Tools that differ from the rules:")
    for difference in differences():
        print("  " + difference)


if __name__ == "__main__":
    main()
