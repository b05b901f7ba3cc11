#!/usr/bin/env python3
"""Do the generators notice mistakes? Each mutant is model.py with one reading changed; captures.py and calls.py must tell
it from model.py within their 10,000 captures or runs.

    mutants.py [--count 10000] [--seed 1] [NAME ..]

Prints for each mutant the number of the first capture and of the first run that tells it apart; `-` where that face
cannot show it (`heard` prints no bytes and no slots, has no contexts and only short gateways). Where only the lent bytes
can show it, the memory and the output of each call of a run are compared as well. The status is 1 if a mutant gets
through.
"""

import argparse
import os
import sys
import types

import calls
import captures
import model

BOTH, CALLS, CAPTURES, LENT = "both", "calls", "captures", "lent bytes"

# Name, the faces that can show it, then pieces of model.py's text, each followed by what stands for it.

MUTANTS = [
    # The customer's question and 01's traps.
    ("key without source", BOTH, "self.slots[s].key == key:", "self.slots[s].key[1:] == key[1:]:"),
    ("key without destination", BOTH,
     "self.slots[s].key == key:",
     "(self.slots[s].key[0],) + self.slots[s].key[2:] == (key[0],) + key[2:]:"),
    ("key without size", BOTH,
     "self.slots[s].key == key:",
     "self.slots[s].key[:2] + self.slots[s].key[3:] == key[:2] + key[3:]:"),
    ("key without tag", BOTH, "self.slots[s].key == key:", "self.slots[s].key[:3] == key[:3]:"),
    ("key by size and tag only", BOTH, "self.slots[s].key == key:", "self.slots[s].key[2:] == key[2:]:"),
    # The PAN (02, item 6). heard's gateways are all under abcd, so that some of these cannot be shown by captures.
    ("key without the PAN", CALLS,
     "self.slots[s].key == key:",
     "(self.slots[s].key[0][0],) + self.slots[s].key[1:] == (key[0][0],) + key[1:]:"),
    ("the destination PAN before the source's", BOTH,
     "pan = mac.dst_pan if mac.src_pan is None else mac.src_pan",
     "pan = mac.src_pan if mac.dst_pan is None else mac.dst_pan"),
    ("the destination PAN only", BOTH,
     "pan = mac.dst_pan if mac.src_pan is None else mac.src_pan", "pan = mac.dst_pan"),
    ("the source PAN only", BOTH,
     "pan = mac.dst_pan if mac.src_pan is None else mac.src_pan", "pan = mac.src_pan"),
    ("a frame without a PAN is of any", BOTH,
     "        if sender_of(mac) not in self.gateways:\n",
     "        if sender_of(mac) not in self.gateways and (sender_of(mac)[1] is not None or mac.src not in [\n"
     "                address for address, pan in self.gateways]):\n"),
    ("a gateway without a PAN is in any", CALLS,
     "        if sender_of(mac) not in self.gateways:\n",
     "        if sender_of(mac) not in self.gateways and (mac.src, None) not in self.gateways:\n"),
    ("PAN ffff is any", CALLS,
     "        if sender_of(mac) not in self.gateways:\n",
     "        if sender_of(mac) not in self.gateways and (mac.src, 0xffff) not in self.gateways:\n"),
    ("no PAN is PAN 0", CALLS, "    return (mac.src, pan)\n", "    return (mac.src, pan or 0)\n"),
    ("gateways by their address only", BOTH,
     "        if sender_of(mac) not in self.gateways:\n",
     "        if mac.src not in [address for address, pan in self.gateways]:\n"),
    ("two gateways with one address are equal", CALLS,
     "len(set(gateways)) != len(gateways)", "len(set(addresses)) != len(gateways)"),
    ("a relayed frame has no PAN", BOTH,
     "mac = replace(mac, src=originator, dst=", "mac = replace(mac, src_pan=None, dst_pan=None, src=originator, dst="),
    ("slots counted by address only", CALLS,
     "if slot and slot.key[0] == gateway)", "if slot and slot.key[0][0] == gateway[0])"),
    ("same place with other bytes is harmless", BOTH,
     "first == begin and length == len(data) and taken == data:",
     "first == begin and length == len(data):"),
    ("same begin and bytes as far as they go is a repeat", BOTH,
     "first == begin and length == len(data) and taken == data:",
     "first == begin and taken[:len(data)] == data:"),
    ("equal bytes across parts are a repeat", BOTH,
     "        for first, length, taken in self.slots[s].parts:\n"
     "            if begin <",
     "        held = {p: b for at, _, t in self.slots[s].parts for p, b in enumerate(t, at)}\n"
     "        if all(held.get(begin + i) == b for i, b in enumerate(data)):\n"
     "            return True\n"
     "        for first, length, taken in self.slots[s].parts:\n"
     "            if begin <"),
    ("equal bytes from a part's begin to a part's end are a repeat", BOTH,
     "        for first, length, taken in self.slots[s].parts:\n"
     "            if begin <",
     "        held = {p: b for at, _, t in self.slots[s].parts for p, b in enumerate(t, at)}\n"
     "        if all(held.get(begin + i) == b for i, b in enumerate(data)) and any(p[0] == begin for "
     "p in self.slots[s].parts) \\\n"
     "                and any(p[0] + p[1] == begin + len(data) for p in self.slots[s].parts):\n"
     "            return True\n"
     "        for first, length, taken in self.slots[s].parts:\n"
     "            if begin <"),
    ("equal bytes that end where a part ends are a repeat", BOTH,
     "first == begin and length == len(data) and taken == data:",
     "first <= begin and first + length == begin + len(data) and taken.endswith(data):"),
    ("a slot freed by age keeps its marks", BOTH,
     "                self.slots[s] = None\n"
     "        mac = read_mac(frame)\n",
     "                self.__dict__.setdefault('left', {})[s] = self.slots[s].parts\n"
     "                self.slots[s] = None\n"
     "        mac = read_mac(frame)\n",
     "self.slots[s] = Slot(key, time)\n",
     "self.slots[s] = Slot(key, time, self.__dict__.setdefault('left', {}).pop(s, []))\n",
     "        elif self.judge",
     "        if self.judge"),
    ("a slot freed by a clash keeps its marks", BOTH,
     "                self.slots[s] = None\n"
     "                raise Refused(11)",
     "                self.__dict__.setdefault('left', {})[s] = self.slots[s].parts\n"
     "                self.slots[s] = None\n"
     "                raise Refused(11)",
     "self.slots[s] = Slot(key, time)\n",
     "self.slots[s] = Slot(key, time, self.__dict__.setdefault('left', {}).pop(s, []))\n",
     "        elif self.judge",
     "        if self.judge"),
    ("a slot freed by its cover keeps its marks", BOTH,
     "        self.slots[s] = None\n"
     "        out[:size] =",
     "        self.__dict__.setdefault('left', {})[s] = slot.parts\n"
     "        self.slots[s] = None\n"
     "        out[:size] =",
     "self.slots[s] = Slot(key, time)\n",
     "self.slots[s] = Slot(key, time, self.__dict__.setdefault('left', {}).pop(s, []))\n",
     "        elif self.judge",
     "        if self.judge"),
    ("elision of the slot's earlier datagrams stays", CALLS,
     "            slot.sum = places\n",
     "            flags = self.__dict__.setdefault('flags', {})\n"
     "            flags[s] = flags.get(s) or (places is not None and places.elided)\n"
     "            slot.sum = places and replace(places, elided=flags[s])\n"),
    ("only a part of equal place clashes", BOTH,
     "if begin < first + length and first < begin + len(data):",
     "if begin == first:"),
    ("a clash touches from the next byte on", BOTH,
     "if begin < first + length and first < begin + len(data):",
     "if begin <= first + length and first < begin + len(data):"),
    ("a clash touches before its begin", BOTH,
     "if begin < first + length and first < begin + len(data):",
     "if begin < first + length and first <= begin + len(data):"),
    ("overlap by one unit at the front is harmless", BOTH,
     "if begin < first + length and first < begin + len(data):",
     "if begin < first + length - 8 and first < begin + len(data):"),
    ("a clash leaves the slot", BOTH,
     "                self.slots[s] = None\n"
     "                raise Refused(11)",
     "                raise Refused(11)"),
    ("a clash frees every slot of the gateway", BOTH,
     "                self.slots[s] = None\n"
     "                raise Refused(11)",
     "                who = self.slots[s].key[0]\n"
     "                self.slots = [None if x and x.key[0] == who else x for x in self.slots]\n"
     "                raise Refused(11)"),
    ("a repeat begins the 60 seconds anew", BOTH,
     "            return (\"kept\",)\n"
     "        return self.take(",
     "            self.slots[s].opened = time\n"
     "            return (\"kept\",)\n"
     "        return self.take("),
    ("a part begins the 60 seconds anew", BOTH,
     "        slot = self.slots[s]\n"
     "        place",
     "        slot = self.slots[s]\n"
     "        slot.opened = self.last\n"
     "        place"),

    # Opening.
    ("reserve ignored", BOTH,
     "(mine < MOST_SLOTS_EACH and len(free) > others)",
     "(mine < MOST_SLOTS_EACH and free)"),
    ("reserve short by one", BOTH, "len(free) > others)", "len(free) >= others)"),
    ("reserve one too many", BOTH, "len(free) > others)", "len(free) > others + 1)"),
    ("reserve counts the gateway itself", BOTH,
     "if g != gateway and self.held(g) == 0)",
     "if self.held(g) == 0 or g == gateway)"),
    ("reserve counts others that hold slots", BOTH, "if g != gateway and self.held(g) == 0)", "if g != gateway)"),
    ("four slots each", BOTH, "MOST_SLOTS_EACH = 3 ", "MOST_SLOTS_EACH = 4 "),
    ("two slots each", BOTH, "MOST_SLOTS_EACH = 3 ", "MOST_SLOTS_EACH = 2 "),
    ("highest free slot", CALLS,
     "        s = free[0]\n",
     "        s = free[-1]\n"),
    ("a seventh slot is the last", BOTH, "SLOTS = 8 ", "SLOTS = 7 "),
    ("12 frees the oldest slot of the gateway", BOTH,
     "            raise Refused(12)",
     "            oldest = min((x for x in self.slots if x and x.key[0] == gateway), key=lambda x: x.opened)\n"
     "            self.slots[self.slots.index(oldest)] = None\n"
     "            raise Refused(12)"),

    # Time.
    ("60,001 for 60,000", BOTH, "LIFETIME = 60000 ", "LIFETIME = 60001 "),
    ("59,999 for 60,000", BOTH, "LIFETIME = 60000 ", "LIFETIME = 59999 "),
    ("ageing only where no refusal comes before it", CALLS,
     "        for s in range(SLOTS):\n"
     "            if self.slots[s] and time - self.slots[s].opened >= LIFETIME:\n"
     "                self.slots[s] = None\n"
     "        mac = read_mac(frame)\n",
     "        mac = read_mac(frame)\n"
     "        for s in range(SLOTS):\n"
     "            if self.slots[s] and time - self.slots[s].opened >= LIFETIME:\n"
     "                self.slots[s] = None\n"),
    ("ageing before 8", BOTH,
     "        if time < self.last:\n"
     "            raise Refused(8)\n"
     "        self.last = time\n",
     "        for s in range(SLOTS):\n"
     "            if self.slots[s] and abs(time - self.slots[s].opened) >= LIFETIME:\n"
     "                self.slots[s] = None\n"
     "        if time < self.last:\n"
     "            raise Refused(8)\n"
     "        self.last = time\n"),
    ("an equal time is refused", BOTH, "if time < self.last:", "if time <= self.last and self.last:"),
    ("a time going back is taken", BOTH, "            raise Refused(8)", "            pass"),
    ("8 takes the time", BOTH,
     "            raise Refused(8)",
     "            self.last = time\n"
     "            raise Refused(8)"),
    ("a refused MAC header takes no time", BOTH,
     "        self.last = time\n",
     "        before, self.last = self.last, time\n"
     "        if number_of(read_mac, frame) in (1, 3, 4):\n"
     "            self.last = before\n"),
    ("8 before 7", CALLS,
     "        if len(mem) < LENT_BYTES or len(out) < OUTPUT_BYTES:\n"
     "            raise Refused(7)\n"
     "        if time < self.last:\n"
     "            raise Refused(8)\n",
     "        if time < self.last:\n"
     "            raise Refused(8)\n"
     "        if len(mem) < LENT_BYTES or len(out) < OUTPUT_BYTES:\n"
     "            raise Refused(7)\n"),
    ("7 takes the time", CALLS,
     "            raise Refused(7)\n"
     "        if time",
     "            self.last = max(time, self.last)\n"
     "            raise Refused(7)\n"
     "        if time"),
    ("16,383 bytes are enough", CALLS, "LENT_BYTES = 16384 ", "LENT_BYTES = 16383 "),
    ("an output of 2,046 is enough", CALLS, "OUTPUT_BYTES = 2047 ", "OUTPUT_BYTES = 2046 "),
    ("an output of 2,048 is needed", CALLS, "OUTPUT_BYTES = 2047 ", "OUTPUT_BYTES = 2048 "),
    ("time of 32 bits", CALLS,
     "time - self.slots[s].opened >= LIFETIME",
     "(time - self.slots[s].opened) % 2 ** 32 >= LIFETIME"),

    # Parts.
    ("a bad part frees the slot of its key", BOTH,
     "            raise Refused(10)\n"
     "\n"
     "        key = ",
     "            s = self.find((sender_of(mac), mac.dst, fragment.size, fragment.tag))\n"
     "            if s is not None:\n"
     "                self.slots[s] = None\n"
     "            raise Refused(10)\n"
     "\n"
     "        key = "),
    ("11 before 10", BOTH,
     "        if len(data) % 8 != 0 and end != fragment.size:\n"
     "            raise Refused(10)\n",
     "        if len(data) % 8 != 0 and end != fragment.size:\n"
     "            s = self.find((sender_of(mac), mac.dst, fragment.size, fragment.tag))\n"
     "            if s is not None:\n"
     "                self.judge_against_taken(s, begin, data)\n"
     "            raise Refused(10)\n"),
    ("12 before 10", BOTH,
     "        begin, end = fragment.begin, fragment.begin + len(data)\n",
     "        begin, end = fragment.begin, fragment.begin + len(data)\n"
     "        if self.find((sender_of(mac), mac.dst, fragment.size, fragment.tag)) is None \\\n"
     "                and self.held(sender_of(mac)) == 3:\n"
     "            raise Refused(12)\n"),
    ("sizes from 39", BOTH, "fragment.size < 40", "fragment.size < 39"),
    ("sizes from 41", BOTH, "fragment.size < 40", "fragment.size < 41"),
    ("sizes from 48", BOTH, "fragment.size < 40", "fragment.size < 48"),
    ("any size", BOTH, "fragment.size < 40 or ", ""),
    ("a part of no bytes is kept", BOTH, "or len(data) == 0 ", ""),
    ("a later part at offset 0 is taken", BOTH, " or (begin == 0 and not fragment.first)", ""),
    ("an end one beyond the size", BOTH, "or end > fragment.size:", "or end > fragment.size + 1:"),
    ("an end at the size is refused", BOTH, "or end > fragment.size:", "or end >= fragment.size:"),
    ("any length", BOTH,
     "        if len(data) % 8 != 0 and end != fragment.size:\n"
     "            raise Refused(10)\n",
     ""),
    ("a multiple of 8 at the end too", BOTH,
     "if len(data) % 8 != 0 and end != fragment.size:",
     "if len(data) % 8 != 0:"),
    ("a multiple of 4 is enough", BOTH, "if len(data) % 8 != 0 and", "if len(data) % 4 != 0 and"),
    ("first parts need no multiple of 8", BOTH,
     "if len(data) % 8 != 0 and",
     "if not fragment.first and len(data) % 8 != 0 and"),
    ("offset as a number of bytes", BOTH, "payload[4] * 8", "payload[4]"),
    ("size of 10 bits", BOTH, "(payload[0] & 7) << 8", "(payload[0] & 3) << 8"),
    ("tag of 8 bits", BOTH, "tag = payload[2] << 8 | payload[3]", "tag = payload[3]"),
    ("a first part that is the whole needs no slot", BOTH,
     "        s = self.find(key)\n"
     "        if s is None:\n",
     "        s = self.find(key)\n"
     "        if s is None and begin == 0 and end == fragment.size:\n"
     "            out[:end] = finished(data, places)\n"
     "            return (\"out\", end)\n"
     "        if s is None:\n"),
    ("late repeats are kept without a slot", BOTH,
     "        if s is None:\n"
     "            s = self.open(key, time)\n",
     "        if s is None:\n"
     "            if getattr(self, 'done', None) == key:\n"
     "                return (\"kept\",)\n"
     "            s = self.open(key, time)\n",
     "        self.slots[s] = None\n"
     "        out[:size] =",
     "        self.done = slot.key\n"
     "        self.slots[s] = None\n"
     "        out[:size] ="),
    ("covered when the last part has come", BOTH,
     "if sum(length for _, length, _ in slot.parts) < size:",
     "if max(first + length for first, length, _ in slot.parts) < size:"),
    ("covered when first and last part have come", BOTH,
     "if sum(length for _, length, _ in slot.parts) < size:",
     "if not (slot.parts and min(slot.parts)[0] == 0 and max(slot.parts)[0] + max(slot.parts)[1] == size):"),
    ("covered in units rounded down", BOTH,
     "if sum(length for _, length, _ in slot.parts) < size:",
     "if sum(length // 8 for _, length, _ in slot.parts) < size // 8:"),
    ("the slot stays after the cover", BOTH,
     "        self.slots[s] = None\n"
     "        out[:size] =",
     "        out[:size] ="),

    # The checksum.
    ("elision remembered from any part", CALLS,
     "        if begin == 0:\n"
     "            slot.sum = places\n",
     "        slot.sum = places\n"),
    ("elision of the last taking or repeat", CALLS,
     "        elif self.judge_against_taken(s, begin, data):\n",
     "        elif self.judge_against_taken(s, begin, data):\n"
     "            if begin == 0:\n"
     "                self.slots[s].sum = places\n"),
    ("elided never remembered", CALLS,
     "            slot.sum = places\n",
     "            pass\n"),
    ("a carried checksum is computed too", CALLS, "    if places.elided:\n", "    if True:\n"),
    ("a carried 0 is computed", CALLS,
     "places = Sum(header.checksum is None, ",
     "places = Sum(not header.checksum, "),
    ("elided and carried 0 are different parts", BOTH,
     "first == begin and length == len(data) and taken == data:",
     "first == begin and length == len(data) and taken == data and (begin or self.slots[s].sum == "
     "self.sum_now):",
     "        s = self.find(key)\n",
     "        self.sum_now = places\n"
     "        s = self.find(key)\n"),
    ("0 stays 0", CALLS, "    return checksum or 0xffff", "    return checksum"),
    ("the odd byte is padded in front", CALLS,
     "        data = data + b\"\\0\"\n"
     "    total",
     "        data = data[:-1] + b\"\\0\" + data[-1:]\n"
     "    total"),
    ("the odd byte is left out", CALLS,
     "        data = data + b\"\\0\"\n"
     "    total",
     "        data = data[:-1]\n"
     "    total"),
    ("no pseudo-header length", CALLS, "len(upper).to_bytes(4, \"big\")", "bytes(4)"),
    ("no next header in the pseudo-header", CALLS, "bytes([0, 0, 0, UDP])", "bytes(4)"),
    ("carry added once", CALLS, "    while total >> 16:", "    if total >> 16:"),
    ("an unfragmented checksum stays 0", CALLS,
     "        data = finished(expanded.data, expanded.sum)\n",
     "        data = expanded.data\n"),

    # A carried checksum is tested (02, item 7).
    ("a carried checksum is not tested in a slot", BOTH,
     "        out[:size] = finished(datagram, slot.sum)\n",
     "        out[:size] = finished(datagram, slot.sum if slot.sum and slot.sum.elided else None)\n"),
    ("a carried checksum is not tested in a whole frame", BOTH,
     "        data = finished(expanded.data, expanded.sum)\n",
     "        data = finished(expanded.data, expanded.sum if expanded.sum and expanded.sum.elided else None)\n"),
    ("a carried 0 is let through", BOTH,
     "    if carried !=",
     "    if carried != 0 and carried !="),
    ("a carried 0 is let through where the sum is 0", BOTH,
     "    if carried != udp_checksum(datagram, places):\n",
     "    if carried % 0xffff != udp_checksum(datagram, places) % 0xffff:\n"),
    ("a carried ffff never holds", BOTH,
     "    if carried !=",
     "    if carried == 0xffff:\n"
     "        raise Refused(17)\n"
     "    if carried !="),
    ("a wrong checksum is put right", BOTH,
     "        raise Refused(17)\n",
     "        return with_checksum(datagram, places)\n"),
    ("17 is 10", BOTH, "        raise Refused(17)\n", "        raise Refused(10)\n"),
    ("17 keeps the slot", BOTH,
     "        self.slots[s] = None\n"
     "        out[:size] = finished(datagram, slot.sum)\n",
     "        out[:size] = finished(datagram, slot.sum)\n"
     "        self.slots[s] = None\n"),
    ("17 keeps the slot without its last part", BOTH,
     "        self.slots[s] = None\n"
     "        out[:size] = finished(datagram, slot.sum)\n",
     "        last = slot.parts.pop()\n"
     "        out[:size] = finished(datagram, slot.sum)\n"
     "        slot.parts.append(last)\n"
     "        self.slots[s] = None\n"),
    ("17 frees every slot of the gateway", BOTH,
     "        out[:size] = finished(datagram, slot.sum)\n",
     "        if number_of(finished, datagram, slot.sum) == 17:\n"
     "            self.slots = [None if x and x.key[0] == slot.key[0] else x for x in self.slots]\n"
     "        out[:size] = finished(datagram, slot.sum)\n"),
    ("17 before the part is written", LENT,
     "        mem[place:place + len(data)] = data\n"
     "        slot.parts.append((begin, len(data), data))\n",
     "        slot.parts.append((begin, len(data), data))\n",
     "        if sum(length for _, length, _ in slot.parts) < size:\n",
     "        taken = b\"\".join(one for _, _, one in sorted(slot.parts))\n"
     "        whole = len(taken) == size\n"
     "        if not whole or number_of(finished, taken, slot.sum) != 17:\n"
     "            mem[place:place + len(data)] = data\n"
     "        if not whole:\n"),
    ("17 with the output written", LENT,
     "        out[:size] = finished(datagram, slot.sum)\n",
     "        out[:size] = datagram\n"
     "        out[:size] = finished(datagram, slot.sum)\n"),
    ("17 of a whole frame with the output written", LENT,
     "        data = finished(expanded.data, expanded.sum)\n",
     "        out[:len(expanded.data)] = expanded.data\n"
     "        data = finished(expanded.data, expanded.sum)\n"),
    ("17 wipes the slot's memory", LENT,
     "        out[:size] = finished(datagram, slot.sum)\n",
     "        if number_of(finished, datagram, slot.sum) == 17:\n"
     "            mem[SLOT_BYTES * s:SLOT_BYTES * s + size] = bytes(size)\n"
     "        out[:size] = finished(datagram, slot.sum)\n"),
    ("a carried checksum behind routing is tested", BOTH, "replace(udp, judged=not routed)", "replace(udp, judged=True)"),
    ("only outside tunnels is one tested", BOTH, "    if carried !=", "    if places.ip == 0 and carried !="),
    ("only without extension headers is one tested", BOTH,
     "    if carried !=",
     "    if places.ip + IPV6_HEADER == places.udp and carried !="),
    ("a first part's checksum is tested at once", BOTH,
     "            data, places = expanded.data, expanded.sum\n",
     "            data, places = expanded.data, expanded.sum\n"
     "            if places and not places.elided:\n"
     "                finished(data, places)\n"),
    ("17 before 11 and 12", BOTH,
     "        key = (sender_of(mac), mac.dst, fragment.size, fragment.tag)\n",
     "        if end == fragment.size and begin == 0:\n"
     "            finished(data, places)\n"
     "        key = (sender_of(mac), mac.dst, fragment.size, fragment.tag)\n"),
    ("only the low byte is tested", BOTH,
     "carried != udp_checksum(datagram, places):",
     "carried & 0xff != udp_checksum(datagram, places) & 0xff:"),
    ("only the high byte is tested", BOTH,
     "carried != udp_checksum(datagram, places):",
     "carried >> 8 != udp_checksum(datagram, places) >> 8:"),
    ("tested without the addresses", BOTH,
     "carried != udp_checksum(datagram, places):",
     "carried != udp_checksum(bytes(places.udp) + datagram[places.udp:], places):"),
    ("a UDP header in line is tested too", BOTH,
     "            data += ipv6_header(header, next_header, left - IPV6_HEADER)\n",
     "            data += ipv6_header(header, next_header, left - IPV6_HEADER)\n"
     "            if behind is None and next_header == UDP and left >= 48:\n"
     "                places = Sum(False, ip, len(data))\n"),

    # Expansion.
    ("length of the part for that of the datagram", CALLS,
     "total = own if size is None else size",
     "total = own if size is None else max(own, min(own, size))"),
    ("UDP length without its header", CALLS,
     "(udp.src_port, udp.dst_port, length, ",
     "(udp.src_port, udp.dst_port, length - 8, "),
    ("ecn and dscp as they come", CALLS, "(iphc.dscp * 4 + iphc.ecn // 64)", "(iphc.ecn + iphc.dscp)"),
    ("flow label of 16 bits, TF=00", CALLS, "(b[1] & 0x0f) << 16 | b[2] << 8 | b[3]", "b[2] << 8 | b[3]"),
    ("flow label of 16 bits, TF=01", CALLS, "(b[0] & 0x0f) << 16 | b[1] << 8 | b[2]", "b[1] << 8 | b[2]"),
    ("padding in the label, TF=00", CALLS, "(b[1] & 0x0f) << 16 | b[2] << 8", "b[1] << 16 | b[2] << 8"),
    ("padding in the label, TF=01", CALLS, "(b[0] & 0x0f) << 16 | b[1] << 8", "(b[0] & 0x3f) << 16 | b[1] << 8"),
    ("the label's top bits not expanded", CALLS, "<< 20 | iphc.flow", "<< 20 | iphc.flow & 0xffff"),
    ("TF=01 takes four bytes", CALLS, "b = reader.take(3)", "b = reader.take(4)"),
    ("hop limits 1 and 64 changed round", CALLS, "(1, 64, 255)", "(64, 1, 255)"),
    ("universal/local bit not turned", CALLS, "address[0] ^ 2", "address[0]"),
    # Extension headers (02, item 5).
    ("extension headers refused 13 at their first byte", BOTH,
     "        if len(headers) == MOST_HEADERS:\n",
     "        raise Refused(13)\n"
     "        if len(headers) == MOST_HEADERS:\n"),
    ("padding to four", BOTH, "padding(-(length + 2) % 8)", "padding(-(length + 2) % 4)"),
    ("no padding", BOTH, "        body += padding(-(length + 2) % 8)\n", "        pass\n"),
    ("padding without the first two bytes", BOTH, "padding(-(length + 2) % 8)", "padding(-length % 8)"),
    ("eight bytes of padding where none is needed", BOTH, "padding(-(length + 2) % 8)", "padding(8 - (length + 2) % 8)"),
    ("PadN's length one more", CALLS, "bytes([1, count - 2])", "bytes([1, count - 1])"),
    ("PadN's length with its first two bytes", CALLS, "bytes([1, count - 2])", "bytes([1, count])"),
    ("Pad1 for each byte", CALLS,
     "    return bytes([1, count - 2]) + bytes(count - 2)\n",
     "    return bytes(count)\n"),
    ("PadN for one byte", CALLS, "        return bytes(count)\n    return bytes([1,", "        return bytes([1] * count)\n    return bytes([1,"),
    ("PadN filled with ones", CALLS, "bytes([1, count - 2]) + bytes(count - 2)", "bytes([1, count - 2]) + bytes([1]) * (count - 2)"),
    ("padding of all extension headers", BOTH,
     "    if number not in OPTIONS and (length + 2) % 8 != 0:\n"
     "        raise Refused(3)\n",
     "",
     "    if number in OPTIONS:\n",
     "    if True:\n"),
    ("mobility is padded", BOTH, "OPTIONS = (HOP_BY_HOP, DESTINATION_OPTIONS)", "OPTIONS = (HOP_BY_HOP, DESTINATION_OPTIONS, MOBILITY)"),
    ("routing is padded", BOTH, "OPTIONS = (HOP_BY_HOP, DESTINATION_OPTIONS)", "OPTIONS = (HOP_BY_HOP, DESTINATION_OPTIONS, ROUTING)"),
    ("destination options are not padded", BOTH, "OPTIONS = (HOP_BY_HOP, DESTINATION_OPTIONS)", "OPTIONS = (HOP_BY_HOP,)"),
    ("a bad length only of routing", BOTH,
     "    if number not in OPTIONS and (length",
     "    if number == ROUTING and (length"),
    ("a bad length without the first two bytes", BOTH, "number not in OPTIONS and (length + 2) % 8", "number not in OPTIONS and length % 8"),
    ("a bad length once its bytes are taken", BOTH,
     "    if number not in OPTIONS and (length + 2) % 8 != 0:\n"
     "        raise Refused(3)\n"
     "    body = reader.take(length)\n",
     "    body = reader.take(length)\n"
     "    if number not in OPTIONS and (length + 2) % 8 != 0:\n"
     "        raise Refused(3)\n"),
    ("a bad length is 4", BOTH, "(length + 2) % 8 != 0:\n        raise Refused(3)", "(length + 2) % 8 != 0:\n        raise Refused(4)"),
    ("no options is refused", BOTH,
     "    body = reader.take(length)\n",
     "    if length == 0:\n"
     "        raise Refused(3)\n"
     "    body = reader.take(length)\n"),
    ("a length in eight octets", BOTH,
     "    body = reader.take(length)\n",
     "    length = 8 * length + 6\n"
     "    body = reader.take(length)\n"),
    ("a length with the first two bytes", BOTH, "    body = reader.take(length)\n", "    body = reader.take(max(0, length - 2))\n"),
    ("a length before the next header", BOTH,
     "    next_header = None if compressed else reader.byte()\n"
     "    length = reader.byte()\n",
     "    length = reader.byte()\n"
     "    next_header = None if compressed else reader.byte()\n"),
    ("the next header is read when it is compressed", BOTH, "None if compressed else reader.byte()", "reader.byte() if compressed else None"),
    ("fewer bytes than the length are enough", BOTH,
     "    body = reader.take(length)\n",
     "    length = min(length, len(reader.rest()))\n"
     "    body = reader.take(length)\n"),
    ("headers are counted from 0", BOTH, "if len(headers) == MOST_HEADERS:", "if len(headers) == MOST_HEADERS + 1:"),
    ("seven headers", BOTH, "if len(headers) == MOST_HEADERS:", "if len(headers) == MOST_HEADERS - 1:"),
    ("any number of headers", BOTH, "if len(headers) == MOST_HEADERS:", "if False:"),
    ("UDP is counted", BOTH,
     "        if head >> 4 != 0b1110:\n",
     "        if len(headers) == MOST_HEADERS and head >> 3 == 0b11110:\n"
     "            raise Refused(3)\n"
     "        if head >> 4 != 0b1110:\n"),
    ("the ninth is 3 whatever it is", BOTH,
     "        if head >> 4 != 0b1110:\n",
     "        if len(headers) == MOST_HEADERS and head >> 3 != 0b11110:\n"
     "            raise Refused(3)\n"
     "        if head >> 4 != 0b1110:\n"),
    ("the ninth is 3 before it is there", BOTH,
     "        head = Reader(reader.rest()).byte()\n",
     "        if len(headers) == MOST_HEADERS and not reader.rest():\n"
     "            raise Refused(3)\n"
     "        head = Reader(reader.rest()).byte()\n"),
    ("only IPv6 headers are counted", BOTH,
     "if len(headers) == MOST_HEADERS:",
     "if sum(isinstance(header, Iphc) for header in headers) == MOST_HEADERS:"),
    ("IPv6 headers are not counted", BOTH,
     "if len(headers) == MOST_HEADERS:",
     "if 1 + sum(not isinstance(header, Iphc) for header in headers) == MOST_HEADERS:"),
    ("counted anew in each IPv6 header", BOTH,
     "if len(headers) == MOST_HEADERS:",
     "if len(headers) - headers.index(around) == MOST_HEADERS:"),
    ("an EID is judged before the ninth header", BOTH,
     "        if len(headers) == MOST_HEADERS:\n",
     "        if head >> 1 & 7 in (2, 5, 6):\n"
     "            raise Refused(13)\n"
     "        if len(headers) == MOST_HEADERS:\n"),
    ("the ninth header is 3 once it is read", BOTH,
     "        if len(headers) == MOST_HEADERS:\n",
     "        if len(headers) == MOST_HEADERS and head >> 1 & 7 in EXTENSIONS:\n"
     "            reader.take(1)\n"
     "            read_extension(reader, EXTENSIONS[head >> 1 & 7], head & 1)\n"
     "        if len(headers) == MOST_HEADERS:\n"),
    ("the fragment EID is 3", BOTH,
     "        else:\n"
     "            raise Refused(13)\n",
     "        else:\n"
     "            raise Refused(3 if eid == 2 else 13)\n"),
    ("EID 5 and 6 are 3", BOTH,
     "        else:\n"
     "            raise Refused(13)\n",
     "        else:\n"
     "            raise Refused(13 if eid == 2 else 3)\n"),
    ("EID 2, 5 and 6 are read first", BOTH,
     "        else:\n"
     "            raise Refused(13)\n",
     "        else:\n"
     "            reader.take(1 if compressed else 2)\n"
     "            raise Refused(13)\n"),
    ("EID 5 as EID 4", BOTH, "3: DESTINATION_OPTIONS, 4: MOBILITY}", "3: DESTINATION_OPTIONS, 4: MOBILITY, 5: MOBILITY}"),
    ("EID 7 with NH is let through", BOTH,
     "            if compressed:\n"
     "                raise Refused(3)\n",
     ""),
    ("EID 7 with NH is 13", BOTH,
     "            if compressed:\n"
     "                raise Refused(3)\n",
     "            if compressed:\n"
     "                raise Refused(13)\n"),
    ("EID 7 with NH is 3 once its header is read", BOTH,
     "            if compressed:\n"
     "                raise Refused(3)\n"
     "            around = read_iphc(reader.rest(), around.src, around.dst, contexts)\n",
     "            around = read_iphc(reader.rest(), around.src, around.dst, contexts)\n"
     "            if compressed:\n"
     "                raise Refused(3)\n"),
    ("a next header behind EID 7", BOTH,
     "            around = read_iphc(reader.rest(), around.src, around.dst, contexts)\n",
     "            reader.take(1)\n"
     "            around = read_iphc(reader.rest(), around.src, around.dst, contexts)\n"),
    ("EID 7 is any other extension header", BOTH, "        if eid == ANOTHER_IPHC:\n", "        if False:\n"),
    ("mobility is 0", CALLS, "HOP_BY_HOP, ROUTING, DESTINATION_OPTIONS, MOBILITY = 0, 43, 60, 135",
     "HOP_BY_HOP, ROUTING, DESTINATION_OPTIONS, MOBILITY = 0, 43, 60, 1000",
     "    return UDP if isinstance(header, UdpNhc) else header.number\n",
     "    return UDP if isinstance(header, UdpNhc) else header.number % 1000\n"),
    ("routing is 44", CALLS, "DESTINATION_OPTIONS, MOBILITY = 0, 43, 60, 135", "DESTINATION_OPTIONS, MOBILITY = 0, 44, 60, 135"),
    ("destination options are 59", CALLS, "DESTINATION_OPTIONS, MOBILITY = 0, 43, 60, 135", "DESTINATION_OPTIONS, MOBILITY = 0, 43, 59, 135"),
    ("mobility is 139", CALLS, "DESTINATION_OPTIONS, MOBILITY = 0, 43, 60, 135", "DESTINATION_OPTIONS, MOBILITY = 0, 43, 60, 139"),
    ("an inner IPv6 header is 4", CALLS, "IPV6 = 41 ", "IPV6 = 4 "),
    ("the outer header names the last one", CALLS, "else number_as_next(behind)", "else number_as_next(headers[-1])"),
    ("an extension header's length with its first unit", CALLS, "(2 + len(extension.body)) // 8 - 1", "(2 + len(extension.body)) // 8"),
    ("an extension header's length in octets", CALLS, "(2 + len(extension.body)) // 8 - 1", "len(extension.body) % 256"),
    ("an inner address from the MAC", CALLS,
     "read_iphc(reader.rest(), around.src, around.dst, contexts)",
     "read_iphc(reader.rest(), link_src, link_dst, contexts)"),
    ("an inner address from the outermost header", CALLS,
     "read_iphc(reader.rest(), around.src, around.dst, contexts)",
     "read_iphc(reader.rest(), headers[0].src, headers[0].dst, contexts)"),
    ("inner addresses changed round", CALLS,
     "read_iphc(reader.rest(), around.src, around.dst, contexts)",
     "read_iphc(reader.rest(), around.dst, around.src, contexts)"),
    ("an inner address with its universal/local bit turned", CALLS,
     "        return address[8:]\n",
     "        return bytes([address[8] ^ 2]) + address[9:]\n"),
    ("an inner address is the enclosing one", CALLS,
     "        iid = interface_identifier(around)\n",
     "        iid = interface_identifier(around)\n"
     "        if len(around) == 16:\n"
     "            return around\n"),
    ("an inner address of a context has the enclosing prefix", CALLS,
     "        iid = interface_identifier(around)\n",
     "        iid = interface_identifier(around)\n"
     "        if len(around) == 16 and by_context and number < len(contexts):\n"
     "            return around\n"),
    ("an inner address from the first 64 bits", CALLS, "        return address[8:]\n", "        return address[:8]\n"),
    ("no inner address from an address of zeros", BOTH,
     "    if not address:\n"
     "        raise Refused(6)\n",
     "    if not any(address):\n"
     "        raise Refused(6)\n"),
    ("no inner address from a group's", BOTH,
     "    if not address:\n"
     "        raise Refused(6)\n",
     "    if not address or len(address) == 16 and address[0] == 0xff:\n"
     "        raise Refused(6)\n"),
    ("an inner payload length from the outer header on", CALLS,
     "ipv6_header(header, next_header, left - IPV6_HEADER)",
     "ipv6_header(header, next_header, total - IPV6_HEADER)"),
    ("an inner payload length of the part's bytes", CALLS,
     "    data, places = write_headers(headers, total)\n",
     "    data, places = write_headers(headers, total)\n"
     "    if len([header for header in headers if isinstance(header, Iphc)]) > 1:\n"
     "        data = data[:40] + write_headers(headers, own)[0][40:]\n"),
    ("payload length without extension headers", CALLS,
     "ipv6_header(header, next_header, left - IPV6_HEADER)",
     "ipv6_header(header, next_header, left - IPV6_HEADER - (2 + len(behind.body) if isinstance(behind, Extension) else 0))"),
    ("UDP length from the IPv6 header on", CALLS, "udp_header(header, left)", "udp_header(header, total - ip - IPV6_HEADER)"),
    ("UDP length from the outer header on", CALLS, "udp_header(header, left)", "udp_header(header, total - IPV6_HEADER)"),
    ("the outer addresses in an inner checksum", CALLS, "            ip = len(data)\n", "            ip = 0\n"),
    ("a checksum over the extension headers too", CALLS,
     "    upper = datagram[places.udp:]\n"
     "    pseudo = addresses + len(upper).to_bytes(4, \"big\")",
     "    upper = datagram[places.udp:]\n"
     "    between = datagram[places.ip + IPV6_HEADER:places.udp]\n"
     "    pseudo = between + addresses + len(upper).to_bytes(4, \"big\")"),
    ("the payload length in the pseudo-header", CALLS,
     "    pseudo = addresses + len(upper).to_bytes(4, \"big\")",
     "    pseudo = addresses + len(datagram[places.ip + IPV6_HEADER:]).to_bytes(4, \"big\")"),
    ("the header's own next header in the pseudo-header", CALLS, "bytes([0, 0, 0, UDP])", "bytes([0, 0, 0, datagram[places.ip + 6]])"),
    ("a checksum at byte 46 in any chain", CALLS,
     "    return datagram[:places.udp + 6] + checksum + datagram[places.udp + UDP_HEADER:]\n",
     "    return datagram[:46] + checksum + datagram[48:]\n"),
    ("an elided checksum behind routing is computed", BOTH,
     "            if udp.checksum is None and routed:\n"
     "                raise Refused(13)\n"
     "            headers.append(replace(udp, judged=not routed))\n",
     "            headers.append(udp)\n"),
    ("an elided checksum behind routing stays 0", BOTH,
     "            if udp.checksum is None and routed:\n"
     "                raise Refused(13)\n",
     ""),
    ("13 before the UDP header is read", BOTH,
     "            udp = read_udp_nhc(reader.rest())\n",
     "            if routed and head >> 3 == 0b11110 and head & 4:\n"
     "                raise Refused(13)\n"
     "            udp = read_udp_nhc(reader.rest())\n"),
    ("a carried checksum behind routing is 13 too", BOTH, "            if udp.checksum is None and routed:\n", "            if routed:\n"),
    ("a routing header outside a tunnel counts", BOTH,
     "            headers.append(around)\n"
     "            routed = False\n",
     "            headers.append(around)\n"),
    ("only the header just before counts as routing", BOTH,
     "routed = routed or EXTENSIONS[eid] == ROUTING",
     "routed = EXTENSIONS[eid] == ROUTING"),
    ("any extension header counts as routing", BOTH, "routed = routed or EXTENSIONS[eid] == ROUTING", "routed = True"),
    ("mobility counts as routing", BOTH,
     "routed = routed or EXTENSIONS[eid] == ROUTING",
     "routed = routed or EXTENSIONS[eid] in (ROUTING, MOBILITY)"),
    ("UDP behind an extension header is 2", BOTH,
     "            udp = read_udp_nhc(reader.rest())\n",
     "            if len(headers) > 1:\n"
     "                raise Refused(2)\n"
     "            udp = read_udp_nhc(reader.rest())\n"),
    ("10 before the chain is read", BOTH,
     "    headers, rest = read_headers(payload, link_src, link_dst, contexts)\n",
     "    if size is not None and size < IPV6_HEADER and len(payload) > 2:\n"
     "        raise Refused(10)\n"
     "    headers, rest = read_headers(payload, link_src, link_dst, contexts)\n"),
    ("destination context from the high half", CALLS,
     "src_context, dst_context = both >> 4, both & 15",
     "src_context, dst_context = both >> 4, both >> 4"),
    ("context halves changed round", CALLS,
     "src_context, dst_context = both >> 4, both & 15",
     "src_context, dst_context = both & 15, both >> 4"),
    ("a shorter context at the end counts", CALLS, "range(len(flat) // 8)", "range((len(flat) + 7) // 8)"),
    ("a missing context is the link-local prefix", BOTH,
     "        raise Refused(5)\n",
     "        return bytes.fromhex(\"fe80000000000000\")\n"),
    ("5 before 1", BOTH,
     "    if mode == 0:\n"
     "        return reader.take(16)\n"
     "    if mode == 1:\n"
     "        iid",
     "    if by_context:\n"
     "        context(contexts, number)\n"
     "    if mode == 0:\n"
     "        return reader.take(16)\n"
     "    if mode == 1:\n"
     "        iid"),
    ("3 before the source step", BOTH,
     "    if sac and sam == 0:\n",
     "    if dac and (m or dam == 0):\n"
     "        raise Refused(3)\n"
     "    if sac and sam == 0:\n"),
    ("M=1 with DAC=1 read as without", BOTH, "if dac and (m or dam == 0):", "if dac and dam == 0:"),
    ("the reserved mode read as inline", BOTH, "if dac and (m or dam == 0):", "if dac and m:"),
    ("SAC=1 SAM=00 reserved", BOTH,
     "        src = bytes(16)\n",
     "        raise Refused(3)\n"),
    ("CID needs its contexts", BOTH,
     "        src_context, dst_context = both >> 4, both & 15\n",
     "        src_context, dst_context = both >> 4, both & 15\n"
     "        context(contexts, src_context)\n"),
    ("multicast of 48 bits put one early", CALLS, "bytes(9) + b[1:]", "bytes(8) + b[1:] + bytes(1)"),
    ("multicast of 32 bits put one early", CALLS, "bytes(11) + b[1:]", "bytes(10) + b[1:] + bytes(1)"),
    ("ports of 4 bits from f000", CALLS,
     "0xf0b0 + (both >> 4), 0xf0b0 + (both & 15)",
     "0xf000 + (both >> 4), 0xf000 + (both & 15)"),
    ("ports P=01 and P=10 changed round", CALLS,
     "    elif ports == 1:\n",
     "    elif ports == 2:\n"
     "        src = int.from_bytes(reader.take(2), \"big\")\n"
     "        dst = 0xf000 + reader.byte()\n"
     "    elif ports == 1:\n"
     "        src = 0xf000 + reader.byte()\n"
     "        dst = int.from_bytes(reader.take(2), \"big\")\n"
     "    elif ports == 9:\n"),
    ("10 of a first part after 12", BOTH,
     "    if own > total:\n"
     "        raise Refused(10)\n",
     "    if own > total:\n"
     "        raise Refused(12)\n"),

    # MAC.
    ("9 before 13", BOTH,
     "        if mac.secured or",
     "        if sender_of(mac) not in self.gateways:\n"
     "            raise Refused(9)\n"
     "        if mac.secured or"),
    ("6 before 9", BOTH,
     "        if sender_of(mac) not in self.gateways:\n"
     "            raise Refused(9)\n"
     "        if mac.dst == ABSENT:\n"
     "            raise Refused(6)\n",
     "        if mac.dst == ABSENT:\n"
     "            raise Refused(6)\n"
     "        if sender_of(mac) not in self.gateways:\n"
     "            raise Refused(9)\n"),
    ("dispatch before 6", BOTH,
     "        if mac.dst == ABSENT:\n"
     "            raise Refused(6)\n"
     "        payload = frame[mac.length:]\n",
     "        payload = frame[mac.length:]\n"
     "        dispatch(payload)\n"
     "        if mac.dst == ABSENT:\n"
     "            raise Refused(6)\n"),
    ("an absent destination is fine", BOTH,
     "            raise Refused(6)\n"
     "        payload",
     "            pass\n"
     "        payload"),
    # Relays' headers.
    ("V and F are exchanged", BOTH,
     "originator = reader.take(2 if first & 0b100000 else 8)",
     "originator = reader.take(2 if first & 0b10000 else 8)",
     "dst=reader.take(2 if first & 0b10000 else 8)",
     "dst=reader.take(2 if first & 0b100000 else 8)"),
    ("V, F set is an extended address", BOTH,
     "originator = reader.take(2 if first & 0b100000 else 8)",
     "originator = reader.take(8 if first & 0b100000 else 2)",
     "dst=reader.take(2 if first & 0b10000 else 8)",
     "dst=reader.take(8 if first & 0b10000 else 2)"),
    ("originator and final address are exchanged", BOTH,
     "mac = replace(mac, src=originator, dst=",
     "mac = replace(mac, dst=originator, src="),
    ("mesh addresses with the low byte first", BOTH,
     "mac = replace(mac, src=originator,",
     "mac = replace(mac, src=originator[::-1],"),
    ("no deep byte", BOTH, "reader.take(2 if first & 0b1111 == 0b1111 else 1)", "reader.take(1)"),
    ("a deep byte below 15 is refused", BOTH,
     "            reader.take(2 if first & 0b1111 == 0b1111 else 1)\n",
     "            taken = reader.take(2 if first & 0b1111 == 0b1111 else 1)\n"
     "            if len(taken) == 2 and taken[1] < 15:\n"
     "                raise Refused(3)\n"),
    ("a second mesh header is read", BOTH, "            if kinds:\n", "            if 'broadcast' in kinds:\n"),
    ("a mesh header behind a broadcast one is read", BOTH, "            if kinds:\n", "            if 'mesh' in kinds:\n"),
    ("a second broadcast header is read", BOTH, "            if \"broadcast\" in kinds:\n", "            if False:\n"),
    ("a second header is 3 once it is read", BOTH,
     "            if kinds:\n"
     "                raise Refused(3)\n",
     "            if kinds:\n"
     "                reader.take(5)\n"
     "                raise Refused(3)\n"),
    ("no number in a broadcast header", BOTH, "            reader.take(2)\n        else:", "            reader.take(1)\n        else:"),
    ("any 01010 begins a broadcast header", BOTH, "first == 0b01010000", "first >> 3 == 0b01010"),
    ("a broadcast header needs a mesh one", BOTH, "elif first == 0b01010000:", "elif first == 0b01010000 and kinds:"),
    ("nothing behind a relay is 1", BOTH,
     "    return replace(mac, length=reader.at)\n",
     "    if kinds and not reader.rest():\n"
     "        raise Refused(1)\n"
     "    return replace(mac, length=reader.at)\n"),
    ("9 tests the MAC's address", BOTH,
     "        mac = through_relays(mac, frame)\n"
     "        if sender_of(mac) not in self.gateways:\n",
     "        hop, mac = mac, through_relays(mac, frame)\n"
     "        if sender_of(hop) not in self.gateways:\n"),
    ("6 tests the MAC's address", BOTH,
     "        mac = through_relays(mac, frame)\n",
     "        hop, mac = mac, through_relays(mac, frame)\n",
     "        if mac.dst == ABSENT:\n",
     "        if hop.dst == ABSENT:\n"),
    ("relays before 13", BOTH,
     "        if mac.secured or",
     "        through_relays(mac, frame)\n"
     "        if mac.secured or"),
    ("9 before the relays' refusals", BOTH,
     "        mac = through_relays(mac, frame)\n",
     "        try:\n"
     "            mac = through_relays(mac, frame)\n"
     "        except Refused:\n"
     "            if sender_of(mac) not in self.gateways:\n"
     "                raise Refused(9)\n"
     "            raise\n"),

    ("secured frames are taken", BOTH, "if mac.secured or mac.elements", "if mac.elements"),
    ("any frame type is taken", BOTH, "mac.frame_type != 1:", "mac.frame_type not in (1, 5):"),
    ("information elements are let through", BOTH, "mac.elements or mac.frame_type", "mac.frame_type"),
    ("information elements in any version", BOTH, "version == 2 and bool(control & 0x0200)", "bool(control & 0x0200)"),
    ("information elements before the MAC header", BOTH,
     "        mac = read_mac(frame)\n",
     "        if len(frame) > 2 and frame[1] & 0x32 == 0x22:\n"
     "            raise Refused(13)\n"
     "        mac = read_mac(frame)\n"),
    ("a suppressed sequence number is read", BOTH, "None if suppressed else reader.byte()", "reader.byte()"),
    ("suppression in version 1", BOTH, "version == 2 and bool(control & 0x0100)", "version > 0 and bool(control & 0x0100)"),
    ("suppression in version 0 too", BOTH, "version == 2 and bool(control & 0x0100)", "bool(control & 0x0100)"),
    ("suppression for Multipurpose too", BOTH,
     "bool(control & 0x0100) and frame_type in (0, 1, 2, 3)",
     "bool(control & 0x0100) and frame_type in (0, 1, 2, 3, 5)"),
    ("suppression for Data alone", BOTH,
     "bool(control & 0x0100) and frame_type in (0, 1, 2, 3)",
     "bool(control & 0x0100) and frame_type == 1"),
    ("suppression, and two bytes are enough", BOTH,
     "    if len(frame) < 3:\n"
     "        raise Refused(1)\n",
     "    if len(frame) < (2 if len(frame) == 2 and frame[1] & 0x31 == 0x21 else 3):\n"
     "        raise Refused(1)\n"),
    ("the security header is not read", BOTH,
     "    if secured:\n",
     "    if False:\n"),
    ("the key identifier is not read", BOTH,
     "        reader.take((0, 1, 5, 9)[security >> 3 & 3])\n",
     ""),
    ("version 3 is read as 2", BOTH, "if version == 3 or dst_mode == 1", "if dst_mode == 1"),
    ("1 before 3", BOTH,
     "    if version == 3 or dst_mode",
     "    if len(frame) < 5:\n"
     "        raise Refused(1)\n"
     "    if version == 3 or dst_mode"),
    ("compression with both absent is read", BOTH,
     "    if version < 2 and compressed and dst_mode == 0 and src_mode == 0:\n"
     "        raise Refused(3)\n",
     ""),
    ("the Rust's source PAN, versions 0 and 1", BOTH,
     "return dst != 0, src != 0 and not (dst != 0 and compressed)",
     "return dst != 0, dst == 0 or (src != 0 and not compressed)"),
    # Without a destination and with its PAN left out a frame has none, which is 9 to heard's gateways in any case.
    ("the Rust's source PAN, version 2", CALLS,
     "        return False, not compressed\n"
     "    if dst == 3",
     "        return False, True\n"
     "    if dst == 3"),
    ("version 2 as version 1", BOTH,
     "    if version < 2:\n"
     "        return dst",
     "    if version < 3:\n"
     "        return dst"),
    ("version 2, both extended, uncompressed: both PANs", CALLS,
     "        return not compressed, False\n"
     "    return True, not compressed",
     "        return not compressed, not compressed\n"
     "    return True, not compressed"),
    ("frames of 128 bytes", CALLS, "LONGEST_FRAME = 127 ", "LONGEST_FRAME = 128 "),
    ("frames of 126 bytes", BOTH, "LONGEST_FRAME = 127 ", "LONGEST_FRAME = 126 "),
    ("addresses most significant byte first", BOTH,
     "    return reader.take(size)[::-1]",
     "    return reader.take(size)"),
    ("plain IPv6 is read as IPHC", BOTH,
     "    if payload[0] >> 5 == 0b011:\n"
     "        return",
     "    if payload[0] >> 5 in (0b011, 0b010):\n"
     "        return"),

    # Gateways.
    ("five gateways", CALLS, "MOST_GATEWAYS = 4 ", "MOST_GATEWAYS = 5 "),
    ("three gateways", CALLS, "MOST_GATEWAYS = 4 ", "MOST_GATEWAYS = 3 "),
    ("two equal gateways", CALLS, " or len(set(gateways)) != len(gateways)", ""),
    ("an absent gateway", CALLS, " or ABSENT in addresses", ""),
    ("short and extended of one number are equal", CALLS,
     "len(set(gateways))",
     "len(set(int.from_bytes(a, 'big') for a, pan in gateways))"),

    # Captures.
    ("frame check not tested", CAPTURES,
     "    if int.from_bytes(block[510:512], \"little\") != fcs(block[:510]):\n"
     "        raise Refused(15)\n",
     ""),
    ("frame check from ffff", CAPTURES,
     "    value = 0\n"
     "    for byte in data:",
     "    value = 0xffff\n"
     "    for byte in data:"),
    ("frame check most significant byte first", CAPTURES,
     "int.from_bytes(block[510:512], \"little\")",
     "int.from_bytes(block[510:512], \"big\")"),
    ("frame check of either order", CAPTURES,
     "    if int.from_bytes(block[510:512], \"little\") != fcs(block[:510]):",
     "    if fcs(block[:510]) not in (int.from_bytes(block[510:512], \"little\"), "
     "int.from_bytes(block[510:512], \"big\")):"),
    ("block number not tested", CAPTURES,
     "    if int.from_bytes(block[0:4], \"little\") != number:\n"
     "        raise Refused(15)\n",
     ""),
    ("block number of 16 bits", CAPTURES,
     "int.from_bytes(block[0:4], \"little\") != number",
     "int.from_bytes(block[0:2], \"little\") != number"),
    ("block number of 24 bits", CAPTURES,
     "int.from_bytes(block[0:4], \"little\") != number",
     "int.from_bytes(block[0:3], \"little\") != number"),
    ("block number most significant byte first", CAPTURES,
     "int.from_bytes(block[0:4], \"little\") != number",
     "int.from_bytes(block[0:4], \"big\") != number"),
    ("count 4 is 3", CAPTURES, "if count > PLACES or", "if count > PLACES + 1 or"),
    ("byte 5 not tested", CAPTURES, " or block[5] != 0", ""),
    ("zeros behind the places not tested", CAPTURES, " or any(block[6 + PLACES * PLACE:510])", ""),
    ("zeros tested to 508", CAPTURES, "block[6 + PLACES * PLACE:510]", "block[6 + PLACES * PLACE:509]"),
    ("zeros tested from 403", CAPTURES, "block[6 + PLACES * PLACE:510]", "block[7 + PLACES * PLACE:510]"),
    ("unused places not tested", CAPTURES,
     "            if any(place):\n"
     "                raise Refused(15)\n",
     ""),
    ("the time of an unused place not tested", CAPTURES,
     "            if any(place):\n",
     "            if any(place[4:]):\n"),
    ("the length of an unused place not tested", CAPTURES,
     "            if any(place):\n",
     "            if any(place[:4] + place[5:]):\n"),
    ("bytes behind a frame not tested", CAPTURES, " or any(place[5 + length:])", ""),
    ("length over 127 cut", CAPTURES, "if length > LONGEST_FRAME or any(", "if any("),
    ("a place of length 0 is skipped", CAPTURES,
     "        frames.append(",
     "        if length == 0:\n"
     "            continue\n"
     "        frames.append("),
    ("a short last block is ignored", CAPTURES,
     "for number in range((len(capture) + BLOCK - 1) // BLOCK):",
     "for number in range(len(capture) // BLOCK):"),
    ("a short last block is filled with zeros", CAPTURES,
     "    if len(block) != BLOCK:\n"
     "        raise Refused(15)\n",
     "    block = block.ljust(BLOCK, b\"\\0\")\n"),
    ("reading goes on after a bad block", CAPTURES,
     "            lines.append(f\"block {number} no {refused.number}\")\n"
     "            break\n",
     "            lines.append(f\"block {number} no {refused.number}\")\n"
     "            continue\n"),
    ("a bad block is numbered from 1", CAPTURES,
     "lines.append(f\"block {number} no",
     "lines.append(f\"block {number + 1} no"),
    ("a bad block is named by its field", CAPTURES,
     "lines.append(f\"block {number} no",
     "lines.append(f\"block {int.from_bytes(capture[512 * number:512 * number + 4], 'little')} no"),
    ("no end after a bad block", CAPTURES,
     "            break\n"
     "        for time",
     "            return lines\n"
     "        for time"),
    ("frames are numbered anew in each block", CAPTURES,
     "        for time, frame in frames:\n"
     "            count += 1\n"
     "            lines.append(f\"{count} ",
     "        for n, (time, frame) in enumerate(frames, 1):\n"
     "            count += 1\n"
     "            lines.append(f\"{n} "),
    ("end counts blocks", CAPTURES,
     "lines.append(f\"end {count}\")",
     "lines.append(f\"end {len(capture) // 512}\")"),
    ("a fresh table for each block", CAPTURES,
     "        for time, frame in frames:\n"
     "            count",
     "        table = Table(table.gateways)\n"
     "        for time, frame in frames:\n"
     "            count"),
    ("three gateways in heard", CAPTURES, "for n in (1, 2, 3, 4)]", "for n in (1, 2, 3)]"),
    ("time of 16 bits", CAPTURES,
     "int.from_bytes(place[0:4], \"little\")",
     "int.from_bytes(place[0:2], \"little\")"),
]


def load(name, *edits):
    """model.py with one reading changed: `edits` are pieces of its text and what stands for each."""
    path = os.path.join(os.path.dirname(os.path.abspath(__file__)), "model.py")
    with open(path) as file:
        text = file.read()
    for old, new in zip(edits[::2], edits[1::2]):
        if text.count(old) != 1:
            sys.exit(f"mutant '{name}': its text occurs {text.count(old)} times in model.py")
        text = text.replace(old, new)
    module = types.ModuleType("mutant")
    sys.modules["mutant"] = module
    exec(compile(text, f"mutant {name}", "exec"), module.__dict__)
    return module


class Known:
    """What the generators make and model.py answers, kept so that each mutant costs only its own answers."""

    def __init__(self, make, answer):
        self.make, self.answer, self.pairs = make, answer, []

    def pair(self, number):
        while len(self.pairs) <= number:
            made = self.make(len(self.pairs))
            self.pairs.append((made, self.answer(made)))
        return self.pairs[number]

    def first(self, answer, count):
        for number in range(count):
            made, right = self.pair(number)
            try:
                given = answer(made)
            except (IndexError, KeyError, ValueError, OverflowError) as error:
                given = str(error)
            if given != right:
                return number
        return None


def main():
    parser = argparse.ArgumentParser(description="do captures.py and calls.py tell model.py from its mutants?")
    parser.add_argument("--count", type=int, default=10000)
    parser.add_argument("--seed", type=int, default=1)
    parser.add_argument("names", nargs="*", help="only these mutants")
    given = parser.parse_args()
    known_captures = Known(lambda n: captures.encode(captures.make(given.seed, n)), model.heard)
    known_calls = Known(lambda n: calls.make(given.seed, n), calls.expected)
    known_lent = Known(lambda n: calls.make(given.seed, n), calls.watched)
    through = 0
    chosen = [mutant for mutant in MUTANTS if not given.names or mutant[0] in given.names]
    for name, faces, *edits in chosen:
        mutant = load(name, *edits)
        found = []
        for shows, known, answer in ((faces in (BOTH, CAPTURES), known_captures, mutant.heard),
                                     (faces in (BOTH, CALLS), known_calls, lambda lines: calls.expected(lines, mutant)),
                                     (faces == LENT, known_lent, lambda lines: calls.watched(lines, mutant))):
            number = known.first(answer, given.count) if shows else "-"
            found.append("NOT NOTICED" if number is None else number)
        through += "NOT NOTICED" in found
        run = found[2] if faces == LENT else found[1]
        print(f"{name:<60} capture {found[0]:>11}   run {run:>11}", flush=True)
    print(f"{len(chosen)} mutants, {through} get through")
    sys.exit(1 if through else 0)


if __name__ == "__main__":
    main()
