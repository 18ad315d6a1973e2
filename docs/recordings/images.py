#!/usr/bin/env python3
"""images.py: makes the files that the gate program `images` loads. Nothing of the bench takes part.

    docs/recordings/images.py FOLDER     writes NAME, NAME.want (crates/images/data) and `list` (crates/images/args)
    docs/recordings/images.py --paper    prints the entries of docs/RECORDINGS.md

Needs srec_cat, objcopy (Debian: srecord, binutils) and a python3 with intelhex (Debian: python3-intelhex).

What is expected of each file stands here by hand: the number, the line, and of a file that is loaded the bytes that it
names. A reader of the rule (request E1, D41 to D52), `loaded` below, must come to the same, or nothing is written.

NAME is the text. `list` has a line for each, `P:NN:LLLLL:NAME`: the part (1 the 24CSM01, 2 the 24CS32), the number of
the refusal in two decimal digits (00 is loaded), the line at fault in five (00000 where it is loaded), the name.
NAME.want is what an erased array holds when the file was loaded: the text that the bench saves, without the rows of 16
that are erased (FFh); where a file is refused there is none, since the array stays as it was.
"""
import hashlib
import os
import re
import subprocess
import sys
import tempfile
import textwrap

SIZES = {1: 131_072, 2: 4_096}
BIG, SMALL = 1, 2
DATA, END, UPPER = 0, 1, 4
WIDTH = 120


def array(part):
    """The array of the tools' recordings: byte a is byte a % 32 of the SHA-256 of the decimal number a / 32."""
    rows = (hashlib.sha256(b"%d" % row).digest() for row in range(SIZES[part] // 32))
    return b"".join(rows)


# ---- texts


def rec(kind, address, data=b"", end="\n"):
    """A right record."""
    body = bytes((len(data), address // 256, address % 256, kind)) + bytes(data)
    return ":" + (body + bytes((-sum(body) % 256,))).hex().upper() + end


def upper(bits):
    return rec(UPPER, 0, bits.to_bytes(2, "big"))


def count(length, first=1):
    """The bytes first, first + 1 and so on."""
    return bytes((first + n) % 256 for n in range(length))


LAST = rec(END, 0)
GOOD = rec(DATA, 0x0010, b"\x41\x42\x43")  # a right record to stand before or behind another


# ---- the rule, read once more (not the bench's reading, and not the model's)

RECORD = re.compile(rb":((?:[0-9A-Fa-f]{2}){5,260})\r?\n")


def loaded(text, size):
    """(number, line, array) of an erased array of this size."""
    content = bytearray(b"\xFF" * size)
    at, line, high = 0, 1, 0
    while at < len(text):
        found = RECORD.match(text, at)
        record = bytes.fromhex(found[1].decode()) if found else b""
        if len(record) < 5 or len(record) != 5 + record[0] or (record[3], record[0]) in OTHER_LENGTHS:
            return 20, line, None
        if sum(record) % 256:
            return 21, line, None
        kind, data = record[3], record[4:-1]
        if kind not in (DATA, END, UPPER):
            return 22, line, None
        first = high * 0x10000 + record[1] * 256 + record[2]
        if kind == DATA and data and first + len(data) > size:
            return 23, line, None
        at, line = found.end(), line + 1
        if kind == END:
            return (0, 0, content) if at == len(text) else (24, line, None)
        if kind == UPPER:
            high = data[0] * 256 + data[1]
        else:
            content[first : first + len(data)] = data or content[first:first]
    return 24, line, None


OTHER_LENGTHS = {(END, n) for n in range(1, 256)} | {(UPPER, n) for n in range(256) if n != 2}


def wanted(content):
    """The text that is saved, without the rows that are erased."""
    text, high = [], 0
    for at in range(0, len(content), 16):
        if at // 0x10000 != high:
            high = at // 0x10000
            text.append(upper(high))
        if content[at : at + 16] != b"\xFF" * 16:
            text.append(rec(DATA, at % 0x10000, content[at : at + 16]))
    return "".join(text) + LAST


# ---- what the tools write

PARTS_OF_A_24CSM01 = ((0x0, 0x40), (0xFFF5, 0x10013), (0x1FFE1, 0x20000))
PARTS_OF_A_24CS32 = ((0x3, 0x14), (0x7F8, 0x809), (0xFFF, 0x1000))
A_HEX = "python3 -c \"import intelhex; i = intelhex.IntelHex(); i.loadbin('a.bin')\n"
M_HEX = "python3 -c \"import intelhex; i = intelhex.IntelHex(); i.loadbin('m.bin')\n"
CROP_32 = "0x3 0x14 0x7F8 0x809 0xFFF 0x1000"
CROP_M01 = "0x0 0x40 0xFFF5 0x10013 0x1FFE1 0x20000"

# name, part, number, line, which addresses it names (None: all), the command, what it shows
TOOLS = [
    ("srec_cat_24cs32", SMALL, 0, 0, None, "srec_cat a.bin -Binary -o NAME -Intel -Output_Block_Size=16",
     "a whole 24CS32 by srec_cat, 16 bytes a record: what the bench saves, behind a type 04 record"),
    ("srec_cat_24cs32_by_32", SMALL, 0, 0, None, "srec_cat a.bin -Binary -o NAME -Intel",
     "the same as srec_cat writes it unasked, 32 bytes a record"),
    ("objcopy_24cs32", SMALL, 0, 0, None, "objcopy -I binary -O ihex a.bin NAME",
     "the same by objcopy, lines in CR LF"),
    ("intelhex_24cs32", SMALL, 0, 0, None, A_HEX + "i.write_hex_file('NAME')\"", "the same by intelhex"),
    ("intelhex_24cs32_by_255", SMALL, 0, 0, None, A_HEX + "i.write_hex_file('NAME', eolstyle='CRLF', byte_count=255)\"",
     "the same by intelhex, 255 bytes a record, lines in CR LF"),
    ("srec_cat_24cs32_parts", SMALL, 0, 0, PARTS_OF_A_24CS32,
     f"srec_cat a.bin -Binary -crop {CROP_32} \\\n    -o NAME -Intel -Output_Block_Size=16",
     "three parts of a 24CS32 by srec_cat, up to its last byte"),
    ("objcopy_24cs32_parts", SMALL, 0, 0, PARTS_OF_A_24CS32, "objcopy -I ihex -O ihex srec_cat_24cs32_parts NAME",
     "the same by objcopy"),
    ("intelhex_24cs32_parts", SMALL, 0, 0, PARTS_OF_A_24CS32,
     A_HEX + "j = i[0x3:0x14]; j.merge(i[0x7F8:0x809]); j.merge(i[0xFFF:0x1000])\nj.write_hex_file('NAME')\"",
     "the same by intelhex"),
    ("srec_cat_24csm01_parts", BIG, 0, 0, PARTS_OF_A_24CSM01,
     f"srec_cat m.bin -Binary -crop {CROP_M01} \\\n    -o NAME -Intel -Output_Block_Size=16",
     "three parts of a 24CSM01 by srec_cat: its first bytes, over 10000h, up to its last byte"),
    ("intelhex_24csm01_parts", BIG, 0, 0, PARTS_OF_A_24CSM01,
     M_HEX + "j = i[0:0x40]; j.merge(i[0xFFF5:0x10013]); j.merge(i[0x1FFE1:0x20000])\nj.write_hex_file('NAME')\"",
     "the same by intelhex"),
    ("objcopy_24csm01_parts_02", BIG, 22, 6, None, "objcopy -I ihex -O ihex srec_cat_24csm01_parts NAME",
     "the same by objcopy, which writes a type 02 record for the upper half (D49)"),
    ("objcopy_24csm01_parts", BIG, 0, 0, PARTS_OF_A_24CSM01,
     "srec_cat objcopy_24csm01_parts_02 -Intel -o NAME -Intel", "that, with type 04 records made of them by srec_cat"),
]

# ---- by hand: name, part, number, line, what it names (address: bytes), the text, what it shows

HAND = {
    "Loaded": [
        ("the_end_alone", SMALL, {}, LAST, "an end record alone names no byte, and is a whole text"),
        ("one_byte", SMALL, {0: b"\x41"}, ":0100000041BE\n:00000001FF\n", "one byte"),
        ("lower_case", SMALL, {0xABC: b"\xAB\xCD\xEF"}, ":030abc00abcdefd0\n:00000001ff\n", "digits in lower case"),
        ("both_cases", SMALL, {0xABC: b"\xAB\xCD\xEF"}, ":030aBC00AbcDEfD0\n:00000001fF\n",
         "digits of both cases in one record"),
        ("cr_lf", SMALL, {0x10: b"\x41\x42\x43"}, GOOD.replace("\n", "\r\n") + LAST.replace("\n", "\r\n"),
         "lines that end in CR LF"),
        ("lf_and_cr_lf", SMALL, {0x10: b"\x41\x42\x43", 0x20: b"\x44", 0x30: b"\x45"},
         GOOD + rec(DATA, 0x20, b"\x44", "\r\n") + rec(DATA, 0x30, b"\x45") + LAST.replace("\n", "\r\n"),
         "LF and CR LF in one text"),
        ("no_data_bytes", SMALL, {}, rec(DATA, 0) + rec(DATA, 0x10) + LAST, "records of no data bytes"),
        ("255_data_bytes", SMALL, {0x101: count(255)}, rec(DATA, 0x101, count(255)) + LAST,
         "255 data bytes in a record"),
        ("255_data_bytes_to_the_end", SMALL, {0xF01: count(255)}, rec(DATA, 0xF01, count(255)) + LAST,
         "255 data bytes up to the last byte of a 24CS32"),
        ("a_later_record_replaces", SMALL, {0x20: b"\x01\x02\x55\x66\x05\x06\x77\x08"},
         rec(DATA, 0x20, count(8)) + rec(DATA, 0x22, b"\x55\x66") + rec(DATA, 0x26, b"\x77") + LAST,
         "a later record replaces bytes of an earlier one"),
        ("a_later_record_replaces_all", SMALL, {0x1F: b"\xAA" * 18},
         rec(DATA, 0x20, count(16)) + rec(DATA, 0x1F, b"\xAA" * 18) + LAST,
         "a later record over all of an earlier one"),
        ("records_from_above", SMALL, {0x100: b"\x03", 0x200: b"\x02", 0x300: b"\x01"},
         rec(DATA, 0x300, b"\x01") + rec(DATA, 0x200, b"\x02") + rec(DATA, 0x100, b"\x03") + LAST,
         "addresses need not rise"),
        ("24cs32_fff_with_one", SMALL, {0xFFF: b"\x41"}, ":010FFF0041B0\n" + LAST, "FFFh with one byte on a 24CS32"),
        ("24cs32_ff0_with_16", SMALL, {0xFF0: count(16)}, rec(DATA, 0xFF0, count(16)) + LAST,
         "FF0h with 16 bytes on a 24CS32"),
        ("04_first", SMALL, {0x10: b"\x41\x42\x43"}, ":020000040000FA\n" + GOOD + LAST, "a type 04 record that says 0"),
        ("04_there_and_back", BIG, {0x10: b"\x41\x42\x43", 0x10010: b"\x41\x42\x43", 0x20: b"\x09"},
         GOOD + upper(1) + GOOD + upper(0) + rec(DATA, 0x20, b"\x09") + LAST, "type 04 records anywhere"),
        ("10000_by_04", BIG, {0x10000: b"\x41"}, upper(1) + rec(DATA, 0, b"\x41") + LAST, "10000h under upper bits 1"),
        ("ffff_with_one", BIG, {0xFFFF: b"\x41"}, rec(DATA, 0xFFFF, b"\x41") + LAST,
         "FFFFh with one byte on a 24CSM01"),
        ("ffff_with_two", BIG, {0xFFFF: b"\x41\x42"}, rec(DATA, 0xFFFF, b"\x41\x42") + LAST,
         "FFFFh with two bytes: the second is at 10000h (D47)"),
        ("16_at_fff8_then_0000", BIG, {0xFFF8: count(16), 0: b"\xA0\xA1"},
         rec(DATA, 0xFFF8, count(16)) + rec(DATA, 0, b"\xA0\xA1") + LAST,
         "16 bytes at FFF8h, and the next record at 0000h is in the lower half again (D47)"),
        ("ffff_with_255", BIG, {0xFFFF: count(255)}, rec(DATA, 0xFFFF, count(255)) + LAST,
         "FFFFh with 255 bytes: 254 are past FFFFh (D47)"),
        ("1ffff_with_one", BIG, {0x1FFFF: b"\x41"}, upper(1) + rec(DATA, 0xFFFF, b"\x41") + LAST,
         "1FFFFh with one byte on a 24CSM01"),
        ("1ff01_with_255", BIG, {0x1FF01: count(255)}, upper(1) + rec(DATA, 0xFF01, count(255)) + LAST,
         "255 data bytes up to the last byte of a 24CSM01"),
        ("address_in_01", SMALL, {0x10: b"\x41\x42\x43"}, GOOD + ":00123401B9\n",
         "the address of an end record is ignored (D45)"),
        ("address_in_04", BIG, {0x10010: b"\x41\x42\x43"}, ":021234040001B3\n" + GOOD + LAST,
         "the address of a type 04 record is ignored (D45)"),
        ("no_data_bytes_past_the_array", SMALL, {0x10: b"\x41\x42\x43"}, rec(DATA, 0xFFFF) + GOOD + LAST,
         "a record of no bytes passes wherever it points (D46)"),
        ("04_past_the_array", SMALL, {0x10: b"\x41\x42\x43"}, GOOD + upper(0xFFFF) + rec(DATA, 0xFFFF) + LAST,
         "a type 04 record past the array passes while no byte is named under it (D46)"),
        ("04_past_the_array_and_back", BIG, {0x10: b"\x41\x42\x43"}, upper(2) + upper(0) + GOOD + LAST,
         "the same, and back before a byte is named (D46)"),
    ],
    "Refused: each number alone": [
        ("bad_digit_in_the_count", SMALL, (20, 2), GOOD + ":0G00000041BE\n" + LAST, "a digit of the count is none"),
        ("bad_digit_in_the_data", SMALL, (20, 2), GOOD + ":01000000:1BE\n" + LAST, "a colon for a digit"),
        ("bad_digit_in_the_sum", SMALL, (20, 2), GOOD + ":0100000041Bg\n" + LAST, "the last digit is none"),
        ("a_digit_too_few", SMALL, (20, 2), GOOD + ":0100000041B\n" + LAST, "a digit too few"),
        ("a_digit_too_many", SMALL, (20, 2), GOOD + ":0100000041BE0\n" + LAST, "a digit too many"),
        ("a_count_too_small", SMALL, (20, 2), GOOD + ":0100000041427C\n" + LAST,
         "count 1 and two data bytes; the sum would be right"),
        ("a_count_too_large", SMALL, (20, 2), GOOD + ":0200000041BD\n" + LAST, "count 2 and one data byte"),
        ("a_colon_alone", SMALL, (20, 1), ":\n" + LAST, "a colon alone"),
        ("four_bytes", SMALL, (20, 1), ":00000000\n" + LAST, "a record without its check byte"),
        ("no_colon", SMALL, (20, 2), GOOD + "0100000041BE\n" + LAST, "no colon"),
        ("a_semicolon", SMALL, (20, 2), GOOD + ";0100000041BE\n" + LAST, "a semicolon for the colon"),
        ("a_wrong_sum", SMALL, (21, 2), GOOD + ":0100000041BF\n" + LAST, "the check byte is one too high"),
        ("a_wrong_sum_of_the_end", SMALL, (21, 2), GOOD + ":00000001FE\n", "the same of an end record"),
        ("a_wrong_sum_of_04", BIG, (21, 1), ":020000040001FA\n" + GOOD + LAST, "the same of a type 04 record"),
        ("sum_of_the_data_alone", SMALL, (21, 1), ":0100100041BF\n" + LAST, "the check byte makes the data alone 0"),
        ("type_02", BIG, (22, 2), GOOD + ":020000021000EC\n" + LAST, "type 02 (D49)"),
        ("type_03", SMALL, (22, 2), GOOD + ":0400000300001234B3\n" + LAST, "type 03 (D49)"),
        ("type_05", SMALL, (22, 2), GOOD + ":0400000500001234B1\n" + LAST, "type 05 (D49)"),
        ("type_06", SMALL, (22, 2), GOOD + ":00000006FA\n" + LAST, "type 06, which nobody has"),
        ("type_ff", SMALL, (22, 2), GOOD + ":000000FF01\n" + LAST, "type FF"),
        ("24cs32_fff_with_two", SMALL, (23, 2), GOOD + ":020FFF0041426D\n" + LAST, "FFFh with two bytes on a 24CS32"),
        ("24cs32_ff1_with_16", SMALL, (23, 2), GOOD + rec(DATA, 0xFF1, count(16)) + LAST, "FF1h with 16 bytes"),
        ("24cs32_1000_with_one", SMALL, (23, 1), ":0110000041AE\n" + LAST, "1000h with one byte"),
        ("24cs32_by_04", SMALL, (23, 2), upper(1) + rec(DATA, 0, b"\x41") + LAST,
         "10000h on a 24CS32: upper bits count (D46)"),
        ("1ffff_with_two", BIG, (23, 2), upper(1) + rec(DATA, 0xFFFF, b"\x41\x42") + LAST,
         "1FFFFh with two bytes on a 24CSM01"),
        ("1ffff_with_255", BIG, (23, 2), upper(1) + rec(DATA, 0xFFFF, count(255)) + LAST, "1FFFFh with 255 bytes"),
        ("1ff02_with_255", BIG, (23, 2), upper(1) + rec(DATA, 0xFF02, count(255)) + LAST, "1FF02h with 255 bytes"),
        ("20000_with_one", BIG, (23, 2), upper(2) + rec(DATA, 0, b"\x41") + LAST, "20000h with one byte"),
        ("upper_bits_0100", BIG, (23, 2), upper(0x0100) + rec(DATA, 0, b"\x41") + LAST, "all 16 upper bits count"),
        ("ffffffff_with_255", BIG, (23, 2), upper(0xFFFF) + rec(DATA, 0xFFFF, count(255)) + LAST,
         "past 2^32 nothing goes round (D47)"),
        ("no_end", SMALL, (24, 2), GOOD, "no end record"),
        ("no_text", SMALL, (24, 1), "", "an empty text (D48)"),
    ],
    "Refused: two faults on one record, the lower number is given": [
        ("pair_20_21", SMALL, (20, 2), GOOD + ":01000000G1BE\n" + LAST, "a bad digit; without it the sum is wrong"),
        ("pair_20_22", SMALL, (20, 2), GOOD + ":02000002100EC\n" + LAST, "a digit too few, and type 02"),
        ("pair_20_23", SMALL, (20, 2), GOOD + ":02FFFF00414G7D\n" + LAST, "a bad digit, and FFFFh"),
        ("pair_20_24", SMALL, (20, 2), GOOD + ":0100000041BG\n", "a bad digit, and no end record"),
        ("pair_21_22", SMALL, (21, 2), GOOD + ":020000021000ED\n" + LAST, "a wrong sum, and type 02"),
        ("pair_21_23", SMALL, (21, 2), GOOD + ":020FFF0041426E\n" + LAST, "a wrong sum, and FFFh with two bytes"),
        ("pair_21_24", SMALL, (21, 2), GOOD + ":0100000041BF\n", "a wrong sum, and no end record"),
        ("pair_22_23", SMALL, (22, 2), GOOD + rec(2, 0xFFFF, b"\x10\x00") + LAST, "type 02, and FFFFh"),
        ("pair_22_24", SMALL, (22, 2), GOOD + ":020000021000EC\n", "type 02, and no end record"),
        ("pair_23_24", SMALL, (23, 2), GOOD + ":020FFF0041426D\n", "FFFh with two bytes, and no end record"),
    ],
    "Refused: the first record that fails decides (D41)": [
        ("22_in_line_1_20_in_line_2", SMALL, (22, 1), ":020000021000EC\n:G\n" + LAST, "22 in line 1, 20 in line 2"),
        ("21_in_line_1_20_in_line_2", SMALL, (21, 1), ":0100000041BF\n:G\n" + LAST, "21 in line 1, 20 in line 2"),
        ("23_in_line_1_20_in_line_2", SMALL, (23, 1), ":0110000041AE\n:G\n" + LAST, "23 in line 1, 20 in line 2"),
        ("23_in_line_2_21_in_line_3", SMALL, (23, 2), GOOD + ":0110000041AE\n:0100000041BF\n" + LAST,
         "23 in line 2, 21 in line 3"),
        ("20_in_line_3_no_end", SMALL, (20, 3), GOOD + GOOD + "\n", "20 in line 3, and no end record"),
    ],
    "Refused: line ends, blanks, text around records (D42, D43)": [
        ("last_line_without_lf", SMALL, (20, 2), GOOD + ":00000001FF", "the last line has no LF (D42)"),
        ("last_line_with_cr", SMALL, (20, 2), GOOD + ":00000001FF\r", "the last line has CR and no LF (D42)"),
        ("blank_line", SMALL, (20, 2), GOOD + "\n" + LAST, "a blank line before the end record (D43)"),
        ("blank_line_first", SMALL, (20, 1), "\r\n" + GOOD + LAST, "a blank first line, in CR LF (D43)"),
        ("blank_before_the_colon", SMALL, (20, 2), GOOD + " " + LAST, "a blank before the colon (D43)"),
        ("text_before_the_colon", SMALL, (20, 1), "x" + GOOD + LAST, "text before the colon (D43)"),
        ("blank_behind_the_sum", SMALL, (20, 1), GOOD.replace("\n", " \n") + LAST,
         "a blank behind the check byte (D43)"),
        ("cr_alone", SMALL, (20, 1), GOOD.replace("\n", "\r") + LAST, "a line that ends in CR alone (D43)"),
        ("cr_cr_lf", SMALL, (20, 1), GOOD.replace("\n", "\r\r\n") + LAST, "CR CR LF (D43)"),
        ("two_records_on_a_line", SMALL, (20, 1), GOOD.replace("\n", "") + LAST, "two records on one line"),
        ("1a_for_the_end", SMALL, (20, 2), GOOD + "\x1A", "1Ah in the place of an end record (D43)"),
    ],
    "Refused: lengths of types 01 and 04 (D44)": [
        ("length_of_01", SMALL, (20, 2), GOOD + rec(END, 0, b"\x00"), "an end record with a data byte"),
        ("length_of_01_and_sum", SMALL, (20, 2), GOOD + ":0100000100FF\n",
         "the same, and its sum is wrong: 20 all the same"),
        ("length_of_04_none", SMALL, (20, 1), rec(UPPER, 0) + GOOD + LAST, "a type 04 record without data"),
        ("length_of_04_one", SMALL, (20, 1), rec(UPPER, 0, b"\x00") + GOOD + LAST, "of one byte"),
        ("length_of_04_three", SMALL, (20, 1), rec(UPPER, 0, b"\x00\x00\x00") + GOOD + LAST, "of three bytes"),
        ("length_of_04_and_sum", SMALL, (20, 1), ":0100000400FA\n" + GOOD + LAST, "of one byte, and its sum is wrong"),
    ],
    "Refused: behind the end record (D43, D48)": [
        ("behind_the_end_lf", SMALL, (24, 3), GOOD + LAST + "\n", "a blank line"),
        ("behind_the_end_one_byte", SMALL, (24, 3), GOOD + LAST + "x", "one byte"),
        ("behind_the_end_1a", SMALL, (24, 3), GOOD + LAST + "\x1A", "1Ah"),
        ("behind_the_end_a_record", SMALL, (24, 3), GOOD + LAST + GOOD, "a good record"),
        ("behind_the_end_a_bad_record", SMALL, (24, 3), GOOD + LAST + ":0100000041BF\n",
         "a record that is not read: not 21"),
        ("behind_the_end_a_second_end", SMALL, (24, 3), GOOD + LAST + LAST, "a second end record"),
        ("behind_the_end_cr", SMALL, (24, 2), LAST + "\r", "CR alone"),
    ],
}


def made_by_hand():
    """(heading, name, part, number, line, the array that is wanted or None, the text, what it shows)"""
    for heading, entries in HAND.items():
        for name, part, expected, text, shows in entries:
            if isinstance(expected, tuple):
                yield heading, name, part, *expected, None, text.encode("latin-1"), shows
            else:
                content = bytearray(b"\xFF" * SIZES[part])
                for first, data in expected.items():
                    content[first : first + len(data)] = data
                yield heading, name, part, 0, 0, content, text.encode("latin-1"), shows


def made_by_tools(folder):
    """(name, part, number, line, the array that is wanted or None, the text), made in this folder."""
    for name, part in (("a.bin", SMALL), ("m.bin", BIG)):
        with open(os.path.join(folder, name), "wb") as file:
            file.write(array(part))
    for name, part, number, line, named, command, _ in TOOLS:
        subprocess.run(command.replace("NAME", name), shell=True, check=True, cwd=folder)
        with open(os.path.join(folder, name), "rb") as file:
            text = file.read()
        content = bytearray(b"\xFF" * SIZES[part])
        for first, end in named or ((0, SIZES[part]),):
            content[first:end] = array(part)[first:end]
        yield name, part, number, line, None if number else content, text


def write(folder):
    entries = [entry[1:7] for entry in made_by_hand()]
    with tempfile.TemporaryDirectory() as room:
        entries = list(made_by_tools(room)) + entries
    assert len({entry[0] for entry in entries}) == len(entries), "a name twice"
    for name, part, number, line, content, text in entries:
        came = loaded(text, SIZES[part])
        assert came == (number, line, content), f"{name}: {number}, line {line} expected, the rule gives {came[:2]}"
    for name, part, number, line, content, text in entries:
        with open(os.path.join(folder, name), "wb") as file:
            file.write(text)
        if content is not None:
            with open(os.path.join(folder, name + ".want"), "w", encoding="ascii") as file:
                file.write(wanted(content))
    with open(os.path.join(folder, "list"), "w", encoding="ascii") as file:
        for name, part, number, line, _, _ in entries:
            file.write(f"{part}:{number:02}:{line:05}:{name}\n")


def paper():
    """The entries of docs/RECORDINGS.md."""

    def entry(name, part, number, line, shows):
        came = f"{number} in line {line}" if number else "loaded"
        text = f"- `{name}` [{part}]: {shows}. {came[0].upper()}{came[1:]}."
        print(textwrap.fill(text, WIDTH, subsequent_indent="  ", break_long_words=False, break_on_hyphens=False))

    print("### By the tools\n")
    for name, part, number, line, _, command, shows in TOOLS:
        entry(name, part, number, line, shows)
    print("\nThe commands, in that order:\n")
    for name, _, _, _, _, command, _ in TOOLS:
        print(textwrap.indent(command.replace("NAME", name), "    "))
    heading = None
    for above, name, part, number, line, _, _, shows in made_by_hand():
        if above != heading:
            print(f"\n### {above}\n")
            heading = above
        entry(name, part, number, line, shows)


if __name__ == "__main__":
    if sys.argv[1:] == ["--paper"]:
        paper()
    elif len(sys.argv) == 2 and os.path.isdir(sys.argv[1]):
        write(sys.argv[1])
    else:
        sys.exit(__doc__.strip())
