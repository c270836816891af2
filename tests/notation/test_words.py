"""Numbers, bytes, messages, records and answers, from words to bytes and back."""

import random
import unittest

import support
from notation.answers import answer_in_words, meaning, read_answer, shown
from notation.fields import (
    Trouble, Words, bytes_in_words, number_in_words, offset_in_words, read_number)
from notation.records import fault, read_record, record_in_words, split_records

STAMPS = "sent 4013 echo 5009 receipt 4014"
STAMP_BYTES = "00000fad" "00001391" "00000fae"


class Numbers(unittest.TestCase):
    def test_all_ways_to_write_one(self):
        for word, value in (("0", 0), ("65535", 65535), ("65,535", 65535), ("4_294_967_295", 2**32 - 1),
                            ("2^32-1", 2**32 - 1), ("2^31", 2**31), ("2^31+5", 2**31 + 5)):
            self.assertEqual(read_number(word, 4), value, word)

    def test_offsets_have_a_sign(self):
        self.assertEqual(read_number("-1003", 4, signed=True), 2**32 - 1003)
        self.assertEqual(read_number("-2147483648", 4, signed=True), 2**31)
        self.assertEqual(read_number("4294966293", 4, signed=True), 2**32 - 1003)

    def test_what_is_written_reads_back(self):
        for value in support.EDGES:
            self.assertEqual(read_number(number_in_words(value), 4), value)
            self.assertEqual(read_number(offset_in_words(value), 4, signed=True), value)

    def test_near_the_wrap_a_number_is_written_from_there(self):
        self.assertEqual(number_in_words(2**32 - 9_999), "2^32-9999")
        self.assertEqual(number_in_words(2**32 - 10_000), "4294957296")

    def test_refused(self):
        for word, size, signed, message in (
            ("x", 4, False, "'x' is no number"),
            (",1", 4, False, "',1' is no number"),
            ("--1", 4, True, "'--1' is no number: one minus sign is enough"),
            ("65536", 2, False, "'65536' does not fit: the field has 2 bytes, so 0 to 65535"),
            ("256", 1, False, "'256' does not fit: the field has 1 byte, so 0 to 255"),
            ("2^32", 4, False, "'2^32' does not fit: the field has 4 bytes, so 0 to 4294967295"),
            ("2^0-2", 4, False, "'2^0-2' does not fit: the field has 4 bytes, so 0 to 4294967295"),
            ("-2147483649", 4, True, "'-2147483649' does not fit: the least is -2147483648"),
        ):
            with self.assertRaises(Trouble, msg=word) as caught:
                read_number(word, size, signed)
            self.assertEqual(str(caught.exception), message)

    def test_many_zeros_in_front_are_no_harm(self):
        self.assertEqual(read_number("0" * 5000 + "7", 4), 7)


class Bytes(unittest.TestCase):
    def test_written(self):
        for data, words in ((b"", "empty"), (b"\xc0\xff\xee", "c0ffee"), (b"\xab" * 4, "abababab"),
                            (b"\xab" * 5, "ab*5"), (b"\x01" + bytes(13) + b"\x02", "01 00*13 02")):
            self.assertEqual(bytes_in_words(data), words)
            self.assertEqual(Words(words).bytes("data"), data)

    def test_any_bytes_read_back(self):
        dice = random.Random(1)
        for _ in range(300):
            data = b"".join(bytes([dice.randrange(3)]) * dice.randrange(9) for _ in range(6))
            self.assertEqual(Words(bytes_in_words(data)).bytes("data"), data)

    def test_capitals_and_blanks_are_taken(self):
        self.assertEqual(Words("C0 ff EE").bytes("data"), b"\xc0\xff\xee")


class Records(unittest.TestCase):
    def test_every_record(self):
        for words, data in (
            (support.MAKE, "01" "00" "00000064" "00000032" "00000014" "0004" "02"
                           "0000012c" "00000064" "000001f4" "000003e8"),
            (support.MAKE.replace("initiator", "called"),
             "01" "01" "00000064" "00000032" "00000014" "0004" "02"
             "0000012c" "00000064" "000001f4" "000003e8"),
            ("tick 100", "0200000064"),
            ("connect 100", "0300000064"),
            ("confirm 100", "0400000064"),
            ("disconnect 2^32-1", "05ffffffff"),
            ("data 100 c0ffee", "06" "00000064" "03" "c0ffee" + "00" * 97),
            ("data 100 empty", "06" "00000064" "00" + "00" * 100),
            ("data 100 ab*100", "06" "00000064" "64" + "ab" * 100),
            ("data 100 c0ffee filler ff", "06" "00000064" "03" "c0ffee" + "ff" * 97),
            ("message 100 bytes empty", "07" "00000064" "00" + "00" * 128),
            ("message 100 bytes 01 00*13", "07" "00000064" "0e" "01" + "00" * 127),
            ("record 09 00", "0900"),
        ):
            self.assertEqual(read_record(words).hex(), data, words)

    def test_every_message(self):
        for words, data in (
            (f"start number 7 {STAMPS}", f"010007{STAMP_BYTES}"),
            (f"answ1 number 7 {STAMPS}", f"020007{STAMP_BYTES}"),
            (f"answ2 number 7 {STAMPS}", f"030007{STAMP_BYTES}"),
            (f"est number 7 {STAMPS} minimum -1003 maximum 996", f"040007{STAMP_BYTES}fffffc15000003e4"),
            (f"end number 7 {STAMPS}", f"050007{STAMP_BYTES}"),
            (f"life-sign number 7 {STAMPS}", f"060007{STAMP_BYTES}02"),
            (f"train number 7 {STAMPS} data c0ffee", f"060007{STAMP_BYTES}03c0ffee"),
        ):
            record = read_record(f"message 100 {words}")
            length = len(data) // 2
            self.assertEqual(record[5:6 + length].hex(), f"{length:02x}{data}", words)
            self.assertEqual(record_in_words(record), f"message 100 {words}")

    def test_a_malformed_message_is_written_as_bytes(self):
        for words in (f"train number 7 {STAMPS} data aa*101", f"train number 7 {STAMPS} data empty"):
            record = read_record(f"message 100 {words}")
            self.assertTrue(record_in_words(record).startswith("message 100 bytes 060007"))

    def test_filler_of_many_bytes(self):
        record = read_record("data 100 c0ffee")[:-1] + b"\x01"
        self.assertEqual(record_in_words(record), "data 100 c0ffee filler 00*96 01")
        self.assertEqual(record_in_words(record, filler=False), "data 100 c0ffee")
        self.assertEqual(read_record(record_in_words(record)), record)

    def test_only_a_bad_record_is_written_as_bytes(self):
        dice = random.Random(6)
        for _ in range(300):
            self.assertFalse(record_in_words(support.record(dice)).startswith("record"))

    def test_random_records_read_back(self):
        dice = random.Random(2)
        for _ in range(3000):
            record = support.record(dice)
            self.assertIsNone(fault(record))
            self.assertEqual(read_record(record_in_words(record)), record)

    def test_faults(self):
        make = read_record(support.MAKE)
        for record, found in (
            (b"", "no bytes"),
            (b"\x00", "kind 0 is unknown"),
            (b"\x08", "kind 8 is unknown"),
            (make[:-1], "it is cut: 32 bytes of 33"),
            (make + b"\x00", "it is too long: 34 bytes for 33"),
            (make[:1] + b"\x02" + make[2:], "role 2 is unknown"),
            (b"\x06" + bytes(4) + b"\x65" + bytes(100), "length 101 is over the field's 100"),
            (b"\x07" + bytes(4) + b"\x81" + bytes(128), "length 129 is over the field's 128"),
        ):
            self.assertEqual(fault(record), found)

    def test_split_loses_no_byte(self):
        dice = random.Random(3)
        for _ in range(300):
            data = dice.randbytes(dice.randrange(300))
            self.assertEqual(b"".join(split_records(data)), data)


class Answers(unittest.TestCase):
    def test_both_ways(self):
        for words, line in (
            ("0", "0"),
            ("0 ask", "0 ask"),
            ("12 release down", "12 release down"),
            ("13 data c0ffee error", "13 data c0ffee error"),
            ("0 data ab*100", "0 data " + "ab" * 100),
            ("0 send start number 0 sent 103 echo 0 receipt 0", "0 send 010000000000670000000000000000"),
            ("0 send bytes 0102", "0 send 0102"),
            (f"0 send end number 2 {STAMPS} up", f"0 send 050002{STAMP_BYTES} up"),
            ("bad record", "bad record"),
        ):
            self.assertEqual(read_answer(words), line)
            self.assertEqual(answer_in_words(line), words)

    def test_random_lines_read_back(self):
        dice = random.Random(4)
        for _ in range(2000):
            line = support.line(dice)
            self.assertEqual(read_answer(answer_in_words(line)), line)

    def test_lines_that_no_program_prints(self):
        for line in ("", "nothing", "15", "00", "0 ", "0  ask", " 0", "0 Ask", "0 send", "0 send 0",
                     "0 send AB", "0 data", "0 data xy", "0 ask\r", "bad record "):
            with self.assertRaises(Trouble, msg=line):
                answer_in_words(line)

    def test_shown_to_a_reader(self):
        for line, words in (("0 data aaaaaaaaaa", "0 data aa*5"), ("oops", "oops"), ("\x1b[2J0", r"\x1b[2J0")):
            self.assertEqual(shown(line), words)

    def test_meanings(self):
        self.assertEqual(meaning("9 error"), "old")
        self.assertEqual(meaning("12 release down"), "waited too long")
        for line in ("0", "0 ask", "bad record", "99"):
            self.assertEqual(meaning(line), "")


if __name__ == "__main__":
    unittest.main()
