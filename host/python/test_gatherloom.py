#!/usr/bin/env python3
"""The tests of gatherloom.py: python3 host/python/test_gatherloom.py, once host/python/build has made the library.

No expected answer was made by the library. Those of the tables of other programs were worked out by an implementation of document 01 that shares nothing with
it (docs/FILES.md), as were the lists of calls on an index; the others are document 01's own examples or follow from its words.
"""

import datetime
import os
import pickle
import shutil
import subprocess
import sys
import tempfile
import threading
import unittest
import unittest.mock
from decimal import Decimal, localcontext
from pathlib import Path

sys.path.insert(0, str(Path(__file__).resolve().parent))
import gatherloom
from gatherloom import Field, Index, Lookup, MemoMissing, NdxIndex, Refusal, Store, Stores, Table, append, extent, lay_out, read_number, set_date, write_number

ROOT = Path(__file__).resolve().parents[2]
SAMPLES = ROOT / 'crates' / 'test_samples' / 'data'
INDEXES = ROOT / 'crates' / 'test_indexes' / 'data'
EQUAL_KEYS = ROOT / 'crates' / 'test_equal_keys' / 'data'
WRITING = ROOT / 'crates' / 'test_writing' / 'data'
DILUTION = ROOT / 'crates' / 'test_dilution'

PLAIN = (Field('BARCODE', 'C', 10, 0, 1), Field('CONC', 'N', 8, 3, 11), Field('RUN_DATE', 'D', 8, 0, 19), Field('OK', 'L', 1, 0, 27))
MEMO = PLAIN + (Field('NOTE', 'M', 10, 0, 28),)

# Tables of other programs: their fields, and a line for each record: its number, live or deleted, and a word for each field: `-` for empty, `!16` for
# refusal 16, `_` for a blank in a text.
TABLES = {
    'shp_point': (PLAIN, """
        1 live PLT0000001 2.150 20240229 T
        2 live PLT0000002 0.001 20240229 F
        3 live PLT0000003 1234.500 20240229 T
        4 deleted PLT0000004 17.250 20240229 F
        5 live PLT0000005 9.999 20240229 T"""),
    'shp_comma': (PLAIN, """
        1 live PLT0000001 !16 20240229 T
        2 live PLT0000002 !16 20240229 F
        3 live PLT0000003 !16 20240229 T
        4 deleted PLT0000004 !16 20240229 F
        5 live PLT0000005 !16 20240229 T"""),
    'xbase_plain': (PLAIN, """
        1 live PLT0000001 2.150 20240229 T
        2 deleted PLT0000002 -0.001 20231231 F
        3 live PLT0000003 - - !20
        4 live PLT0000004 2345.678 19991231 T
        5 live PLT0000005 2.000 20240101 T"""),
    'xbase_f5': (MEMO, f"""
        1 live PLT0000001 2.150 20240229 T first_note
        2 deleted PLT0000002 -0.001 20231231 F second
        3 live PLT0000003 - - !20 -
        4 live PLT0000004 2345.678 19991231 T {700 * 'x'}
        5 live PLT0000005 2.000 20240101 T comma"""),
    'fpc_fox': (MEMO, """
        1 live PLT0007919 2.150 20240301 T !21
        2 deleted PLT0015838 4.300 20240302 F !21
        3 live PLT0023757 - - - -
        4 live PLT0031676 8.600 20240304 F !21
        5 live PLT0039595 10.750 20240305 T !21"""),
    'fpc_l3': (PLAIN, """
        1 live PLT0007919 2.150 20240301 T
        2 deleted PLT0015838 4.300 20240302 F
        3 live PLT0023757 - - -
        4 live PLT0031676 8.600 20240304 F
        5 live PLT0039595 10.750 20240305 T"""),
    'gdal': (PLAIN[:3] + (Field('OK', 'N', 1, 0, 27),), """
        1 live PLT0000001 2.150 20240229 1
        2 live PLT0000002 -0.001 20231231 0
        3 live PLT0000003 !17 !20 !17
        4 live PLT0000004 1234.500 19991231 1"""),
    'pydbf_db3': (PLAIN, """
        1 live PLT0000001 2.150 20240229 T
        2 deleted PLT0000002 -0.001 20231231 F
        3 live PLT0000003 - - !20
        4 live PLT0000004 1234.500 19991231 T"""),
}

# the barcodes of xbase_s20.dbf, in the order of its records
S20 = [b'PLT%07d' % (7919 * i) for i in range(1, 21)]

# the lengths of the buffers on which the lists of calls were worked out (crates/test_indexes/README.md)
ROOM = {'k1_bytes': 8192, 'k10_ascending': 32768, 'k10_descending': 32768, 'k10_random': 32768, 'k46_mixed': 32768, 'k100_deep': 65536,
        'k100_full': 4096, 'k100_deep_raised': 65536, 'k100_full_raised': 4096, 'k5_control': 16384, 'paper_five': 2048, 'paper_full': 1024,
        'k6_k10_mixed': 32768, 'k6_k10_to_nothing': 16384, 'k6_k1_bytes': 8192, 'k6_k100_deep': 65536, 'k6_k100_full': 4096,
        'k12_dates': 32768, 'k12_few': 16384, 'k12_one_key': 16384, 'k12_unique': 16384, 'k12_deep': 65536, 'k12_deep_falling': 65536}

NONE = 0xFFFFFFFF


def expected(field, word):
    if word == '-':
        return None
    if word.startswith('!'):
        return Refusal(int(word[1:]))
    return {
        'C': lambda: word.encode(),
        'M': lambda: word.replace('_', ' ').encode(),
        'N': lambda: Decimal(word),
        'D': lambda: datetime.datetime.strptime(word, '%Y%m%d').date(),
        'L': lambda: {'T': True, 'F': False}[word],
    }[field.type]()


def sample(name):
    memo = SAMPLES / f'{name}.fpt'
    return Table(SAMPLES / f'{name}.dbf', memo=memo if memo.exists() else None)


def page(attribute, left, right, *entries):
    """A page of an index with keys of one byte."""
    head = attribute.to_bytes(2, 'little') + len(entries).to_bytes(2, 'little') + left.to_bytes(4, 'little') + right.to_bytes(4, 'little')
    return (head + b''.join(key + number.to_bytes(4, 'big') for key, number in entries)).ljust(512, b'\0')


def tree_000():
    """The tree of document 000 with the offsets of document 01."""
    head = (512).to_bytes(4, 'little') + NONE.to_bytes(4, 'little') + (3584).to_bytes(4, 'little') + b'\1\0\1\0' + b'LETTER'
    return (
        head.ljust(512, b'\0')
        + page(1, NONE, NONE, (b'F', 1024), (b'H', 1536))
        + page(0, NONE, 1536, (b'C', 2048), (b'F', 2560))
        + page(0, 1024, NONE, (b'H', 3072))
        + page(2, NONE, 2560, (b'A', 1), (b'B', 2), (b'C', 3))
        + page(2, 2048, 3072, (b'D', 4), (b'E', 5), (b'F', 6))
        + page(2, 2560, NONE, (b'G', 7), (b'H', 8))
    )


class TestCase(unittest.TestCase):
    def refused(self, number, call, *arguments):
        with self.assertRaises(Refusal) as caught:
            call(*arguments)
        self.assertEqual(caught.exception.number, number)


class Tables(TestCase):
    def test_offsets_are_worked_out(self):
        # bytes 12 to 15 of each descriptor mislead
        content = bytearray((SAMPLES / 'k7_k8.dbf').read_bytes())
        lines = [line.split() for line in (SAMPLES / 'k7_k8.expected').read_text().splitlines() if line.startswith('field')]
        fields = tuple(Field(name, kind, int(length), int(decimals), int(offset)) for _, _, name, kind, length, decimals, _, offset in lines)
        self.assertEqual(len(fields), 6)
        self.assertEqual(Table(content).fields, fields)
        for j in range(len(fields)):
            content[32 + 32 * j + 12 : 32 + 32 * j + 16] = b'\xff\xff\xff\xff'
            self.assertEqual(Table(content).fields, fields)

    def test_tables_of_other_programs(self):
        for name, (fields, lines) in TABLES.items():
            with self.subTest(name):
                table = sample(name)
                self.assertEqual(table.fields, fields)
                self.assertEqual(table.record_length, 1 + sum(field.length for field in fields))
                rows = [line.split() for line in lines.strip().splitlines()]
                self.assertEqual(len(table), len(rows))
                live = []
                for record, row in zip(table, rows):
                    self.assertEqual((record.number, record.deleted), (int(row[0]), row[1] == 'deleted'))
                    self.assertEqual(len(row[2:]), len(fields))
                    values = [expected(field, word) for field, word in zip(fields, row[2:])]
                    self.assertEqual(record.values(), values)
                    self.assertEqual(record.items(), list(zip([field.name for field in fields], values)))
                    live += [record.number] * (row[1] == 'live')
                    for j, (field, value) in enumerate(zip(fields, values), 1):
                        self.check_value(record, j, field, value)
                self.assertEqual([record.number for record in table.walk()], list(range(1, len(rows) + 1)))
                self.assertEqual([record.number for record in table.walk_live()], live)

    def check_value(self, record, j, field, value):
        if isinstance(value, Refusal):
            self.refused(value.number, record.value, j)
            self.refused(value.number, record.__getitem__, field.name)
            return
        for got in record.value(j), record[field.name], record.table.value(record.number, j):
            self.assertEqual(got, value)
            self.assertIs(type(got), type(value))
            # 2.150 and not 2.15
            self.assertEqual(str(got), str(value))

    def test_refused_tables(self):
        self.refused(4, Table, SAMPLES / 'pydbf_fp.dbf')
        self.refused(2, Table, SAMPLES / 'xbase_83.dbf')
        self.refused(1, Table, b'')
        self.refused(1, Table, bytes(16777217))
        good = (SAMPLES / 'shp_point.dbf').read_bytes()
        for at, byte, number in (2, 13, 3), (32 * 4 + 32, 1, 5), (32, 0x61, 6), (0, 0xF5, 8), (10, 29, 9), (4, 4, 10):
            self.refused(number, Table, good[:at] + bytes([byte]) + good[at + 1 :])

    def test_sources(self):
        path = SAMPLES / 'shp_point.dbf'
        content = path.read_bytes()
        for source in path, str(path), content, bytearray(content), memoryview(content):
            self.assertEqual(Table(source).record(1)['CONC'], Decimal('2.150'))
        changed = bytearray(content)
        table = Table(changed)
        changed[:] = bytes(len(changed))
        self.assertEqual(table.record(1)['CONC'], Decimal('2.150'))
        for source in None, 7, ['x']:
            self.assertRaises(TypeError, Table, source)
        self.assertRaises(FileNotFoundError, Table, SAMPLES / 'none.dbf')

    def test_longest_table(self):
        # a header of 65 bytes, records of two and the end byte are 16,777,216 in all
        records = 8388575
        head = b'\x03\x7c\x02\x1d' + records.to_bytes(4, 'little') + b'\x41\0\x02\0' + bytes(20)
        table = head + b'X'.ljust(11, b'\0') + b'C' + bytes(4) + b'\1' + bytes(15) + b'\r' + records * b' x' + b'\x1a'
        self.assertEqual(len(Table(table)), records)
        with tempfile.TemporaryDirectory() as folder:
            path = Path(folder) / 'long.dbf'
            path.write_bytes(table)
            self.assertEqual(Table(path).record(records)['X'], b'x')
            path.write_bytes(table + b'\x1a')
            self.refused(1, Table, path)

    def test_numbers_of_records_and_fields(self):
        table = sample('shp_point')
        for number in 0, 6, 2**32 - 1:
            self.refused(11, table.record, number)
            self.refused(11, table.value, number, 1)
            self.refused(11, table.value, number, 0)
        for number in 0, 5, 2**32 - 1:
            self.refused(12, table.record(1).value, number)
        for number in -1, 2**32, 2**32 + 1:
            self.assertRaises(OverflowError, table.record, number)
            self.assertRaises(OverflowError, table.value, 1, number)
            self.assertRaises(OverflowError, table.value, number, 1)
            self.assertRaises(OverflowError, table.walk, number)
            self.assertRaises(OverflowError, table.walk_live, number)
        for number in 1.0, '1', None, True:
            self.assertRaises(TypeError, table.record, number)
            self.assertRaises(TypeError, table.value, 1, number)
        self.assertRaises(KeyError, table.record(1).__getitem__, 'NONE')
        self.assertRaises(TypeError, iter, table.record(1))

    def test_bad_deletion_byte(self):
        content = bytearray((SAMPLES / 'shp_point.dbf').read_bytes())
        content[161 + 28] = 0x21
        table = Table(content)
        second = table.record(2)
        self.refused(15, lambda: second.deleted)
        self.assertEqual(second.values(), 4 * [Refusal(15)])
        self.assertEqual([r.number for r in table if r.number != 2 and not r.deleted], [1, 3, 5])
        for walk, rest in (table.walk(), [3, 4, 5]), (table.walk_live(), [3, 5]):
            self.assertEqual(next(walk).number, 1)
            self.refused(15, next, walk)
            self.assertEqual(walk.passed, 2)
            self.assertEqual([record.number for record in walk], rest)
            self.assertEqual(walk.passed, 5)

    def test_walk_position(self):
        table = sample('shp_point')
        self.assertEqual([(record.number, record.deleted) for record in table.walk(3)], [(4, True), (5, False)])
        self.assertEqual([record.number for record in table.walk_live(3)], [5])
        for end in table.walk(2**32 - 1), table.walk_live(2**32 - 1):
            self.assertRaises(StopIteration, next, end)
            self.assertEqual(end.passed, 2**32 - 1)
        # with none but deleted records left the skipping walk's position stays
        content = bytearray((SAMPLES / 'shp_point.dbf').read_bytes())
        content[161 + 4 * 28] = 0x2A
        walk = Table(content).walk_live(3)
        self.assertRaises(StopIteration, next, walk)
        self.assertEqual(walk.passed, 3)

    def walked(self, walk):
        """The steps of a walk until done, as a line of k7_k8.expected has them."""
        steps = []
        while True:
            try:
                record = next(walk)
                mark = '' if isinstance(walk, gatherloom.LiveWalk) else ' deleted' if record.deleted else ' live'
                steps.append(f'0 {record.number}{mark} @{walk.passed}')
            except Refusal as refusal:
                steps.append(f'{refusal.number} @{walk.passed}')
            except StopIteration:
                return steps + [f'258 @{walk.passed}']

    def test_walks_of_the_sample(self):
        table = sample('k7_k8')
        lines = [line.split(': ') for line in (SAMPLES / 'k7_k8.expected').read_text().splitlines() if line.startswith('walk')]
        self.assertEqual(len(lines), 16)
        for call, steps in lines:
            name, start = call.split()
            self.assertEqual(self.walked(getattr(table, name)(int(start))), steps.split('; '))

    def test_marks_are_the_walks_own(self):
        # a walk that skips tells nothing of the records that it passes over: no mark is made of it
        content = bytearray((SAMPLES / 'k7_k8.dbf').read_bytes())
        deleted = [2, 3, 5, 9, 11, 12]
        self.assertEqual([r.number for r in Table(content) if r.number not in (6, 10) and r.deleted], deleted)

        class Skipping:
            def __getattr__(self, name):
                return getattr(library, name)

            def gl_walk(self, table, length, position, record, mark):
                return library.gl_walk_live(table, length, position, record)

        library = gatherloom._library
        with unittest.mock.patch.object(gatherloom, '_library', Skipping()):
            self.assertRaises(RuntimeError, lambda: Table(content).record(2).deleted)

    def test_memo_file(self):
        table = Table(SAMPLES / 'xbase_f5.dbf')
        self.assertRaises(MemoMissing, table.record(1).__getitem__, 'NOTE')
        self.assertEqual(table.record(1).values()[4], MemoMissing())
        self.assertIsNone(table.record(3)['NOTE'])
        self.assertEqual(table.record(1)['BARCODE'], b'PLT0000001')
        self.refused(11, table.value, 9, 5)
        self.refused(22, Table(SAMPLES / 'xbase_f5.dbf', memo=b'').value, 1, 5)
        # leading zeros are 21 by the number's text, whatever the file is
        self.refused(21, Table(SAMPLES / 'fpc_fox.dbf').value, 1, 5)

    def test_reading_does_not_look_at_the_decimal_context(self):
        with localcontext() as context:
            context.prec = 1
            self.assertEqual(str(sample('shp_point').record(3)['CONC']), '1234.500')
            self.assertEqual(write_number(Decimal('1234.500'), 8, 3), b'1234.500')


class Writing(TestCase):
    def test_list_of_calls(self):
        buffer = None
        for line in (WRITING / 'k3_writing.calls').read_text().splitlines():
            with self.subTest(line):
                words = line.split()
                if words[0] != 'lay_out':
                    self.check_call(buffer, words)
                else:
                    buffer = self.check_lay_out(words) or buffer

    def check_lay_out(self, words):
        """The buffer after an accepted call: the table is then the file that its room names."""
        *day, room = map(int, words[1:5])
        parts = [] if words[5] == '-' else [word.split(':') for word in words[5].split(',')]
        fields = [Field(name, kind, int(length), int(decimals)) for name, kind, length, decimals in parts]
        buffer = bytearray(room * b'\xee')
        if day == [2023, 2, 29]:
            self.assertRaises(ValueError, datetime.date, *day)
        elif words[6] != '0':
            self.refused(int(words[6]), lay_out, buffer, fields, datetime.date(*day))
            self.assertEqual(buffer, room * b'\xee')
        else:
            table_len = lay_out(buffer, fields, datetime.date(*day))
            self.assertEqual(table_len, extent(buffer) + 1)
            self.assertEqual(buffer, (WRITING / words[4]).read_bytes().ljust(room, b'\xee'))
            listed = Table(buffer[:table_len]).fields
            self.assertEqual([field._replace(offset=0) for field in listed], fields)
            self.assertEqual([field.offset for field in listed], [1 + sum(field.length for field in fields[:j]) for j in range(len(fields))])
            return buffer
        return None

    def test_fields_that_no_entry_holds(self):
        today = datetime.date(2026, 11, 16)
        buffer = bytearray(1000)
        for name in '', 'ABCDEFGHIJK', 'ABCDEFGHIJKL', 'A\0', 'ABCDEFGHIJ\0K', '\xc9':
            self.refused(6, lay_out, buffer, [Field(name, 'L', 1, 0)], today)
        for kind in '', 'LL', '\u0141', '\0':
            self.refused(6, lay_out, buffer, [Field('A', kind, 1, 0)], today)
        for length, decimals in (256, 0), (-1, 0), (8, 256):
            self.assertRaises(OverflowError, lay_out, buffer, [Field('A', 'N', length, decimals)], today)
        for field in Field(b'A', 'L', 1, 0), Field('A', b'L', 1, 0), Field('A', 76, 1, 0), Field('A', 'L', 1.0, 0):
            self.assertRaises(TypeError, lay_out, buffer, [field], today)
        self.assertRaises(TypeError, lay_out, bytes(1000), PLAIN, today)
        self.assertRaises(TypeError, lay_out, buffer, PLAIN, (2024, 2, 29))
        self.assertEqual(buffer, bytes(1000))
        # the fields of one table lay out another
        table_len = lay_out(buffer, sample('xbase_f5').fields, today)
        self.assertEqual(Table(buffer[:table_len]).fields, MEMO)
        self.assertEqual(buffer[0], 0xF5)
        # an offset is not looked at
        other = bytearray(1000)
        lay_out(other, [field._replace(offset='anywhere') for field in MEMO], today)
        self.assertEqual(other, buffer)

    def check_call(self, buffer, words):
        before, table_len = bytes(buffer), extent(buffer) + 1
        if words[0] == 'image':
            self.assertEqual(buffer[:table_len], (WRITING / words[1]).read_bytes())
            self.assertEqual(table_len, int(words[2]))
        elif words[0] == 'date':
            self.check_date(buffer, table_len, list(map(int, words[1:])))
        else:
            length = table_len if words[0] == 'append' else len(buffer) + 1
            record, answer = bytes.fromhex(words[1]), int(words[2])
            if answer:
                self.refused(answer, append, buffer, length, record)
                self.assertEqual(buffer, before)
                return
            stores = append(buffer, length, record)
            place, length, *count = map(int, words[3:])
            self.assertEqual(stores, Stores(Store(place, length), Store(*count)))
            self.check_stores(before[:table_len], buffer, stores)

    def check_date(self, buffer, table_len, numbers):
        *day, answer = numbers
        before = bytes(buffer)
        if answer:
            # of the list's dates, those that are refused are none to Python either
            self.assertRaises(ValueError, datetime.date, *day)
            return
        set_date(buffer, table_len, datetime.date(*day))
        self.assertEqual(buffer, before[:1] + bytes([day[0] - 1900, *day[1:]]) + before[4:])

    def check_stores(self, old, buffer, stores):
        """Makes the stores in a file, and power fails after each byte of the first."""
        place = stores.record.place
        self.assertEqual(stores.table_len, place + stores.record.length)
        for cut in range(stores.record.length + 1):
            self.check_extent(old[:place] + buffer[place : place + cut], old[:place])
        with tempfile.TemporaryDirectory() as folder:
            path = Path(folder) / 'run.dbf'
            path.write_bytes(old)
            for store, kept in zip(stores, (old[:place], bytes(buffer[: stores.table_len - 1]))):
                with open(path, 'r+b') as file:
                    file.seek(store.place)
                    file.write(buffer[store.place : store.place + store.length])
                self.check_extent(path, kept)
            self.assertEqual(path.read_bytes(), buffer[: stores.table_len])

    def check_extent(self, source, kept):
        content = source.read_bytes() if isinstance(source, Path) else source
        self.assertEqual(content[: extent(source)], kept)
        self.assertEqual(len(Table(kept)), int.from_bytes(kept[4:8], 'little'))

    def test_refused_tables(self):
        good = (SAMPLES / 'shp_point.dbf').read_bytes()
        record = good[161 : 161 + 28]
        today = datetime.date(2026, 11, 16)
        for at, byte, number in (0, 0x83, 2), (2, 13, 3), (32 * 4 + 32, 1, 5), (32, 0x61, 6), (0, 0xF5, 8), (10, 29, 9), (4, 6, 10):
            buffer = bytearray(good + bytes(100))
            buffer[at] = byte
            before = bytes(buffer)
            self.refused(number, append, buffer, len(good), record)
            self.refused(number, set_date, buffer, len(good), today)
            self.refused(number, extent, buffer[: len(good)])
            self.refused(10, append, buffer, len(buffer) + 1, record)
            self.refused(10, set_date, buffer, len(buffer) + 1, today)
            self.assertEqual(buffer, before)
        self.refused(1, extent, b'')
        self.refused(1, extent, bytes(16777217))
        self.refused(30, append, bytearray(good), len(good), record)

    def test_dates(self):
        buffer = bytearray((SAMPLES / 'shp_point.dbf').read_bytes())
        for date, stored in (datetime.date(1900, 1, 1), b'\0\1\1'), (datetime.date(2155, 12, 31), b'\xff\x0c\x1f'):
            set_date(buffer, len(buffer), date)
            self.assertEqual(buffer[1:4], stored)
        for date in datetime.date(1899, 12, 31), datetime.date(2156, 1, 1), datetime.date.max, datetime.date.min:
            self.refused(3, set_date, buffer, len(buffer), date)
        self.assertEqual(buffer[1:4], b'\xff\x0c\x1f')
        for date in None, (2024, 2, 29), '2024-02-29', 20240229:
            self.assertRaises(TypeError, set_date, buffer, len(buffer), date)

    def test_wrong_arguments(self):
        good = (SAMPLES / 'shp_point.dbf').read_bytes()
        record = good[161 : 161 + 28]
        for buffer in good, memoryview(bytearray(good)), None, str(SAMPLES / 'shp_point.dbf'):
            self.assertRaises(TypeError, append, buffer, len(good), record)
            self.assertRaises(TypeError, set_date, buffer, len(good), datetime.date(2024, 2, 29))
        buffer = bytearray(good + bytes(100))
        for length in -1, 2**63, 2**64 + len(good):
            self.assertRaises(OverflowError, append, buffer, length, record)
            self.assertRaises(OverflowError, set_date, buffer, length, datetime.date(2024, 2, 29))
        for length in 1.0, '1', None, True:
            self.assertRaises(TypeError, append, buffer, length, record)
        self.assertRaises(TypeError, append, buffer, len(good), record.decode())
        self.assertRaises(TypeError, extent, 7)
        self.assertEqual(buffer, good + bytes(100))
        self.assertEqual(extent(SAMPLES / 'shp_point.dbf'), extent(good))


class NumericText(TestCase):
    def test_examples_of_document_01(self):
        self.assertEqual(str(read_number(b'   2.150', 3)), '2.150')
        self.refused(16, read_number, b'   2,150', 3)
        self.assertEqual(read_number(b'-0.001', 3), Decimal('-0.001'))
        for text in b'-0.000', b'02.150', b'2.150 ':
            self.refused(17, read_number, text, 3)
        self.assertEqual(read_number(b'  2150', 0), 2150)
        self.refused(18, read_number, b' ' + 19 * b'9', 0)
        self.assertEqual(read_number(b'  ' + 18 * b'9', 0), 10**18 - 1)

    def test_reading(self):
        self.assertIsNone(read_number(b'        ', 3))
        self.assertEqual(str(read_number(b'0.000', 3)), '0.000')
        for text, decimals in (b'', 0), (21 * b'1', 0), (b'2.15', 3), (b'2.1', 2**32 - 1):
            self.refused(6, read_number, text, decimals)
        self.assertRaises(OverflowError, read_number, b'2150', -1)
        self.assertRaises(OverflowError, read_number, b'2150', 2**32)
        self.assertRaises(TypeError, read_number, '2150', 0)
        self.assertRaises(TypeError, read_number, b'2150', 0.0)

    def test_dropped_zero(self):
        self.assertEqual(str(read_number(b'    .150', 3)), '0.150')
        self.assertEqual(str(read_number(b'-.150', 3)), '-0.150')
        self.assertEqual(write_number(Decimal('-.150'), 6, 3), b'-0.150')
        self.refused(19, write_number, Decimal('-.150'), 5, 3)
        for text, decimals in (b' .000', 3), (b'-.000', 3), (b'+.150', 3), (b'  .15', 3), (b'.', 0), (b'.150', 0):
            self.refused(17, read_number, text, decimals)
        self.refused(16, read_number, b' ,150', 3)

    def test_writing(self):
        for value, width, decimals, text in (
            (Decimal('2.150'), 8, 3, b'   2.150'),
            (Decimal('2.15'), 8, 3, b'   2.150'),
            (Decimal('215E-2'), 8, 3, b'   2.150'),
            (2, 8, 3, b'   2.000'),
            (Decimal('-0.001'), 6, 3, b'-0.001'),
            (Decimal('-0'), 5, 3, b'0.000'),
            (2150, 6, 0, b'  2150'),
            (10**18 - 1, 20, 0, b'  999999999999999999'),
            (1 - 10**18, 19, 0, b'-999999999999999999'),
        ):
            self.assertEqual(write_number(value, width, decimals), text)

    def test_refused_writing(self):
        for width, decimals in (0, 0), (21, 0), (4, 3), (20, 16), (8, 2**32 - 1):
            self.refused(6, write_number, 1, width, decimals)
            self.refused(6, write_number, 10**40, width, decimals)
        self.refused(18, write_number, 10**18, 20, 0)
        self.refused(18, write_number, -(2**63), 1, 0)
        self.refused(19, write_number, Decimal('-2.150'), 5, 3)

    def test_numbers_that_cannot_be_written(self):
        for value in Decimal('2.1505'), Decimal('1E-999999'), Decimal('1E-999999999999999'), Decimal('NaN'), Decimal('sNaN'), Decimal('Infinity'):
            self.assertRaises(ValueError, write_number, value, 8, 3)
        for value in 2**63, -(2**63) - 1, Decimal('1E+999999'), Decimal('1E+999999999999999'):
            self.assertRaises(OverflowError, write_number, value, 8, 0)
        for value in 2.15, '2.150', True, None:
            self.assertRaises(TypeError, write_number, value, 8, 3)
        for width, decimals in (-1, 0), (2**64, 0), (8, -1), (8, 2**32):
            self.assertRaises(OverflowError, write_number, 1, width, decimals)


class Indexes(TestCase):
    def test_tree_of_document_000(self):
        index = Index(tree_000())
        index.audit()
        self.assertEqual(index.lookup(b'F'), Lookup(6, 3))
        self.assertEqual(index.lookup(b'I'), Lookup(None, 1))
        self.assertEqual([index.lookup(bytes([c])).record for c in b'ABCDEFGH'], [1, 2, 3, 4, 5, 6, 7, 8])
        self.assertEqual(index.file(), tree_000())

    def test_lists_of_calls(self):
        for name, room in ROOM.items():
            with self.subTest(name):
                buffer = bytearray(room)
                index = None
                folder = EQUAL_KEYS if name.startswith('k12_') else INDEXES
                for line in (folder / f'{name}.calls').read_text().splitlines():
                    index = self.check_call(index, buffer, line.split())
                file = (folder / f'{name}.idx').read_bytes()
                self.assertEqual(index.file(), file)
                self.assertEqual(bytes(buffer), file.ljust(room, b'\0'))

    def test_earlier_release(self):
        """An index with control bytes in its keys is sound and they are found, but none can be inserted."""
        index = Index(INDEXES / 'earlier.idx', room=8192)
        index.audit()
        for line in (INDEXES / 'earlier.calls').read_text().splitlines():
            self.check_call(index, index.buffer, line.split())
        self.assertEqual(index.file(), (INDEXES / 'earlier_after.idx').read_bytes())

    def test_control_bytes(self):
        index = Index.fresh(bytearray(1024), 10, b'BARCODE')
        before = bytes(index.buffer)
        for at in range(10):
            key = b'PLT0000001'[:at] + b'\r' + b'PLT0000001'[at + 1 :]
            self.refused(32, index.insert, key, 1)
            self.refused(32, index.insert, key, 0)
            self.refused(27, index.insert, key + b'\r', 1)
            self.assertEqual(index.lookup(key), Lookup(None, 1))
        for byte in range(256):
            self.refused(32 if byte < 0x20 else 28, index.insert, b'PLT000000' + bytes([byte]), 0)
        self.assertEqual(bytes(index.buffer), before)
        index.insert(b'PLT000000 ', 1)
        self.assertEqual(index.lookup(b'PLT000000 '), Lookup(1, 1))
        self.assertEqual(str(Refusal(32)), '32 (control byte in the key)')

    def test_removal(self):
        """Five keys fill two leaves. The two keys of the second leaf go, it is free, and the next split takes it: the index is then the one before."""
        keys = [99 * b'a' + bytes([c]) for c in b'12345']
        index = Index.fresh(bytearray(2048), 100, b'KEY')
        for record, key in enumerate(keys, 1):
            index.insert(key, record)
        before = bytes(index.buffer)
        self.refused(33, index.remove, 100 * b'a')
        self.refused(27, index.remove, b'')
        self.assertEqual(bytes(index.buffer), before)
        for key in keys[3:]:
            index.remove(key)
            self.refused(33, index.remove, key)
        self.assertEqual(index.buffer[4:8], b'\0\4\0\0')
        self.assertEqual(index.buffer[1024:1536], bytes(8) + 4 * b'\xff' + bytes(500))
        self.assertEqual(index.lookup(keys[3]), Lookup(None, 1))
        for record, key in enumerate(keys[3:], 4):
            index.insert(key, record)
        self.assertEqual(bytes(index.buffer), before)
        for key in keys:
            index.remove(key)
        self.assertEqual(index.file(), bytes(index.buffer))
        self.assertEqual(index.buffer[1536:], b'\3\0\0\0' + 8 * b'\xff' + bytes(500))
        index.buffer[1024] = 1
        self.refused(25, index.remove, keys[0])
        index.buffer[4] = 1
        self.refused(24, index.remove, keys[0])
        self.assertRaises(TypeError, index.remove, 'a')
        self.assertEqual(str(Refusal(33)), '33 (key absent)')

    def check_call(self, index, buffer, words):
        def key(word):
            return b'' if word == '-' else bytes.fromhex(word)

        def answer(expected, call, *arguments):
            if 0 < expected < 256:
                before = bytes(buffer)
                self.refused(expected, call, *arguments)
                self.assertEqual(bytes(buffer), before)
                return None
            return call(*arguments)

        # a list for features 1 names neither them nor the record of a removal
        if words[0] == 'f':
            return answer(int(words[-1]), Index.fresh, buffer, int(words[1]), key(words[2]), *map(int, words[3:-1]))
        if words[0] == 'i':
            answer(int(words[3]), index.insert, key(words[1]), int(words[2]))
        elif words[0] == 'r':
            answer(int(words[-1]), index.remove, key(words[1]), *map(int, words[2:-1]))
        elif words[0] == 's':
            found = answer(int(words[3]), index.records, key(words[1]), int(words[2]))
            if found is not None:
                self.assertEqual(found, [] if words[4] == '-' else list(map(int, words[4].split(','))))
        elif words[0] == 'l':
            found = answer(int(words[2]), index.lookup, key(words[1]))
            if found is not None:
                record = None if int(words[2]) == 257 else int(words[3])
                self.assertEqual(found, Lookup(record, int(words[4])))
        else:
            self.assertEqual(words[0], 'a')
            answer(int(words[1]), index.audit)
        return index

    def test_features(self):
        """Fresh indexes of another program's list, each in a buffer of its own."""
        for line in (EQUAL_KEYS / 'k12_fresh.calls').read_text().splitlines():
            buffer, words = bytearray(2048), line.split()
            index = self.check_call(None, buffer, words)
            if words[4] == '0':
                index.audit()
                self.assertEqual(buffer[14], int(words[3]))
        for features in -1, 2**32:
            self.assertRaises(OverflowError, Index.fresh, bytearray(2048), 8, b'X', features)

    def test_damaged_index_with_equal_keys(self):
        """One byte of an index is changed at a time: its audit, and a lookup, which may step to a damaged neighbour."""
        good = (EQUAL_KEYS / 'k12_dates.idx').read_bytes()
        for line in (EQUAL_KEYS / 'k12_damaged.expected').read_text().splitlines():
            with self.subTest(line):
                words = line.split()
                content = bytearray(good)
                content[int(words[0])] = int(words[1])
                index = Index(content)
                self.check_call(index, index.buffer, words[2:4])
                self.check_call(index, index.buffer, words[4:])

    def test_records(self):
        index = Index.fresh(bytearray(4096), 8, b'RUN_DATE', features=0)
        self.assertEqual(index.records(b'20240301', 0), [])
        for record in 7, 3, 2**32 - 1:
            index.insert(b'20240301', record)
        self.refused(29, index.insert, b'20240301', 7)
        index.insert(b'20240302', 7)
        self.assertEqual(index.records(b'20240301', 3), [3, 7, 2**32 - 1])
        self.assertEqual(index.lookup(b'20240301'), Lookup(3, 1))
        for room in 0, 2:
            self.refused(39, index.records, b'20240301', room)
        self.assertEqual(str(Refusal(39)), '39 (record list too short)')
        self.refused(27, index.records, b'2024', 3)
        self.refused(33, index.remove, b'20240301')
        self.refused(33, index.remove, b'20240302', 3)
        index.remove(b'20240301', 3)
        self.assertEqual(index.records(b'20240301', 9), [7, 2**32 - 1])
        for room in -1, 2**32:
            self.assertRaises(OverflowError, index.records, b'20240301', room)
        self.assertRaises(TypeError, index.records, '20240301', 3)
        index.buffer[512] = 0
        self.refused(25, index.records, b'20240301', 9)
        one = Index.fresh(bytearray(1024), 8, b'RUN_DATE')
        one.insert(b'20240301', 7)
        self.refused(29, one.insert, b'20240301', 3)
        self.assertEqual(one.records(b'20240301', 1), [7])
        one.remove(b'20240301', 3)
        self.assertEqual(one.records(b'20240301', 0), [])

    def test_fresh(self):
        for key_length, expression, room, number in (
            (0, b'', 0, 27),
            (101, b'X', 1024, 27),
            (10, b'', 0, 24),
            (10, 221 * b'X', 1024, 24),
            (10, b'\x1f', 1024, 24),
            (10, b'X', 1023, 30),
            (2**32 - 1, b'X', 1024, 27),
        ):
            buffer = bytearray(room * b'\xa5')
            self.refused(number, Index.fresh, buffer, key_length, expression)
            self.assertEqual(buffer, room * b'\xa5')
        buffer = bytearray(1025 * b'\xa5')
        index = Index.fresh(buffer, 10, b'BARCODE')
        self.assertIs(index.buffer, buffer)
        self.assertEqual(buffer[1024:], b'\xa5')
        self.assertEqual(len(index.file()), 1024)
        self.assertEqual(index.lookup(b'PLT0000001'), Lookup(None, 1))

    def test_wrong_arguments(self):
        for buffer in bytes(1024), memoryview(bytearray(1024)), None:
            self.assertRaises(TypeError, Index.fresh, buffer, 10, b'X')
        self.assertRaises(TypeError, Index.fresh, bytearray(1024), 10, 'X')
        for key_length in -1, 2**32 + 10:
            self.assertRaises(OverflowError, Index.fresh, bytearray(1024), key_length, b'X')
        index = Index.fresh(bytearray(1024), 10, b'X')
        before = bytes(index.buffer)
        for record in -1, 2**32, 2**32 + 1:
            self.assertRaises(OverflowError, index.insert, b'PLT0000001', record)
        for record in 1.0, '1', None, True:
            self.assertRaises(TypeError, index.insert, b'PLT0000001', record)
        self.assertRaises(TypeError, index.insert, 'PLT0000001', 1)
        self.assertRaises(TypeError, index.lookup, 'PLT0000001')
        self.assertEqual(bytes(index.buffer), before)
        self.assertRaises(ValueError, Index, bytearray(1024), 2048)
        self.assertRaises(OverflowError, Index, bytes(1024), -1)

    def test_room(self):
        path = SAMPLES / 'xbase_s20_unique.idx'
        tight = Index(path)
        for i in range(100):
            try:
                tight.insert(b'QLT%07d' % i, 21 + i)
            except Refusal as refusal:
                self.assertEqual(refusal.number, 30)
                break
        else:
            self.fail('an insertion without room was accepted')
        wide = Index(path, room=65536)
        self.assertEqual(len(wide.buffer), 65536)
        for i in range(100):
            wide.insert(b'QLT%07d' % i, 21 + i)
        self.assertEqual(Index(wide.file()).lookup(b'QLT0000099').record, 120)
        self.assertEqual(Index(path).file(), path.read_bytes())

    def test_unsound(self):
        features = bytearray((SAMPLES / 'xbase_s20.idx').read_bytes())
        features[14] = 2
        for index in Index(b''), Index(features):
            self.refused(24, index.audit)
            self.refused(24, index.file)
            self.refused(24, index.lookup, b'PLT0007919')
            self.refused(24, index.insert, b'PLT0007919', 0)
        # a child that points to its own parent
        looped = bytearray(tree_000())
        looped[512 + 12 + 1 : 512 + 12 + 5] = (512).to_bytes(4, 'big')
        index = Index(looped)
        self.refused(25, index.audit)
        self.refused(25, index.lookup, b'A')
        self.refused(25, index.insert, b'Z', 9)
        self.refused(27, index.lookup, b'AA')

    def test_match(self):
        table = Table(SAMPLES / 'xbase_s20.dbf')
        index = Index(SAMPLES / 'xbase_s20_unique.idx')
        self.assertEqual([record['BARCODE'] for record in table], S20)
        self.assertEqual([index.lookup(barcode).record for barcode in S20], list(range(1, 21)))
        table.match(index, 'BARCODE')
        table.match(index, 1)
        # the same index with features 0
        table.match(Index(SAMPLES / 'xbase_s20.idx'), 1)
        self.refused(24, table.match, Index(bytes(1024)), 0)
        self.refused(12, table.match, index, 0)
        self.refused(12, table.match, index, 5)
        self.refused(13, table.match, index, 'CONC')
        self.refused(27, table.match, Index(tree_000()), 'BARCODE')
        self.refused(31, sample('shp_point').match, index, 'BARCODE')
        self.assertRaises(KeyError, table.match, index, 'NONE')
        self.assertRaises(OverflowError, table.match, index, -1)
        self.assertRaises(OverflowError, table.match, index, 2**32 + 1)
        self.assertRaises(TypeError, table.match, index.buffer, 1)


class NdxIndexes(TestCase):
    def index(self):
        """Keys of 4 bytes, 2 per page: a branch with one key over two leaves."""

        def page(*entries, extra=0):
            entries = b''.join(lower.to_bytes(4, 'little') + record.to_bytes(4, 'little') + key for lower, record, key in entries), len(entries)
            return (entries[1].to_bytes(4, 'little') + entries[0] + extra.to_bytes(4, 'little')).ljust(512, b'\0')

        head = bytes([3, 0, 0, 0, 4]).ljust(12, b'\0') + bytes([4, 0, 2, 0, 0, 0, 12])
        return (
            head.ljust(512, b'\0')
            + page((0, 1, b'AAAA'), (0, 2, b'BBBB'))
            + page((0, 3, b'DDDD'))
            + page((1, 0, b'CCCC'), extra=2)
        )

    def test_lookups(self):
        index = NdxIndex(self.index())
        index.audit()
        self.assertEqual(index.lookup(b'BBBB'), (2, 2))
        self.assertEqual(index.lookup(b'DDDD'), (3, 2))
        self.assertEqual(index.lookup(b'CCCC'), (None, 2))
        self.refused(27, index.lookup, b'BBB')

    def test_files_of_another_program(self):
        """The lines of crates/test_ndx/stdout, another implementation's answers."""
        files, held = ROOT / 'crates' / 'test_ndx', 0
        for line in (files / 'stdout').read_text().splitlines():
            name, *calls = line.split(' ')
            content = bytearray((files / 'data' / name).read_bytes())
            if calls[0] == 'set':
                content[int(calls[1])] = int(calls[2])
                calls = calls[3:]
            index = NdxIndex(bytes(content))
            while calls:
                if calls[0] == 'a':
                    self.assertEqual(self.answer(index.audit), int(calls[1]), line)
                    calls = calls[2:]
                else:
                    key, *due = calls[1:5]
                    self.assertEqual(self.looked(index, bytes.fromhex(key)), [int(n) for n in due], line)
                    calls = calls[5:]
                held += 1
        self.assertEqual(held, 3 + 43 + 2 * 90)

    @staticmethod
    def answer(call, *words):
        try:
            call(*words)
        except Refusal as refusal:
            return refusal.number
        return 0

    @staticmethod
    def looked(index, key):
        """Answer, record and pages, 0 for what an answer does not have."""
        try:
            found = index.lookup(key)
        except Refusal as refusal:
            return [refusal.number, 0, 0]
        return [0 if found.record is not None else 257, found.record or 0, found.pages]

    def test_refusals(self):
        bad = bytearray(self.index())
        bad[512 + 16 + 8] = ord('A')
        bad[512 + 16 + 9 : 512 + 16 + 12] = b'AAA'
        self.refused(25, NdxIndex(bytes(bad)).audit)
        self.refused(24, NdxIndex(self.index()[:-1]).audit)
        self.refused(24, NdxIndex(self.index()[:-1]).lookup, b'BBBB')


class Dilution(TestCase):
    def setUp(self):
        self.table, self.index = Table(DILUTION / 'data' / 'k11.dbf'), Index(DILUTION / 'data' / 'k11.idx')

    def dilute(self, barcode, target=2000, final_volume=1000, *fields):
        return self.table.dilute(self.index, barcode, target, final_volume, *fields)

    def test_sheets(self):
        """Each line of each sheet is what the call gives for its barcode."""
        for sheet in (DILUTION / 'stdout').read_text().split('== ')[1:]:
            name, *lines = sheet.splitlines()
            # a number alone refuses the whole sheet, or its input; the two sheets of other tables are the incident's
            if not name.startswith('k11_') or len(lines) < 2:
                continue
            fields = [int(line) for line in (DILUTION / 'data' / name).read_text().splitlines()]
            for barcode, *answer in map(str.split, lines):
                asked = barcode.encode(), fields[2], fields[3], fields[0], fields[1]
                if len(answer) == 1:
                    self.refused(int(answer[0]), self.dilute, *asked)
                else:
                    self.assertEqual(self.dilute(*asked), tuple(map(int, answer)))

    def test_refusals(self):
        self.assertEqual(self.dilute(b'PLT0000000'), (930, 70))
        self.refused(16, self.dilute, b'PLT0000919')
        # absent, deleted, the wrong length
        self.refused(35, self.dilute, b'PLT0000001')
        self.refused(35, self.dilute, b'PLT0000352')
        self.refused(27, self.dilute, b'PLT')
        self.refused(13, self.dilute, b'PLT0000000', 1, 1, 'BARCODE', 'VOL')
        self.refused(12, self.dilute, b'PLT0000000', 1, 1, 'BARCODE', 5)
        self.refused(37, self.dilute, b'PLT0000000', 2**64 - 1)
        self.assertRaises(OverflowError, self.dilute, b'PLT0000000', 2**64)
        self.assertRaises(OverflowError, self.dilute, b'PLT0000000', -1)
        self.assertRaises(KeyError, self.dilute, b'PLT0000000', 1, 1, 'NONE')
        self.assertRaises(TypeError, self.dilute, 'PLT0000000')
        self.assertRaises(TypeError, self.table.dilute, self.index.buffer, b'PLT0000000', 1, 1)


class Refusals(TestCase):
    def test_words(self):
        refusal = Refusal(16)
        self.assertEqual((refusal.number, refusal.words, str(refusal)), (16, 'comma in a number', '16 (comma in a number)'))
        self.assertEqual(pickle.loads(pickle.dumps(refusal)), refusal)
        self.assertNotEqual(refusal, Refusal(17))
        self.assertNotEqual(refusal, 16)
        self.assertEqual(sorted(gatherloom.WORDS), [n for n in range(1, 41) if n not in (26, 34)])


class Threads(TestCase):
    def run_all(self, work):
        errors = []

        def run(number):
            try:
                work(number)
            except BaseException as error:
                errors.append(error)

        threads = [threading.Thread(target=run, args=(number,)) for number in range(8)]
        for thread in threads:
            thread.start()
        for thread in threads:
            thread.join()
        self.assertEqual(errors, [])

    def test_one_table(self):
        table = sample('xbase_f5')
        rows = [record.values() for record in table]

        def work(number):
            for _ in range(50):
                self.assertEqual([record.values() for record in table], rows)
                self.assertEqual([record.deleted for record in table], [False, True, False, False, False])

        self.run_all(work)

    def test_one_index(self):
        index = Index.fresh(bytearray(65536), 10, b'BARCODE')

        def work(number):
            for i in range(50):
                record = 50 * number + i + 1
                index.insert(b'%010d' % record, record)
                self.assertEqual(index.lookup(b'%010d' % record).record, record)

        self.run_all(work)
        index.audit()
        self.assertEqual([index.lookup(b'%010d' % record).record for record in range(1, 401)], list(range(1, 401)))


class Loading(TestCase):
    def message(self, library):
        """What a program that imports gatherloom with this library ends with."""
        environment = dict(os.environ, GATHERLOOM_LIBRARY=str(library), PYTHONPATH=str(Path(__file__).resolve().parent))
        ended = subprocess.run([sys.executable, '-c', 'import gatherloom'], env=environment, capture_output=True, text=True)
        self.assertEqual(ended.returncode, 1)
        return ended.stderr.splitlines()[-1]

    def test_no_library(self):
        self.assertRegex(self.message('/none.so'), r'^ImportError: gatherloom: /none.so could not be loaded .* run host/python/build')

    @unittest.skipUnless(shutil.which('cc'), 'needs cc')
    def test_libraries_of_another_interface(self):
        with tempfile.TemporaryDirectory() as folder:
            library = Path(folder) / 'other.so'
            for source, says in (
                ('int other(void) { return 4; }', 'undefined symbol: gl_interface'),
                ('unsigned gl_interface(void) { return 4; }', 'undefined symbol: gl_table_shape'),
                ('unsigned gl_interface(void) { return 2; }', 'has interface 2, and gatherloom.py is for interface 4'),
            ):
                subprocess.run(['cc', '-shared', '-fPIC', '-x', 'c', '-', '-o', library], input=source.encode(), check=True)
                message = self.message(library)
                self.assertTrue(message.startswith('ImportError: gatherloom: '), message)
                self.assertIn(says, message)
                self.assertIn('run host/python/build', message)


if __name__ == '__main__':
    unittest.main()
