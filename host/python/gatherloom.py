"""dBASE/FoxPro tables, FPT memo files and IDX indexes, read and written by the proved library Gatherloom, and NDX indexes, read alone.

    import gatherloom

    table = gatherloom.Table('run.dbf', memo='run.fpt')
    for record in table:
        if not record.deleted:
            print(record.number, record['BARCODE'], record['CONC'])

A call answers what the files' rules say, or refuses by number. A refusal is the exception `Refusal`, with the number in `.number` and its words
in `.words`: a concentration written `2,150` is Refusal 16, never 2 and never 2150. Each field is refused for itself: `record['CONC']` raises, the record's
other fields can be read, and `record.values()` has the Refusal itself in the field's place.

A value is a `Decimal` with the field's decimals (N: `Decimal('2.150')`), a `datetime.date` (D), a bool (L) or bytes (C and M, as they lie in the file: no code
page is guessed), and None if the field is empty. Records and fields are counted from 1, as the files' rules do.

`lay_out`, `append` and `set_date` write a table that lies in a bytearray. An append answers the two stores that the file is to get; after a power loss
`extent` gives the length to shorten the file to, and that is the old table or the new one:

    for store in gatherloom.append(buffer, table_len, record):
        os.pwrite(file, buffer[store.place : store.place + store.length], store.place)
        os.fsync(file)

`Table.dilute` gives the volumes of sample and diluent for a barcode, or refuses; a refused barcode is not to be pipetted:

    table.dilute(gatherloom.Index('run.idx'), b'PLT0000002', target=2000, final_volume=1000)     # 2.000 nM in 100.0 microlitres

Where a source is asked for, it is a file's path (str or os.PathLike) or the file's content (bytes, bytearray or memoryview). A number that is negative or too
large for the library is an OverflowError, an argument of another type a TypeError; neither reaches the library.

Tables and Indexes may be used by several threads. A call holds the interpreter's lock, and an Index has a lock of its own.
"""

import ctypes
import datetime
import operator
import os
import threading
from decimal import Context, Decimal, Inexact, InvalidOperation
from pathlib import Path
from typing import NamedTuple, Optional

__all__ = ['Field', 'Index', 'LiveWalk', 'Lookup', 'MemoMissing', 'NdxIndex', 'Record', 'Refusal', 'Store', 'Stores', 'Table', 'Volumes', 'Walk', 'append',
           'extent', 'lay_out', 'read_number', 'set_date', 'write_number']

# ---- Refusals.

WORDS = {
    1: 'size of the table',
    2: 'kind of table',
    3: 'update date',
    4: 'header length',
    5: 'header end mark',
    6: 'field descriptor',
    7: 'field name twice',
    8: 'memo field and kind of table',
    9: 'record length',
    10: 'table length',
    11: 'record number',
    12: 'field number',
    13: 'field type',
    14: 'field list too short',
    15: 'deletion byte',
    16: 'comma in a number',
    17: 'not a number',
    18: 'more than 18 digits',
    19: 'does not fit the field',
    20: 'not a date or logical value',
    21: 'memo number or place',
    22: 'memo header',
    23: 'memo is not text',
    24: 'index header',
    25: 'index not sound',
    27: 'key length',
    28: 'record number 0',
    29: 'key present',
    30: 'no room',
    31: 'index and table differ',
    32: 'control byte in the key',
    33: 'key absent',
    35: 'barcode absent or deleted',
    36: 'no concentration',
    37: 'target or volume out of range',
    38: 'target above concentration',
    39: 'record list too short',
    40: 'arguments or files',
}


class Refusal(Exception):
    """A refusal, by its number. Two Refusals of one number are equal."""

    def __init__(self, number):
        super().__init__(number)
        self.number = number

    @property
    def words(self):
        return WORDS.get(self.number, 'unknown refusal')

    def __str__(self):
        return f'{self.number} ({self.words})'

    def __eq__(self, other):
        return self.number == other.number if isinstance(other, Refusal) else NotImplemented

    def __hash__(self):
        return hash((Refusal, self.number))


class MemoMissing(Exception):
    """The text of an M field lies in a memo file, and the Table was given none."""

    def __str__(self):
        return "the table was opened without its memo file: Table(source, memo=..)"

    def __eq__(self, other):
        return True if isinstance(other, MemoMissing) else NotImplemented

    def __hash__(self):
        return hash(MemoMissing)


# ---- The library. Its calls are those of include/gatherloom.h.

# the number that gl_interface() gives for the calls as they are declared here
INTERFACE = 4

ACCEPTED, EMPTY, ABSENT, DONE = 0, 256, 257, 258


class _Entry(ctypes.Structure):
    _fields_ = [('name', ctypes.c_uint8 * 11), ('kind', ctypes.c_uint8), ('length', ctypes.c_uint8), ('decimals', ctypes.c_uint8), ('offset', ctypes.c_uint16)]


class _Position(ctypes.Structure):
    _fields_ = [('passed', ctypes.c_uint32)]


# bytes pass as a pointer and a length
_BYTES = [ctypes.c_void_p, ctypes.c_size_t]
_NUMBER = ctypes.c_uint32


def _out(kind):
    return ctypes.POINTER(kind)


_CALLS = {
    'gl_table_shape': _BYTES + 3 * [_out(_NUMBER)],
    'gl_fields': _BYTES + [_out(_Entry), ctypes.c_size_t],
    'gl_walk': _BYTES + [_out(_Position), _out(_NUMBER), _out(ctypes.c_uint8)],
    'gl_walk_live': _BYTES + [_out(_Position), _out(_NUMBER)],
    'gl_table_lay_out': _BYTES + [_out(_Entry), ctypes.c_size_t] + 3 * [_NUMBER],
    'gl_table_append': _BYTES + [ctypes.c_size_t] + _BYTES + 4 * [_out(ctypes.c_uint64)],
    'gl_table_set_date': _BYTES + [ctypes.c_size_t] + 3 * [_NUMBER],
    'gl_table_extent': _BYTES + [_out(ctypes.c_uint64)],
    'gl_read_number': _BYTES + [_NUMBER, _NUMBER, _out(ctypes.c_int64)],
    'gl_read_date': _BYTES + [_NUMBER, _NUMBER] + 3 * [_out(_NUMBER)],
    'gl_read_logical': _BYTES + [_NUMBER, _NUMBER, _out(ctypes.c_uint8)],
    'gl_text_part': 2 * _BYTES + [_NUMBER, _NUMBER] + 2 * [_out(ctypes.c_uint64)],
    'gl_number_read': _BYTES + [_NUMBER, _out(ctypes.c_int64)],
    'gl_number_write': _BYTES + [_NUMBER, ctypes.c_int64],
    'gl_index_fresh': _BYTES + 2 * [_NUMBER] + _BYTES,
    'gl_index_audit': _BYTES,
    'gl_index_lookup': 2 * _BYTES + 2 * [_out(_NUMBER)],
    'gl_index_insert': 2 * _BYTES + [_NUMBER],
    'gl_index_remove': 2 * _BYTES + [_NUMBER],
    'gl_index_records': 2 * _BYTES + [_out(_NUMBER), ctypes.c_size_t, _out(_NUMBER)],
    'gl_match': 2 * _BYTES + [_NUMBER],
    'gl_ndx_audit': _BYTES,
    'gl_ndx_lookup': 2 * _BYTES + 2 * [_out(_NUMBER)],
    'gl_dilute': 2 * _BYTES + 2 * [_NUMBER] + _BYTES + 2 * [ctypes.c_uint64] + 2 * [_out(_NUMBER)],
}


def _declare(library, name, arguments):
    call = getattr(library, name)
    call.argtypes = arguments
    call.restype = _NUMBER
    return call


def _load():
    """The shared library that GATHERLOOM_LIBRARY names, or the one that host/python/build makes."""
    path = os.environ.get('GATHERLOOM_LIBRARY') or Path(__file__).resolve().parents[2] / 'target' / 'python' / 'libgatherloom.so'
    remedy = 'run host/python/build, or name a library that fits in GATHERLOOM_LIBRARY'
    try:
        # PyDLL holds the interpreter's lock during a call, so that no other thread changes what the call was lent
        library = ctypes.PyDLL(os.fspath(path))
    except OSError as error:
        raise ImportError(f'gatherloom: {path} could not be loaded ({error}); {remedy}') from None
    try:
        number = _declare(library, 'gl_interface', [])()
        if number != INTERFACE:
            raise ImportError(f'gatherloom: {path} has interface {number}, and gatherloom.py is for interface {INTERFACE}; {remedy}')
        for name, arguments in _CALLS.items():
            _declare(library, name, arguments)
    except AttributeError as error:
        raise ImportError(f'gatherloom: {path} lacks a call, so it is older than gatherloom.py or another library ({error}); {remedy}') from None
    return library


_library = _load()


def _accepted(answer):
    """The answer 0, 256, 257 or 258 of a call; another is a refusal, which is raised."""
    if answer not in (ACCEPTED, EMPTY, ABSENT, DONE):
        raise Refusal(answer)
    return answer


# ---- Arguments. ctypes would cut a number to its type's bits, so each is checked before.


def _unsigned(value, what, bits=32):
    if isinstance(value, bool):
        raise TypeError(f'{what} is a bool, not a number')
    value = operator.index(value)
    if not 0 <= value < 1 << bits:
        raise OverflowError(f'{what} {value} is not from 0 to 2**{bits} - 1')
    return value


def _bytes(value, what):
    if not isinstance(value, (bytes, bytearray, memoryview)):
        raise TypeError(f'{what} is bytes, not {type(value).__name__}')
    return bytes(value)


def _buffer(value, what):
    if not isinstance(value, bytearray):
        raise TypeError(f'{what} in a bytearray, not {type(value).__name__}')
    return value


def _content(source, most):
    """The bytes of a source. Of a longer file, most + 1 bytes are read: enough for every answer."""
    if isinstance(source, (str, os.PathLike)):
        with open(source, 'rb') as file:
            return file.read(most + 1)
    return _bytes(source, 'a source that is no path')


def _lent(data):
    """What passes bytes, or a bytearray that the call may write, as a pointer and a length."""
    if isinstance(data, bytearray):
        return (ctypes.c_uint8 * len(data)).from_buffer(data), len(data)
    return data, len(data)


# ---- The table.

# the most bytes of a table or memo file, and of an index
MAX_TABLE = 16777216
MAX_INDEX = 16777216


class Field(NamedTuple):
    """A field of a table: its name, its type's letter (C, N, D, L or M), its length in bytes, its decimals, and its offset inside a record, where the deletion
    byte has 0 and the first field 1. The offset of a field to lay out a table with is not looked at."""

    name: str
    type: str
    length: int
    decimals: int
    offset: int = 0


def _decimal(units, decimals):
    """units times 10 to the -decimals, in no context, so that nothing is rounded."""
    return Decimal((int(units < 0), tuple(map(int, str(abs(units)))), -decimals))


class Table:
    """A table, with its memo file if one is given. Iterating over it gives each Record, deleted or not; `len` is the number of records.

    A table that is not good is refused here, by 1 to 10. The file is read once and kept: a change of it later does not show.
    """

    def __init__(self, source, memo=None):
        self._table = _content(source, MAX_TABLE)
        self._memo = None if memo is None else _content(memo, MAX_TABLE)
        records, fields, length = _NUMBER(), _NUMBER(), _NUMBER()
        _accepted(_library.gl_table_shape(*_lent(self._table), ctypes.byref(records), ctypes.byref(fields), ctypes.byref(length)))
        self._records = records.value
        self.record_length = length.value
        entries = (_Entry * fields.value)()
        _accepted(_library.gl_fields(*_lent(self._table), entries, len(entries)))
        #: the fields, in order
        self.fields = tuple(Field(bytes(e.name).rstrip(b'\0').decode('ascii'), chr(e.kind), e.length, e.decimals, e.offset) for e in entries)
        self._numbers = {field.name: j for j, field in enumerate(self.fields, 1)}
        self._marks = None
        self._readers = {'N': self._number, 'D': self._date, 'L': self._logical, 'C': self._text, 'M': self._text}

    def __len__(self):
        return self._records

    def __iter__(self):
        return (Record(self, i) for i in range(1, len(self) + 1))

    def __repr__(self):
        return f'<Table of {len(self)} records, fields {", ".join(field.name for field in self.fields)}>'

    def record(self, number):
        """Record `number`, from 1. Refusal 11."""
        if not 1 <= _unsigned(number, 'record number') <= len(self):
            raise Refusal(11)
        return Record(self, operator.index(number))

    def walk(self, passed=0):
        """A Walk over the records after the first `passed` ones, deleted or not: each Record has its mark in `deleted`."""
        return Walk(self, passed)

    def walk_live(self, passed=0):
        """A LiveWalk, which skips the deleted ones."""
        return LiveWalk(self, passed)

    def field_number(self, name):
        """The number of the field of that name, from 1. KeyError if there is none."""
        return self._numbers[name]

    def value(self, record, field):
        """The value of a field of a record, both by number from 1; None if it is empty. Refusals 11, 12, 15 to 18 and 20 to 23; MemoMissing."""
        record, field = _unsigned(record, 'record number'), _unsigned(field, 'field number')
        # a field that is not there is refused by any reader: 11 and 12 come before the field's type
        kind = self.fields[field - 1].type if 1 <= field <= len(self.fields) else 'N'
        return self._readers[kind](record, field)

    def match(self, index, field):
        """Returns if the Index has exactly one entry for each record, deleted or not, whose key is the record's field, and no other.

        The field is a number or a name. Refusals 24, 12, 13, 27, 25, 31.
        """
        if not isinstance(index, Index):
            raise TypeError(f'an Index is matched, not {type(index).__name__}')
        number = self.field_number(field) if isinstance(field, str) else _unsigned(field, 'field number')
        with index._lock:
            _accepted(_library.gl_match(*_lent(self._table), *_lent(index.buffer), number))

    def dilute(self, index, barcode, target, final_volume, barcode_field='BARCODE', concentration_field='CONC'):
        """The Volumes of sample and diluent for the record with the barcode. If the call refuses, nothing is to be pipetted.

        The target is a whole number of thousandths of nM, the final volume one of tenths of a microlitre; a field is a number or a name. The match is made anew
        by each call. Refusals: the match's; 12, 13, 27, 35, 15, 16 to 18, 36, 37, 38.
        """
        if not isinstance(index, Index):
            raise TypeError(f'an Index is matched, not {type(index).__name__}')
        fields = [self.field_number(f) if isinstance(f, str) else _unsigned(f, 'field number') for f in (barcode_field, concentration_field)]
        barcode = _bytes(barcode, 'a barcode')
        target, final_volume = _unsigned(target, 'target', 64), _unsigned(final_volume, 'final volume', 64)
        sample, diluent = _NUMBER(), _NUMBER()
        out = ctypes.byref(sample), ctypes.byref(diluent)
        with index._lock:
            _accepted(_library.gl_dilute(*_lent(self._table), *_lent(index.buffer), *fields, *_lent(barcode), target, final_volume, *out))
        return Volumes(sample.value, diluent.value)

    def _number(self, record, field):
        units = ctypes.c_int64()
        if _accepted(_library.gl_read_number(*_lent(self._table), record, field, ctypes.byref(units))) == EMPTY:
            return None
        return _decimal(units.value, self.fields[field - 1].decimals)

    def _date(self, record, field):
        year, month, day = _NUMBER(), _NUMBER(), _NUMBER()
        out = ctypes.byref(year), ctypes.byref(month), ctypes.byref(day)
        if _accepted(_library.gl_read_date(*_lent(self._table), record, field, *out)) == EMPTY:
            return None
        return datetime.date(year.value, month.value, day.value)

    def _logical(self, record, field):
        value = ctypes.c_uint8()
        if _accepted(_library.gl_read_logical(*_lent(self._table), record, field, ctypes.byref(value))) == EMPTY:
            return None
        return value.value == 1

    def _text(self, record, field):
        start, length = ctypes.c_uint64(), ctypes.c_uint64()
        out = ctypes.byref(start), ctypes.byref(length)
        answer = _library.gl_text_part(*_lent(self._table), *_lent(self._memo or b''), record, field, *out)
        # 22 is given only if the field names a memo, and it then tells of the memo file: of no bytes here
        if answer == 22 and self._memo is None:
            raise MemoMissing
        if _accepted(answer) == EMPTY:
            return None
        file = self._table if self.fields[field - 1].type == 'C' else self._memo
        return file[start.value : start.value + length.value]

    def _deletion(self):
        """For each record 0 if it is kept, 1 if it is deleted, 15 if its deletion byte is neither: what the walk over every record answers at it."""
        if self._marks is None:
            marks = bytearray()
            position = _Position()
            while (step := _walked(self._table, position))[0] != DONE:
                answer, _, deleted = step
                marks.append(deleted if answer == ACCEPTED else answer)
            if len(marks) != len(self):
                raise RuntimeError(f'the walk gave {len(marks)} answers for {len(self)} records')
            self._marks = bytes(marks)
        return self._marks


def _walked(table, position):
    """A step of the walk over every record: its answer, and the record's number and mark."""
    record, deleted = _NUMBER(), ctypes.c_uint8()
    answer = _library.gl_walk(*_lent(table), ctypes.byref(position), ctypes.byref(record), ctypes.byref(deleted))
    return answer, record.value, deleted.value


def _walked_live(table, position):
    """A step of the walk that skips deleted records: its answer, and the record's number."""
    record = _NUMBER()
    answer = _library.gl_walk_live(*_lent(table), ctypes.byref(position), ctypes.byref(record))
    return answer, record.value


class Record:
    """A record of a Table, by its number. `record['CONC']` reads a field by name, `record.value(2)` by number; both raise the field's Refusal."""

    __slots__ = ('table', 'number')
    __iter__ = None

    def __init__(self, table, number):
        self.table = table
        self.number = number

    @property
    def deleted(self):
        """Whether the record is marked as deleted. Its fields are read like others. Refusal 15 if its deletion byte is no mark."""
        mark = self.table._deletion()[self.number - 1]
        if mark > 1:
            raise Refusal(mark)
        return mark == 1

    def __getitem__(self, name):
        """The value of the field of that name. KeyError if the table has none."""
        return self.table.value(self.number, self.table.field_number(name))

    def value(self, field):
        """The value of a field by its number, from 1."""
        return self.table.value(self.number, field)

    def values(self):
        """The values of all fields, in order. A field that is refused has its Refusal in its place, an M field of a Table without a memo file MemoMissing."""
        values = []
        for j in range(1, len(self.table.fields) + 1):
            try:
                values.append(self.value(j))
            except (Refusal, MemoMissing) as refusal:
                values.append(refusal.with_traceback(None))
        return values

    def items(self):
        """Pairs of field name and value, as `values` has them."""
        return list(zip((field.name for field in self.table.fields), self.values()))

    def __repr__(self):
        return f'<Record {self.number}: {dict(self.items())}>'


class Walk:
    """An iterator over the records of a Table, deleted or not. At a bad deletion byte it raises Refusal 15, and the next call of `next` goes on after it."""

    _step = staticmethod(_walked)

    def __init__(self, table, passed=0):
        self._table = table
        self._position = _Position(_unsigned(passed, 'position'))

    @property
    def passed(self):
        """How many records are passed."""
        return self._position.passed

    def __iter__(self):
        return self

    def __next__(self):
        answer, number, *_ = self._step(self._table._table, self._position)
        if _accepted(answer) == DONE:
            raise StopIteration
        return Record(self._table, number)


class LiveWalk(Walk):
    """A Walk that skips deleted records. If none but deleted ones are left, it ends and `passed` stays."""

    _step = staticmethod(_walked_live)


# ---- Writing a table, which lies in the first bytes of a bytearray.


class Store(NamedTuple):
    """Bytes that a call has written into the buffer, and that the file is to get: where they lie in both, and how many they are."""

    place: int
    length: int


class Stores(NamedTuple):
    """The two stores of an append, in the order in which the file must get them: the record and the end mark; the count, once those are durable."""

    record: Store
    count: Store

    @property
    def table_len(self):
        """The table's length now, with its end mark."""
        return self.record.place + self.record.length


def _entry(field):
    """The entry of a Field. A name or type that the entry has no room for is left out of it, and so refused by 6."""
    name, kind, length, decimals, *_ = field
    for text, what in (name, 'name'), (kind, 'type'):
        if not isinstance(text, str):
            raise TypeError(f"a field's {what} is a str, not {type(text).__name__}")
    entry = _Entry(length=_unsigned(length, 'field length', 8), decimals=_unsigned(decimals, 'decimal count', 8))
    if name.isascii() and len(name) <= len(entry.name) and '\0' not in name:
        entry.name[: len(name)] = name.encode('ascii')
    if kind.isascii() and len(kind) == 1:
        entry.kind = ord(kind)
    return entry


def lay_out(buffer, fields, date):
    """Lays out a table of these Fields and no records in the first bytes of a bytearray, and gives its length; the bytes after it stay.

    The date is a datetime.date. Refusals 3 if its year is not from 1900 to 2155, 4 unless there are 1 to 128 fields, 6 for a bad one, 7 if two have one name, 9
    if a record would have more than 4,000 bytes, and 30. A refusal leaves the buffer as it was.
    """
    entries = [_entry(field) for field in fields]
    lent = (_Entry * len(entries))(*entries)
    _accepted(_library.gl_table_lay_out(*_lent(_buffer(buffer, 'a table is laid out')), lent, len(entries), *_day(date)))
    return 34 + 32 * len(entries)


def append(buffer, table_len, record):
    """Appends one record, given as its bytes, to the table in the first `table_len` bytes of a bytearray, and gives the Stores.

    The bytes after the table are the room for the record. Refusals 10 if the table is longer than the buffer, 1 to 10, 9 if the record has another length than
    the table's, 15, for each field's text in order 16 to 18, 20 or 21, and 30. A refusal leaves the buffer as it was.
    """
    table_len, record = _unsigned(table_len, 'table length', 63), _bytes(record, 'a record')
    out = [ctypes.c_uint64() for _ in range(4)]
    _accepted(_library.gl_table_append(*_lent(_buffer(buffer, 'a table is written')), table_len, *_lent(record), *map(ctypes.byref, out)))
    record_place, record_length, count_place, count_length = (number.value for number in out)
    return Stores(Store(record_place, record_length), Store(count_place, count_length))


def _day(date):
    if not isinstance(date, datetime.date):
        raise TypeError(f'an update date is a datetime.date, not {type(date).__name__}')
    return date.year, date.month, date.day


def set_date(buffer, table_len, date):
    """Sets the update date of the table in the first `table_len` bytes of a bytearray: its bytes 1 to 3. The date is a datetime.date.

    Refusals 10 if the table is longer than the buffer, 1 to 10, and 3 if the year is not from 1900 to 2155.
    """
    table_len = _unsigned(table_len, 'table length', 63)
    _accepted(_library.gl_table_set_date(*_lent(_buffer(buffer, 'a table is written')), table_len, *_day(date)))


def extent(source):
    """The length to shorten a table's file to after a power loss: that of its table, by the table's own count and without an end mark. Refusals 1 to 10."""
    file, length = _content(source, MAX_TABLE), ctypes.c_uint64()
    _accepted(_library.gl_table_extent(*_lent(file), ctypes.byref(length)))
    return length.value


# ---- Numeric text.


def read_number(text, decimals):
    """The Decimal that the text of an N field stands for, None if it is all blanks. The text's length is the field's. Refusals 6, 16, 17, 18.

    The zero before the point may be missing, as in b'-.150', unless all digits are zeros.
    """
    units = ctypes.c_int64()
    decimals = _unsigned(decimals, 'decimal count')
    if _accepted(_library.gl_number_read(*_lent(_bytes(text, 'numeric text')), decimals, ctypes.byref(units))) == EMPTY:
        return None
    return _decimal(units.value, decimals)


def _units(value, decimals):
    """value in units of 10 to the -decimals, exactly."""
    if isinstance(value, bool) or not isinstance(value, (int, Decimal)):
        raise TypeError(f'a number to write is a Decimal or an int, not {type(value).__name__}')
    number = Decimal(value)
    if not number.is_finite():
        raise ValueError(f'{value} is no number')
    exact = Context(prec=40, traps=[Inexact, InvalidOperation])
    try:
        units = int(number.quantize(Decimal((0, (1,), -decimals)), context=exact).scaleb(decimals, context=exact))
    except Inexact:
        raise ValueError(f'{value} has more than {decimals} decimals') from None
    except InvalidOperation:
        units = None
    if units is None or not -(1 << 63) <= units < 1 << 63:
        raise OverflowError(f'{value} with {decimals} decimals passes 64 bits')
    return units


def write_number(value, width, decimals):
    """The written text of a Decimal or an int in an N field of `width` bytes. Refusals 6, 18, 19.

    The zero before the point is always written, so the value of b'-.150' does not fit in its five bytes.
    Nothing is rounded: a value with more decimals is a ValueError. A float is a TypeError, since it seldom is the number that it is written as.
    """
    decimals = _unsigned(decimals, 'decimal count')
    text = bytearray(_unsigned(width, 'width', 63))
    # 0 fits every good field, so this is 6 or accepted
    _accepted(_library.gl_number_write(*_lent(text), decimals, 0))
    _accepted(_library.gl_number_write(*_lent(text), decimals, _units(value, decimals)))
    return bytes(text)


# ---- The index.


class Volumes(NamedTuple):
    """What to pipette, in tenths of a microlitre. Both add to the final volume."""

    sample: int
    diluent: int


class Lookup(NamedTuple):
    """What a lookup found: the key's record number, None if the key is absent; and how many pages were visited."""

    record: Optional[int]
    pages: int


class Index:
    """An index in a bytearray, `buffer`.

    A bytearray is used in place, so that insertions and removals write into it. Of a path or other bytes a copy is made, with zeros after it up to `room`
    bytes:
    an insertion that splits a page needs 512 bytes or more after the index. The index itself is not checked here; `audit` does that.
    """

    def __init__(self, source, room=0):
        room = _unsigned(room, 'room', 63)
        if isinstance(source, bytearray):
            if room:
                raise ValueError("a bytearray is used in place, and its length is the room")
            self.buffer = source
        else:
            self.buffer = bytearray(_content(source, MAX_INDEX))
            self.buffer.extend(bytes(max(0, room - len(self.buffer))))
        self._lock = threading.Lock()

    @classmethod
    def fresh(cls, buffer, key_length, expression, features=1):
        """An index of no keys, made in the first 1,024 bytes of a bytearray; the others are room for insertions. Refusals 27, 24, 30.

        With features 1 a key has one record, with features 0 it may have several.
        """
        _buffer(buffer, 'a fresh index is made')
        key_length, expression = _unsigned(key_length, 'key length'), _bytes(expression, 'an expression')
        features = _unsigned(features, 'features')
        _accepted(_library.gl_index_fresh(*_lent(buffer), key_length, features, *_lent(expression)))
        return cls(buffer)

    def audit(self):
        """Returns if the index is sound. Refusal 24 for its header, else 25."""
        with self._lock:
            _accepted(_library.gl_index_audit(*_lent(self.buffer)))

    def lookup(self, key):
        """The Lookup of a key, with its first record if it has several. Refusals 24, 27, 25."""
        key = _bytes(key, 'a key')
        record, pages = _NUMBER(), _NUMBER()
        with self._lock:
            answer = _library.gl_index_lookup(*_lent(self.buffer), *_lent(key), ctypes.byref(record), ctypes.byref(pages))
        return Lookup(None if _accepted(answer) == ABSENT else record.value, pages.value)

    def records(self, key, room):
        """All records of a key, in order, as a list; room is how many there may be. Refusals 24, 27, 25, 39."""
        key, room = _bytes(key, 'a key'), _unsigned(room, 'room')
        numbers, count = (_NUMBER * max(room, 1))(), _NUMBER()
        with self._lock:
            _accepted(_library.gl_index_records(*_lent(self.buffer), *_lent(key), numbers, room, ctypes.byref(count)))
        return list(numbers[: count.value])

    def insert(self, key, record):
        """Inserts a key with its record's number. A refusal leaves the buffer as it was. Refusals 24, 27, 32, 28, 25, 29, 30."""
        key, record = _bytes(key, 'a key'), _unsigned(record, 'record number')
        with self._lock:
            _accepted(_library.gl_index_insert(*_lent(self.buffer), *_lent(key), record))

    def remove(self, key, record=0):
        """Strikes a key off; with features 0 the pair of the key and the record. With features 1 the record is not looked at.

        A refusal leaves the buffer as it was. Refusals 24, 27, 25, 33.

        Later insertions reuse the pages that are emptied. The index never gets shorter, and it loses levels only when its last key goes: after many calls
        insertions may be refused by 30 with few keys left, and the way out is a fresh index.
        """
        key, record = _bytes(key, 'a key'), _unsigned(record, 'record number')
        with self._lock:
            _accepted(_library.gl_index_remove(*_lent(self.buffer), *_lent(key), record))

    def file(self):
        """The bytes of the index file: the buffer as far as the index's own size. An index that is not sound is refused, by 24 or 25."""
        with self._lock:
            _accepted(_library.gl_index_audit(*_lent(self.buffer)))
            return bytes(self.buffer[: int.from_bytes(self.buffer[8:12], 'little')])


class NdxIndex:
    """An index of dBASE III, of a path or of bytes, read only. The index itself is not checked here; `audit` does that."""

    def __init__(self, source):
        self._bytes = _content(source, MAX_INDEX)

    def audit(self):
        """Returns if the index is sound. Refusal 24 for its header, else 25."""
        _accepted(_library.gl_ndx_audit(*_lent(self._bytes)))

    def lookup(self, key):
        """The Lookup of a key. Refusals 24, 27, 25."""
        key = _bytes(key, 'a key')
        record, pages = _NUMBER(), _NUMBER()
        answer = _library.gl_ndx_lookup(*_lent(self._bytes), *_lent(key), ctypes.byref(record), ctypes.byref(pages))
        return Lookup(None if _accepted(answer) == ABSENT else record.value, pages.value)
