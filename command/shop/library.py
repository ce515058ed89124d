"""The proved calls, from libplate.so by ctypes, as plate.h explains them. A refusal is raised in words."""
import ctypes
import functools
import os
import pathlib
from ctypes import c_char_p, c_int32, c_size_t, c_uint8, c_uint32, c_uint64

from shop.version import VERSION
from shop.words import Refused, Unreadable, refusal

LONGEST_LIST = 12 * 62 * 62 + 18
TABLES = 131072


class Raw64Reply(ctypes.Structure):
    _fields_ = [('refusal', c_uint8), ('answer', c_uint64)]


class Binary64Reply(ctypes.Structure):
    _fields_ = [('refusal', c_uint8), ('status', c_uint8), ('bits', c_uint64)]


class Record(ctypes.Structure):
    _fields_ = [('refusal', c_uint8), ('rounding', c_uint8), ('columns', c_uint32), ('rows', c_uint32), ('step', c_uint32),
                ('radius', c_uint32), ('x', c_int32), ('y', c_int32), ('z', c_int32)]


TABLES_TYPE = c_uint64 * TABLES
LIST_ARGUMENTS = [c_uint8, c_char_p, c_size_t, ctypes.POINTER(c_uint8), c_size_t]
SIGNATURES = {
    'plate_raw': (c_uint64, [c_uint8, c_uint32, c_uint8]),
    'plate_binary32': (c_uint64, [c_uint8, c_uint8, c_uint8, c_uint32]),
    'plate_fill_tables': (c_uint8, [TABLES_TYPE, c_size_t]),
    'plate_raw64': (Raw64Reply, [c_uint8, c_uint64, c_uint8, TABLES_TYPE, c_size_t]),
    'plate_binary64': (Binary64Reply, [c_uint8, c_uint8, c_uint8, c_uint64, TABLES_TYPE, c_size_t]),
    'plate_list': (c_uint64, LIST_ARGUMENTS),
    'plate_lifted_list': (c_uint64, LIST_ARGUMENTS),
    'plate_record': (Record, [c_char_p, c_size_t, c_size_t]),
}


@functools.cache
def calls():
    """The library beside the command, or the one that PLATE_LIBRARY names."""
    beside = pathlib.Path(__file__).resolve().parents[3] / 'lib' / f'libplate.so.{VERSION.split(".")[0]}'
    path = os.environ.get('PLATE_LIBRARY') or beside
    try:
        library = ctypes.CDLL(str(path))
    except OSError as failure:
        raise Unreadable(f'the library: {failure}') from None
    for name, (result, arguments) in SIGNATURES.items():
        function = getattr(library, name, None)
        if function is None:
            raise Unreadable(f'the library: {path} has no {name}')
        function.restype, function.argtypes = result, arguments
    return library


@functools.cache
def tables():
    """The tables of binary64, filled."""
    lent = TABLES_TYPE()
    accepted(calls().plate_fill_tables(lent, TABLES))
    return lent


def accepted(number, name=None):
    if number:
        raise Refused(f'{name}: {refusal(number)}' if name else refusal(number))


def raw(operation, significand, parity):
    """The answer g of 24 bits, which stands for g / 2^28."""
    given = calls().plate_raw(operation, significand, parity)
    accepted(given >> 40)
    return given & 0xFFFFFFFF


def raw64(operation, significand, parity):
    """The answer g of 53 bits, which stands for g / 2^60."""
    reply = calls().plate_raw64(operation, significand, parity, tables(), TABLES)
    accepted(reply.refusal)
    return reply.answer


def binary32(operation, rounding, bits):
    """The answer's bits and the flags."""
    given = calls().plate_binary32(operation, rounding, 0, bits)
    accepted(given >> 40)
    return given & 0xFFFFFFFF, given >> 32 & 0xFF


def binary64(operation, rounding, bits):
    """The answer's bits and the flags."""
    reply = calls().plate_binary64(operation, rounding, 0, bits, tables(), TABLES)
    accepted(reply.refusal)
    return reply.bits, reply.status


def cutter_list(name, plate_map, rounding, lifted=False):
    """The bytes of the list of a map, which was read from `name`."""
    lent = (c_uint8 * LONGEST_LIST)()
    call = calls().plate_lifted_list if lifted else calls().plate_list
    given = call(rounding, plate_map, len(plate_map), lent, LONGEST_LIST)
    accepted(given >> 40, name)
    return ctypes.string_at(lent, given & 0xFFFFFFFF)


def record(name, cut, index):
    """One record of a list, which was read from `name`, and the sizes."""
    reply = calls().plate_record(cut, len(cut), index)
    accepted(reply.refusal, name)
    return reply


def records(name, cut):
    """Every record of a list, with its column and row on the map."""
    first = record(name, cut, 0)
    inner = first.columns - 2
    for index in range(inner * (first.rows - 2)):
        yield index % inner + 1, index // inner + 1, record(name, cut, index)
