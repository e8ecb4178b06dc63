"""The numbers of jiponuwha.h, under the same names."""
from __future__ import annotations

from enum import IntEnum

TO_ZERO = 2**64 - 1
NAME_BYTES = 30
PATH_BYTES = 255
BLOCK_BYTES = 512
MOST_BLOCKS = 101602
DOUBLE_DENSITY = 1760
HIGH_DENSITY = 3520
MOST_FAULTS = 1000


class Status(IntEnum):
    """The status of a library call."""

    DONE = 0
    NOT_AN_IMAGE = 1
    NO_MEMORY = 2
    WRONG_ARGUMENT = 3
    HOST_FAILED = 4


class Format(IntEnum):
    """The file systems: OFS, the old one, and FFS, the fast one."""

    OFS = 0
    FFS = 1


class EntryType(IntEnum):
    """The type of an entry."""

    ROOT = 1
    DIRECTORY = 2
    FILE = -3


class LockMode(IntEnum):
    SHARED_LOCK = -2
    EXCLUSIVE_LOCK = -1


class SeekMode(IntEnum):
    OFFSET_BEGINNING = -1
    OFFSET_CURRENT = 0
    OFFSET_END = 1


class Action(IntEnum):
    """The packets that this package sends."""

    LOCATE_OBJECT = 8
    RENAME_DISK = 9
    FREE_LOCK = 15
    DELETE_OBJECT = 16
    RENAME_OBJECT = 17
    SET_PROTECT = 21
    CREATE_DIR = 22
    EXAMINE_OBJECT = 23
    EXAMINE_NEXT = 24
    DISK_INFO = 25
    SET_COMMENT = 28
    SET_DATE = 34
    READ = 82
    WRITE = 87
    FINDUPDATE = 1004
    FINDINPUT = 1005
    FINDOUTPUT = 1006
    END = 1007
    SEEK = 1008
    SET_FILE_SIZE = 1022


class Error(IntEnum):
    """The errors of AmigaDOS, with which packets are refused."""

    NO_FREE_STORE = 103
    OBJECT_IN_USE = 202
    OBJECT_EXISTS = 203
    DIR_NOT_FOUND = 204
    OBJECT_NOT_FOUND = 205
    ACTION_NOT_KNOWN = 209
    INVALID_COMPONENT_NAME = 210
    INVALID_LOCK = 211
    OBJECT_WRONG_TYPE = 212
    DISK_WRITE_PROTECTED = 214
    DIRECTORY_NOT_EMPTY = 216
    DEVICE_NOT_MOUNTED = 218
    SEEK_ERROR = 219
    COMMENT_TOO_BIG = 220
    DISK_FULL = 221
    DELETE_PROTECTED = 222
    WRITE_PROTECTED = 223
    READ_PROTECTED = 224
    NOT_A_DOS_DISK = 225
    NO_MORE_ENTRIES = 232


class Role(IntEnum):
    """What a block is used for. A lost block is used by nothing, but the bitmap says that it is in use."""

    FREE = 0
    BOOT = 1
    ROOT = 2
    BITMAP = 3
    DIRECTORY = 4
    FILE = 5
    EXTENSION = 6
    DATA = 7
    LOST = 8


class State(IntEnum):
    """How much is left of an entry of a damaged image. A whole file shares no block with another sound file; a doubtful one
    lacks no block, but one is damaged, shared or a filler; of a lost entry nothing is left but its name."""

    DIRECTORY = 1
    WHOLE = 2
    BROKEN = 3
    LOST = 4
    DOUBTFUL = 5
    DOUBTFUL_DIRECTORY = 6


class BootCode(IntEnum):
    """What a boot block is: none, one with a wrong checksum, the standard one, or another one with the right checksum."""

    NONE = 0
    WRONG = 1
    STANDARD = 2
    CUSTOM = 3


class FaultKind(IntEnum):
    """Why bytes are not a valid image."""

    NOT_A_DOS_DISK = 1
    UNSUPPORTED_KIND = 2
    BAD_SUM = 3
    BAD_TYPE = 4
    BAD_OWN_KEY = 5
    BAD_PARENT = 6
    BAD_POINTER = 7
    BLOCK_USED_TWICE = 8
    WRONG_CHAIN = 9
    BAD_NAME = 10
    DUPLICATE_NAME = 11
    BAD_COMMENT = 12
    BAD_COUNT = 13
    BAD_SEQUENCE = 14
    LINK_ENTRY = 15
    MARKED_FREE = 17
    NOT_WHOLE_BLOCKS = 101
    TOO_FEW_BLOCKS = 102
    TOO_MANY_BLOCKS = 103
