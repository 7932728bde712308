"""The numbers that docs/FORMAT.md gives: answers (section 7, and sections 2 and 12), conditions, the state and descriptors (section 10), entry types
(section 4), zones of a drive (section 2)."""
from enum import IntEnum


class Answer(IntEnum):
    FINISHED = 0
    GEOMETRY = 1
    LENGTH = 2
    POINTER = 3
    TWO_LOST = 4
    LABEL = 5
    LOG = 6
    STALE = 7
    ADDRESS = 8
    RUN = 9
    ORDER = 10
    SEALED = 11
    WORN = 12
    UNWRITTEN = 13
    LOG_FULL = 14
    GONE = 15
    ENTRY = 16
    ROWS = 17
    HOST_LIMIT = 18
    OPEN_LIMIT = 19
    NO_STATE = 254       # in a script alone
    UNFINISHED = 255


class Condition(IntEnum):
    EMPTY = 0
    OPEN = 1
    SEALED = 2
    WORN = 3


class Told(IntEnum):
    """A condition as a report tells it."""
    EMPTY = 0
    OPEN = 1
    READ_ONLY = 2


LOGS = GENERAL_LOG, PARITY_LOG = 0, 1       # the kinds of log; each is also the zone that is that log by default, and the start of its closing entry
FIRST_DATA_ZONE = 3                         # the zones before it are the logs and a spare
LABEL, COUNTERS, RESET, PARTIAL_PARITY, SEAL, CLOSING = 1, 2, 3, 4, 5, 6
NO_DRIVE = 255
LAST_GENERATION = 2**64 - 1
ALL_STORES = 2**32 - 1
LEAST_DRIVES, MOST_DRIVES = 3, 8
MOST_UNIT = 16
MOST_ZONES = 16
SECTOR_SIZES = (64, 128, 256, 512, 1024, 2048, 4096)
MOST_ZONE_SECTORS = 65536
HEADER_BYTES = 32                           # of an entry; the generations of counters come after them
HOST_LIMITS = (14, 4)       # how many zones each host may hold open: the mixing desk's, the dubbing desk's
OPEN_ZONES = 14             # how many the drives allow in all
HOSTS = len(HOST_LIMITS)
NO_OWNER = 0                # the owner byte of a zone that no host is known to have written; a host's is its number plus 1
STATE_RECORDS, STATE_RECORD_BYTES, STATE_DRIVES = MOST_ZONES, 16, MOST_DRIVES
DESCRIPTOR_BYTES = 32
