"""The structures and the calls of crates/tardis_c/tardis.h (maintain/header.py compares them)."""
import ctypes
from typing import Any

U32, U64, SIZE, BYTES, ITEMS = ctypes.c_uint32, ctypes.c_uint64, ctypes.c_size_t, ctypes.c_char_p, ctypes.c_void_p


def of_numbers(names: str) -> list[tuple[str, Any]]:
    """Fields of 64 bits each."""
    return [(name, U64) for name in names.split()]


class Options(ctypes.Structure):
    """struct tardis_options."""

    _fields_ = of_numbers("lease time banks sets ways bank_sets bank_ways line_words messages private_write by_seed seed "
                          "limit runs records fair json counts every")


class Found(ctypes.Structure):
    """struct tardis_found."""

    _fields_ = of_numbers("kind number expected source writer")


class Lack(ctypes.Structure):
    """struct tardis_lack."""

    _fields_ = of_numbers("core place")


class System(ctypes.Structure):
    """struct tardis_system."""

    _fields_ = [("machine", ctypes.c_void_p), ("is_open", U64)]


class Operation(ctypes.Structure):
    """struct tardis_operation."""

    _fields_ = [("core", U32), ("kind", U32), ("address", U64), ("value", U64)]


class Record(ctypes.Structure):
    """struct tardis_record."""

    _fields_ = [("operation", Operation), *of_numbers("place received time number")]


class Answer(ctypes.Structure):
    """struct tardis_answer."""

    _fields_ = [*of_numbers("kind refusal"), ("completed", Record)]


class Message(ctypes.Structure):
    """struct tardis_message."""

    _fields_ = [*of_numbers("number kind from_kind from to_kind to line pts has_version version wts rts"),
                ("words", U64 * 8)]


class Open(ctypes.Structure):
    """struct tardis_open."""

    _fields_ = [("state", U64), ("operation", Operation)]


class Place(ctypes.Structure):
    """struct tardis_place."""

    _fields_ = of_numbers("is_there bank line")


class Totals(ctypes.Structure):
    """struct tardis_totals."""

    _fields_ = of_numbers("renewals upgrades flushes write_backs messages records is_stopped")


# What enum tardis_answer_kind, tardis_refusal, tardis_message_kind, tardis_end and tardis_kind number.
ANSWERS = ("issued", "completed", "requested", "waiting", "idle", "delivered", "dropped", "held", "started", "evicted",
           "recalled", "advanced", "refused")
REFUSALS = ("", "Busy", "TooMany", "NoSuch", "NoRoom", "Pinned", "NetworkFull", "NoMemory", "Exhausted", "Stopped")
MESSAGES = ("ShReq", "ExReq", "ShRep", "ExRep", "RenewRep", "UpgradeRep", "FlushReq", "WbReq", "FlushRep", "WbRep",
            "DramLd", "DramLdRep", "DramSt", "DramStRep")
ENDS = "core", "bank", "dram"
KINDS = "R", "W", "S"


def pointer(to: Any) -> Any:
    """The type of a pointer to this one."""
    return ctypes.POINTER(to)


TEXT, PUT = (BYTES, SIZE), (BYTES, SIZE, pointer(SIZE))  # a text; a buffer, and how long the text is
ARRAY, LINES = (ITEMS, SIZE), (ITEMS, SIZE, pointer(SIZE))
ON, ANSWERED = pointer(System), pointer(Answer)

# The calls, each with what it takes. All but `defaults` and `close` answer a number of 32 bits.
CALLS: dict[str, tuple[Any, ...]] = {
    "version": (),
    "defaults": (pointer(Options),),
    "litmus": (*TEXT, pointer(Options), *PUT),
    "ends": (*TEXT, U64, U32, U32, *PUT),
    "trace": (*TEXT, pointer(Options), *PUT),
    "check_opened": (*TEXT, *TEXT, *TEXT, U32, U32, *PUT),
    "check_history": (*ARRAY, *ARRAY, *ARRAY, pointer(Found)),
    "first_lack": (*ARRAY, *ARRAY, pointer(Lack)),
}
# Those of a machine.
CALLS_OF_SYSTEMS: dict[str, tuple[Any, ...]] = {
    "open": (ON, U32, pointer(Options), *ARRAY),
    "close": (ON,),
    "issue": (ON, pointer(Operation), ANSWERED),
    "attempt": (ON, U32, ANSWERED),
    "deliver": (ON, U64, ANSWERED),
    "evict_copy": (ON, U32, U64, ANSWERED),
    "evict_entry": (ON, U32, U64, ANSWERED),
    "advance": (ON, U32, ANSWERED),
    "totals": (ON, pointer(Totals)),
    "message_number": (ON, U32, pointer(U64)),
    "message": (ON, U64, pointer(Message)),
    "record": (ON, SIZE, pointer(Record)),
    "open_operation": (ON, U32, pointer(Open)),
    "copies": (ON, U32, *LINES),
    "entries": (ON, U32, *LINES),
    "victim": (ON, U32, U64, pointer(Place)),
    "make_room": (ON, U64, pointer(Place)),
    "owners": (ON, U64, pointer(U64)),
    "value": (ON, U64, pointer(U64)),
}
SILENT = "defaults", "close"


def declared(library: Any, calls: dict[str, tuple[Any, ...]], prefix: str = "tardis_c_") -> dict[str, Any]:
    """The calls of a library by their names, with what they take and answer."""
    made = {}
    for name, takes in calls.items():
        call = made[name] = getattr(library, prefix + name)
        call.argtypes, call.restype = takes, None if name in SILENT else U32
    return made
