"""The version, as `TARDIS_VERSION` of crates/tardis_c/tardis.h has it (maintain/header.py compares them)."""

VERSION = "0.4.1"


def number() -> int:
    """The version as one number: 10000 for each major version, 100 for each minor one, 1 for each patch."""
    major, minor, patch = map(int, VERSION.split("."))
    return 10000 * major + 100 * minor + patch
