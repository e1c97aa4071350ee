"""Values as one JSON document."""

import json
import math
from typing import Any

from .names import Id


def plain(value: Any) -> Any:
    """A value as JSON has it: a record as an object by the names of its fields, bytes in hexadecimal, and a float that JSON does not have
    as its name. An identifier is `"0x.."`, since JSON numbers lose bits above 2 to the power of 53."""
    if isinstance(value, Id):
        return str(value)
    if isinstance(value, tuple) and hasattr(value, "_fields"):
        return {name: plain(getattr(value, name)) for name in value._fields}
    if isinstance(value, (tuple, list)):
        return [plain(one) for one in value]
    if isinstance(value, bytes):
        return value.hex()
    if isinstance(value, float) and not math.isfinite(value):
        return "NaN" if math.isnan(value) else "Infinity" if value > 0 else "-Infinity"
    return value


def document(value: Any) -> str:
    """The document of a value, in ASCII."""
    return json.dumps(plain(value), indent=2, allow_nan=False)
