"""Records and answers as programs have them, and as the library reads them."""
from typing import Sequence, Union

Records = Union[bytes, str, Sequence[bytes]]
"""One record's bytes, the bytes of several, or a text with a record in hexadecimal a line, as files have it."""


def hexadecimal(records: Records) -> bytes:
    """Records in hexadecimal, a line each."""
    if isinstance(records, str):
        return records.encode()
    if isinstance(records, bytes):
        records = [records]
    return b"".join(record.hex().upper().encode() + b"\n" for record in records)


def turns_of(turns: Sequence[Records]) -> bytes:
    """The records of several turns, with a line `turn` between two."""
    return b"turn\n".join(hexadecimal(records) for records in turns)
