"""The bytes that a caller gives."""

from array import array
from typing import TYPE_CHECKING, Union

if TYPE_CHECKING:
    from _typeshed import ReadableBuffer

    Buffer = ReadableBuffer
else:
    Buffer = Union[bytes, bytearray, memoryview, array]


def bytes_of(data: Buffer) -> bytes:
    """The bytes of anything that has a buffer, as they lie in memory: an item of an array or of a memoryview may have many.
    TypeError of anything else: `bytes` would take a number as that many zeros."""
    return data if type(data) is bytes else memoryview(data).tobytes()
