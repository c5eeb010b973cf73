"""Makes digests, by SHA-256 of texts, bytes and values: the one way in which crnplan does it."""
from __future__ import annotations

import hashlib
from collections.abc import Iterable

# The digits of a digest of values that are kept.
DIGITS = 32


def sha256(*parts: str | bytes) -> str:
    """Returns the digest of texts in UTF-8, or of bytes, one behind the other, as 64 hexadecimal digits."""
    digest = hashlib.sha256()
    for part in parts:
        digest.update(part.encode() if isinstance(part, str) else part)
    return digest.hexdigest()


def digest_of(*parts: object) -> str:
    """Returns a digest of values, by how they are spelt, of 32 digits."""
    return sha256("\n".join(map(repr, parts)))[:DIGITS]


def sum_of_digests(digests: Iterable[str]) -> str:
    """Returns a digest of some digests of values, in whatever order: their sum. So that of a whole is the sum of those of
    its parts, whatever these are."""
    return f"{sum(int(part, 16) for part in digests) % 16**DIGITS:0{DIGITS}x}"


def number_of(text: str, bits: int) -> int:
    """Returns a number of so many bits that follows from a text, and is as good as at random."""
    return int(sha256(text)[: bits // 4], 16)
