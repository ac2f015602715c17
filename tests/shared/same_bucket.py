"""Which of the 199 buckets a name is in (02, request 9, leaves that open: it is what crates/hashing does), and names that share one. tests/model/src/buckets.rs has the same."""
import functools

COUNT = 199
FACTOR, WORD = 2654435773, 2**32
SIGNS = b"0123456789_abcdefghijklmnopqrstuvwxyz"


def hashed(start, text):
    for byte in text:
        start = (start + byte) * FACTOR % WORD
    return start


def bucket_of(name):
    return hashed(0, name) * COUNT // WORD


@functools.lru_cache(maxsize=None)
def family(bucket, count, stem=b"name", digits=5):
    """So many names of a bucket: the stem, and so many signs behind it, of which the last ones differ first."""

    def names(start, front, left):
        for sign in SIGNS:
            went_on = (start + sign) * FACTOR % WORD
            if left > 1:
                yield from names(went_on, front + bytes([sign]), left - 1)
            elif went_on * COUNT // WORD == bucket:
                yield front + bytes([sign])

    found = names(hashed(0, stem), stem, digits)
    return [next(found) for _ in range(count)]
