"""Which shard a key belongs to."""
import zlib

from sharding import Refused


class Placing:
    """K shards, by hash, or by K ranges of LO..HI that follow each other."""

    def __init__(self, parts, ranges):
        self.parts, self.ranges = parts, ranges
        if ranges and ranges[1] - ranges[0] + 1 < parts:
            raise Refused(f"--ranges {ranges[0]}..{ranges[1]} has fewer values than there are shards")

    def of(self, value):
        """The shard of a key: the CRC-32 of its digits modulo K, or its range; 0 for a key outside of LO..HI."""
        if not self.ranges:
            return zlib.crc32(b"%d" % value) % self.parts
        low, high = self.ranges
        return (value - low) * self.parts // (high - low + 1) if low <= value <= high else 0

    def of_digits(self, digits):
        """The shard of a key that is written as its digits alone, the first of which is not 0."""
        return self.of(int(digits)) if self.ranges else zlib.crc32(digits) % self.parts

    def range_of(self, shard):
        """The least and the greatest key of a shard's range."""
        low, high = self.ranges
        size = high - low + 1
        return low - (-shard * size // self.parts), low - (-(shard + 1) * size // self.parts) - 1
