"""Numbers by PCG32 (XSH-RR 64/32), those of `Lcg64Xsh32` of Rust's rand_pcg."""

import hashlib

MULTIPLIER = 6_364_136_223_846_793_005
WORD, LONG = 2**32 - 1, 2**64 - 1


class Pcg32:
    """A generator as `Lcg64Xsh32::new(state, stream)` makes it."""

    def __init__(self, state, stream):
        self.increment = (stream << 1 | 1) & LONG
        self.state = state + self.increment & LONG
        self.step()

    @classmethod
    def of_text(cls, text):
        """The generator whose state is the first eight bytes of the text's SHA-256, with stream 0."""
        return cls(int.from_bytes(hashlib.sha256(text.encode()).digest()[:8], "little"), 0)

    def step(self):
        self.state = self.state * MULTIPLIER + self.increment & LONG

    def next_u32(self):
        """The next word."""
        shifted, turn = (self.state >> 18 ^ self.state) >> 27 & WORD, self.state >> 59
        self.step()
        return (shifted >> turn | shifted << (-turn & 31)) & WORD

    def letters(self, count):
        """So many letters of a crash, one for each word: word mod 3 is the place of the letter in `klt`."""
        return "".join("klt"[self.next_u32() % 3] for _ in range(count))
