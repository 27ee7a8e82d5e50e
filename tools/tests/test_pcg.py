import unittest

from tools.model.pcg import Pcg32


class Words(unittest.TestCase):
    """The crate's own vectors: `references` and `lcg64xsh32_construction` of the tests of rand_pcg."""

    def test_the_words_of_state_42_and_stream_54(self):
        known = Pcg32(42, 54)
        words = [0xA15C02B7, 0x7B47F409, 0xBA1D3330, 0x83D2F293, 0xBFA4784B, 0xCBED606E]
        self.assertEqual([known.next_u32() for _ in words], words)

    def test_the_generator_of_sixteen_bytes(self):
        # The bytes 1 to 16 are a state and an increment, which is made odd.
        state, increment = (int.from_bytes(bytes(range(at, at + 8)), "little") for at in (1, 9))
        known = Pcg32(state, (increment | 1) >> 1)
        # The two words are the lower and the upper half.
        self.assertEqual(known.next_u32() + (known.next_u32() << 32), 1_204_678_643_940_597_513)
