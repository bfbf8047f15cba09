"""Amounts as people write them."""
import unittest
from fractions import Fraction

from reassign_tools.fleets.amounts import NoAmount, amount, amount_text, in_units, loses_much


class Amounts(unittest.TestCase):
    def test_forms(self):
        for text, value in (("16", 16), ("0.5", Fraction(1, 2)), (".5", Fraction(1, 2)), ("500m", Fraction(1, 2)),
                            ("64Gi", 64 * 2**30), ("1.5G", 1_500_000_000), ("1e3", 1000), ("129e6", 129_000_000), ("1E", 10**18),
                            ("250u", Fraction(1, 4000)), ("0", 0), ("15842408Ki", 15842408 * 1024)):
            self.assertEqual(amount(text), value, text)

    def test_no_amounts(self):
        for text, told in (("64GB", "is it '64G'?"), ("64 Gi", "is it '64Gi'?"), ("64gi", "is it '64Gi'?"), ("1,5", "is it '1.5'?"),
                           ("16,000", "is it '16000'?"), ("-5", "write it as"), ("many", "write it as"), ("", "write it as"),
                           ("0x10", "write it as"), ("1e999", "write it as"), ("nan", "write it as"), ("٣", "write it as")):
            with self.assertRaises(NoAmount) as raised:
                amount(text)
            self.assertIn(told, str(raised.exception), text)

    def test_rounding(self):
        milli, mebi = amount("1m"), amount("1Mi")
        self.assertEqual(in_units(amount("0.0005"), milli, True), 1)
        self.assertEqual(in_units(amount("0.0005"), milli, False), 0)
        self.assertEqual(in_units(amount("1.5G"), mebi, True), 1431)
        self.assertEqual(in_units(amount("1.5G"), mebi, False), 1430)
        self.assertFalse(loses_much(amount("1.5G"), mebi, 1431))
        self.assertTrue(loses_much(amount("500k"), mebi, 1))

    def test_text(self):
        for text in ("64Gi", "500m", "2", "1500m", "0", "5M", "16000", "123Mi", "15842408Ki", "7u"):
            self.assertEqual(amount_text(amount(text)), text)
        for text in ("0.1234567891234", "1.5G", "2048Mi"):
            self.assertLess(abs(amount(amount_text(amount(text))) - amount(text)) * 10**5, amount(text))


if __name__ == "__main__":
    unittest.main()
