"""Tests of dimensions as texts: the tables of docs/FORMATS.md, section 1, and the library's own
reading. Its printing is compared by `tests/run library_python`."""
import random
import unittest

import boxglue

READ = """1in 4736286 6.5in 30785863 1cm 1864679 -2.5mm -466169 0.1pt 6554 1bp 65781 1dd 70124 1cc 841489 5.pt 327680 +007pt 458752 -0.00001pt -1 0.000007pt 0
    -1.9sp -1 16383.99999pt 1073741823""".split()
PRINTED = "0 0.0 1 0.00002 10 0.00015 6554 0.1 65536 1.0 -98304 -1.5 4736286 72.26999 1073741823 16383.99998".split()


class Dimensions(unittest.TestCase):
    def test_read(self):
        for text, value in zip(READ[::2], READ[1::2]):
            self.assertEqual(boxglue.scaled_points(text), int(value), text)

    def test_printed(self):
        for value, text in zip(PRINTED[::2], PRINTED[1::2]):
            self.assertEqual(boxglue.points(int(value)), f"{text}pt")

    def test_no_dimension(self):
        for text in (
            ".pt",
            "5",
            "1,5pt",
            "1PT",
            "1 pt",
            "--1pt",
            "1em",
            "",
            "pt",
            "1pt ",
            "1pt\n",
            "\u0661pt",
            "16383.999999pt",
            "1073741824sp",
            "-16384pt",
        ):
            self.assertRaises(ValueError, boxglue.scaled_points, text)

    def test_there_and_back(self):
        numbers = random.Random(1)
        greatest = (1 << 30) - 1
        for value in (
            *range(-70000, 70000, 7),
            *(numbers.randint(-greatest, greatest) for _ in range(20_000)),
            greatest,
            -greatest,
        ):
            self.assertEqual(boxglue.scaled_points(boxglue.points(value)), value)

    def test_as_the_library_reads(self):
        """Random texts in all units: the width of a kern is what is read here."""
        numbers = random.Random(2)
        units = "pt pc in bp cm mm dd cc sp".split()
        texts = [
            f"{numbers.choice(('', '-'))}{numbers.randint(0, 9)}.{''.join(numbers.choices('0123456789', k=numbers.randint(0, 20)))}{numbers.choice(units)}"
            for _ in range(500)
        ]
        ran = boxglue.run("".join(f"hbox into 0\nkern {it}\nend\n" for it in texts)).check()
        self.assertEqual(
            [it.width for it in ran.replies if isinstance(it, boxglue.Packed)],
            [boxglue.scaled_points(it) for it in texts],
        )


if __name__ == "__main__":
    unittest.main()
