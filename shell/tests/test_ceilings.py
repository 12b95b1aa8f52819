"""The ceilings of the crates' words and sizes: a count above its own fails, one that fell is written."""

import os
import shutil
import subprocess
import tempfile
import unittest

from support import TOP

SOURCE = "/// Where it is.\npub fn place() {}\n\n/// The same for a row.\npub fn row()\n    ensures { " + "a" * 100 + " }\n{}\n"


class Ceilings(unittest.TestCase):
    def setUp(self) -> None:
        self.top = tempfile.mkdtemp()
        self.addCleanup(shutil.rmtree, self.top)
        for folder in ("tools", "crates/tb_one/src", "crates/tb_one/proofs"):
            os.makedirs(os.path.join(self.top, folder))
        for name in ("ceilings.py", "words.py", "check_words.py", "check_sizes.py"):
            shutil.copy(os.path.join(TOP, "tools", name), os.path.join(self.top, "tools"))
        self.write("crates/tb_one/src/lib.rt", SOURCE)
        self.write("tools/ceilings.txt", "comments, The same: 1\nidentifiers, place: 1\nlines, contract: 1\n")

    def write(self, path: str, text: str) -> None:
        with open(os.path.join(self.top, path), "w", encoding="utf-8") as file:
            file.write(text)

    def ran(self, name: str, *words: str) -> tuple[str, int]:
        done = subprocess.run([os.path.join(self.top, "tools", name), *words], capture_output=True, text=True, timeout=60, check=False)
        return done.stdout + done.stderr, done.returncode

    def test_counts_at_their_ceilings_pass(self) -> None:
        self.assertEqual(self.ran("check_words.py")[1], 0)
        self.assertEqual(self.ran("check_sizes.py")[1], 0)

    def test_a_count_above_its_ceiling_fails(self) -> None:
        self.write("crates/tb_one/src/more.rt", SOURCE.replace("fn place", "fn place_of"))
        said, status = self.ran("check_words.py")
        self.assertEqual(status, 1)
        self.assertIn("identifiers, place: 2, above the ceiling of 1", said)
        self.assertIn("comments, The same: 2, above the ceiling of 1", said)
        self.assertIn("more.rt: place_of", self.ran("check_words.py", "--list", "place")[0])
        self.assertIn("lines, contract: 2, above the ceiling of 1", self.ran("check_sizes.py")[0])

    def test_a_long_line_of_a_proof_and_a_large_crate_fail(self) -> None:
        self.write("crates/tb_one/proofs/OneLemmas.antt", "use " + "a" * 200 + "\n\none = " + "a" * 200 + "\n")
        self.write("crates/tb_one/src/more.rt", "".join(f"fn it{n}() {{}}\n" for n in range(120)))
        said, status = self.ran("check_sizes.py")
        self.assertEqual(status, 1)
        self.assertIn("lines, proof: 1, above the ceiling of 0", said)
        self.assertIn("functions, tb_one: 122, above the ceiling of 0", said)

    def test_a_count_that_fell_is_written(self) -> None:
        self.write("crates/tb_one/src/lib.rt", SOURCE.replace("The same for", "What is said of"))
        self.assertEqual(self.ran("check_words.py", "--lower")[1], 0)
        with open(os.path.join(self.top, "tools", "ceilings.txt"), encoding="utf-8") as file:
            self.assertEqual(file.read().split("\n")[1:], ["identifiers, place: 1", "lines, contract: 1", ""])


if __name__ == "__main__":
    unittest.main()
