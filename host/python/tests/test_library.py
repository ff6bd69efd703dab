"""Which library the package loads."""

import os
import subprocess
import sys
import tempfile
import unittest
from pathlib import Path

import czi


def importing(library):
    """What Python says when it imports the package with that library named."""
    places = os.pathsep.join(str(Path(place).resolve()) for place in sys.path if place)
    named = {**os.environ, "CZI_LIBRARY": str(library), "PYTHONPATH": places}
    done = subprocess.run([sys.executable, "-c", "import czi; print(czi._library.library._name)"], env=named,
                          stdout=subprocess.PIPE, stderr=subprocess.STDOUT, text=True)
    return done.stdout.splitlines()[-1]


class Library(unittest.TestCase):
    def test_the_one_that_is_named(self):
        named = Path(czi._library.library._name).resolve()
        self.assertEqual(importing(named), str(named))

    def test_another_interface_is_not_taken(self):
        before = czi.VERSION - 1
        for source, said in [(f"unsigned czi_version(void) {{ return {before}; }}", f"interface {before},"),
                             ("int other;", "interface without a number,")]:
            with tempfile.TemporaryDirectory() as folder:
                other = Path(folder) / "libczi.so"
                subprocess.run(["cc", "-shared", "-fPIC", "-x", "c", "-", "-o", other], input=source, text=True, check=True)
                self.assertIn(f"ImportError: {other} has {said} and this package is for {czi.VERSION}", importing(other))


if __name__ == "__main__":
    unittest.main()
