"""Colour maps for matplotlib, and the example that paints a sea."""

import importlib.util
import subprocess
import sys
import tempfile
import unittest
from pathlib import Path

from guineaplume import Ramp

IS_AT_HAND = all(importlib.util.find_spec(name) for name in ('matplotlib', 'numpy'))
EXAMPLE = Path(__file__).resolve().parent.parent / 'examples' / 'bathymetry.py'


@unittest.skipUnless(IS_AT_HAND, 'matplotlib is not at hand')
class Pictures(unittest.TestCase):
    def test_a_colour_map_shows_the_ramp(self):
        ramp = Ramp.linear([-200, 0], [(0, 0.5, -1), '#fff'])
        shades = ramp.to_matplotlib('shelf', 5)
        self.assertEqual((shades.name, shades.N), ('shelf', 5))
        self.assertEqual(shades(0.0), (0.0, 0.5, 0.0, 1.0))
        self.assertEqual(shades(2), (0.5, 0.75, 0.0, 1.0))
        self.assertEqual(ramp.within().to_matplotlib(levels=5)(2), shades(2))
        with self.assertRaises(ValueError):
            ramp.to_matplotlib(levels=1)

    def test_the_example(self):
        with tempfile.TemporaryDirectory() as folder:
            out = Path(folder) / 'sea.png'
            run = subprocess.run([sys.executable, str(EXAMPLE), str(out)], check=True, capture_output=True, text=True)
            self.assertIn('every tint kept: True', run.stdout)
            self.assertTrue(out.read_bytes().startswith(b'\x89PNG'))


if __name__ == '__main__':
    unittest.main()
