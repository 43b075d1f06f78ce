"""Every format beside the stored files of examples/golden, which the program `plume` is held to as well."""

import unittest
from array import array

import header
from guineaplume import List, Ramp

GOLDEN = header.ROOT / 'examples' / 'golden'

# by the endings of the files
FORMATS = {
    'tsv': lambda listed, name: listed.to_text(),
    'bits': lambda listed, name: listed.to_bits(),
    'ggr': lambda listed, name: listed.to_ggr(name),
    'cpt': lambda listed, name: listed.to_cpt(name),
    'qgis.txt': lambda listed, name: listed.to_qgis(),
    'gdal.txt': lambda listed, name: listed.to_gdal(),
    'svg': lambda listed, name: listed.to_svg(name),
    'css': lambda listed, name: listed.to_css(name),
    'json': lambda listed, name: listed.to_json(name),
}

# how the lists were made, where that is read here
MADE = {
    'land': lambda: Ramp.from_cpt(GOLDEN / 'in' / 'land.cpt').within(),
    'sea': lambda: Ramp.from_ggr(GOLDEN / 'in' / 'sea.ggr').within(),
    'shelf': lambda: Ramp.from_text(header.ROOT / 'examples' / 'shelf.tsv').within(threshold=0.01),
}


def stored(name):
    """The list whose bits are stored."""
    first, *lines = (GOLDEN / f'{name}.bits').read_text().splitlines()
    rows = [array('f', b''.join(bytes.fromhex(bits)[::-1] for bits in line.split('\t')[1:])) for line in lines]
    listed = List([row[0] for row in rows], [row[1:] for row in rows])
    listed.evaluations = int(first.split('\t')[3])
    return listed


class Golden(unittest.TestCase):
    names = sorted(file.name[: -len('.bits')] for file in GOLDEN.glob('*.bits'))

    def test_every_format_of_every_list(self):
        self.assertGreaterEqual(len(self.names), 3)
        for name in self.names:
            for ending, write in FORMATS.items():
                with self.subTest(f'{name}.{ending}'):
                    self.assertEqual(write(stored(name), name), (GOLDEN / f'{name}.{ending}').read_text())

    def test_the_lists_are_those_of_the_ramps(self):
        for name, made in MADE.items():
            with self.subTest(name):
                self.assertEqual(made().to_bits(), stored(name).to_bits())


if __name__ == '__main__':
    unittest.main()
