"""The wheel and the source archive: what is in them, and that the wheel serves by itself."""

import importlib.util
import os
import shutil
import subprocess
import sys
import tempfile
import unittest
import zipfile
from pathlib import Path
from unittest import mock

import guineaplume
from guineaplume import _library

HOME = Path(__file__).resolve().parent.parent
# from Python 3.12 on an archive is unpacked with a word on what is allowed in it
SAFELY = {'filter': 'data'} if sys.version_info >= (3, 12) else {}

FOUND = Path(_library._LIBRARY._name)


def backend(home):
    spec = importlib.util.spec_from_file_location('guineaplume_build', home / 'backend' / 'guineaplume_build.py')
    module = importlib.util.module_from_spec(spec)
    spec.loader.exec_module(module)
    return module


@unittest.skipUnless(FOUND.is_file(), 'the library is where the system keeps it')
class Building(unittest.TestCase):
    def setUp(self):
        kept = tempfile.TemporaryDirectory()
        self.addCleanup(kept.cleanup)
        self.folder = Path(kept.name)

    def run_alone(self, folder):
        """Python with that folder alone to look for packages in, and nothing that says where the library is."""
        code = 'import guineaplume as g; print(g.__version__, g.Ramp.linear([0, 1], ["#000", "#fff"])(0.25).r)'
        env = {name: value for name, value in os.environ.items() if name != 'GUINEAPLUME_LIB'}
        env['PYTHONPATH'] = str(folder)
        run = [sys.executable, '-S', '-c', code]
        return subprocess.run(run, env=env, cwd=folder, check=True, capture_output=True, text=True).stdout

    def unpacked(self, wheel):
        with zipfile.ZipFile(self.folder / wheel) as archive:
            self.assertIsNone(archive.testzip())
            archive.extractall(self.folder / 'wheel')
            return archive.namelist()

    @mock.patch.dict(os.environ, {'GUINEAPLUME_LIB': str(FOUND.parent)})
    def test_a_wheel_serves_by_itself(self):
        names = self.unpacked(backend(HOME).build_wheel(str(self.folder)))
        own = {file.name for file in (HOME / 'src' / 'guineaplume').glob('*.py')}
        packed = {name.split('/')[1] for name in names if name.startswith('guineaplume/')}
        self.assertEqual(packed, own | {'py.typed', _library.FILE})
        self.assertEqual(self.run_alone(self.folder / 'wheel'), f'{guineaplume.__version__} 0.25\n')

    def test_a_wheel_of_the_source_archive_is_the_same(self):
        with mock.patch.dict(os.environ, {'GUINEAPLUME_LIB': str(FOUND.parent)}):
            straight = backend(HOME).build_wheel(str(self.folder))
            first = (self.folder / straight).read_bytes()
            packed = backend(HOME).build_sdist(str(self.folder))
        shutil.unpack_archive(str(self.folder / packed), str(self.folder), **SAFELY)
        with mock.patch.dict(os.environ):
            os.environ.pop('GUINEAPLUME_LIB', None)
            again = backend(self.folder / packed[: -len('.tar.gz')]).build_wheel(str(self.folder))
        self.assertEqual((again, (self.folder / again).read_bytes()), (straight, first))

    def test_without_the_library_it_says_so(self):
        with mock.patch.dict(os.environ, {'GUINEAPLUME_LIB': str(self.folder)}):
            with self.assertRaisesRegex(SystemExit, 'type ./library at the root'):
                backend(HOME).build_wheel(str(self.folder))


if __name__ == '__main__':
    unittest.main()
