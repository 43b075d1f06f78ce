"""Builds the package: a wheel with the shared library in it, and a source archive of which such a wheel can be built. It is
Python's own interface for that (PEP 517 and 660), by the standard library alone.

The library is the one in the folder that $GUINEAPLUME_LIB names; else the one in the source archive; else the one that
`./library` left at the root of the repository."""

import base64
import hashlib
import io
import os
import platform
import re
import sysconfig
import tarfile
import zipfile
from pathlib import Path

HERE = Path(__file__).resolve().parent.parent
ROOT = HERE.parent.parent
SOURCES = HERE / 'src'
PACKAGE = SOURCES / 'guineaplume'
LIBRARY = 'libcolorgrad_c.so.0'
FOLDER = 'GUINEAPLUME_LIB'
LICENCES = ['LICENSE-MIT', 'LICENSE-APACHE', 'NOTICE']
VERSION = re.search(r"^VERSION = '(.*)'$", (PACKAGE / '_library.py').read_text(), re.M).group(1)
NAME = f'guineaplume-{VERSION}'

METADATA = f"""\
Metadata-Version: 2.1
Name: guineaplume
Version: {VERSION}
Summary: Colour ramps, flattened and refreshed, over a library whose every answer is proved
License: MIT OR Apache-2.0
Keywords: color,gradient,colormap,ggr,cpt,proved
Requires-Python: >=3.8
Description-Content-Type: text/markdown

"""

# e_machine of the ELF format
MACHINES = {'x86_64': 62, 'aarch64': 183}


def library():
    """The shared library, where it is for the machine at hand."""
    named = os.environ.get(FOLDER)
    folders = [Path(named)] if named else [PACKAGE, ROOT / 'target' / 'library']
    found = [folder / LIBRARY for folder in folders if (folder / LIBRARY).is_file()]
    if not found:
        raise SystemExit(f'{LIBRARY} was not found: type ./library at the root of the repository, or name a folder by ${FOLDER}')
    text = found[0].read_bytes()
    machine = MACHINES.get(platform.machine())
    if text[:4] != b'\x7fELF' or machine and int.from_bytes(text[18:20], 'little') != machine:
        raise SystemExit(f'{found[0]} is not for {platform.machine()}')
    return text


def modules():
    """The files of the package, each with its path below src."""
    files = sorted(file for file in PACKAGE.iterdir() if file.suffix == '.py' or file.name == 'py.typed')
    return {file.relative_to(SOURCES).as_posix(): file.read_bytes() for file in files}


def licences():
    """At the root of the repository, or of the source archive."""
    files = [folder / name for name in LICENCES for folder in (HERE, ROOT) if (folder / name).is_file()]
    return {file.name: file.read_bytes() for file in files}


def metadata():
    return (METADATA + (HERE / 'README.md').read_text(encoding='utf-8')).encode()


def tag():
    return 'py3-none-' + re.sub('[-.]', '_', sysconfig.get_platform())


def recorded(files):
    """The files, and the list of them with their digests that every wheel has."""
    info = f'{NAME}.dist-info'
    named = f'Wheel-Version: 1.0\nGenerator: guineaplume_build\nRoot-Is-Purelib: false\nTag: {tag()}\n'
    files = {**files, f'{info}/METADATA': metadata(), f'{info}/WHEEL': named.encode()}
    files.update({f'{info}/licenses/{name}': text for name, text in licences().items()})
    lines = []
    for name, text in files.items():
        digest = base64.urlsafe_b64encode(hashlib.sha256(text).digest()).rstrip(b'=').decode()
        lines.append(f'{name},sha256={digest},{len(text)}\n')
    record = f'{info}/RECORD'
    return {**files, record: (''.join(lines) + f'{record},,\n').encode()}


def write_wheel(folder, files):
    name = f'{NAME}-{tag()}.whl'
    with zipfile.ZipFile(Path(folder) / name, 'w', zipfile.ZIP_DEFLATED) as wheel:
        for path, text in recorded(files).items():
            # one date for all, the first that the format has: the same sources give the same bytes
            entry = zipfile.ZipInfo(path)
            entry.external_attr = 0o100644 << 16
            wheel.writestr(entry, text, zipfile.ZIP_DEFLATED)
    return name


def build_wheel(wheel_directory, config_settings=None, metadata_directory=None):
    return write_wheel(wheel_directory, {**modules(), f'guineaplume/{LIBRARY}': library()})


def build_editable(wheel_directory, config_settings=None, metadata_directory=None):
    """Only says where the sources are; the library is then found in the repository."""
    return write_wheel(wheel_directory, {'guineaplume.pth': f'{SOURCES}\n'.encode()})


def build_sdist(sdist_directory, config_settings=None):
    """With the library in it, so that a wheel can be built of it anywhere on such a machine."""
    own = ['README.md', 'pyproject.toml', 'backend/guineaplume_build.py', 'examples/bathymetry.py']
    files = {name: (HERE / name).read_bytes() for name in own}
    files.update({f'src/{name}': text for name, text in modules().items()})
    files.update(licences())
    files.update({f'src/guineaplume/{LIBRARY}': library(), 'PKG-INFO': metadata()})
    name = f'{NAME}.tar.gz'
    with tarfile.open(Path(sdist_directory) / name, 'w:gz', format=tarfile.PAX_FORMAT) as archive:
        for path, text in files.items():
            entry = tarfile.TarInfo(f'{NAME}/{path}')
            entry.size = len(text)
            archive.addfile(entry, io.BytesIO(text))
    return name
