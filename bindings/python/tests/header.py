"""The headers, read as text."""

import re
from pathlib import Path

ROOT = Path(__file__).resolve().parents[3]
HEADER = (ROOT / 'include' / 'colorgrad.h').read_text()
CALLS = (ROOT / 'include' / 'colorgrad_calls.h').read_text()

_NUMBERS = {'uint8_t': 'u8', 'uint32_t': 'u32', 'size_t': 'usize', 'float': 'f32'}
_CALL = re.compile(r'^(uint32_t|size_t|float) (colorgrad_\w+)\(([^)]*)\);', re.M)


def _parameters(text):
    """Of `T a, const U *b, size_t b_length`: a pointer, with its length after it, is a slice."""
    given = [' '.join(one.split()) for one in text.split(',') if one.strip() not in ('', 'void')]
    parameters = []
    while given:
        kind, name = given.pop(0).rsplit(' ', 1)
        if not name.startswith('*'):
            parameters.append(_NUMBERS[kind])
            continue
        assert given.pop(0) == f'size_t {name[1:]}_length'
        mutable = '' if kind.startswith('const ') else 'mut '
        parameters.append(f'&{mutable}[{_NUMBERS[kind.replace("const ", "")]}]')
    return parameters


def declared():
    """Each call: the types of its parameters and of its answer. Names of parameters are each file's own."""
    return {name: (_parameters(given), _NUMBERS[answer]) for answer, name, given in _CALL.findall(CALLS)}


def enumerated(name):
    """The enumerators of a type, in their order."""
    body = re.search(r'typedef enum \{([^}]*)\} ' + name, HEADER).group(1)
    return {one: int(number) for one, number in re.findall(r'COLORGRAD_(\w+) = (\d+)', body)}


def refusals():
    """The numbers of refusals by name, and the header's words for each."""
    part = HEADER[HEADER.index('/* ---- refusals') : HEADER.index('/* What a refusal means')]
    numbers = {name: int(number) for name, number in re.findall(r'#define COLORGRAD_(\w+) (\d+)u', part)}
    words = dict(re.findall(r'case COLORGRAD_(\w+): return "(.*)";', HEADER))
    return numbers, words
