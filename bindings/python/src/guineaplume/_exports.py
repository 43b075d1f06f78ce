"""The calls of the library, each declared once, in the notation of its source. include/colorgrad_calls.h has the same calls;
a test compares the two."""

from __future__ import annotations

import ctypes
from array import array
from typing import Any, Callable, List, NamedTuple, Tuple

_RAMP = 'kind: u32, positions: &[f32], channels: &[f32], codes: &[u8]'
_RAMP_FILLED = 'kind: u32, positions: &mut [f32], channels: &mut [f32], codes: &[u8]'
_SHEET = 'threshold: f32, list_sort: u32, hold: f32'
_EDIT = 'sort: u32, stop: usize, position: f32, r: f32, g: f32, b: f32, a: f32'
_RECORD = 'rows: &[f32], counts: &[u8], marks: &[u32]'
_FILLED = 'rows: &mut [f32], counts: &mut [u8], marks: &mut [u32]'
_LIST = 'places: &mut [f32], colours: &mut [f32], told: &mut [usize]'
_GIVEN = 'places: &[f32], colours: &[f32]'
_FOREGROUND = 'foreground_r: f32, foreground_g: f32, foreground_b: f32, foreground_a: f32'
_BACKGROUND = 'background_r: f32, background_g: f32, background_b: f32, background_a: f32'
_SEGMENTS = 'positions: &mut [f32], channels: &mut [f32], codes: &mut [u8], told: &mut [usize]'

DECLARED = {
    'colorgrad_check': f'({_RAMP}) -> u32',
    'colorgrad_domain_told': f'({_RAMP}, ends: &mut [f32]) -> u32',
    'colorgrad_at_told': f'({_RAMP}, t: f32, colour: &mut [f32]) -> u32',
    'colorgrad_paint': f'({_RAMP}, ts: &[f32], out: &mut [f32]) -> u32',
    'colorgrad_sharp_told': '(colours: &[f32], min: f32, max: f32, softness: f32, '
    'positions: &mut [f32], channels: &mut [f32], told: &mut [usize]) -> u32',
    'colorgrad_read_told': f'(text: &[u8], {_FOREGROUND}, {_BACKGROUND}, {_SEGMENTS}) -> u32',
    'colorgrad_read_saved_told': f'(text: &[u8], {_FOREGROUND}, {_BACKGROUND}, {_SEGMENTS}) -> u32',
    'colorgrad_name': '(text: &[u8], out: &mut [u8]) -> usize',
    'colorgrad_name_saved': '(text: &[u8], out: &mut [u8]) -> usize',
    'colorgrad_write_ggr_told': '(positions: &[f32], channels: &[f32], text: &mut [u8], told: &mut [usize]) -> u32',
    'colorgrad_numeral': '(x: f32, out: &mut [u8]) -> usize',
    'colorgrad_sample_told': f'({_RAMP}, threshold: f32, {_FILLED}, told: &mut [usize]) -> u32',
    'colorgrad_thin_told': f'({_RAMP}, threshold: f32, {_RECORD}, {_LIST}) -> u32',
    'colorgrad_flatten_told': f'({_RAMP}, threshold: f32, {_FILLED}, {_LIST}) -> u32',
    'colorgrad_thin_within_told': f'({_RAMP}, threshold: f32, hold: f32, {_RECORD}, {_LIST}) -> u32',
    'colorgrad_flatten_within_told': f'({_RAMP}, threshold: f32, hold: f32, {_FILLED}, {_LIST}) -> u32',
    'colorgrad_next_stop_told': f'({_RAMP}, threshold: f32, {_RECORD}, state: u32, row: u32, index: u32, '
    'told: &mut [usize], stop: &mut [f32]) -> u32',
    'colorgrad_judge_told': f'({_RAMP}, threshold: f32, {_GIVEN}, told: &mut [usize], t: &mut [f32]) -> u32',
    'colorgrad_apart_told': f'({_RAMP}, threshold: f32, step: f32, depths: &[f32], {_GIVEN}, '
    'faults: &mut [u8], told: &mut [usize]) -> u32',
    'colorgrad_edit_told': f'({_RAMP}, {_EDIT}, threshold: f32, {_FILLED}, told: &mut [usize]) -> u32',
    'colorgrad_edit_list_told': f'({_RAMP}, {_EDIT}, threshold: f32, {_FILLED}, {_LIST}) -> u32',
    'colorgrad_sheet_open_told': f'({_RAMP}, stops: usize, {_SHEET}, {_FILLED}, {_LIST}) -> u32',
    'colorgrad_sheet_edit_told': f'({_RAMP_FILLED}, stops: usize, {_EDIT}, {_SHEET}, {_FILLED}, {_LIST}) -> u32',
    'colorgrad_desk': '(input: &[u8], output: &mut [u8]) -> usize',
    'colorgrad_threshold': '(asked: f32) -> f32',
    'colorgrad_hold': '(asked: f32, threshold: f32) -> f32',
    'colorgrad_root': '(x: f32) -> f32',
    'colorgrad_cutoff': '(t: f32) -> f32',
    'colorgrad_token_told': '(text: &[u8], value: &mut [f32]) -> u32',
    'colorgrad_long_token_told': '(text: &[u8], value: &mut [f32]) -> u32',
    'colorgrad_message_told': '(refusal: u32, out: &mut [u8]) -> usize',
    'colorgrad_verdict_message_told': '(verdict: u32, out: &mut [u8]) -> usize',
    'colorgrad_version': '() -> u32',
}

_NUMBERS = {'u8': ctypes.c_uint8, 'u32': ctypes.c_uint32, 'usize': ctypes.c_size_t, 'f32': ctypes.c_float}

# the code of Python's `array` for each item of a slice
CODES = {'u8': 'B', 'u32': 'I', 'usize': 'Q', 'f32': 'f'}

assert ctypes.sizeof(ctypes.c_size_t) == 8, "the library's lengths have 64 bits"
assert array('I').itemsize == 4, 'a word of a record has 32 bits'


def parted(declared: str) -> Tuple[List[Tuple[str, str]], str]:
    """The name and the type of each parameter, and the type of the answer."""
    parameters, answer = declared[1:].split(') -> ')
    pairs = (one.partition(': ') for one in parameters.split(', ') if one)
    return [(name, kind) for name, _, kind in pairs], answer


def _item(kind: str) -> str:
    """The code of a slice's items; none for a number."""
    return CODES[kind.split('[')[1].rstrip(']')] if '[' in kind else ''


def _handed_as(kind: str) -> List[Any]:
    """A slice goes over as its address and its length."""
    return [ctypes.c_void_p, ctypes.c_size_t] if '[' in kind else [_NUMBERS[kind]]


class Lent(NamedTuple):
    """Memory that is lent to a call: its address, its length in items, and the code of the items."""

    address: int
    length: int
    code: str


def lent(numbers: Any) -> Lent:
    if not isinstance(numbers, array):
        raise TypeError(f'an array is expected, and this is of {type(numbers).__name__}')
    return Lent(*numbers.buffer_info(), numbers.typecode)


def bound(library: ctypes.CDLL, name: str) -> Callable[..., Any]:
    """The call as a function of numbers, arrays and lent memory. An array of other items than the slice's is not let through."""
    parameters, answer = parted(DECLARED[name])
    codes = [_item(kind) for _, kind in parameters]
    function = library[name]
    function.restype = _NUMBERS[answer]
    function.argtypes = [part for _, kind in parameters for part in _handed_as(kind)]

    def call(*given: Any) -> Any:
        handed: List[Any] = []
        for code, item in zip(codes, given):
            if not code:
                handed.append(item)
                continue
            address, length, own = item if type(item) is Lent else lent(item)
            if own != code:
                raise TypeError(f'{name}: items of code {own!r} where {code!r} is expected')
            handed += (address, length)
        return function(*handed)

    return call
