"""Colour ramps that cannot be quietly wrong.

Every answer comes from a library that is proved: each call ends with the answer that its definition gives, or with a numbered
`Refusal`. This package gives that library Python's forms; it needs nothing but the standard library, and takes arrays of numpy
where they are handed in.

>>> from guineaplume import Ramp
>>> sea = Ramp.linear([0, 0.5, 1], ['#08102c', '#145292', '#d9f0f8'])
>>> sea(0.5).to_hex()
'#145292'
>>> stops = sea.within()
>>> len(stops), bool(sea.judge(stops))
(3, True)
>>> print(stops.to_cpt('sea', domain=(-6000, 0)), end='')
# sea
# COLOR_MODEL = RGB
-6000 8 16 44 -3000 20 82 146
-3000 20 82 146 0 217 240 248
"""

from ._library import VERSION, library_version
from .apart import Apart, Fault
from .colour import Colour
from .edit import Edit, Sort
from .gradient import HOLD, STEP, THRESHOLD, Gradient
from .leaves import cutoff, desk, hold, long_token, numeral, root, threshold, token
from .lists import List
from .ramp import Kind, Ramp
from .record import Record
from .refusal import Reason, Refusal, Unread
from .sheet import Sheet
from .verdict import Judged, Verdict

__version__ = VERSION

__all__ = [
    'HOLD',
    'STEP',
    'THRESHOLD',
    'Apart',
    'Colour',
    'Edit',
    'Fault',
    'Gradient',
    'Judged',
    'Kind',
    'List',
    'Ramp',
    'Reason',
    'Record',
    'Refusal',
    'Sheet',
    'Sort',
    'Unread',
    'Verdict',
    'cutoff',
    'desk',
    'hold',
    'library_version',
    'long_token',
    'numeral',
    'root',
    'threshold',
    'token',
]
