"""The calls and types of the package, imported at their first use."""

from ._library import LibraryError
from .claims import Claim, WORDS, Word
from .claim_lists import Columns
from .engine import Configuration, MachineError, Trace, check, check_bytes, decide, decide_bytes
from .engine import recurrences, trace
from .judging import Judged, Judgement, Judging, judge
from .extrapolation import Place, at
from .limits import Limits, LimitsError, Plan
from .comparison import Agreement, Comparison, compare
from .decide_list import DecidedLine, decide_lines
from .normal_forms import Normal, distinct, normal
from .pictures import Picture, PictureError, picture
from .publishing import Published, PublishError, UnconfirmedError, publish
from .reading import EncodingError, EndlessLineError, Form, Skipped, Reading, Readings, Reason, Rewriting
from .reading import read
from .recurrence_claims import Exactness
from .reports import Report, ReportError, report
from .settling import Line, LineHalt, ListError, Settled, confirm_list, lines_of, settle
from .verdicts import Answer, Backward, Cycler, Extent, Halt, LastUse, Recurrence, Refused, Translated
from .verdicts import Undecided, UseKind, Verdict, is_machine, parse, parse_recurrence

# fmt: off
__all__ = [
    "Agreement", "Answer", "Backward", "DecidedLine", "Claim", "Columns", "Comparison", "Configuration",
    "Cycler", "EncodingError", "EndlessLineError", "Exactness", "Extent", "Form", "Halt", "Judged",
    "Judgement", "Judging", "LastUse", "LibraryError", "Limits", "LimitsError", "Line", "LineHalt",
    "ListError", "MachineError", "Normal", "Picture", "PictureError", "Place", "Plan", "PublishError",
    "Published", "Reading", "Readings", "Reason", "Recurrence", "Refused", "Report", "ReportError",
    "Rewriting", "Settled", "Skipped", "Trace", "Translated", "UnconfirmedError", "Undecided", "UseKind",
    "Verdict", "WORDS", "Word", "at", "check", "check_bytes", "compare", "confirm_list", "decide",
    "decide_bytes", "decide_lines", "distinct", "is_machine", "judge", "lines_of", "normal", "parse",
    "parse_recurrence", "picture", "publish", "read", "recurrences", "report", "settle", "trace",
]
# fmt: on
