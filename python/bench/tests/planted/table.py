"""The table of all faults."""
from . import in_announcements, in_answers, in_audits, in_descriptions, in_notices

ROWS = [
    row for part in (in_answers, in_audits, in_descriptions, in_notices, in_announcements) for row in part.ROWS
]
