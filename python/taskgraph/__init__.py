"""Johnson's concurrent dynamic task graph, corrected and proved: the C library from Python. See README.md."""
from ._library import LibraryError, load
from .board import Labels, Totals, totals_by_minutes
from .graph import Call, Graph, Holding, Job, Outcome, Sizes, Words
from .refusal import Refusal, message
from .sheets import Entry, Room, bucket, day_list, minutes, read_sheet, room_of_sheet, write_sheet

__all__ = [
    "Call", "Entry", "Graph", "Holding", "Job", "Labels", "LibraryError", "Outcome", "Refusal", "Room", "Sizes",
    "Totals", "Words", "bucket", "day_list", "load", "message", "minutes", "read_sheet", "room_of_sheet",
    "totals_by_minutes", "write_sheet",
]
