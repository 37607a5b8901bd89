"""A workbook engine: sheets, formulas that follow rows and columns, undo.

    from fazhundel import Place, Workbook

    with Workbook() as book:
        sheet = book.add_sheet("Invoice")
        book.set(Place(sheet, 0, 0), "=2*10.5")
        book.value(Place(sheet, 0, 0))      # Decimal('21')

A workbook is used by the thread that opened it. A call that is refused raises `Refused` and changes nothing; want of memory
raises `MemoryError`.
"""
from .book import Workbook
from .rules import Bands, Tiers
from .values import Block, Fault, Kind, Link, Name, Place, Value
from .statuses import Refusal, Refused

__all__ = ["Bands", "Block", "Fault", "Kind", "Link", "Name", "Place", "Refusal", "Refused", "Tiers", "Value", "Workbook"]
