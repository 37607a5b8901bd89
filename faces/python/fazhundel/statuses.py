"""How calls end, and what is raised where they weren't done."""
from enum import IntEnum

DONE, NO_MEMORY, NO_ROOM, NOT_OPEN, NOT_UTF8, BAD_LIMIT, BAD_TABLE, STILL_OPEN, BAD_NUMBER, BAD_CELLS = 0, 64, 65, 66, 67, 68, 69, 70, 71, 72


class Refusal(IntEnum):
    """Why a call is refused."""

    NoSheet = 1
    SheetNameTaken = 2
    SheetNameInvalid = 3
    Outside = 4
    SizeLimit = 5
    CellLimit = 6
    NameTaken = 7
    NameInvalid = 8
    NoSuchName = 9
    RelativeAddress = 10
    NothingToUndo = 11
    NothingToRedo = 12
    NothingToPaste = 13
    Suspended = 14
    BatchOpen = 15
    NoBatch = 16
    BadSpan = 17
    TextLimit = 18
    SheetLimit = 19
    BadFormula = 20


class Refused(Exception):
    """A call was refused, for the cause in `refusal`."""

    def __init__(self, refusal: Refusal) -> None:
        super().__init__(refusal.name)
        self.refusal = refusal


def check(status: int) -> None:
    """Raises what a status means, unless the call was done."""
    if status == DONE:
        return
    if status in Refusal._value2member_map_:
        raise Refused(Refusal(status))
    raise {
        NO_MEMORY: MemoryError(),
        NOT_OPEN: ValueError("the workbook is closed"),
        NOT_UTF8: ValueError("the text isn't UTF-8"),
        BAD_LIMIT: ValueError("at most 1,000 steps can be undone"),
        BAD_TABLE: ValueError("these aren't the rules of custom functions"),
        STILL_OPEN: ValueError("the workbook is open already"),
        BAD_NUMBER: ValueError("the number is 10^12 or more in absolute value"),
        BAD_CELLS: ValueError("a cell is to be written twice"),
    }[status]
