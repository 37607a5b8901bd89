"""An application that holds a workbook: it works an invoice out and prints what it comes to."""
from datetime import date

from fazhundel import Place, Workbook

# Two lines of a quantity and a price, and what each and both come to.
CELLS = [
    (0, 0, "2"),
    (0, 1, "10.5"),
    (0, 2, "=A1*B1"),
    (1, 0, "3"),
    (1, 1, "120"),
    (1, 2, "=A2*B2"),
    (2, 2, "=C1+C2"),
]


def main() -> None:
    with Workbook(today=date(2024, 1, 1)) as book:
        sheet = book.add_sheet("Invoice")
        with book.batch():
            for row, col, text in CELLS:
                book.set(Place(sheet, row, col), text)
            book.insert_rows(sheet, 0, 1)
        print(book.value(Place(sheet, 3, 2)))


if __name__ == "__main__":
    main()
