"""What cells, names and formulas show, worked out from a whole workbook."""

from dataclasses import dataclass

import functions
import numbers
import values
from grammar import (
    COLUMNS, ROWS, Binary, Block, Call, Name, Parens, Percent, Ref, Sign, Whole, mentions,
)
from values import NOTHING, Fault, Number, Stop, Truth


@dataclass(frozen=True)
class Area:
    """The cells of a block or a whole range, or the one of a reference."""

    sheet: int
    row: int
    col: int
    rows: int
    cols: int
    # Whether a block, which can't stand where one value is wanted.
    is_block: bool


def area(tree):
    if isinstance(tree, Ref):
        return Area(tree.sheet, tree.corner.row, tree.corner.col, 1, 1, False)
    if isinstance(tree, Whole):
        start, count = tree.first.line, tree.last.line - tree.first.line + 1
        if tree.axis == "row":
            return Area(tree.sheet, start, 1, count, COLUMNS, True)
        return Area(tree.sheet, 1, start, ROWS, count, True)
    first, last = tree.first, tree.last
    rows, cols = last.row - first.row + 1, last.col - first.col + 1
    return Area(tree.sheet, first.row, first.col, rows, cols, True)


class Evaluation:
    """The values of one workbook. A key is a place (sheet, row, col) or a name (scope, word)."""

    def __init__(self, book, today):
        self.book = book
        self.today = today
        self.values = {}

    # What is asked for.

    def show_cell(self, place):
        self.work_out([place])
        return self.cell(place)

    def show_name(self, name):
        self.work_out([name])
        return self.values[name]

    def show_formula(self, tree, sheet):
        self.work_out(self.needs(tree, sheet))
        return self.formula(tree, sheet, (sheet, 1, 1))

    # The order in which values are worked out: what a formula needs comes before it.

    def tree_of(self, key):
        """The formula of a place or name, or None."""
        if len(key) == 2:
            return self.book.names.get(key)
        return self.book.tree(key)

    def scope_of(self, key):
        return key[0]

    def needs(self, tree, scope):
        """The formulas that a tree needs, in any of its branches."""
        found = []
        for mention in mentions(tree):
            if isinstance(mention, Name):
                name = self.book.find_name(mention.word, scope)
                if name is not None:
                    found.append(name)
            else:
                found += [place for place in self.filled(area(mention)) if self.book.tree(place)]
        return found

    def work_out(self, keys):
        """Works out all that these need. Tarjan's walk, with a list in place of recursion, finds
        the circles; all that stand on one show the fault of cycles."""
        order, low, waiting, on_list = {}, {}, [], set()
        for start in keys:
            if start in self.values or start in order or self.tree_of(start) is None:
                continue
            walk = [(start, None)]
            while walk:
                key, rest = walk.pop()
                if rest is None:
                    order[key] = low[key] = len(order)
                    waiting.append(key)
                    on_list.add(key)
                    needs = self.needs(self.tree_of(key), self.scope_of(key))
                    rest = iter(dict.fromkeys(needs))
                for need in rest:
                    if need in self.values:
                        continue
                    if need not in order:
                        walk += [(key, rest), (need, None)]
                        break
                    if need in on_list:
                        low[key] = min(low[key], order[need])
                else:
                    self.leave(key, order, low, waiting, on_list)
                    if walk:
                        above = walk[-1][0]
                        low[above] = min(low[above], low[key])

    def leave(self, key, order, low, waiting, on_list):
        if low[key] != order[key]:
            return
        circle = []
        while not circle or circle[-1] != key:
            circle.append(waiting.pop())
            on_list.discard(circle[-1])
        tree = self.tree_of(key)
        if len(circle) > 1 or key in self.needs(tree, self.scope_of(key)):
            for member in circle:
                self.values[member] = values.CYCLE
            return
        place = key if len(key) == 3 else (key[0], 1, 1)
        self.values[key] = self.formula(tree, self.scope_of(key), place)

    # Cells and blocks, whose formulas were worked out before.

    def cell(self, place):
        content = self.book.cells.get(place)
        if content is None or isinstance(content, (Number, values.Text, Truth)):
            return content
        if content.tree is None:
            return values.ERROR
        return self.values[place]

    def filled(self, block):
        """The filled places of a block, row by row."""
        if block.rows * block.cols <= len(self.book.cells):
            places = (
                (block.sheet, row, col)
                for row in range(block.row, block.row + block.rows)
                for col in range(block.col, block.col + block.cols)
            )
            return [place for place in places if place in self.book.cells]
        return sorted(
            (sheet, row, col)
            for sheet, row, col in self.book.cells
            if sheet == block.sheet
            and 0 <= row - block.row < block.rows
            and 0 <= col - block.col < block.cols
        )

    def filled_values(self, block):
        """The values of the filled cells of a block, row by row."""
        return [self.cell(place) for place in self.filled(block)]

    def at(self, block, row, col):
        """The value in this row and column of the block, counted from 0."""
        return self.cell((block.sheet, block.row + row, block.col + col))

    # Trees.

    def formula(self, tree, scope, place):
        return Formula(self, scope, place).value(tree)


class Formula:
    """One formula as it is worked out: its scope and its place."""

    def __init__(self, evaluation, scope, place):
        self.evaluation = evaluation
        self.scope = scope
        self.place = place

    @property
    def today(self):
        return self.evaluation.today

    def value(self, tree):
        """The value of a tree, a fault too."""
        try:
            return self.wanted(tree)
        except Stop as stop:
            return stop.fault

    def argument(self, tree):
        """An argument as an area, where it is one by itself or by a name, else its value."""
        if isinstance(tree, (Ref, Block, Whole)):
            return area(tree)
        if isinstance(tree, Name):
            name = self.evaluation.book.find_name(tree.word, self.scope)
            meaning = self.evaluation.book.names.get(name)
            if isinstance(meaning, (Ref, Block, Whole)):
                return area(meaning)
        return self.value(tree)

    def single(self, tree):
        """The value of an argument where one value is wanted."""
        found = self.argument(tree)
        if not isinstance(found, Area):
            return found
        return values.VALUE if found.is_block else self.evaluation.cell((found.sheet, found.row, found.col))

    def wanted(self, tree):
        """The value of a tree where one value is wanted; a fault may stop the work."""
        if tree is None or isinstance(tree, (Number, values.Text, Truth, Fault)):
            return tree
        if isinstance(tree, Ref):
            return self.evaluation.cell((tree.sheet, tree.corner.row, tree.corner.col))
        if isinstance(tree, (Block, Whole)):
            return values.VALUE
        if isinstance(tree, Name):
            name = self.evaluation.book.find_name(tree.word, self.scope)
            return values.NAME if name is None else self.evaluation.values[name]
        if isinstance(tree, Call):
            return functions.call(self, tree.word, tree.arguments)
        if isinstance(tree, Parens):
            return self.wanted(tree.inner)
        if isinstance(tree, Sign):
            inner = self.value(tree.inner)
            if tree.mark == "+":
                return inner
            return Number(-values.as_number(inner))
        if isinstance(tree, Percent):
            number = values.as_number(self.value(tree.inner))
            return Number(numbers.nearest(number, 100))
        assert isinstance(tree, Binary)
        return binary(tree.mark, self.value(tree.left), self.value(tree.right))


def binary(mark, left, right):
    if mark == "&":
        return values.text(values.as_text(left) + values.as_text(right))
    if mark in ("=", "<>", "<", ">", "<=", ">="):
        order = values.compare(values.no_fault(left), values.no_fault(right))
        return Truth({
            "=": order == 0,
            "<>": order != 0,
            "<": order < 0,
            ">": order > 0,
            "<=": order <= 0,
            ">=": order >= 0,
        }[mark])
    left, right = values.as_number(left), values.as_number(right)
    if mark == "+":
        return values.number(left + right)
    if mark == "-":
        return values.number(left - right)
    if mark == "*":
        return values.number(numbers.times(left, right))
    if mark == "/":
        return functions.quotient(left, right)
    return functions.power(left, right)
