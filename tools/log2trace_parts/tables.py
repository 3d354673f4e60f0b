"""Tables."""

import csv
import itertools
from typing import Any, Iterator, List, Optional, Tuple

from .fields import Cells, marks_but
from .logs import LONGEST_LINE, is_text
from .shapes import BLANK, DECIMAL, MOST_PARTS, PLAIN_NUMBER, TRUTH, Pattern, Shape, no_event
from .texts import BLANKS, NUMBER, Refused, blank, shown
from .times import Reader
from .words import SEPARATORS

LONGEST_CELL = 2**17  # characters


class Table(Cells):
    """A table. The names of its columns come first, and then its rows."""

    def __init__(self, *arguments: Any):
        super().__init__(*arguments)
        self.header: Optional[List[str]] = None
        self.time_at = self.event_at = 0
        self.value_at: Optional[int] = None
        self.wanted: List[bool] = []  # of each column, whether it is an input, or has no name
        self.inputs: List[str] = []  # of these columns
        self.cell_readers: List[Reader] = []
        self.held: List[str] = []  # the lines of a row with quotes, while it is read
        self.rows_with_quotes = 0  # that have begun
        self.rest = iter(self.lines)
        csv.field_size_limit(LONGEST_CELL)
        self.quoted_rows = csv.reader(self.kept(), strict=True, delimiter=self.words.separator)

    def read(self) -> None:
        if self.words.header:
            self.take_header(self.words.header)  # a fault of this one has no line
        try:
            for line in self.rest:
                row = self.quoted_row(line) if '"' in line else self.plain_row(line)
                if len(row) > 1 or not (blank(line) or self.tick(line)):
                    self.row(row, line)
                if self.held:
                    self.held.clear()
                if self.names:
                    self.take_pieces(self.take_text)
                self.take_known()
        except csv.Error as error:
            refused = Refused(fault_of_table(str(error), self.separator_name()))
            refused.line = self.lines.number - max(len(self.held), 1) + 1
            raise refused from None
        except Refused as refused:
            refused.line = refused.line or self.lines.number - max(len(self.held), 1) + 1
            raise

    def take_text(self, text: str) -> bool:
        """Takes rows, if nothing of them is left out or refused; whether it did."""
        if '"' in text or "\r" in text or "\0" in text or not is_text(text):
            return False
        rows = [line.split(self.words.separator) for line in text[:-1].split("\n")]
        if set(map(len, rows)) != {len(self.header or [])}:
            return False
        columns = list(zip(*rows))
        times = self.times_of(columns[self.time_at])
        if times is None:
            return False
        if not self.words.event:
            inputs = list(zip(self.inputs, self.cell_readers, itertools.compress(columns, self.wanted)))
            if any("".join(texts).strip(BLANKS) for _, reader, texts in inputs if reader is refuse_unnamed):
                return False
            return self.take_inputs(times, [(name, texts) for name, _, texts in inputs])
        values = None if self.value_at is None else list(columns[self.value_at])
        return self.take_named(times, [text.strip(BLANKS) for text in columns[self.event_at]], values)

    def plain_row(self, line: str) -> List[str]:
        """The cells of a line without quotes, as Python's reader would have them."""
        text = line.rstrip("\r\n")
        cells = text.split(self.words.separator)
        if "\0" in line:
            raise self.lines.refused("a NUL character")
        if "\r" in text:
            raise csv.Error("new-line character")
        if len(text) > LONGEST_CELL and len(max(cells, key=len)) > LONGEST_CELL:
            raise csv.Error("field larger")
        return cells

    def quoted_row(self, line: str) -> List[str]:
        """The cells of a row with quotes, which may have several lines."""
        self.held.append(line)
        self.rows_with_quotes += 1
        row = next(self.quoted_rows)
        check_quotes("".join(self.held), row)
        return row

    def kept(self) -> Iterator[str]:
        """The lines of rows with quotes; the first one of each is there already."""
        while True:
            length = 0
            while True:
                line = self.held[-1]
                length += len(line)
                if length > LONGEST_LINE:
                    raise Refused(f"a row of more than {LONGEST_LINE} characters")
                if "\0" in line:
                    raise self.lines.refused("a NUL character")
                row = self.rows_with_quotes
                yield line
                if self.rows_with_quotes != row:
                    break
                more = next(self.rest, None)
                if more is None:
                    return
                self.held.append(more)

    def row(self, row: List[str], line: str) -> None:
        if self.header is None:
            self.take_header(row)
            return
        if len(row) > len(self.header):
            raise Refused("more cells than columns")
        if len(row) <= self.time_at:
            raise Refused("no cell in the column of times")
        time = self.time_of(row[self.time_at])
        self.settled.begin()
        if self.words.event:
            self.row_of_event(time, row + [""] * (len(self.header) - len(row)))
        else:
            self.settled.events(time, self.inputs, self.cell_readers, itertools.compress(row, self.wanted))
            if self.shapes.may_learn(line) and len(self.held) < 2:
                self.shapes.learn(self.shape_of_row(row, line))

    def shape_of_row(self, row: List[str], line: str) -> Optional[Shape]:
        """The shape of a row of one line."""
        pattern, at, inputs = Pattern(), 0, iter(self.inputs)
        if len(row) != len(self.wanted) or len(row) > MOST_PARTS:
            return None
        for place, cell in enumerate(row):
            quote = '"' if line.startswith('"', at) else ""
            pattern.text(quote)
            if place == self.time_at:
                pattern.take_time(cell, f"[{marks_but(self.words.separator)} ]{{1,80}}")
            elif self.wanted[place]:
                self.take_cell(pattern, next(inputs), cell, "" if quote else self.words.separator)
            else:
                pattern.any(f'[^"{self.words.separator}\\r\\n\\0\ud800-\udfff]{{0,4000}}')
            at += len(f"{quote}{cell}{quote},")
            pattern.text(quote)
            if place < len(row) - 1:
                pattern.text(self.words.separator)
        pattern.end("\r{0,40}" if "\r" in line else "")
        return pattern.shape_of(line)

    def take_cell(self, pattern: Pattern, name: str, cell: str, separator: str) -> None:
        kind = no_event(BLANK) if name == "_" else self.kind(name, cell, separator)
        around = BLANK if cell != cell.strip(" ") and kind.pattern in (PLAIN_NUMBER, TRUTH, DECIMAL) else ""
        pattern.any(around)
        pattern.input(name, kind)
        pattern.any(around)

    def row_of_event(self, time: int, row: List[str]) -> None:
        named = row[self.event_at].strip(BLANKS)
        if not named:
            raise Refused(f"it has no {shown(self.words.event)}")
        cell = "" if self.value_at is None else row[self.value_at]
        self.named_event(time, named, cell if cell.strip(BLANKS) else None)

    def take_header(self, cells: List[str]) -> None:
        header = [cell.strip(BLANKS) for cell in cells]
        if not self.words.header and NUMBER.fullmatch(header[0]):
            raise Refused("the header begins with a number, as a row does (see --header)")
        if len(header) < 2:
            raise Refused(f"a table of one column has no events (a {self.separator_name()} parts columns, see --separator)")
        time = header[0] if self.words.time is None else self.words.time
        self.time_at = place_of(header, time, "--time") if time else 0
        if self.words.event:
            self.event_at = place_of(header, self.words.event, "--event")
            self.value_at = place_of(header, self.words.value, "--value") if self.words.value else None
        else:
            columns = [self.input_of(header, at) for at in range(len(header))]
            self.wanted = [name is not None for name, _ in columns]
            self.inputs = [name for name, _ in columns if name is not None]
            self.cell_readers = [reader for name, reader in columns if name is not None]
        self.header = header

    def separator_name(self) -> str:
        name = next(name for name, char in SEPARATORS.items() if char == self.words.separator)
        return "comma" if name == "," else name

    def input_of(self, header: List[str], at: int) -> Tuple[Optional[str], Reader]:
        """The input of a column, and what reads its cells."""
        if at == self.time_at:
            return None, self.text
        if not header[at]:
            # Without a name it is no input, and no cell of it is dropped in silence.
            return (None if self.words.only else "_"), refuse_unnamed
        name = self.names[header[at]]
        if name and header[at] in header[:at]:
            raise Refused(f"two columns are called {shown(header[at])}")
        return name, self.reader(name) if name else self.text


def place_of(header: List[str], name: str, flag: str) -> int:
    if header.count(name) != 1:
        raise Refused(f"{'no column is' if name not in header else 'two columns are'} called {shown(name)} (see {flag})")
    return header.index(name)


def refuse_unnamed(cell: str) -> Optional[str]:
    if cell.strip(BLANKS):
        raise Refused(f"a column without a name has {shown(cell)}")
    return ""


def check_quotes(text: str, row: List[str]) -> None:
    """Refuses a row in which a quote stands inside a cell that does not begin with one, where it would not keep commas together."""
    at = 0
    for cell in row:
        in_quotes = '"' + cell.replace('"', '""') + '"'
        if text.startswith(in_quotes, at):
            at += len(in_quotes) + 1
        elif '"' not in cell:
            at += len(cell) + 1
        else:
            raise Refused(f"a quote inside a cell without quotes: {shown(cell)}")


def fault_of_table(error: str, separator: str) -> str:
    """Why Python's reader refuses a row."""
    if "unexpected end of data" in error:
        return "a quote is open at the end"
    if "field larger" in error:
        return f"a cell of more than {LONGEST_CELL} characters (is a quote open?)"
    if "new-line character" in error:
        return "a carriage return inside a line"
    return f"after the quote that ends a cell stands no {separator}"
