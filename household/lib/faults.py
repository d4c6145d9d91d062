"""The one way in which an export is refused."""


class Fault(Exception):
    """What can't be read, as a sentence, with the line and the column where it stands, both from 1, as far as it has them."""

    def __init__(self, message: str, line: int | None = None, column: int | None = None, name: str | None = None) -> None:
        super().__init__(message)
        self.message = message
        self.line = line
        self.column = column
        self.name = name

    def __str__(self) -> str:
        place = ""
        if self.line is not None:
            place += f"line {self.line}"
        if self.column is not None:
            place += f", column {self.column}"
        if self.name:
            place += f" ({self.name})"
        return f"{place}: {self.message}" if place else self.message
