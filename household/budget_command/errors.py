"""What ends a command."""


class Refusal(Exception):
    """The command is refused, and nothing of it has changed the books: whole sentences that say why, and what to do."""


class ProgramFault(Exception):
    """The program could not be run, or ended in the middle: whole sentences, with all that it wrote on standard error."""


class LineRefused(Exception):
    """The program refused a line."""

    def __init__(self, code: str, details: list):
        super().__init__(code)
        self.code = code
        self.details = details
