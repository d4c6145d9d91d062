"""The talk with the program: one run of `device` over the store, a line and its reply at a time."""
import subprocess
from typing import List, Sequence

from .errors import LineRefused, ProgramFault, Refusal
from .settings import Settings
from .words import line_of, unescape

CAUSES = {
    2: "it doesn't take its command line. Look at the settings (`budget settings`); `budget init` makes them anew",
    3: "a record of the store is no message. Take the store back from a copy, or begin a new one and sync",
    4: "its input failed",
    5: "its output failed",
    6: "the store could not be opened, or failed. See that the folder is there and may be written, that no other run has the store, "
       "and that there is room on the disk",
    7: "memory ran out",
    9: "it was told more than 1 GB",
}


class Device:
    """A run of the program, which holds open files that it is given for as long as it goes on."""

    def __init__(self, settings: Settings, holds: Sequence[int] = ()):
        self.settings = settings
        words = [settings.program, "device", "--node=" + settings.node, "--store=" + settings.store, "--peer=" + settings.server,
                 "--token=" + settings.token, "--file=" + settings.file, "--group=" + settings.group]
        try:
            self.process = subprocess.Popen(words, stdin=subprocess.PIPE, stdout=subprocess.PIPE, stderr=subprocess.PIPE,
                                            pass_fds=tuple(holds))
        except (OSError, ValueError) as fault:
            raise ProgramFault(f"The program {settings.program} can't be run: {fault}. Build it, and name it with `budget init --program PATH`.") from fault

    def ask(self, *words: str) -> List[str]:
        """The lines of the reply to the line of these words; a line that the program refuses is a LineRefused."""
        return self.ask_line(line_of(words))

    def ask_line(self, line: str) -> List[str]:
        """The same, of a line as it stands."""
        try:
            self.process.stdin.write(line.encode() + b"\n")
            self.process.stdin.flush()
        except UnicodeEncodeError as fault:
            raise Refusal(f"{line!r} is no text in UTF-8. Type it in a terminal whose characters are UTF-8.") from fault
        except BrokenPipeError:
            self._has_ended()
        return self._reply()

    def _reply(self) -> List[str]:
        head = self._line()
        word, _, rest = head.partition(" ")
        if word == "ok" and rest.isdigit():
            return [self._line() for _ in range(int(rest))]
        if word == "refused":
            code, *details = rest.split(" ")
            raise LineRefused(code, [unescape(detail) for detail in details])
        raise ProgramFault(f"The program {self.settings.program} answered {head!r}, which is no reply. Look whether it is the right one.")

    def _line(self) -> str:
        line = self.process.stdout.readline()
        if not line.endswith(b"\n"):
            self._has_ended()
        return line[:-1].decode("utf-8", "surrogateescape")

    def _has_ended(self) -> None:
        """Tells why the program has ended before its reply."""
        _, errors = self.process.communicate()
        self._fault(self.process.returncode, errors)

    def _fault(self, status: int, errors: bytes) -> None:
        said = errors.decode("utf-8", "replace").strip()
        cause = CAUSES.get(status, f"its status is {status}")
        told = f" It says: {said}" if said else ""
        raise ProgramFault(f"The program ended over the store {self.settings.store}: {cause}.{told}")

    def end(self) -> None:
        """Ends the run; a run that doesn't end as it should is a ProgramFault."""
        _, errors = self.process.communicate()
        if self.process.returncode not in (0, 1):
            self._fault(self.process.returncode, errors)

    def kill(self) -> None:
        """Ends the run whatever it does."""
        self.process.kill()
        self.process.communicate()
