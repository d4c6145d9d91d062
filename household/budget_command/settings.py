"""Which program, node, store and server a person's commands go to, and which nodes this machine has.

A settings file is an INI file with one section. It is the one that `--settings` or the variable BUDGET_SETTINGS names, else `settings.ini` in
the folder of the command, which is BUDGET_HOME, or else `budget` in the folder for configurations. In the folder of the command there is also
the list of the nodes that `budget init` gave on this machine, each with its store.
"""
import configparser
import dataclasses
import os
import re
from typing import Dict, List, Optional, Tuple

from .errors import Refusal

SECTION = "budget"
NODE = re.compile(r"[0-9A-Za-z]{1,16}")
NAME = re.compile(r"[0-9A-Za-z_-]{1,64}")


@dataclasses.dataclass(frozen=True)
class Settings:
    """What a settings file says."""
    program: str
    node: str
    store: str
    server: str = "127.0.0.1:5006"
    token: str = "local"
    file: str = "home"
    group: str = "home"

    def faults(self) -> List[str]:
        """What the program would refuse, a sentence each."""
        faults = []
        if not NODE.fullmatch(self.node) or not self.node.strip("0"):
            faults.append(f"{self.node!r} is no node: take 1 to 16 letters and digits, not all of them 0, as --node anna.")
        for name in ("token", "file", "group"):
            if not NAME.fullmatch(getattr(self, name)):
                faults.append(f"The {name} {getattr(self, name)!r} is not 1 to 64 of letters, digits, `_` and `-`.")
        for name, value in dataclasses.asdict(self).items():
            if value != value.strip() or not value.isprintable() or not value:
                faults.append(f"The {name} {value!r} can't stand in a settings file: it is empty, has a blank at an end, or a sign that isn't printed.")
        return faults


def folder() -> str:
    """The folder of the command."""
    configurations = os.environ.get("XDG_CONFIG_HOME") or os.path.join(os.path.expanduser("~"), ".config")
    return os.environ.get("BUDGET_HOME") or os.path.join(configurations, "budget")


def settings_path(named: Optional[str]) -> str:
    """Where the settings are."""
    return os.path.abspath(named or os.environ.get("BUDGET_SETTINGS") or os.path.join(folder(), "settings.ini"))


def write_whole(path: str, text: str) -> None:
    """Writes a file, for this user alone, so that another run sees the old text or the new one, and no part of it."""
    beside = f"{path}.{os.getpid()}"
    try:
        os.makedirs(os.path.dirname(path), exist_ok=True)
        with open(beside, "w", encoding="utf-8") as file:
            os.chmod(beside, 0o600)
            file.write(text)
            file.flush()
            os.fsync(file.fileno())
        os.replace(beside, path)
    except OSError as fault:
        raise Refusal(f"{path} can't be written: {fault.strerror}. See that its folder may be written, and that there is room on the disk.") from fault


def load(path: str) -> Settings:
    """The settings in a file."""
    parser = configparser.ConfigParser(interpolation=None)
    try:
        with open(path, encoding="utf-8") as file:
            parser.read_file(file)
        settings = Settings(**dict(parser[SECTION]))
    except FileNotFoundError as fault:
        raise Refusal(f"There are no settings at {path}. Make them once with `budget init --program PATH --node NAME --store FILE`.") from fault
    except (OSError, UnicodeDecodeError, configparser.Error, KeyError, TypeError) as fault:
        raise Refusal(f"The settings at {path} can't be read: {fault}. Make them anew with `budget init`, or mend the file.") from fault
    faults = settings.faults()
    if faults:
        raise Refusal(f"The settings at {path} can't be used. " + " ".join(faults))
    return settings


def text_of(settings: Settings) -> str:
    """The text of a settings file."""
    return f"[{SECTION}]\n" + "".join(f"{name} = {value}\n" for name, value in dataclasses.asdict(settings).items())


class Nodes:
    """The nodes of this machine, each with its store: a file of lines of a node, a TAB, and a path."""

    def __init__(self) -> None:
        self.path = os.path.join(folder(), "nodes")
        self.stores: Dict[str, str] = {}
        try:
            with open(self.path, encoding="utf-8") as file:
                for line in file.read().splitlines():
                    node, _, store = line.partition("\t")
                    self.stores[node] = store
        except FileNotFoundError:
            pass
        except (OSError, UnicodeDecodeError) as fault:
            raise Refusal(f"The list of this machine's nodes, {self.path}, can't be read: {fault}. Mend it, since no two stores may have one node.") from fault

    def may_take(self, node: str, store: str, moved: bool) -> None:
        """Refuses a node that another store has, and a store that another node has."""
        key = node.rjust(16, "0")
        other = self.stores.get(key)
        if other and not same_file(other, store):
            self._may_move(node, other, moved)
        for owner, its_store in self.stores.items():
            if owner != key and same_file(its_store, store):
                raise Refusal(f"The store {store} is that of the node {owner.lstrip('0')}. Take that node for it, or another store for the node {node}.")

    def take(self, node: str, store: str) -> None:
        """Notes that the node has the store."""
        self.stores[node.rjust(16, "0")] = store
        write_whole(self.path, "".join(f"{owner}\t{path}\n" for owner, path in sorted(self.stores.items())))

    @staticmethod
    def _may_move(node: str, other: str, moved: bool) -> None:
        why = "Two stores of one node make books that differ and never tell of it."
        if os.path.exists(other):
            raise Refusal(f"The node {node} is that of the store {other} on this machine. {why} Take another node, as --node {node}2.")
        if not moved:
            raise Refusal(f"The node {node} is that of the store {other}, which isn't there now. {why} If that store has been moved to here, "
                          "say --moved; else take another node.")


def same_file(left: str, right: str) -> bool:
    """Whether two paths lead to one file."""
    return os.path.realpath(left) == os.path.realpath(right)


def taken_paths(path: str) -> Tuple[str, str]:
    """The settings file's journal, and the file by which two runs wait for each other."""
    return path + ".journal", path + ".lock"
