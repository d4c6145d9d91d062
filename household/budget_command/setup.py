"""The commands that say which program, node, store and server there are."""
import argparse
import dataclasses
import os
import shutil
from typing import Dict, List, Optional

from .device import Device
from .errors import ProgramFault, Refusal
from .settings import Nodes, Settings, load, text_of, write_whole
from .tables import Output

Options = argparse.Namespace
# where the program stands behind a build of the repository
BUILT = os.path.join("crates", "budget_cli", "out", "budget_cli")


def program_at(named: Optional[str], known: Optional[str]) -> str:
    """The program that is named, that the settings had, that is on the path, or that the repository built."""
    top = os.path.dirname(os.path.dirname(os.path.dirname(os.path.abspath(__file__))))
    for place in (named, known, shutil.which("budget_cli"), os.path.join(top, BUILT)):
        if place:
            if os.path.isfile(place) and os.access(place, os.X_OK):
                return os.path.abspath(place)
            if place == named:
                raise Refusal(f"There is no program at {place}. Build it by `cd crates/budget_cli && rt run -- merge </dev/null`; then it stands in "
                              "the folder `out` there.")
    raise Refusal("Say where the program is: `budget init --program PATH`.")


def init(path: str, options: Options, output: Output) -> None:
    """Makes the settings, or changes what is named of them."""
    known: Dict[str, str] = dataclasses.asdict(load(path)) if os.path.exists(path) else {}
    said = {name: value for name, value in vars(options).items() if name in {field.name for field in dataclasses.fields(Settings)} and value is not None}
    told = {**known, **said, "program": program_at(said.get("program"), known.get("program"))}
    for name, example in (("node", "--node anna"), ("store", "--store anna.db")):
        if name not in told:
            raise Refusal(f"Say which {name} this device has, as {example}. Each device of a household has a node and a store of its own.")
    told["store"] = os.path.abspath(told["store"])
    settings = Settings(**told)
    faults = settings.faults()
    if faults:
        raise Refusal(" ".join(faults))
    if known and known["node"] != settings.node:
        raise Refusal(f"These settings are those of the node {known['node']}, whose store has its edits. Make settings of their own for another device: "
                      f"`budget --settings {settings.node}.ini init --node {settings.node} --store {settings.node}.db`.")
    nodes = Nodes()
    nodes.may_take(settings.node, settings.store, options.moved)
    is_new = not os.path.exists(settings.store)
    try_out(settings)
    nodes.take(settings.node, settings.store)
    write_whole(path, text_of(settings))
    output.say(f"The node {settings.node} has {'a new store' if is_new else 'the store'} at {settings.store}. The settings are at {path}.")


def try_out(settings: Settings) -> None:
    """Runs the program once over the store, which makes it where it isn't there."""
    if not os.path.isdir(os.path.dirname(settings.store)):
        raise Refusal(f"There is no folder {os.path.dirname(settings.store)} for the store. Make it, or name another place.")
    try:
        device = Device(settings)
        device.end()
    except ProgramFault as fault:
        raise Refusal(f"{fault} The settings are as they were.") from fault


def show(path: str, options: Options, output: Output) -> None:
    """Writes the settings."""
    rows: List[List[str]] = [[name, value] for name, value in dataclasses.asdict(load(path)).items()]
    for name, value in [*rows, ["settings", path]]:
        print(f"{name}\t{value}" if output.tsv else f"{name:8}  {value}")
