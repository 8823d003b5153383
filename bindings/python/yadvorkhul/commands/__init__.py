"""The subcommands. Each module here whose name does not begin with an underscore is one, and has

    ORDER    where it stands in the list of `--help`
    SUMMARY  what it does, without a full stop
    NEEDS    the functions of the archive that it calls
    add      puts its arguments into a parser
    run      from the arguments to the status (`yadvorkhul.console`)

A refusal is said by `_say.py`, a wrong use is `console.WrongUse`. What needs a library that may be missing is imported in `run`.
"""

import importlib
import pkgutil


def all_of_them():
    """Name and module of each subcommand, in order."""
    names = [found.name for found in pkgutil.iter_modules(__path__) if not found.name.startswith("_")]
    modules = [(name, importlib.import_module(f"{__name__}.{name}")) for name in names]
    return sorted(modules, key=lambda pair: (pair[1].ORDER, pair[0]))
