"""The shared object that `bindings/python/build` makes of the proved archive.

The package can be imported without it, so that the command can say in a sentence what is missing; a call then raises `ImportError`."""

import ctypes
import os


class _Absent:
    """Stands for a function that is not there."""

    def __init__(self, reason: str):
        self._reason = reason

    def __call__(self, *arguments):
        raise ImportError(self._reason)


class Archive:
    """The functions of the archive by their names; `missing` says why there are none, or is empty."""

    def __init__(self, path: str):
        self._library, self.missing = None, ""
        try:
            self._library = ctypes.CDLL(path)
        except OSError as error:
            there = os.path.exists(path)
            reason = f"{path} cannot be loaded: {error}" if there else f"{os.path.basename(path)} is not there"
            self.missing = f"{reason}. Run bindings/python/build, or name the shared object in YADVORKHUL_SO."

    def offers(self, symbol: str) -> bool:
        """Whether the archive has this function."""
        return self._library is not None and hasattr(self._library, symbol)

    def __getattr__(self, symbol: str):
        if symbol.startswith("_"):
            raise AttributeError(symbol)
        if self.offers(symbol):
            function = getattr(self._library, symbol)
        else:
            function = _Absent(self.missing or f"the archive has no {symbol}. Build it anew with bindings/python/build.")
        setattr(self, symbol, function)
        return function


def load() -> Archive:
    """The shared object beside this file, or the one that YADVORKHUL_SO names."""
    beside = os.path.join(os.path.dirname(os.path.abspath(__file__)), "libyadvorkhul.so")
    return Archive(os.environ.get("YADVORKHUL_SO") or beside)
