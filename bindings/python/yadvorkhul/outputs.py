"""Writes a file whole or not at all, and never over what was read."""

import os
from typing import BinaryIO, Iterable, List, Optional, Union


class BadOutput(ValueError):
    """An output that cannot be written or must not be, in a sentence."""


class NotWritten(OSError):
    """An output that was opened and could not be written, in a sentence."""


def shown(path: str) -> str:
    """A path for the eye: bytes that are no text as \\\\xff."""
    return os.fsencode(path).decode("utf-8", "backslashreplace")


def _same(one: str, other: str) -> bool:
    """Whether two paths lead to one file, by whatever names."""
    if os.path.realpath(one) == os.path.realpath(other):
        return True
    return os.path.exists(one) and os.path.exists(other) and os.path.samefile(one, other)


def check_outputs(outputs: Iterable[Optional[str]], inputs: Iterable[str]) -> None:
    """Refuses an output that is an input, another output or a folder. Those that are None are not asked for."""
    inputs = list(inputs)
    seen: List[str] = []
    for path in outputs:
        if path is None:
            continue
        if os.path.isdir(path):
            raise BadOutput(f"{shown(path)} is a folder; name a file")
        for other in inputs:
            if _same(path, other):
                raise BadOutput(f"{shown(path)} is read as an input; name another file for the output")
        for other in seen:
            if _same(path, other) and not _device(path):
                raise BadOutput(f"{shown(path)} is named for two outputs")
        seen.append(path)


def _device(path: str) -> bool:
    return os.path.exists(path) and not os.path.isfile(path)


def write_whole(path: str, text: Union[str, bytes]) -> None:
    """Writes a text as UTF-8, bytes as they are. The file appears when all of it is written; where that fails nothing is left, and an older
    file stays."""
    try:
        data = text if isinstance(text, bytes) else text.encode("utf-8")
    except UnicodeEncodeError as error:
        raise BadOutput(f"{shown(path)} is not written: the text holds {text[error.start]!r}, which is no character") from error
    try:
        if _device(path):  # as it was named: what /dev/stdout leads to may have no path
            with _opened(path, path, "wb") as out:
                out.write(data)
        else:
            _replace(path, data)
    except OSError as error:
        if error.filename == path:  # it was not opened
            raise
        raise NotWritten(f"{shown(path)} was not written: {error.strerror or error}") from error


def _opened(path: str, named: str, mode: str) -> BinaryIO:
    """A file to write; where it cannot be opened, the path in the error is the one that the caller gave."""
    try:
        return open(path, mode)  # type: ignore[return-value]
    except OSError as error:
        raise OSError(error.errno, error.strerror, named) from error


def _replace(named: str, data: bytes) -> None:
    """Writes a file beside the one that a path leads to, and puts it in its place."""
    path = os.path.realpath(named)
    beside = f"{path}.{os.getpid()}.part"
    out = _opened(beside, named, "xb")
    try:
        with out:
            out.write(data)
        if os.path.exists(path):
            os.chmod(beside, os.stat(path).st_mode & 0o7777)
        os.replace(beside, path)
    except BaseException:
        os.unlink(beside)
        raise
