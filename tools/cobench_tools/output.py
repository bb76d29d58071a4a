"""Files that are written whole or not at all."""
import os
from typing import Dict, Optional

from . import tool
from .exchange import Exchange
from .interrupts import Held

PREFIX = ".cobtool-"    # of the folder in which new files stand until all of them are written


def write_file(path: str, data: bytes) -> None:
    """Writes the file that the user names: through a link, and into a device or a pipe as it comes."""
    if os.path.exists(path) and not os.path.isfile(path) and not os.path.isdir(path):
        write_through(path, data)
    else:
        folder, name = os.path.split(os.path.realpath(path) if os.path.islink(path) else path)
        write_files(folder, {name: data}, path)


def write_through(path: str, data: bytes) -> None:
    """Writes into a device or a pipe."""
    try:
        with open(path, "wb") as file:
            file.write(data)
    except OSError as error:
        raise tool.Fault(f"{path}: {error.strerror}") from None


def write_files(folder: str, files: Dict[str, bytes], shown: Optional[str] = None) -> None:
    """Writes files into a folder, each by its name: all of them, or none.

    shown  how the folder, or the one file, is called in a fault
    """
    with Held() as held:
        try:
            exchange_all(folder, files, held)
        except OSError as error:
            raise tool.Fault(f"{shown or error.filename or folder}: {error.strerror}") from None


def exchange_all(folder: str, files: Dict[str, bytes], held: Held) -> None:
    """Has files change places with those of a folder; a signal or a fault has all of it undone."""
    exchange = Exchange(folder, PREFIX)
    try:
        for name, data in files.items():
            held.check()
            exchange.put(name, data)
        for name in files:
            held.check()
            exchange.change(name)
    except BaseException:
        exchange.undo()
        raise
    finally:
        exchange.close()
