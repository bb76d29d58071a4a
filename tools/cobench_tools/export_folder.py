"""Writes an export into its folder: in one step where the folder is the export's alone, else file by file and back."""
import contextlib
import ctypes
import os
import stat
import tempfile
from typing import Callable, Dict, List, Optional, Set

from . import folder_lock, manifest, tool
from .exchange import NEW, OLD, Exchange, check_place, kind_of, remove, write_new
from .interrupts import Held

PREFIX = ".export-"         # of the folder inside that of the export, in which new files stand until they change places
RANDOM = 8                  # letters that tempfile puts behind it
AT_FDCWD, RENAME_EXCHANGE = -100, 2     # of Linux
LABELS = {"security.selinux"}           # what each file has there, and no user set

Files = Dict[str, bytes]


def write(folder: str, files: Files, source: manifest.Source) -> None:
    """Writes an export: all of it, or none. What an export before it left half done is put in order first."""
    with Held() as held:
        try:
            lock = folder_lock.FolderLock(folder, held)
            try:
                write_locked(folder, files, source, held)
            except BaseException:
                lock.release()
                lock.unmake()
                raise
            lock.release()
        except OSError as error:
            raise tool.Fault(f"{error.filename or folder}: {error.strerror}") from None


def write_locked(folder: str, files: Files, source: manifest.Source, held: Held) -> None:
    recover(folder)
    rename = rename_of_system()
    if not (rename and is_own(folder, files) and exchange_whole(folder, files, source, held, rename)):
        exchange_each(folder, files, source, held)


# What an export left that was killed.

def leftovers(folder: str, start: str) -> List[str]:
    """The folders of new or old files that a killed export left in a folder."""
    names = [name for name in os.listdir(folder or ".") if name.startswith(start) and len(name) == len(start) + RANDOM]
    return [path for path in (os.path.join(folder, name) for name in sorted(names)) if is_folder(path)]


def is_folder(path: str) -> bool:
    """Whether a folder stands at a place, and no link to one."""
    found = kind_of(path)
    return bool(found and stat.S_ISDIR(found.st_mode))


def beside(folder: str) -> List[str]:
    """The folder above that of an export, and how the names of those begin that are to change places with it."""
    above, name = os.path.split(os.path.realpath(folder))
    return [above, f".{name}{PREFIX}"]


def recover(folder: str) -> None:
    """Puts in order what a killed export left half done."""
    for staging in leftovers(folder, PREFIX):
        put_back(folder, os.path.join(staging, OLD))
        for place in (os.path.join(staging, NEW), os.path.join(staging, OLD), staging):
            clear(place)
    try:
        found = leftovers(*beside(folder))
    except OSError:
        return
    for staging in found:
        rescue(staging, folder)
        clear(staging)


def begun(folder: str) -> Optional[manifest.Manifest]:
    """The manifest of an export that wasn't completed."""
    try:
        found = manifest.read(folder)
    except manifest.Damaged:
        return None
    return found if found and found.before is not None else None


def put_back(folder: str, old: str) -> None:
    """A folder has again what it had before an export that wasn't completed; what was written since stays."""
    found = begun(folder)
    if not found or not is_folder(old):
        return
    kept, now = set(os.listdir(old)), manifest.digests_of(folder, found.files)
    for name, digest in found.files.items():
        place, is_its_own = os.path.join(folder, name), now.get(name) in (digest, None)
        if name in kept and is_its_own:
            os.replace(os.path.join(old, name), place)
        elif name not in kept and name not in (found.before or {}) and now.get(name) == digest:
            remove(place)
    if manifest.NAME in kept:
        os.replace(os.path.join(old, manifest.NAME), os.path.join(folder, manifest.NAME))
    else:
        remove(os.path.join(folder, manifest.NAME))


def is_of_export(name: str) -> bool:
    """Whether a file is one that exports write."""
    return manifest.is_name(name) or name in (manifest.NAME, folder_lock.NAME)


def rescue(staging: str, folder: str) -> None:
    """Brings what isn't an export's from a folder that changed places with that of an export."""
    for name in os.listdir(staging):
        place = os.path.join(folder, name)
        if not is_of_export(name) and kind_of(place) is None:
            os.rename(os.path.join(staging, name), place)


def clear(staging: str) -> None:
    """Removes a folder with the files of an export; where it has others, they stay."""
    with contextlib.suppress(OSError):
        for name in os.listdir(staging) if is_folder(staging) else ():
            if is_of_export(name):
                remove(os.path.join(staging, name))
        os.rmdir(staging)


# In one step.

def is_own(folder: str, files: Files) -> bool:
    """Whether a folder has nothing but what an export wrote into it and writes anew, and can be replaced as a whole."""
    names = set(os.listdir(folder)) - {folder_lock.NAME}
    return is_plain_folder(folder) and names <= {*files, manifest.NAME} and is_listed(folder, names) and all(
        is_plain_file(os.path.join(folder, name)) for name in names)


def is_listed(folder: str, names: Set[str]) -> bool:
    """Whether the manifest has all names of a folder."""
    try:
        found = manifest.read(folder)
    except manifest.Damaged:
        return False
    return names <= {manifest.NAME, *(found.files if found else ())}


def is_plain_file(path: str) -> bool:
    """Whether a file is of this user, and has no other name."""
    found = os.lstat(path)
    return stat.S_ISREG(found.st_mode) and found.st_nlink == 1 and found.st_uid == os.geteuid() and not has_labels(path)


def is_plain_folder(folder: str) -> bool:
    """Whether a folder is of this user, and none that is mounted or that this process stands in."""
    found, above = os.stat(folder), os.stat(beside(folder)[0])
    return (found.st_uid == os.geteuid() and found.st_dev == above.st_dev and not os.path.ismount(folder)
            and not os.path.samestat(found, os.stat(".")) and not has_labels(folder))


def has_labels(path: str) -> bool:
    """Whether a file has more than its mode that says who may do what with it."""
    try:
        return bool(set(os.listxattr(path)) - LABELS)
    except (AttributeError, OSError):
        return False


def exchange_whole(folder: str, files: Files, source: manifest.Source, held: Held, rename: Callable) -> bool:
    """Writes all into a folder beside that of the export, and has both change places: whether that can be done."""
    above, start = beside(folder)
    try:
        staging = tempfile.mkdtemp(prefix=start, dir=above)
    except OSError:
        return False
    try:
        write_whole(staging, folder, files, source, held)
        held.check()
        is_done = takes_modes(staging, folder) and rename(staging, os.path.realpath(folder))
        if is_done:
            rescue(staging, folder)
    finally:
        clear(staging)
    return is_done


def write_whole(staging: str, folder: str, files: Files, source: manifest.Source, held: Held) -> None:
    """Writes the files of an export into a folder that becomes that of the export."""
    for name, data in [*files.items(), (manifest.NAME, manifest.text_of(source, files))]:
        held.check()
        place = os.path.join(folder, name)
        try:
            write_new(os.path.join(staging, name), data, check_place(place))
        except OSError as error:
            raise OSError(error.errno, error.strerror, place) from None


def takes_modes(staging: str, folder: str) -> bool:
    """Gives a folder the group and the mode of another: whether that can be done."""
    now = os.stat(folder)
    try:
        if os.stat(staging).st_gid != now.st_gid:
            os.chown(staging, -1, now.st_gid)
        os.chmod(staging, stat.S_IMODE(now.st_mode))
    except OSError:
        return False
    return True


def rename_of_system() -> Optional[Callable[[str, str], bool]]:
    """What has two folders change names in one step, and says whether it could; None where the system can't."""
    try:
        rename = ctypes.CDLL(None, use_errno=True).renameat2
    except (AttributeError, OSError, TypeError):
        return None
    return lambda one, other: rename(AT_FDCWD, os.fsencode(one), AT_FDCWD, os.fsencode(other), RENAME_EXCHANGE) == 0


# File by file.

def exchange_each(folder: str, files: Files, source: manifest.Source, held: Held) -> None:
    """Has the files change places one by one; until all have, the manifest says that, and what was there before."""
    exchange = Exchange(folder, PREFIX)
    try:
        for name, data in files.items():
            held.check()
            exchange.put(name, data)
        exchange.replace(manifest.NAME, manifest.text_of(source, files, manifest.digests_of(folder, files)))
        for name in files:
            held.check()
            exchange.change(name)
        exchange.replace(manifest.NAME, manifest.text_of(source, files))
    except BaseException:
        exchange.undo()
        raise
    finally:
        exchange.close()
