"""Files: read where they are regular and not too long, and written whole or not at all.

What weft makes is for the user who runs it alone, whatever the umask: folders have the mode 0700 and files 0600 from the start. What
that user names to be handed out is made as the umask says, and what is put into a folder to be carried is as readable as that folder.
Who gives a file another mode keeps it."""

from __future__ import annotations

import errno
import fcntl
import os
import secrets
import shutil
import stat
import sys
from contextlib import contextmanager
from pathlib import Path
from typing import IO, Callable, Iterator, NamedTuple, Optional, Union

from weft.deciding.gone import is_hollow, least_content, may_be_hollow
from weft.deciding.keeping import is_anothers, is_of_system, may_be_sent, may_come_beside
from weft.deciding.signatures import is_private_key, is_public_key
from weft.output import complain
from weft.statuses import Status
from weft.texts import name_of, typed
from weft.trouble import Trouble

AnyPath = Union[str, "os.PathLike[str]"]


class Input(NamedTuple):
    """A file that a judgement is of, or that it used: what it was, its name, and of what was read of it the count of bytes and their SHA-256 digest; None where it wasn't
    read whole."""

    what: str
    file: str
    bytes: Optional[int]
    sha256: Optional[str]


PIECE = 1 << 20
STORE = "timeline.tw"
# How what stands beside the folder of a service ends.
OWN_ENDS = (
    ".lines", ".anchor", ".entries", ".pending", ".lock", ".look", ".seal", ".known", ".next", ".others", ".backup", ".records", ".keys", ".told",
)  # fmt: skip
GET_GENERATION = 0x80087601
PRIVATE, BY_UMASK, PRIVATE_FOLDER = 0o600, 0o666, 0o700
READABLE, GROUP = 0o044, 0o070
MOST_LINKS = 40
MOST_FRONT = 60
MOST_HEAD = 64
MOST_NOTED = 1 << 16
READ: set[tuple[int, int]] = set()
"""Which files this run read, by their devices and numbers, of very many the first ones."""

# What to do where a file can't be written, by the reason.
NO_ROOM = "What was there before stands; run it again once there is room."
NO_RIGHT = "What was there before stands. Look who may write there, and run it as a user who may."
NO_REASON = "What was there before stands. Look at the device, and run it again."


def unread(path: AnyPath, failure: OSError) -> Trouble:
    """The sentence of a file that can't be opened or read."""
    named = name_of(path)
    if failure.errno == errno.ENOENT:
        return Trouble(Status.NO_INPUT, f"there is no file {named}", "Is its name right?")
    if failure.errno == errno.ELOOP:
        return Trouble(Status.NO_INPUT, f"{named} is a link, and no link is followed there")
    return Trouble(Status.NO_INPUT, f"{named} can't be read: {os.strerror(failure.errno or 0)}")


def unwritten(path: AnyPath, failure: OSError) -> Trouble:
    """The sentence of a file that can't be written."""
    reason = os.strerror(failure.errno or 0)
    is_full = failure.errno in (errno.ENOSPC, errno.EDQUOT, errno.EFBIG)
    is_forbidden = failure.errno in (errno.EACCES, errno.EPERM, errno.EROFS)
    advice = NO_ROOM if is_full else NO_RIGHT if is_forbidden else NO_REASON
    return Trouble(Status.DISK, f"{name_of(path)} can't be written: {reason}", advice)


def opened(path: AnyPath, follow: bool = True, within: Optional[int] = None) -> int:
    """The number of a regular file that is opened to be read, from the open folder `within` on where one is given; raises Trouble where
    it is none. A pipe isn't waited for."""
    flags = os.O_RDONLY | os.O_NONBLOCK | os.O_CLOEXEC | os.O_NOCTTY | (0 if follow else os.O_NOFOLLOW)
    try:
        number = os.open(path, flags, dir_fd=within)
    except OSError as failure:
        raise unread(path, failure) from None
    except ValueError:
        raise Trouble(Status.NO_INPUT, f"{name_of(path)} is no name of a file") from None
    about = os.fstat(number)
    mode = about.st_mode
    if not stat.S_ISREG(mode):
        os.close(number)
        what = "a folder" if stat.S_ISDIR(mode) else "a pipe" if stat.S_ISFIFO(mode) else "no regular file"
        raise Trouble(Status.NO_INPUT, f"{name_of(path)} is {what}", "Name a file.")
    if len(READ) < MOST_NOTED:
        READ.add((about.st_dev, about.st_ino))
    return number


def expect_content(number: int, path: AnyPath) -> None:
    """Raises Trouble where an open file has next to no content for its size."""
    size = os.fstat(number).st_size
    if may_be_hollow(size) and is_hollow(size, content_of(number, size, least_content(size))):
        raise Trouble(Status.UNREADABLE, f"{name_of(path)} has {size:,} bytes, and next to none of them are on the disk: it isn't read")


def content_of(number: int, size: int, most: int) -> int:
    """How many bytes of an open file have content, as far as its file system tells where it has none, counted up to so many."""
    place, found = os.lseek(number, 0, os.SEEK_CUR), 0
    try:
        end = 0
        while found < most and end < size:
            start = os.lseek(number, end, os.SEEK_DATA)
            end = os.lseek(number, start, os.SEEK_HOLE)
            found += end - start
    except OSError as failure:
        found = found if failure.errno == errno.ENXIO else size
    os.lseek(number, place, os.SEEK_SET)
    return found


def expect_own_beside(folder: AnyPath) -> None:
    """Raises Trouble where something of another user's stands beside a service that is to be made."""
    for end in OWN_ENDS:
        path = f"{os.fspath(folder)}{end}"
        try:
            owner = os.lstat(path).st_uid
        except OSError:
            continue
        if is_anothers(owner, (os.geteuid(),)):
            raise Trouble(Status.DISK, f"{name_of(path)} is there already, and is another user's: no service was made beside it", "Make it in a folder of your own.")


def read(path: AnyPath, most: int, follow: bool = True, within: Optional[int] = None) -> bytes:
    """The bytes of a regular file. Raises Trouble where it can't be read, or has more bytes than `most`: its size is looked at before a
    byte is read, and no more is read of one that grows."""
    number = opened(path, follow, within)
    try:
        size = os.fstat(number).st_size
        if size > most:
            raise Trouble(Status.UNREADABLE, f"{name_of(path)} has {size:,} bytes, and none that is read here has more than {most:,}")
        data = read_up_to(number, most + 1)
    except OSError as failure:
        raise unread(path, failure) from None
    finally:
        os.close(number)
    if len(data) > most:
        raise Trouble(Status.UNREADABLE, f"{name_of(path)} grew while it was read")
    return data


def read_up_to(number: int, most: int) -> bytes:
    """The bytes of an open file from its place on, so many at most."""
    pieces, left = [], most
    while left:
        piece = os.read(number, min(left, PIECE))
        if not piece:
            break
        pieces.append(piece)
        left -= len(piece)
    return b"".join(pieces)


def read_if_there(path: AnyPath, most: int, follow: bool = True) -> Optional[bytes]:
    """The same, or None where the system says that there is no such file. What can't be looked up is trouble."""
    return read(path, most, follow) if is_there(path) else None


def is_there(path: AnyPath) -> bool:
    """Whether there is something of this name, a link too; raises Trouble where the system doesn't say."""
    try:
        os.lstat(path)
    except FileNotFoundError:
        return False
    except OSError as failure:
        raise unread(path, failure) from None
    except ValueError:
        return True
    return True


def sync_folder(path: AnyPath) -> None:
    """Sees to it that the names in the folder are on the disk."""
    number = os.open(path, os.O_RDONLY | os.O_DIRECTORY | os.O_CLOEXEC)
    try:
        os.fsync(number)
    finally:
        os.close(number)


def write_all(number: int, data: bytes) -> None:
    """Writes all bytes to an open file."""
    view = memoryview(data)
    while view:
        view = view[os.write(number, view[:PIECE]) :]


def target_of(path: AnyPath) -> str:
    """The path to which a link of this name leads, over others too, or the path itself. A link that somebody else put into a folder
    where all may write isn't followed, as the system itself follows none there."""
    whole = os.fspath(path)
    for _ in range(MOST_LINKS):
        try:
            link = os.lstat(whole)
        except FileNotFoundError:
            return whole
        if not stat.S_ISLNK(link.st_mode):
            return whole
        folder = os.stat(os.path.dirname(whole) or ".")
        if folder.st_mode & stat.S_ISVTX and folder.st_mode & stat.S_IWOTH and link.st_uid not in (os.geteuid(), folder.st_uid):
            raise PermissionError(errno.EACCES, os.strerror(errno.EACCES))
        whole = os.path.join(os.path.dirname(whole), os.readlink(whole))
    raise OSError(errno.ELOOP, os.strerror(errno.ELOOP))


MADE: set[bytes] = set()
"""The names of the new files that this run began."""


def new_beside(path: str, mode: int) -> tuple[int, str]:
    """The number and the name of a new file in the folder of another one: that nobody has, and that ends with `.new`."""
    folder, name = os.path.split(path)
    flags = os.O_WRONLY | os.O_CREAT | os.O_EXCL | os.O_CLOEXEC | os.O_NOFOLLOW
    while True:
        new = os.path.join(folder, f".{name[:MOST_FRONT]}.{secrets.token_hex(8)}.new")
        try:
            number = os.open(new, flags, mode)
            MADE.add(os.fsencode(os.path.basename(new)))
            return number, new
        except FileExistsError:
            continue


def take_rights(number: int, old: Optional[os.stat_result], mode: int) -> None:
    """Gives the new file the mode, the owner and the group of the one in whose place it comes; where there is none, the mode as it was
    wanted. Where the system lets this user set no such group, nobody but the owner may read what only the group could."""
    if old is None:
        if mode != BY_UMASK:
            os.fchmod(number, mode)
        return
    kept, now = stat.S_IMODE(old.st_mode), os.fstat(number)
    for owner, group in ((-1, old.st_gid), (old.st_uid, -1)):
        if (owner in (-1, now.st_uid)) and (group in (-1, now.st_gid)):
            continue
        try:
            os.fchown(number, owner, group)
        except PermissionError:
            kept &= ~GROUP if owner == -1 else ~0
    os.fchmod(number, kept)


def renew(path: AnyPath, data: Union[bytes, Callable[[str], bytes]], mode: int = PRIVATE, follow: bool = True) -> None:
    """Makes the file anew: at each moment it is the old one or the new one, whole, after a loss of power too. It keeps its mode and its
    owner; one that wasn't there gets the mode, that of BY_UMASK as the umask says. A link is followed, and stays; without `follow` the
    file comes in its place. The new one is written beside it first, under a name of its own that begins with a dot and ends with `.new`,
    which a run that is killed leaves behind. What is written may be a function of the new file's identity."""
    try:
        target = target_of(path) if follow else os.fspath(path)
        old = old_file(target, path)
        number, new = new_beside(target, mode)
        try:
            try:
                take_rights(number, old, mode)
                write_all(number, data if isinstance(data, bytes) else data(identity_of_open(number)))
                os.fsync(number)
            finally:
                os.close(number)
            os.replace(new, target)
        except BaseException:
            remove_quietly(new)
            raise
        sync_folder(os.path.dirname(target) or ".")
    except OSError as failure:
        raise unwritten(path, failure) from None


@contextmanager
def renewing(path: AnyPath, mode: int = PRIVATE) -> Iterator[IO[bytes]]:
    """The same of a file that is written piece by piece: what was written is the file where the block ends, and nothing is where it fails."""
    try:
        target = target_of(path)
        old = old_file(target, path)
        number, new = new_beside(target, mode)
        with os.fdopen(number, "wb", PIECE) as file:
            try:
                take_rights(number, old, mode)
                yield file
                file.flush()
                os.fsync(number)
                os.replace(new, target)
            except BaseException:
                remove_quietly(new)
                raise
        sync_folder(os.path.dirname(target) or ".")
    except OSError as failure:
        raise unwritten(path, failure) from None


def old_file(target: str, path: AnyPath) -> Optional[os.stat_result]:
    """The file that is to be made anew, or None where there is none or a link; raises Trouble where something else has the name."""
    try:
        old = os.lstat(target)
    except FileNotFoundError:
        return None
    if stat.S_ISLNK(old.st_mode):
        return None
    if not stat.S_ISREG(old.st_mode):
        what = "a folder" if stat.S_ISDIR(old.st_mode) else "no regular file"
        raise Trouble(Status.DISK, f"{name_of(path)} is {what}, and isn't written over", "Name another file.")
    return old


def identity_of_open(number: int) -> str:
    """Which file an open one is: its number on its device, and the generation of that number, by which file systems tell a file from an
    earlier one of the same number (FS_IOC_GETVERSION of Linux). Where a file system tells none, that is 0, and behind it stands when the
    file was last changed there, in seconds since 1970, which no backup brings back."""
    generation = bytearray(8)
    try:
        fcntl.ioctl(number, GET_GENERATION, generation)
    except OSError:
        generation = bytearray(8)
    found, state = int.from_bytes(generation[:4], sys.byteorder), os.fstat(number)
    return f"{state.st_ino}.{found}" if found else f"{state.st_ino}.0.{int(state.st_ctime)}"


def identity_of(path: AnyPath) -> Optional[str]:
    """Which file has this name, as a copy of it hasn't; None where there is none."""
    if not is_there(path):
        return None
    number = opened(path)
    try:
        return identity_of_open(number)
    finally:
        os.close(number)


def remove_quietly(path: str) -> None:
    """Removes what was begun, as far as that goes: what stopped it is what is told."""
    try:
        os.unlink(path)
    except OSError:
        pass


def hand_out(path: AnyPath, data: bytes, goes_on: bool = False) -> None:
    """Makes a file that the user named: a new one as the umask says. A link of that name isn't followed, since whoever sent the folder may have put it there:
    the file comes in its place, and that is told. Raises Trouble where it is a file of a service, one that was read for this, but for one that it goes on from, or a key, or a
    link of the system's."""
    expect_no_own(path)
    expect_unread(path, goes_on)
    expect_no_stream(path)
    try:
        target = target_of(path)
    except OSError as failure:
        raise unwritten(path, failure) from None
    renew(path, data, BY_UMASK, follow=False)
    if target != os.fspath(path):
        complain(f"{name_of(path)} was a link to {name_of(target)}, which wasn't written over: the file stands in the link's place.")


def which(name: str) -> Optional[str]:
    """The path of a program: as it is named where a folder is named with it, else within those folders that PATH names from the root on; any other one may be that of
    files which somebody sent."""
    if os.path.dirname(name):
        return shutil.which(name)
    folders = [folder for folder in os.environ.get("PATH", os.defpath).split(os.pathsep) if os.path.isabs(folder)]
    return shutil.which(name, path=os.pathsep.join(folders)) if folders else None


def expect_no_own(path: AnyPath) -> None:
    """Raises Trouble where a name is that of a store, or of what stands beside a service's folder."""
    folder, name = os.path.split(os.path.abspath(path))
    stem = next((name.removesuffix(end) for end in OWN_ENDS if name.endswith(end)), "")
    if name == STORE or os.path.lexists(os.path.join(folder, STORE)) or (stem and os.path.lexists(os.path.join(folder, stem, STORE))):
        raise Trouble(Status.USAGE, f"{name_of(path)} is a file of a service, and isn't written over", "Name another one.")


def expect_unread(path: AnyPath, goes_on: bool) -> None:
    """Raises Trouble where a file that is there was read in this run, as kept lines, a proof or a document, and what is handed out doesn't go on from it; or is a key."""
    try:
        about = os.lstat(path)
    except OSError:
        return
    if not stat.S_ISREG(about.st_mode):
        return
    try:
        with open(path, "rb") as file:
            head = file.read(MOST_HEAD)
    except OSError:
        head = b""
    is_read = not goes_on and (about.st_dev, about.st_ino) in READ
    kind = "private" if is_private_key(head) else "public" if is_public_key(head) else ""
    if is_read or kind:
        what = "was read for this" if is_read else f"is a {kind} key"
        raise Trouble(Status.USAGE, f"{name_of(path)} {what}, and isn't written over", "Name another file.")


def expect_no_stream(path: AnyPath) -> None:
    """Raises Trouble where a link leads to a pipe, a terminal or a device, or is one of the system's: no file comes in the place of that."""
    if not os.path.islink(path):
        return
    folder = os.path.realpath(os.path.dirname(os.path.abspath(path)))
    try:
        mode = os.stat(path).st_mode
    except OSError:
        mode = stat.S_IFREG
    if is_of_system(folder) or not (stat.S_ISREG(mode) or stat.S_ISDIR(mode)):
        raise Trouble(Status.USAGE, f"{name_of(path)} is a link of the system's, or leads to no file, and isn't written over", "Name a file.")


def expect_beside(path: AnyPath, end: str) -> None:
    """Raises Trouble where what is to come beside a named file would be written over what somebody else may have put there."""
    beside_it = f"{os.fspath(path)}{end}"
    if not os.path.lexists(beside_it):
        return
    try:
        with open(path, "rb") as file:
            named: Optional[bytes] = file.read(MOST_NOTED)
    except OSError:
        named = None
    if not may_come_beside(named):
        told = f"{name_of(beside_it)} is there already, and {name_of(path)} is no line that was handed out; it is left as it is"
        raise Trouble(Status.REFUSED, told, "Name another file, or move that one away.")


def expect_begins(path: AnyPath, head: bytes, what: str) -> None:
    """Raises Trouble where a file stands under a name that nobody typed, and doesn't begin as what is to come in its place."""
    if not os.path.isfile(path):
        return
    try:
        with open(path, "rb") as file:
            found = file.read(len(head))
    except OSError as failure:
        raise unread(path, failure) from None
    if found != head:
        raise Trouble(Status.REFUSED, f"{name_of(path)} is there already, and is no {what}; it is left as it is", "Name another folder.")


def unchosen(path: str, data: bytes) -> str:
    """The path of a file that is handed out under a name which nobody chose. Raises Trouble where another file has it: somebody may hold that one."""
    if not is_there(path):
        return path
    before = set(READ)
    number = opened(path)
    try:
        is_same = read_up_to(number, len(data) + 1) == data
    except OSError as failure:
        raise unread(path, failure) from None
    finally:
        os.close(number)
    if is_same:
        READ.intersection_update(before)  # (the same is written again)
        return path
    told = f"{name_of(path)} is there already, and is another one; it is left as it is"
    raise Trouble(Status.REFUSED, told, f"Name a file by --out; --out {typed(path)} writes over it.")


def renew_if_other(path: AnyPath, data: bytes, mode: Optional[int] = None) -> None:
    """Makes a file that is to be carried anew, but where it has these bytes already, it is left as it is. No link is followed. One that
    wasn't there gets the mode, or where none is wanted may be read by those who may read its folder."""
    try:
        number = os.open(path, os.O_RDONLY | os.O_NONBLOCK | os.O_CLOEXEC | os.O_NOFOLLOW)
    except OSError:
        return renew(path, data, mode_below(path) if mode is None else mode, follow=False)
    try:
        is_same = os.fstat(number).st_size == len(data) and read_up_to(number, len(data) + 1) == data
    finally:
        os.close(number)
    if not is_same:
        renew(path, data, mode_below(path) if mode is None else mode, follow=False)


def mode_below(path: AnyPath) -> int:
    """The mode of a new file that may be read by those who may read its folder."""
    try:
        return PRIVATE | os.stat(os.path.dirname(os.fspath(path)) or ".").st_mode & READABLE
    except OSError as failure:
        raise unwritten(path, failure) from None


def add(path: AnyPath, text: str) -> None:
    """Adds a line to a file that grows, as a log; it is on the disk before this returns."""
    append(path, (text + "\n").encode("utf-8", "surrogateescape"))


def append(path: AnyPath, data: bytes) -> None:
    """Adds bytes to a file that grows; they are on the disk before this returns. Where it is stopped, a part of them may stand there."""
    flags = os.O_WRONLY | os.O_CREAT | os.O_APPEND | os.O_CLOEXEC | os.O_NOFOLLOW
    try:
        number = os.open(path, flags, PRIVATE)
        try:
            write_all(number, data)
            os.fsync(number)
        finally:
            os.close(number)
    except OSError as failure:
        raise unwritten(path, failure) from None


def extend(path: AnyPath, data: bytes, at: int, is_lasting: bool = True) -> None:
    """Puts bytes behind the first ones of a file that grows, and nothing stands behind them then; they are on the disk before this returns, or if they needn't
    last, sometime. Where it is stopped, a part of them may stand there. A link is followed, and stays."""
    try:
        target = target_of(path)
        is_new = not os.path.lexists(target)
        number = os.open(target, os.O_WRONLY | os.O_CREAT | os.O_CLOEXEC | os.O_NOFOLLOW, PRIVATE)
        try:
            os.ftruncate(number, at)
            os.lseek(number, at, os.SEEK_SET)
            write_all(number, data)
            if is_lasting:
                os.fsync(number)
        finally:
            os.close(number)
        if is_new:
            sync_folder(os.path.dirname(target) or ".")
    except OSError as failure:
        raise unwritten(path, failure) from None


def opened_to_extend(path: AnyPath) -> int:
    """The number of a file that grows, which is opened to be extended."""
    try:
        return os.open(target_of(path), os.O_WRONLY | os.O_CLOEXEC | os.O_NOFOLLOW)
    except OSError as failure:
        raise unwritten(path, failure) from None


def extend_open(number: int, path: AnyPath, data: bytes, at: int, is_lasting: bool = True) -> None:
    """The same as `extend` of a file that was opened so."""
    try:
        if os.fstat(number).st_size > at:
            os.ftruncate(number, at)
        os.lseek(number, at, os.SEEK_SET)
        write_all(number, data)
        if is_lasting:
            os.fsync(number)
    except OSError as failure:
        raise unwritten(path, failure) from None


def remove(path: AnyPath) -> None:
    """Removes a file, if it is there."""
    try:
        os.unlink(path)
    except FileNotFoundError:
        return
    except OSError as failure:
        raise unwritten(path, failure) from None


def make_folder(path: AnyPath) -> None:
    """Makes the folder, and those above it, where they aren't there, for this user alone; one that is there is left as it is."""
    whole = Path(path)
    if whole.is_dir():
        return
    try:
        for folder in [*reversed(whole.parents), whole]:
            if not folder.is_dir():
                folder.mkdir(PRIVATE_FOLDER, exist_ok=True)
                sync_folder(folder.parent)
    except OSError as failure:
        raise unwritten(path, failure) from None


def home() -> Path:
    """The user's own folder; raises Trouble where the system knows of none, as of a user of a container."""
    try:
        found = Path.home()
    except RuntimeError:
        raise Trouble(Status.DISK, "the system tells no folder of this user's own", "Name one by the variable HOME, or the files themselves.") from None
    if may_be_sent(os.fspath(found)):
        raise Trouble(Status.DISK, f"HOME names {name_of(found)}, from this folder on, which may be that of whoever sent it", "Name your own by its whole path.")
    return found


def named_by(variable: str) -> Optional[Path]:
    """The file of the user's own that a variable names; None where it names none. Raises Trouble where it names one from the folder on that is stood in: that may be
    somebody else's, which lies beside what he sent."""
    named = os.environ.get(variable)
    if named and not os.path.isabs(named):
        advice = f"Name it from the root on, as {variable}=$PWD/FILE where it is made, or by the option."
        raise Trouble(Status.USAGE, f"{variable} names {name_of(named)} from this folder on: in another folder that is another file", advice)
    return Path(named) if named else None


def expect_folder(path: AnyPath, what: str) -> None:
    """Raises Trouble where there is no such folder, before anything is made there."""
    if not os.path.isdir(path):
        raise Trouble(Status.DISK, f"{name_of(path)} is no folder", f"Name {what}.")


def folder_named(word: AnyPath) -> Path:
    """The path of a service's folder, however it is typed. `.`, `..`, `x/.`, a slash at the end and links lead to the folder's own name,
    beside which its files stand: so each folder has one lock and one file of lines. Raises Trouble of the root, beside which nothing can
    stand."""
    try:
        typed, true = Path(os.path.normpath(word)), Path(os.path.realpath(word))
        is_plain = typed.name not in ("", "..") and ".." not in Path(word).parts and not typed.is_symlink()
    except (OSError, ValueError):
        raise Trouble(Status.USAGE, f"{name_of(word)} is no name of a folder") from None
    if not true.name:
        raise Trouble(Status.USAGE, f"{name_of(word)} is the root, and a service's files stand beside its folder", "Name a folder below it.")
    return typed if is_plain else true
