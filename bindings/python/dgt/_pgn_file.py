"""A file of games that grows while games are played."""

import contextlib
import errno
import os
import stat
from collections.abc import Iterator
from dataclasses import dataclass

from ._handle import Uncopied
from ._locks import lock
from .values import checked

_TRIES = 200
"""The attempts to lock a folder that another program has locked. In these two seconds the port
buffers the board's bytes."""
_MODE = 0o666
"""The mode of a new file, before the umask."""
_NEW = os.O_WRONLY | os.O_CREAT | os.O_EXCL | os.O_CLOEXEC


@dataclass(slots=True, eq=False)
class KeptGame:
    """A game: its present text, and its text in the file, both without line feeds at the end."""

    text: bytes = b""
    written: bytes = b""
    is_listed: bool = False  # it is in the list of games for the file

    def put_into(self, content: bytes, text: bytes) -> bytes:
        """Replaces the game's earlier text in the content of a file, or appends the text. Returns
        the new content."""
        at = content.rfind(self.written) if self.written else -1
        if at >= 0:
            return content[:at] + text + content[at + len(self.written):]
        feeds = len(content) - len(content.rstrip(b"\n"))
        return content + b"\n" * (max(0, 2 - feeds) if content else 0) + text + b"\n\n"


class PgnFile(Uncopied):
    """Appends games to a file, and replaces each game's text as it grows. The rest of the file
    stays, also if another program writes to it. A file that was deleted gets all games again.

    The file is complete at any time: a new one replaces it once it is on the disk. One thread may
    call `save` while others call `begin` and `put`."""

    def __init__(self, name: str) -> None:
        """`OSError` if the folder doesn't exist, no file can be made there, or the name is that of
        something else than a file."""
        if "\0" in os.fspath(name):
            raise OSError(errno.ENOENT, "the name contains a zero byte", name)
        self.name = name
        self._games: list[KeptGame] = []  # those that have a text
        self._last = KeptGame()
        with self._locked() as folder:
            self._read()
            with self._new(folder) as (_, path):
                os.unlink(path)

    def begin(self) -> KeptGame:
        """Begins and returns a game. From now on `put` sets the text of this one."""
        self._last = KeptGame()
        return self._last

    def put(self, text: str, game: KeptGame | None = None) -> None:
        """Sets the text of a game, by default the last one, for `save` to write."""
        game = checked(game or self._last, KeptGame)
        game.text = str.rstrip(text, "\n").encode(errors="replace")
        if not game.is_listed:
            game.is_listed = True
            self._games.append(game)

    @property
    def unsaved(self) -> str:
        """The games that have changed since `save`."""
        texts = [each.text for each in list(self._games) if each.text != each.written]
        return b"\n\n".join(texts).decode()

    def save(self) -> None:
        """Writes the games that have changed. `OSError` if that fails: then the file is unchanged,
        and the next call tries again."""
        if not any(each.text != each.written for each in list(self._games)):
            return
        with self._locked() as folder:
            content = self._read()
            games = [(each, text) for each in list(self._games) if (text := each.text)
                     and (text != each.written or content is None)]
            content = content or b""
            for each, text in games:
                content = each.put_into(content, text)
            self._replace(folder, content)
            for each, text in games:
                each.written = text

    @property
    def _path(self) -> str:
        return os.path.realpath(self.name)

    @contextlib.contextmanager
    def _locked(self) -> Iterator[str]:
        """Locks the file's folder while the file is read and replaced, and yields the folder's
        name. At the end the folder is synced to the disk."""
        folder = os.path.dirname(self._path)
        try:
            number = os.open(folder, os.O_RDONLY | os.O_DIRECTORY)
        except FileNotFoundError as fault:
            raise OSError(fault.errno, "the folder doesn't exist") from None
        try:
            lock(number, _TRIES)
            yield folder
            with contextlib.suppress(OSError):  # not every file system supports it
                os.fsync(number)
        finally:
            os.close(number)

    def _read(self) -> bytes | None:
        """Returns the file's content, or `None` if there is no file."""
        with contextlib.suppress(FileNotFoundError):
            number = os.open(self._path, os.O_RDWR | os.O_NONBLOCK | os.O_NOCTTY)
            with open(number, "rb") as opened:
                if not stat.S_ISREG(os.fstat(number).st_mode):
                    raise OSError(errno.EINVAL, "not a file")
                return opened.read()
        return None

    @contextlib.contextmanager
    def _new(self, folder: str) -> Iterator[tuple[int, str]]:
        """Makes a file in the same folder, and yields its descriptor and its path. After an
        exception the file is removed."""
        name = os.path.basename(self._path)[:200]
        path = os.path.join(folder, f".{name}.{os.getpid()}.new")
        with contextlib.suppress(FileNotFoundError):  # of a killed process
            os.unlink(path)
        number = os.open(path, _NEW, _MODE)
        try:
            yield number, path
        except BaseException:
            with contextlib.suppress(OSError):
                os.unlink(path)
            raise
        finally:
            os.close(number)

    def _replace(self, folder: str, content: bytes) -> None:
        """Replaces the file with a new one with the same mode, and the same owner if permitted."""
        with self._new(folder) as (number, path):
            with open(number, "wb", closefd=False) as opened:
                opened.write(content)
            with contextlib.suppress(FileNotFoundError):
                old, new = os.stat(self._path), os.fstat(number)
                # A systemd unit may forbid the call.
                if (old.st_uid, old.st_gid) != (new.st_uid, new.st_gid):
                    with contextlib.suppress(PermissionError):
                        os.fchown(number, old.st_uid, old.st_gid)
                os.fchmod(number, stat.S_IMODE(old.st_mode))
            os.fsync(number)
            os.replace(path, self._path)
