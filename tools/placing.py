"""How a script puts files below a folder, and takes away again what it has put there and nothing else."""

import contextlib
import errno
import hashlib
import os
import re
import secrets
import stat
import typing
import urllib.parse

# The first line of a list of what was installed.
HEAD = "What ./install of Convoy has put here, for its --uninstall."
# A file or a folder below the prefix, and a folder above it.
BELOW, ABOVE = r"(?!\.)[\w.+-]+(?:/(?!\.)[\w.+-]+)*", r"\.|\.\.(?:/\.\.)*"
IS_BELOW = re.compile(BELOW, re.ASCII)
LINE = re.compile(rf"prefix (?P<prefix>\S+)|file (?P<sum>[0-9a-f]{{64}}) (?P<file>{BELOW})|folder (?P<folder>{BELOW}|{ABOVE})", re.ASCII)
# More bytes of a list are not read.
LONGEST_LIST = 1 << 20
# What the system says where there is nothing to be opened, or a link.
NOTHING = (errno.ENOENT, errno.ENOTDIR, errno.ELOOP)
# What a file system says on which no file can have a second name.
NO_LINKS = (errno.EPERM, errno.ENOTSUP, errno.EOPNOTSUPP, errno.ENOSYS, errno.EMLINK)
# Why a folder stays that was made: there is something in it, or it is another thing by now.
STAYS = (errno.ENOTEMPTY, errno.EEXIST, errno.ENOTDIR, errno.ENOENT, errno.EBUSY)


class Fault(Exception):
    """Why nothing, or not all, could be done, and the exit status."""

    def __init__(self, told, status=1):
        super().__init__(told)
        self.status = status


def is_text(path):
    """Whether a path is UTF-8."""
    return os.fsencode(path).decode(errors="ignore").encode() == os.fsencode(path)


def shown(path):
    """A path as it is told: an escape in place of what could steer a terminal, and of bytes that are no UTF-8."""
    text = os.fsencode(path).decode("utf-8", "backslashreplace")
    return "".join(sign if sign.isprintable() else sign.encode("unicode_escape").decode() for sign in text)


def why(fault):
    """What the system says, with the file where it names one."""
    told = fault.strerror or "the system gives no reason"
    return f"{shown(fault.filename)}: {told}" if isinstance(fault.filename, (str, bytes)) else told


def sum_of(data):
    return hashlib.sha256(data).hexdigest()


@contextlib.contextmanager
def opened(place):
    """A plain file to be read, or nothing where there is none: a link is none, wherever it leads."""
    try:
        file = os.open(place, os.O_RDONLY | os.O_NOFOLLOW | os.O_NONBLOCK | os.O_CLOEXEC) if is_plain(os.lstat(place)) else None
    except OSError as fault:
        if fault.errno not in NOTHING:
            raise
        file = None
    if file is None:
        yield None
        return
    with open(file, "rb") as data:
        yield data if is_plain(os.fstat(file)) else None


def is_plain(told):
    return stat.S_ISREG(told.st_mode)


def sum_at(place):
    """The sum of a plain file; none where there is no such file."""
    with opened(place) as file:
        if file is None:
            return None
        total = hashlib.sha256()
        while piece := file.read(1 << 20):
            total.update(piece)
        return total.hexdigest()


def text_at(place):
    """The text of a plain file, if it is no longer than a list may be; none where there is no such file."""
    with opened(place) as file:
        return file and file.read(LONGEST_LIST).decode(errors="replace")


class Listed(typing.NamedTuple):
    """What was installed: the sums that each file may have, by paths from the prefix, and the folders that were made,
    by such paths, too."""

    files: dict
    folders: list

    def has(self, place, path):
        """Whether a place has the file with this path as it was installed."""
        sums = self.files.get(path)
        return bool(sums) and sum_at(place) in sums

    def text(self, prefix):
        """The list as it is written. The prefix is written so that no byte of it ends a word or a line."""
        lines = [HEAD, f"prefix {urllib.parse.quote_from_bytes(os.fsencode(prefix))}"]
        lines += [f"folder {path}" for path in self.folders]
        lines += [f"file {each} {path}" for path, sums in self.files.items() for each in sorted(sums)]
        return "".join(f"{line}\n" for line in lines)


def folder_at(prefix, path):
    """The folder with a path from the prefix, which may lead above it."""
    return os.path.normpath(os.path.join(prefix, path))


def parse(text, prefix):
    """What a list says; nothing where it is none. Folders above the prefix are those of the prefix for which it was
    written: where what was installed lies elsewhere by now, they are somebody's."""
    head, *lines = text.removesuffix("\n").split("\n")
    words = [LINE.fullmatch(line) for line in lines]
    if head != HEAD or not all(words):
        return parse_older([head, *lines], prefix)
    files = {}
    for found in words:
        if found["file"]:
            files.setdefault(found["file"], set()).add(found["sum"])
    here = urllib.parse.quote_from_bytes(os.fsencode(prefix))
    is_here = any(found["prefix"] == here for found in words)
    return Listed(files, [found["folder"] for found in words if found["folder"] and (is_here or found["folder"][0] != ".")])


def parse_older(lines, prefix):
    """What a list of the form says that an earlier `./install` wrote, which has no sums: paths of files, and of folders
    with a slash behind them; nothing where it is none."""
    front = os.path.join(prefix, "")
    above = [line for line in lines if line.endswith("/") and front.startswith(line) and line not in (front, "/")]
    below = [line for line in lines if line not in above]
    if not all(line == front or line.startswith(front) and IS_BELOW.fullmatch(line.removeprefix(front).removesuffix("/")) for line in below):
        return None
    folders = [os.path.relpath(line, prefix) for line in [*above, *below] if line.endswith("/")]
    return Listed({line.removeprefix(front): set() for line in below if not line.endswith("/")}, folders)


def write(place, data, mode, may_replace):
    """Writes a file whole or not at all, by a new name that nobody can know before. What has its own name is replaced, even
    while it runs, but only if it may be."""
    new = os.path.join(os.path.dirname(place), f".convoy-{secrets.token_hex(16)}")
    try:
        file = os.open(new, os.O_WRONLY | os.O_CREAT | os.O_EXCL | os.O_NOFOLLOW | os.O_CLOEXEC, 0o600)
        try:
            with open(file, "wb") as to:
                to.write(data)
                to.flush()
                os.fchmod(file, mode)
                os.fsync(file)
            if may_replace():
                os.replace(new, place)
            else:
                name(new, place)
        finally:
            with contextlib.suppress(FileNotFoundError):
                os.unlink(new)
    except OSError as fault:
        fault.filename = place
        raise


def name(new, place):
    """Gives a file its name, if nothing else has it."""
    try:
        os.link(new, place, follow_symlinks=False)
    except OSError as fault:
        if fault.errno not in NO_LINKS:
            raise
        if os.path.lexists(place):
            raise FileExistsError(errno.EEXIST, os.strerror(errno.EEXIST), place) from fault
        os.rename(new, place)


def remove_folder(place):
    """Removes a folder if it is empty, and answers whether it did."""
    try:
        os.rmdir(place)
    except OSError as fault:
        if fault.errno not in STAYS:
            raise
        return False
    return True
