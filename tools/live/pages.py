"""The pages of a folder in one piece, as `sqlive --pages` reads them: for each page its path, its media type, its tag and what it says.

Each part stands behind its length in four bytes, the highest first. The server opens no file later, so no path can leave the folder.
"""
import hashlib
import mimetypes
import os
import stat
import struct
from pathlib import Path

MOST_PAGES, MOST_PACK, MOST_PATH = 4096, 64 << 20, 1024
INDEX = "index.html"
# The types of the standard library alone, whatever the machine's own list says.
TYPES = mimetypes.MimeTypes(filenames=())
for kind, suffix in (("text/markdown", ".md"), ("text/javascript", ".js"), ("font/woff2", ".woff2"), ("font/woff", ".woff"), ("image/webp", ".webp")):
    TYPES.add_type(kind, suffix)
ZIPPED = {"gzip": "application/gzip", "bzip2": "application/x-bzip2", "xz": "application/x-xz", "br": "application/octet-stream", "compress": "application/octet-stream"}


class Refused(Exception):
    """Why a folder can't be served."""


def kind_of(name):
    """The media type of a file, by its name. Text is taken for UTF-8."""
    kind, zipped = TYPES.guess_type(name)
    if zipped:
        return ZIPPED[zipped]
    kind = kind or "application/octet-stream"
    return f"{kind}; charset=utf-8" if kind.startswith("text/") or kind == "application/json" else kind


def part(value):
    return struct.pack("!I", len(value)) + value


def page(path, kind, body):
    """One page. Its tag is made of what it says, so it stays the same from one start to the next."""
    tag = f'"{hashlib.sha256(body).hexdigest()[:16]}"'
    return part(path) + part(kind.encode()) + part(tag.encode()) + part(body)


def body_of(file, top):
    """What a file says."""
    if file.is_symlink() and not file.resolve().is_relative_to(top):
        raise Refused(f"{file}: the link leads out of the folder")
    try:
        if not stat.S_ISREG(file.stat().st_mode):
            raise Refused(f"{file} is no plain file")
        return file.read_bytes()
    except OSError as error:
        raise Refused(f"{file}: {error.strerror}") from error


def path_of(file, top):
    """The path of a file's page, in UTF-8."""
    try:
        path = b"/" + str(file.relative_to(top)).encode()
    except UnicodeEncodeError as error:
        raise Refused(f"{str(file)!r}: the name isn't UTF-8") from error
    if len(path) > MOST_PATH:
        raise Refused(f"{file}: the path has over {MOST_PATH} bytes")
    return path


def files_of(top):
    """The files of a folder and those below, in order; and those that are left out, since their name begins with a dot."""
    found, hidden = [], []

    def unread(error):
        raise Refused(f"{error.filename}: {error.strerror}")

    for at, folders, names in os.walk(top, onerror=unread):
        hidden += [os.path.join(at, name) for name in (*folders, *names) if name.startswith(".")]
        folders[:] = sorted(name for name in folders if not name.startswith("."))
        for name in folders:
            if os.path.islink(os.path.join(at, name)):
                raise Refused(f"{os.path.join(at, name)}: a link to a folder")
        found += [Path(at, name) for name in sorted(names) if not name.startswith(".")]
    return found, hidden


def pack_of(folder):
    """All pages of a folder in one piece, of how many files, and which files are left out. An index page also stands for its folder."""
    top = Path(folder).resolve()
    if not top.is_dir():
        raise Refused(f"{folder} is no folder")
    files, hidden = files_of(top)
    pages, size = [], 0
    for file in files:
        body, path, kind = body_of(file, top), path_of(file, top), kind_of(file.name)
        for known_as in (path, path[:-len(INDEX)]) if file.name == INDEX else (path,):
            pages.append(page(known_as, kind, body))
            size += len(pages[-1])
        if size > MOST_PACK or len(pages) > MOST_PAGES:
            raise Refused(f"{folder} has over {MOST_PAGES} pages or {MOST_PACK >> 20} MiB")
    if not pages:
        raise Refused(f"{folder} has no file")
    return b"".join(pages), len(files), hidden
