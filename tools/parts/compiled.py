"""What cc makes of the tools' C sources: kept in the user's cache, and made again only of another source."""
import hashlib
import os
import shutil
import subprocess
import tempfile
from pathlib import Path

# How a program for Linux begins.
ELF = b"\x7fELF"


def cache():
    return Path(os.environ.get("XDG_CACHE_HOME") or Path.home() / ".cache") / "squeues"


def is_program(path):
    """Whether this user keeps a program there. What was cut, or can't be run, is none."""
    if not path.is_file() or path.stat().st_uid != os.geteuid() or not os.access(path, os.X_OK):
        return False
    with open(path, "rb") as made:
        return made.read(len(ELF)) == ELF


def compiled(source, *words):
    """The file that cc makes of a source with these words. Raises OSError without it and cc or a place to keep it, RuntimeError without a home."""
    made = hashlib.sha256(" ".join(words).encode() + source.read_bytes()).hexdigest()[:16]
    kept = cache() / f"{source.stem}-{made}"
    if is_program(kept):
        return kept
    if not shutil.which("cc"):
        raise OSError("it takes a C compiler (Debian: gcc libc6-dev)")
    kept.parent.mkdir(mode=0o700, parents=True, exist_ok=True)
    with tempfile.TemporaryDirectory(dir=kept.parent) as folder:
        made = Path(folder) / "made"
        done = subprocess.run(["cc", *words, "-o", made, source], capture_output=True, text=True)
        if done.returncode:
            raise OSError(f"cc can't compile {source}: {done.stderr.strip()}")
        made.rename(kept)
    return kept
