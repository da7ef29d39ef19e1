"""Archives with the same bytes whenever they are packed: sorted, of one moment, owned by nobody in particular."""
import gzip
import io
import os
import pathlib
import subprocess
import tarfile

from installation import put
from progress import Failed


def tar_entry(path, file, seconds):
    """The entry of a file or a link."""
    entry = tarfile.TarInfo(path)
    entry.mtime, entry.size = seconds, len(file.data)
    entry.mode = 0o755 if file.may_run else 0o644
    if file.link:
        entry.type, entry.linkname, entry.mode = tarfile.SYMTYPE, file.link, 0o777
    return entry


def tar_gz(files, seconds):
    """The bytes of a .tar.gz with these files by their paths, and the folders on the way."""
    room = io.BytesIO()
    folders = {str(it) for path in files for it in pathlib.PurePath(path).parents} - {"."}
    with tarfile.open(fileobj=room, mode="w", format=tarfile.GNU_FORMAT) as archive:
        for path in sorted(folders | set(files)):
            if path in files:
                archive.addfile(tar_entry(path, files[path], seconds), io.BytesIO(files[path].data))
            else:
                entry = tarfile.TarInfo(path)
                entry.type, entry.mode, entry.mtime = tarfile.DIRTYPE, 0o755, seconds
                archive.addfile(entry)
    return gzip.compress(room.getvalue(), 9, mtime=0)


def write_tree(root, files):
    """Writes these files below a folder."""
    for path, file in files.items():
        put(root, path, file)
    for folder in [root, *(it for it in root.rglob("*") if it.is_dir() and not it.is_symlink())]:
        folder.chmod(0o755)


def debian_package(files, control, made, room, seconds):
    """Makes a Debian package of these files, below /, with the text of its control file."""
    root = room / "package"
    write_tree(root, files)
    (root / "DEBIAN").mkdir()
    (root / "DEBIAN" / "control").write_text(control)
    if any("/lib/lib" in f"/{it}" for it in files):
        (root / "DEBIAN" / "triggers").write_text("activate-noawait ldconfig\n")
    for it in [root, *root.rglob("*")]:
        os.utime(it, (seconds, seconds), follow_symlinks=False)
    words = ["dpkg-deb", "--root-owner-group", "-Zgzip", "--build", str(root), str(made)]
    done = subprocess.run(words, capture_output=True, text=True, env={**os.environ, "SOURCE_DATE_EPOCH": str(seconds)})
    if done.returncode:
        raise Failed(f"dpkg-deb: {done.stderr.strip()}")
