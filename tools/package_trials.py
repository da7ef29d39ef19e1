"""Tries the packages of a release, each where nothing else is: it is unpacked or installed, used, and taken away.

The .tar.gz is unpacked by hand, its sums are tried, its program is run and its archive linked; then the program runs where there is
nothing but the unpacked folder. The .deb is installed by dpkg into a folder of its own, used there, and removed. The wheel and
the source package of Python are installed by pip into a virtual environment each, without a network.
"""
import os
import pathlib
import subprocess
import sys
import tarfile
import tempfile

from build_record import LIBRARIES
from installation import LIST, glibc_needed
from installation_trials import lacking, links_statically, must_be, program_runs, run, sums_hold
from programs import TOP, skip
from progress import Failed

EXAMPLE = TOP / "examples" / "overload.csv"
CHART = TOP / "examples" / "expected" / "overload.chart"
PYTHON_PLAN = TOP / "faces" / "python" / "examples" / "plan.py"
PLAN = TOP / "faces" / "c" / "plan.out"


def runs_alone(root, program):
    """A statically linked program, in a folder as the root of all files."""
    if lacking(["chroot"]) or subprocess.run(["chroot", "/", "true"], capture_output=True).returncode:
        return skip("packages: a program alone in its folder", "right to change the root")
    if glibc_needed((root / program).read_bytes()):
        return skip("packages: a program alone in its folder", "statically linked program")
    how = {"input": EXAMPLE.read_bytes(), "capture_output": True}
    done = subprocess.run(["chroot", root, f"/{program}", "run", "-q", "-f", "chart"], **how)
    must_be((done.returncode, done.stdout), (0, CHART.read_bytes()), "the program alone")


def try_tarball(path):
    """The .tar.gz: unpacked by hand, and used."""
    with tempfile.TemporaryDirectory(prefix="unpacked-") as folder:
        run(["tar", "-xzf", path, "-C", folder])
        root = pathlib.Path(folder, path.name.removesuffix(".tar.gz"))
        for part in (sums_hold, program_runs, *([links_statically] if (root / "lib").is_dir() and not lacking(["cc"]) else [])):
            part(root)
        runs_alone(root, "bin/pfair")


def try_deb(path):
    """The .deb: installed by dpkg into a folder of its own, used there, and removed."""
    if lacking(["dpkg"]) or os.geteuid():
        return skip("packages: the .deb", lacking(["dpkg"]) or "right to install")
    with tempfile.TemporaryDirectory(prefix="installed-") as folder:
        root = pathlib.Path(folder)
        for it in ("updates", "info", "triggers"):
            (root / "var" / "lib" / "dpkg" / it).mkdir(parents=True)
        (root / "var" / "lib" / "dpkg" / "status").touch()
        dpkg = ["dpkg", f"--root={folder}", "--force-depends", "--force-unsafe-io", "--log=/dev/null"]
        must_succeed([*dpkg, "--install", path])
        run(["sha256sum", "-c", "--quiet", "--strict", LIST], cwd=root / "usr")
        chart = run([root / "usr" / "bin" / "pfair", "run", "-q", "-f", "chart", EXAMPLE])
        must_be(chart, CHART.read_text(), "the installed program")
        runs_alone(root, "usr/bin/pfair")
        must_succeed([*dpkg, "--purge", "pfair"])
        left = [str(it) for it in root.rglob("*") if it.is_file() and "var" not in it.relative_to(root).parts]
        must_be(left, [], "what is left when the package is removed")


def must_succeed(words):
    """Words that must end well, whatever they tell."""
    done = subprocess.run([str(it) for it in words], stdin=subprocess.DEVNULL, capture_output=True, text=True)
    if done.returncode:
        raise Failed(f"{words}: {done.stdout}{done.stderr}")


def try_python(path):
    """A wheel or a source package: installed by pip into an environment of its own, and used."""
    pip = [sys.executable, "-m", "pip"]
    if subprocess.run([*pip, "--version"], capture_output=True).returncode:
        return skip(f"packages: {path.name}", "module pip of Python")
    with tempfile.TemporaryDirectory(prefix="environment-") as folder:
        run([sys.executable, "-m", "venv", "--without-pip", folder])
        python = pathlib.Path(folder, "bin", "python")
        env = {name: it for name, it in os.environ.items() if not name.startswith(("PFAIR", "PYTHON"))}
        given = env | ({} if path.suffix == ".whl" else {"PFAIR_LIBRARY": str(LIBRARIES[2])})
        flags = ["-q", "--disable-pip-version-check", "--no-cache-dir", "--no-index"]
        run([*pip, "--python", python, "install", *flags, path], cwd=folder, env=given)
        must_be(run([python, PYTHON_PLAN], cwd=folder, env=env), PLAN.read_text(), "the plan in Python")


def try_package(path):
    """Tries a package by what it is."""
    if path.suffix == ".deb":
        return try_deb(path)
    with_programs = path.suffix != ".whl" and tarfile.open(path).getnames()[1].endswith("/bin")
    return try_tarball(path) if with_programs else try_python(path)
