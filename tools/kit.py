"""The toolchain's own `rt` as a module, for the tools that go over what it proved and built: where it keeps what, and a check of a crate's copy."""
import importlib.machinery
import importlib.util
import os
import pathlib
import shutil
import subprocess
import sys

TOP = pathlib.Path(__file__).resolve().parent.parent
# the file that the gate makes before it runs `rt ci` where no library stands: what that left is of the sources that stand here if none of them is newer
BEGAN = "PASOLETU_CI_BEGAN"


def rt():
    """The module; its checks may then be asked for, from the main thread first."""
    if "rt" not in sys.modules:
        if not shutil.which("rt"):
            sys.exit("%s: there is no Rattle toolchain (rt)" % os.path.basename(sys.argv[0]))
        page = subprocess.run(["rt", "doc"], stdout=subprocess.PIPE, text=True, check=True).stdout.strip()
        loader = importlib.machinery.SourceFileLoader("rt", str(pathlib.Path(page).parent / "bin" / "rt"))
        module = importlib.util.module_from_spec(importlib.util.spec_from_loader("rt", loader))
        sys.modules["rt"] = module
        loader.exec_module(module)
        module.rtlib.guarded()
        module.share_work(True)
    return sys.modules["rt"]


def crates(top=TOP):
    """Each crate of a repository by its name, those that it needs before it."""
    found = rt().rtlib.crates_below(str(top))
    for crate in found:
        crate.out = sys.stderr
    return {crate.name: crate for crate in sorted(found, key=lambda crate: len(crate.below()))}


def changed(crate):
    """When the files of a crate and its line last changed."""
    files = [*rt().rtlib.files_of(crate.folder), TOP / "crates.txt"]
    return max(max(seen.st_mtime_ns, seen.st_ctime_ns) for seen in map(os.stat, files))


def left_by_ci(crate, *files):
    """Whether the libraries below a crate, and these files of its out/, are what the gate's `rt ci` has just made of the sources that stand here."""
    began = os.environ.get(BEGAN)
    if not began or not os.path.exists(began):
        return False
    since, below = os.stat(began).st_mtime_ns, crate.below()
    formats = [f"{it.rlib}/format" for it in below]
    if any(os.path.exists(f"{os.path.dirname(it.rlib)}/stamp") for it in below) or any(changed(it) >= since for it in [crate, *below]):
        return False
    return all(os.path.exists(file) for file in formats) and all(os.path.exists(file) and os.stat(file).st_ctime_ns >= since for file in files)


def build_below(crate, jobs=1):
    """Builds the libraries below a crate, where they don't stand: over what was proved before. The status."""
    held = rt().rtlib.lock([*crate.below(), crate])
    try:
        return next((status for status in (it.build_rlib(["--jobs", str(jobs)], anew=False) for it in crate.below()) if status), 0)
    finally:
        for it in held:
            os.close(it)


def archive_over_ci(crate):
    """Makes a static library over what the gate's `rt ci` has made of the libraries below it; the status."""
    lib = rt().rtlib
    words = crate.words(["--jobs", str(rt().processors())], keeps=False)
    words += ["--toolchain", f"{lib.KIT}/toolchain", "--backend", "llvm", "-o", f"out/lib{crate.name}.a"]
    os.makedirs(f"{crate.folder}/out", exist_ok=True)
    return subprocess.run([*lib.guarded(), lib.RATTLE, "build", *words], cwd=crate.folder, stdin=subprocess.DEVNULL).returncode


def main(words):
    """tools/built asks: `program` or `archive`, whether it stands as `rt ci` has just left it; the archive is made of that."""
    if words == ["program"]:
        crate = crates()["slope"]
        return 0 if left_by_ci(crate, f"{crate.folder}/out/slope") else 1
    if words == ["archive"]:
        crate = crates()["host_c"]
        return archive_over_ci(crate) if left_by_ci(crate) else 1
    print(__doc__, file=sys.stderr)
    return 2


if __name__ == "__main__":
    sys.exit(main(sys.argv[1:]))
