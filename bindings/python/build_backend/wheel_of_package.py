"""Makes the wheel and the source archive of this package with Python's own library alone, so that `pip install .` works where there
is no network and neither setuptools nor wheel is installed. The hooks are those of PEP 517; the metadata is pyproject.toml's."""
import base64
import hashlib
import pathlib
import re
import tarfile
import zipfile

try:
    import tomllib
except ImportError:
    import tomli as tomllib

HERE = pathlib.Path(__file__).resolve().parent.parent
PACKAGE = HERE / "pasoletu"
TAG = "py3-none-any"
WHEEL = "Wheel-Version: 1.0\nGenerator: pasoletu\nRoot-Is-Purelib: true\nTag: %s\n" % TAG


def _project():
    project = tomllib.loads((HERE / "pyproject.toml").read_text())["project"]
    project["version"] = re.search(r'^VERSION = "(.+)"$', (PACKAGE / "_table.py").read_text(), re.M).group(1)
    return project


def _metadata(project):
    """The metadata's headers, then the readme."""
    headers = [
        ("Metadata-Version", "2.1"),
        ("Name", project["name"]),
        ("Version", project["version"]),
        ("Summary", project["description"]),
        ("License", project["license"]["text"]),
        ("Requires-Python", project["requires-python"]),
        ("Description-Content-Type", "text/markdown"),
    ]
    headers += [("Classifier", classifier) for classifier in project["classifiers"]]
    for extra, needed in project["optional-dependencies"].items():
        headers.append(("Provides-Extra", extra))
        headers += [("Requires-Dist", '%s; extra == "%s"' % (one, extra)) for one in needed]
    return "".join("%s: %s\n" % header for header in headers) + "\n" + (HERE / project["readme"]).read_text()


def _files():
    """The package's files by their names in an archive."""
    found = sorted(file for file in PACKAGE.rglob("*") if file.suffix in (".py", ".typed"))
    return {file.relative_to(HERE).as_posix(): file.read_bytes() for file in found}


def _recorded(name, data):
    """A line of the wheel's list."""
    digest = base64.urlsafe_b64encode(hashlib.sha256(data).digest()).rstrip(b"=").decode()
    return "%s,sha256=%s,%d\n" % (name, digest, len(data))


def build_wheel(wheel_directory, config_settings=None, metadata_directory=None):
    project = _project()
    stem = "%s-%s" % (project["name"], project["version"])
    info = stem + ".dist-info"
    files = {**_files(), info + "/METADATA": _metadata(project).encode(), info + "/WHEEL": WHEEL.encode()}
    files[info + "/RECORD"] = ("".join(_recorded(*file) for file in files.items()) + info + "/RECORD,,\n").encode()
    wheel = "%s-%s.whl" % (stem, TAG)
    with zipfile.ZipFile(pathlib.Path(wheel_directory, wheel), "w", zipfile.ZIP_DEFLATED) as archive:
        for name, data in files.items():
            archive.writestr(name, data)
    return wheel


def build_sdist(sdist_directory, config_settings=None):
    project = _project()
    stem = "%s-%s" % (project["name"], project["version"])
    names = ["pyproject.toml", project["readme"], "build_backend/wheel_of_package.py", *_files()]
    with tarfile.open(pathlib.Path(sdist_directory, stem + ".tar.gz"), "w:gz", format=tarfile.PAX_FORMAT) as archive:
        for name in names:
            archive.add(HERE / name, "%s/%s" % (stem, name))
        notes = pathlib.Path(sdist_directory, "PKG-INFO")
        notes.write_text(_metadata(project))
        archive.add(notes, stem + "/PKG-INFO")
        notes.unlink()
    return stem + ".tar.gz"
