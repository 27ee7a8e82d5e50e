"""Makes the wheel and the source archive of this package, by Python's standard library alone.

pyproject.toml names it as the build backend (PEP 517), so `pip install` needs no network and no other package. What the
archives say of the package stands in pyproject.toml and README.md. The same files make the same wheel.
"""

import base64
import hashlib
import io
import pathlib
import re
import tarfile
import zipfile

HERE = pathlib.Path(__file__).resolve().parent
VALUE = re.compile(r'^([\w-]+) = "(.*)"$', re.M)
CLASSIFIER = re.compile(r'^ +"(.* :: .*)",$', re.M)
WHEEL = "Wheel-Version: 1.0\nGenerator: topzerad\nRoot-Is-Purelib: true\nTag: py3-none-any\n"
FILE = 0o100644 << 16


def described():
    """The name and the version, and what an archive says of the package."""
    project = (HERE / "pyproject.toml").read_text()
    values = dict(VALUE.findall(project))
    fields = {"Metadata-Version": "2.1", "Name": values["name"], "Version": values["version"]}
    fields.update({"Summary": values["description"], "Requires-Python": values["requires-python"]})
    lines = [f"{field}: {value}" for field, value in fields.items()]
    lines += [f"Classifier: {classifier}" for classifier in CLASSIFIER.findall(project)]
    lines += ["Description-Content-Type: text/markdown", "", (HERE / values["readme"]).read_text()]
    return f"{values['name']}-{values['version']}", "\n".join(lines).encode()


def package():
    """The files of the package by their names, with what they have."""
    paths = sorted(path for path in (HERE / "topzerad").iterdir() if path.is_file())
    return {f"topzerad/{path.name}": path.read_bytes() for path in paths}


def recorded(name, content):
    """The line of a file in a wheel's list."""
    digest = base64.urlsafe_b64encode(hashlib.sha256(content).digest()).rstrip(b"=").decode()
    return f"{name},sha256={digest},{len(content)}\n"


def write_wheel(folder, files):
    """Makes a wheel of these files in a folder, and returns its name."""
    release, metadata = described()
    info = f"{release}.dist-info"
    files = {**files, f"{info}/METADATA": metadata, f"{info}/WHEEL": WHEEL.encode()}
    lines = "".join(recorded(name, content) for name, content in files.items()) + f"{info}/RECORD,,\n"
    files[f"{info}/RECORD"] = lines.encode()
    wheel = f"{release}-py3-none-any.whl"
    with zipfile.ZipFile(pathlib.Path(folder, wheel), "w") as archive:
        for name, content in files.items():
            entry = zipfile.ZipInfo(name)
            entry.external_attr, entry.compress_type = FILE, zipfile.ZIP_DEFLATED
            archive.writestr(entry, content)
    return wheel


def build_wheel(wheel_directory, config_settings=None, metadata_directory=None):
    return write_wheel(wheel_directory, package())


def build_editable(wheel_directory, config_settings=None, metadata_directory=None):
    return write_wheel(wheel_directory, {"topzerad.pth": f"{HERE}\n".encode()})


def build_sdist(sdist_directory, config_settings=None):
    release, metadata = described()
    own = {name: (HERE / name).read_bytes() for name in ("README.md", "backend.py", "pyproject.toml")}
    with tarfile.open(pathlib.Path(sdist_directory, f"{release}.tar.gz"), "w:gz", format=tarfile.PAX_FORMAT) as archive:
        for name, content in {"PKG-INFO": metadata, **own, **package()}.items():
            entry = tarfile.TarInfo(f"{release}/{name}")
            entry.size = len(content)
            archive.addfile(entry, io.BytesIO(content))
    return f"{release}.tar.gz"
