"""Builds the package's wheel for pip, which then needs neither setuptools nor a network: the package is files of Python alone."""

import tomllib
from base64 import urlsafe_b64encode
from hashlib import sha256
from pathlib import Path
from zipfile import ZIP_DEFLATED, ZipFile

HERE = Path(__file__).resolve().parent
TAG = "py3-none-any"


def recorded(name, data):
    """A file's line in the wheel's record."""
    digest = urlsafe_b64encode(sha256(data).digest()).rstrip(b"=").decode()
    return f"{name},sha256={digest},{len(data)}\n"


def contents(project, info):
    """The wheel's files: the package, and what says of it what pip asks."""
    for file in sorted((HERE / project["name"]).iterdir()):
        if file.suffix == ".py" or file.name == "py.typed":
            yield f"{project['name']}/{file.name}", file.read_bytes()
    said = {"Metadata-Version": "2.1", "Name": project["name"], "Version": project["version"], "Summary": project["description"],
            "Requires-Python": project["requires-python"], "Description-Content-Type": "text/markdown"}
    readme = (HERE / project["readme"]).read_text()
    yield f"{info}/METADATA", ("".join(f"{key}: {value}\n" for key, value in said.items()) + f"\n{readme}").encode()
    yield f"{info}/WHEEL", f"Wheel-Version: 1.0\nGenerator: foambeetle\nRoot-Is-Purelib: true\nTag: {TAG}\n".encode()


def build_wheel(wheel_directory, config_settings=None, metadata_directory=None):
    """What pip calls; the name of the wheel that is there then."""
    project = tomllib.loads((HERE / "pyproject.toml").read_text())["project"]
    full = f"{project['name']}-{project['version']}"
    info, wheel, record = f"{full}.dist-info", f"{full}-{TAG}.whl", ""
    with ZipFile(Path(wheel_directory) / wheel, "w", ZIP_DEFLATED) as archive:
        for name, data in contents(project, info):
            archive.writestr(name, data)
            record += recorded(name, data)
        archive.writestr(f"{info}/RECORD", f"{record}{info}/RECORD,,\n")
    return wheel
