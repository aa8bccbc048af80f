"""The file VERSION, the header, the man pages, the Python package and the programs name one version; tests/install.py sees to the pkg-config file."""

import re
import sys

from tests.common import EVERY_PROGRAM, prove, reported, root, run, started


def named():
    """Where a version is named, and which."""
    header = (root / "include/foambeetle.h").read_text()
    yield "include/foambeetle.h", re.findall(r'^#define FOAMBEETLE_VERSION "(.*)"$', header, re.M)
    for page in sorted((root / "man").iterdir()):
        text = page.read_text()
        if not text.startswith(".so "):  # a link to another page
            yield f"man/{page.name}", re.findall(r'^\.TH .* "Foambeetle (.*)"$', text, re.M)
    yield "python/pyproject.toml", re.findall(r'^version = "(.*)"$', (root / "python/pyproject.toml").read_text(), re.M)
    yield "python/foambeetle/__init__.py", re.findall(r'^__version__ = "(.*)"$', (root / "python/foambeetle/__init__.py").read_text(), re.M)
    prove()
    for program in EVERY_PROGRAM:
        yield f"{program} --version", re.findall(rf"^{program} (.*)$", run(started(program, "--version")).decode(), re.M)


def main():
    version = (root / "VERSION").read_text().strip()
    wrong = [f"{where} names {found}, VERSION is {version}" for where, found in named() if found != [version]]
    return reported(wrong, f"version {version}")


if __name__ == "__main__":
    sys.exit(main())
