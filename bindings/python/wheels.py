"""What `pip install` builds the package with: a wheel of the folder `homa`, by the standard library alone."""
import base64
import hashlib
import os
import re
import zipfile


def _project():
    """The words of pyproject.toml. Python 3.10 has no reader of TOML."""
    with open("pyproject.toml", encoding="utf-8") as it:
        return dict(re.findall(r'(?m)^([\w-]+) = "([^"]*)"$', it.read()))


def _files():
    """Each file of the package, by its name in the wheel."""
    for folder, _, names in sorted(os.walk("homa")):
        for name in sorted(names):
            if not name.endswith(".pyc"):
                with open(os.path.join(folder, name), "rb") as it:
                    yield f"{folder}/{name}", it.read()


def _record(name, data):
    digest = base64.urlsafe_b64encode(hashlib.sha256(data).digest()).rstrip(b"=").decode()
    return f"{name},sha256={digest},{len(data)}\n"


def build_wheel(wheel_directory, config_settings=None, metadata_directory=None):
    """Writes the wheel into a folder and gives its file's name, as PEP 517 asks."""
    about = _project()
    stem = f"{about['name']}-{about['version']}"
    info = f"{stem}.dist-info"
    files = list(_files())
    metadata = "".join(f"{key}: {about[name]}\n" for key, name in (
        ("Name", "name"), ("Version", "version"), ("Summary", "description"), ("Requires-Python", "requires-python")))
    files.append((f"{info}/METADATA", f"Metadata-Version: 2.1\n{metadata}".encode()))
    files.append((f"{info}/WHEEL", b"Wheel-Version: 1.0\nGenerator: homa\nRoot-Is-Purelib: true\nTag: py3-none-any\n"))
    files.append((f"{info}/RECORD", "".join(_record(*file) for file in files).encode() + f"{info}/RECORD,,\n".encode()))
    name = f"{stem}-py3-none-any.whl"
    with zipfile.ZipFile(os.path.join(wheel_directory, name), "w", zipfile.ZIP_DEFLATED) as wheel:
        for path, data in files:
            wheel.writestr(path, data)
    return name
