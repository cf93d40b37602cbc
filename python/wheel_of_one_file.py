"""How pip packs wmax.py: a build backend (PEP 517) that needs the standard library alone, and so no network."""
import base64
import hashlib
import io
import pathlib
import re
import tarfile
import zipfile

HERE = pathlib.Path(__file__).resolve().parent
FILES = ("wmax.py", "pyproject.toml", "wheel_of_one_file.py")


def _project():
    """What pyproject.toml says of the project."""
    return dict(re.findall(r'^([a-z-]+) = "(.*)"$', (HERE / "pyproject.toml").read_text(encoding="utf-8"), re.MULTILINE))


def _metadata(project):
    return (f"Metadata-Version: 2.1\nName: {project['name']}\nVersion: {project['version']}\n"
            f"Summary: {project['description']}\nRequires-Python: {project['requires-python']}\n")


def build_wheel(folder, config_settings=None, metadata_directory=None):
    project = _project()
    stem = f"{project['name']}-{project['version']}"
    files = {
        "wmax.py": (HERE / "wmax.py").read_bytes(),
        f"{stem}.dist-info/METADATA": _metadata(project).encode(),
        f"{stem}.dist-info/WHEEL": b"Wheel-Version: 1.0\nGenerator: wmax\nRoot-Is-Purelib: true\nTag: py3-none-any\n",
    }
    record = ""
    for name, data in files.items():
        digest = base64.urlsafe_b64encode(hashlib.sha256(data).digest()).rstrip(b"=").decode()
        record += f"{name},sha256={digest},{len(data)}\n"
    files[f"{stem}.dist-info/RECORD"] = f"{record}{stem}.dist-info/RECORD,,\n".encode()
    with zipfile.ZipFile(pathlib.Path(folder) / f"{stem}-py3-none-any.whl", "w", zipfile.ZIP_DEFLATED) as wheel:
        for name, data in files.items():
            wheel.writestr(name, data)
    return f"{stem}-py3-none-any.whl"


def build_sdist(folder, config_settings=None):
    project = _project()
    stem = f"{project['name']}-{project['version']}"
    with tarfile.open(pathlib.Path(folder) / f"{stem}.tar.gz", "w:gz", format=tarfile.PAX_FORMAT) as packed:
        for name in FILES:
            packed.add(HERE / name, f"{stem}/{name}")
        head = tarfile.TarInfo(f"{stem}/PKG-INFO")
        head.size = len(_metadata(project))
        packed.addfile(head, io.BytesIO(_metadata(project).encode()))
    return f"{stem}.tar.gz"
