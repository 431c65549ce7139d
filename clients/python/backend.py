"""Builds the wheel for pip (PEP 517). It needs nothing but Python, so that an installation downloads nothing."""
import base64
import hashlib
import pathlib
import tomllib
import zipfile

HERE = pathlib.Path(__file__).resolve().parent
PROJECT = tomllib.loads((HERE / "pyproject.toml").read_text())["project"]
NAME = f"{PROJECT['name']}-{PROJECT['version']}"
WHEEL = "Wheel-Version: 1.0\nGenerator: vosdrieng\nRoot-Is-Purelib: true\nTag: py3-none-any\n"


def metadata():
    lines = [
        "Metadata-Version: 2.1",
        f"Name: {PROJECT['name']}",
        f"Version: {PROJECT['version']}",
        f"Summary: {PROJECT['description']}",
        f"Requires-Python: {PROJECT['requires-python']}",
        f"License: {PROJECT['license']['text']}",
    ]
    for extra, wanted in PROJECT["optional-dependencies"].items():
        lines += [f"Provides-Extra: {extra}", *(f"Requires-Dist: {it} ; extra == '{extra}'" for it in wanted)]
    lines += ["Description-Content-Type: text/markdown", "", (HERE / PROJECT["readme"]).read_text()]
    return "\n".join(lines)


def files():
    """What the wheel has, by name."""
    package = sorted(it for it in (HERE / "vosdrieng").iterdir() if it.suffix == ".py" or it.name == "py.typed")
    named = {f"vosdrieng/{it.name}": it.read_bytes() for it in package}
    return named | {f"{NAME}.dist-info/METADATA": metadata().encode(), f"{NAME}.dist-info/WHEEL": WHEEL.encode()}


def build_wheel(wheel_directory, config_settings=None, metadata_directory=None):
    name, record = f"{NAME}-py3-none-any.whl", []
    with zipfile.ZipFile(pathlib.Path(wheel_directory) / name, "w", zipfile.ZIP_DEFLATED) as wheel:
        for path, content in files().items():
            digest = base64.urlsafe_b64encode(hashlib.sha256(content).digest()).rstrip(b"=").decode()
            record.append(f"{path},sha256={digest},{len(content)}")
            wheel.writestr(path, content)
        record.append(f"{NAME}.dist-info/RECORD,,")
        wheel.writestr(f"{NAME}.dist-info/RECORD", "\n".join(record) + "\n")
    return name


def build_sdist(sdist_directory, config_settings=None):
    raise NotImplementedError("the package is installed from its repository")
