"""Makes the wheel: the package with the shared library in it. It is a build backend, and a program:

    python3 python/backend/wheel_of_library.py FOLDER

The library is libukhtvaresh.so in the folder that UKHTVARESH_LIB names, or in target/staticlib. It needs only the C
library's memcpy and memset, so the wheel serves every Linux on x86-64 with glibc 2.17 (2012) or later. The same files
make the same bytes: times in the wheel are SOURCE_DATE_EPOCH, or 1980.
"""

import base64
import hashlib
import os
import re
import subprocess
import sys
import time
import zipfile
from pathlib import Path
from typing import Dict, Tuple

HERE = Path(__file__).resolve().parent.parent
TAG = "py3-none-manylinux_2_17_x86_64"
GLIBC = (2, 17)


def project() -> Dict[str, str]:
    """What pyproject.toml says, as far as a wheel needs it. Python 3.8 to 3.10 have no reader of such files."""
    text = (HERE / "pyproject.toml").read_text("utf-8")
    found = {
        name: re.search(rf'^{name} = "(.*)"$', text, re.M)
        for name in ("name", "version", "description", "requires-python")
    }
    made = {name: match[1] for name, match in found.items() if match}
    made["license"] = re.search(r'^license = \{ text = "(.*)" \}$', text, re.M)[1]
    made["classifiers"] = "\n".join(re.findall(r'^    "(.* :: .*)",$', text, re.M))
    return made


def library() -> Path:
    """The shared library that the wheel takes in."""
    default = HERE.parent / "target" / "staticlib"
    path = Path(os.environ.get("UKHTVARESH_LIB") or default).resolve() / "libukhtvaresh.so"
    if not path.is_file():
        raise SystemExit(f"There is no {path}. Run `tools/build library` and then `python/build`.")
    return path


def check_symbols(path: Path) -> None:
    """Refuses a library that needs a newer C library than the wheel's name says."""
    try:
        listed = subprocess.run(["objdump", "-T", str(path)], capture_output=True, text=True, check=True).stdout
    except FileNotFoundError:
        return  # without binutils it cannot be seen
    needed = [tuple(map(int, version.split("."))) for version in re.findall(r"GLIBC_([0-9.]+)", listed)]
    if any(version[:2] > GLIBC for version in needed):
        raise SystemExit(f"{path} needs glibc {max(needed)}, and the wheel's name promises {GLIBC}")


def metadata(known: Dict[str, str]) -> str:
    lines = ["Metadata-Version: 2.1", f"Name: {known['name']}", f"Version: {known['version']}"]
    lines += [f"Summary: {known['description']}", f"License: {known['license']}"]
    lines += [f"Classifier: {each}" for each in known["classifiers"].splitlines()]
    lines += [f"Requires-Python: {known['requires-python']}", "Description-Content-Type: text/markdown", ""]
    return "\n".join(lines) + "\n" + (HERE / "README.md").read_text("utf-8")


def contents() -> Tuple[str, Dict[str, bytes]]:
    """The wheel's name and its files but RECORD."""
    known, shared = project(), library()
    check_symbols(shared)
    info = f"{known['name']}-{known['version']}.dist-info"
    package = HERE / "ukhtvaresh"
    files = {f"ukhtvaresh/{path.name}": path.read_bytes() for path in sorted(package.glob("*.py"))}
    files["ukhtvaresh/py.typed"] = b""
    files["ukhtvaresh/libukhtvaresh.so"] = shared.read_bytes()
    files[f"{info}/METADATA"] = metadata(known).encode()
    wheel = f"Wheel-Version: 1.0\nGenerator: wheel_of_library\nRoot-Is-Purelib: false\nTag: {TAG}\n"
    files[f"{info}/WHEEL"] = wheel.encode()
    return f"{known['name']}-{known['version']}-{TAG}.whl", files


def record(files: Dict[str, bytes], name: str) -> bytes:
    lines = []
    for path, data in files.items():
        digest = base64.urlsafe_b64encode(hashlib.sha256(data).digest()).rstrip(b"=").decode()
        lines.append(f"{path},sha256={digest},{len(data)}")
    return "\n".join([*lines, f"{name},,"]).encode() + b"\n"


def build_wheel(wheel_directory, config_settings=None, metadata_directory=None) -> str:
    """The hook of PEP 517: makes the wheel in a folder and gives its name."""
    name, files = contents()
    listed = next(path for path in files if path.endswith("/WHEEL")).replace("/WHEEL", "/RECORD")
    files[listed] = record(files, listed)
    at = max(int(os.environ.get("SOURCE_DATE_EPOCH", "0")), 315_532_800)
    stamp = time.gmtime(at)[:6]
    target = Path(wheel_directory, name)
    with zipfile.ZipFile(target, "w", zipfile.ZIP_DEFLATED) as wheel:
        for path, data in files.items():
            entry = zipfile.ZipInfo(path, stamp)
            entry.external_attr = 0o100644 << 16
            entry.compress_type = zipfile.ZIP_DEFLATED
            wheel.writestr(entry, data, compresslevel=9)
    return name


def main():
    if len(sys.argv) != 2:
        sys.exit("usage: wheel_of_library.py FOLDER")
    print(build_wheel(sys.argv[1]))


if __name__ == "__main__":
    main()
