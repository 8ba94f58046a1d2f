"""Builds the wheel of the Python module for pip (PEP 517), from within the repository and by the standard library alone.

The wheel holds the package with libsoftdemap.so beside its code: the file that SOFTDEMAP_LIBRARY names, else the one that scripts/shared builds.
Its version is that of the repository. Nothing is written but the wheel, and what scripts/shared builds.
"""

import base64
import hashlib
import os
import subprocess
import sysconfig
import zipfile
from pathlib import Path

HERE = Path(__file__).resolve().parent
REPOSITORY = HERE.parents[1]
PACKAGE = ("__init__.py", "py.typed")

METADATA = """\
Metadata-Version: 2.1
Name: softdemap
Version: {version}
Summary: A proved soft demapper for Gray-labelled PAM, QAM and PSK
Requires-Python: >=3.8
"""

WHEEL = """\
Wheel-Version: 1.0
Generator: softdemap
Root-Is-Purelib: false
Tag: {tag}
"""


class UnsupportedOperation(Exception):
    """What PEP 517 has a builder raise where it cannot build."""


def build_wheel(wheel_directory, config_settings=None, metadata_directory=None):
    """Writes the wheel into the folder, and gives its name. The same files make the same wheel."""
    version = read_version()
    tag = "py3-none-" + sysconfig.get_platform().replace("-", "_").replace(".", "_")
    about = f"softdemap-{version}.dist-info"
    files = {f"softdemap/{name}": (HERE / "softdemap" / name).read_bytes() for name in PACKAGE}
    files["softdemap/libsoftdemap.so"] = find_library().read_bytes()
    files[f"{about}/METADATA"] = METADATA.format(version=version).encode("ascii")
    files[f"{about}/WHEEL"] = WHEEL.format(tag=tag).encode("ascii")
    files[f"{about}/RECORD"] = record(files, f"{about}/RECORD").encode("ascii")
    wheel = f"softdemap-{version}-{tag}.whl"
    with zipfile.ZipFile(Path(wheel_directory) / wheel, "w") as archive:
        for name, content in files.items():
            entry = zipfile.ZipInfo(name)
            entry.external_attr = 0o644 << 16
            archive.writestr(entry, content, zipfile.ZIP_DEFLATED)
    return wheel


def build_sdist(sdist_directory, config_settings=None):
    raise UnsupportedOperation("softdemap is built from its repository: there is a wheel of it, and no source distribution")


def read_version():
    """The version of the repository, which an old pip does not see: it builds in a copy of this folder."""
    file = REPOSITORY / "VERSION"
    if not file.is_file():
        raise UnsupportedOperation(f"there is no {file}: softdemap is built from within its repository, by pip 21.3 or later")
    return file.read_text(encoding="ascii").strip()


def find_library():
    """The shared object, built where no other is named."""
    if "SOFTDEMAP_LIBRARY" in os.environ:
        return Path(os.environ["SOFTDEMAP_LIBRARY"])
    subprocess.run([REPOSITORY / "scripts" / "shared"], check=True)
    return REPOSITORY / "target" / "host" / "libsoftdemap.so"


def record(files, itself):
    """Each file with its digest and size, and the record itself without."""
    lines = []
    for name, content in files.items():
        digest = base64.urlsafe_b64encode(hashlib.sha256(content).digest()).decode("ascii").rstrip("=")
        lines.append(f"{name},sha256={digest},{len(content)}\n")
    return "".join(lines) + f"{itself},,\n"
