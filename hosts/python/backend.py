"""Makes the wheel of the package for `pip install .` (PEP 517) with Python's library alone.

The wheel has the package and, inside it, the shared object that hosts/shared/build links of the proved archive: target/staticlib/libvegzump.a, or the one in
the folder that VEGZUMP_LIB_DIR names. So it is for this kind of machine, and needs nothing of this repository once it is installed.
"""
import base64
import hashlib
import os
import platform
import re
import subprocess
import sys
import tempfile
import zipfile

HERE = os.path.dirname(os.path.abspath(__file__))
HOSTS = os.path.dirname(HERE)


def read(*path):
    with open(os.path.join(*path), "rb") as f:
        return f.read()


def version():
    """The version that hosts/rust/Cargo.toml states for all hosts."""
    return re.search(r'^version = "(.*)"', read(HOSTS, "rust", "Cargo.toml").decode(), re.MULTILINE).group(1)


def shared_object():
    with tempfile.TemporaryDirectory() as room:
        if subprocess.call([os.path.join(HOSTS, "shared", "build"), room]) != 0:
            sys.exit("vegzump: the shared object could not be linked")
        return read(room, "libvegzump.so")


def contents(info, tag):
    """The files of the wheel but for its list: name and bytes."""
    for name in sorted(os.listdir(os.path.join(HERE, "vegzump"))):
        if name.endswith(".py"):
            yield "vegzump/" + name, read(HERE, "vegzump", name)
    yield "vegzump/libvegzump.so", shared_object()
    yield info + "/METADATA", ("Metadata-Version: 2.1\nName: vegzump\nVersion: %s\nSummary: Calls of the proved phrase expander\nRequires-Python: >=3.8\n"
                               % version()).encode()
    yield info + "/WHEEL", ("Wheel-Version: 1.0\nGenerator: vegzump\nRoot-Is-Purelib: false\nTag: %s\n" % tag).encode()


def build_wheel(wheel_directory, config_settings=None, metadata_directory=None):
    info, tag = "vegzump-%s.dist-info" % version(), "py3-none-linux_%s" % platform.machine()
    name = "vegzump-%s-%s.whl" % (version(), tag)
    record = []
    with zipfile.ZipFile(os.path.join(wheel_directory, name), "w", zipfile.ZIP_DEFLATED) as wheel:
        for path, data in contents(info, tag):
            wheel.writestr(path, data)
            digest = base64.urlsafe_b64encode(hashlib.sha256(data).digest()).rstrip(b"=").decode()
            record.append("%s,sha256=%s,%d\n" % (path, digest, len(data)))
        wheel.writestr(info + "/RECORD", "".join(record) + info + "/RECORD,,\n")
    return name


def build_sdist(sdist_directory, config_settings=None):
    sys.exit("vegzump: the package is built beside the archive, in its repository; there is no source distribution")
