#!/usr/bin/env python3
"""wheel.py LIBRARY FOLDER: writes the wheel of the Python package, with the shared library in it, to FOLDER and prints its name. It needs
nothing but Python; the same input gives the same bytes."""
import base64
import hashlib
import os
import sys
import zipfile

HERE = os.path.dirname(os.path.abspath(__file__))
ROOT = os.path.join(HERE, "..", "..")
TAG = "py3-none-linux_x86_64"


def contents(library):
    """Name and bytes of each file of the wheel but RECORD."""
    version = open(os.path.join(ROOT, "VERSION"), encoding="ascii").read().strip()
    info = "pothatch-%s.dist-info/" % version
    sys.path.insert(0, HERE)
    import pothatch

    if pothatch.__version__ != version:
        sys.exit("wheel: the package is %s, VERSION says %s" % (pothatch.__version__, version))
    for name in ("__init__.py", "_api.py", "py.typed"):
        yield "pothatch/" + name, open(os.path.join(HERE, "pothatch", name), "rb").read()
    yield "pothatch/libpothatch.so", open(library, "rb").read()
    metadata = ["Metadata-Version: 2.1", "Name: pothatch", "Version: " + version, "Requires-Python: >=3.9", "License: All rights reserved"]
    metadata += ["Summary: Proved join and rekey software of a 6TiSCH thermostat", "", pothatch.__doc__ or "", ""]
    yield info + "METADATA", "\n".join(metadata).encode()
    yield info + "WHEEL", ("Wheel-Version: 1.0\nGenerator: pothatch\nRoot-Is-Purelib: false\nTag: %s\n" % TAG).encode()
    yield info + "LICENSE", open(os.path.join(ROOT, "LICENSE"), "rb").read()


def main():
    files = list(contents(sys.argv[1]))
    info = os.path.dirname(files[-1][0])
    name = "%s-%s.whl" % (info.removesuffix(".dist-info"), TAG)
    record = ""
    for path, data in files:
        digest = base64.urlsafe_b64encode(hashlib.sha256(data).digest()).rstrip(b"=").decode()
        record += "%s,sha256=%s,%d\n" % (path, digest, len(data))
    files.append((info + "/RECORD", (record + info + "/RECORD,,\n").encode()))
    with zipfile.ZipFile(os.path.join(sys.argv[2], name), "w", zipfile.ZIP_DEFLATED) as wheel:
        for path, data in files:
            entry = zipfile.ZipInfo(path, (1980, 1, 1, 0, 0, 0))
            entry.external_attr = (0o755 if path.endswith(".so") else 0o644) << 16
            entry.compress_type = zipfile.ZIP_DEFLATED
            wheel.writestr(entry, data)
    print(name)


if __name__ == "__main__":
    main()
