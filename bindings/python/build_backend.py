"""Builds the package by a C compiler alone, with the static library in its one extension module.

    pip wheel --no-deps -w OUT bindings/python

A wheel is for the Python that builds it. The source archive has the static library and its header beside the sources, since
the library itself is built by the prover. The library is looked for in the folder MOVALIREN_LIB, in the source archive, in
this repository as `rt lib` leaves it, in the unpacked archive of C that this folder is part of, and by pkg-config."""

import base64
import gzip
import hashlib
import io
import os
import pathlib
import re
import shlex
import subprocess
import sys
import sysconfig
import tarfile
import tempfile
import tomllib
import zipfile

HERE = pathlib.Path(__file__).resolve().parent
NAMES = ("libmovaliren.a", "libmovaliren_c.a")
FLAGS = ["-O2", "-DNDEBUG", "-fPIC"]
# The library's names stay inside of the module, and what nothing calls is left out.
LINKS = ["-shared", "-Wl,--gc-sections,--exclude-libs,ALL,-z,relro,-z,now,--hash-style=gnu", "-s"]
# What the source archive has of this folder.
SOURCES = ("README.md", "build_backend.py", "pyproject.toml", "movaliren/*.py*", "movaliren/*.c", "movaliren/py.typed", "tests/*.py", "examples/*.py")


def folders_of_library():
    """The folders in which the library may stand, each with those of its header."""
    if named := os.environ.get("MOVALIREN_LIB"):
        yield named, [HERE.parent / "c", pathlib.Path(named).parent / "include"]
    yield HERE / "lib", [HERE / "lib"]
    yield HERE.parents[1] / "crates/movaliren_c/out", [HERE.parent / "c"]
    yield HERE.parents[1] / "lib", [HERE.parents[1] / "include"]
    said = lambda variable: subprocess.run(["pkg-config", f"--variable={variable}", "movaliren"], capture_output=True, text=True).stdout.strip()
    yield said("libdir"), [pathlib.Path(said("includedir"))]


def library_and_header():
    """The static library and the folder of its header."""
    try:
        for folder, headers in folders_of_library():
            found = [pathlib.Path(folder, name) for name in NAMES if folder and pathlib.Path(folder, name).exists()]
            beside = [it for it in headers if (it / "movaliren.h").exists()]
            if found and beside:
                return found[0], beside[0]
    except OSError:
        pass
    raise SystemExit("the library of Movaliren was not found: run make -C bindings/c install, or set MOVALIREN_LIB")


def compile_module(made):
    library, header = library_and_header()
    words = [*shlex.split(os.environ.get("CC", "cc")), *FLAGS, *shlex.split(os.environ.get("CFLAGS", ""))]
    words += [f"-isystem{sysconfig.get_path('include')}", f"-I{header}"]
    subprocess.run([*words, HERE / "movaliren/_movaliren.c", library, *LINKS, "-o", made], check=True)


def tag_of(module):
    """The tag of a wheel with this module, whose C library is the oldest one that has the versions of symbols which it calls.

    The module links the C library alone, so no other part of the policy of manylinux concerns it."""
    python = f"cp{sys.version_info.major}{sys.version_info.minor}"
    called = [int(minor) for minor in re.findall(rb"GLIBC_2\.(\d+)", module)]
    return f"{python}-{python}{sys.abiflags}-manylinux_2_{max(17, *called)}_x86_64"


def project():
    return tomllib.loads((HERE / "pyproject.toml").read_text())["project"]


def name_of():
    return f"{project()['name']}-{project()['version']}"


def metadata():
    said = project()
    lines = [
        "Metadata-Version: 2.1", f"Name: {said['name']}", f"Version: {said['version']}", f"Summary: {said['description']}",
        f"Requires-Python: {said['requires-python']}", "Description-Content-Type: text/markdown", "",
        (HERE / "README.md").read_text(),
    ]
    return "\n".join(lines).encode()


def record_line(name, data):
    digest = base64.urlsafe_b64encode(hashlib.sha256(data).digest()).rstrip(b"=").decode()
    return f"{name},sha256={digest},{len(data)}\n"


def prepare_metadata_for_build_wheel(metadata_directory, config_settings=None):
    folder = pathlib.Path(metadata_directory, f"{name_of()}.dist-info")
    folder.mkdir()
    (folder / "METADATA").write_bytes(metadata())
    return folder.name


def build_wheel(wheel_directory, config_settings=None, metadata_directory=None):
    name = name_of()
    files = {f"movaliren/{it.name}": it.read_bytes() for it in sorted((HERE / "movaliren").glob("*"))
             if it.suffix in (".py", ".pyi", ".typed")}
    with tempfile.TemporaryDirectory() as folder:
        compile_module(f"{folder}/module")
        module = pathlib.Path(folder, "module").read_bytes()
    tag = tag_of(module)
    files[f"movaliren/_movaliren{sysconfig.get_config_var('EXT_SUFFIX')}"] = module
    files[f"{name}.dist-info/METADATA"] = metadata()
    files[f"{name}.dist-info/WHEEL"] = f"Wheel-Version: 1.0\nGenerator: movaliren\nRoot-Is-Purelib: false\nTag: {tag}\n".encode()
    record = "".join(record_line(*it) for it in files.items()) + f"{name}.dist-info/RECORD,,\n"
    files[f"{name}.dist-info/RECORD"] = record.encode()
    with zipfile.ZipFile(pathlib.Path(wheel_directory, f"{name}-{tag}.whl"), "w", zipfile.ZIP_DEFLATED) as out:
        for path, data in files.items():
            out.writestr(zipfile.ZipInfo(path), data, zipfile.ZIP_DEFLATED)
    return f"{name}-{tag}.whl"


def build_sdist(sdist_directory, config_settings=None):
    library, header = library_and_header()
    name = name_of()
    paths = sorted({path for form in SOURCES for path in HERE.glob(form)})
    files = {str(path.relative_to(HERE)): path.read_bytes() for path in paths}
    files |= {"PKG-INFO": metadata(), f"lib/{NAMES[0]}": library.read_bytes()}
    files["lib/movaliren.h"] = (header / "movaliren.h").read_bytes()
    packed = io.BytesIO()
    with tarfile.open(fileobj=packed, mode="w", format=tarfile.PAX_FORMAT) as out:
        for path, data in files.items():
            entry = tarfile.TarInfo(f"{name}/{path}")
            entry.size = len(data)
            out.addfile(entry, io.BytesIO(data))
    pathlib.Path(sdist_directory, f"{name}.tar.gz").write_bytes(gzip.compress(packed.getvalue(), mtime=0))
    return f"{name}.tar.gz"
