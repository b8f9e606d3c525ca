"""Builds clock2q._extension over libclock2q.a, which is linked in: that of the folder CLOCK2Q_LIB_DIR, or else
that which pkg-config finds, or else one that cargo builds of the proved text without its contracts. That text is in a
source distribution, and beside this folder in the repository. With CLOCK2Q_LIMITED_API=1 the extension is for all
Pythons from 3.12 on, and not only for the one that builds it. pyproject.toml has the rest."""

import os
import shlex
import shutil
import subprocess
import sys
from pathlib import Path

from setuptools import Extension, setup
from setuptools.command.build_ext import build_ext
from setuptools.command.sdist import sdist


def places():
    """Returns the folders where the header may be, and those where the archive may be."""
    folder = os.environ.get("CLOCK2Q_LIB_DIR")
    if folder:
        return [str(Path(folder).parent / "include")], [folder]
    command = ["pkg-config", "--cflags", "--libs", "--keep-system-cflags", "--keep-system-libs", "clock2q"]
    try:
        words = shlex.split(subprocess.run(command, check=True, capture_output=True, text=True).stdout)
    except (OSError, subprocess.CalledProcessError):
        return [], []
    return [it[2:] for it in words if it.startswith("-I")], [it[2:] for it in words if it.startswith("-L")]


HERE = Path(__file__).resolve().parent
# What cargo builds, and the header of it.
NATIVE = ("rust/clock2q", "rust/clock2q_c", "c/clock2q.h")


def native():
    """Returns the folder that has NATIVE, or None."""
    folders = (folder for folder in (HERE / "native", HERE.parent) if all((folder / it).exists() for it in NATIVE))
    return next(folders, None)


def built_by_cargo(sources, target):
    """Builds the library in the folder `target`. Returns the folder where it is."""
    command = ["cargo", "build", "--quiet", "--release", "--offline", "--locked", "--target-dir", str(target)]
    try:
        subprocess.run([*command, "--manifest-path", str(sources / "rust/clock2q_c/Cargo.toml")], check=True)
    except OSError:
        sys.exit("clock2q: no libclock2q.a, and no cargo to build it: install either, as README.md says")
    return str(target / os.environ.get("CARGO_BUILD_TARGET", "") / "release")


class SourcesWithNative(sdist):
    """A source distribution that has what cargo builds."""

    def make_release_tree(self, base_dir, files):
        super().make_release_tree(base_dir, files)
        for name in NATIVE:
            source, target = native() / name, Path(base_dir, "native", name)
            if source.is_dir():
                shutil.copytree(source, target, ignore=shutil.ignore_patterns("target", "tests"))
            else:
                self.mkpath(str(target.parent))
                shutil.copy(source, target)


class BuildOverLibrary(build_ext):
    """Builds the extension with the library that is found when it is built."""

    def build_extension(self, extension):
        headers, folders = places()
        sources = native()
        if not folders and sources:
            headers, folders = [str(sources / "c")], [built_by_cargo(sources, Path(self.build_temp).resolve() / "native")]
            extension.extra_link_args += ["-Wl,--gc-sections", "-Wl,--strip-debug"]  # what is left of Rust's std
        archive = next((it for it in (Path(folder, "libclock2q.a") for folder in folders) if it.is_file()), None)
        if archive is None:
            sys.exit("clock2q: no libclock2q.a: install the library, and set CLOCK2Q_LIB_DIR or PKG_CONFIG_PATH to where it is")
        extension.include_dirs += headers
        extension.extra_objects.append(str(archive))
        extension.depends.append(str(archive))
        super().build_extension(extension)


IS_LIMITED = os.environ.get("CLOCK2Q_LIMITED_API") == "1"

setup(
    cmdclass={"build_ext": BuildOverLibrary, "sdist": SourcesWithNative},
    options={"bdist_wheel": {"py_limited_api": "cp312"}} if IS_LIMITED else {},
    ext_modules=[
        Extension(
            "clock2q._extension",
            sources=[f"extension/{name}.c" for name in (
                "module", "making", "pairs", "evicting", "growing", "expiring", "leaving", "cache", "cached", "flights",
                "decorator", "pages",
            )],
            depends=["extension/pairs.h", "extension/cached.h", "extension/limited.h"],
            py_limited_api=IS_LIMITED,
            define_macros=[("Py_LIMITED_API", "0x030C0000")] if IS_LIMITED else [],
            extra_compile_args=["-std=c11", "-fvisibility=hidden"],
            extra_link_args=["-Wl,--exclude-libs,ALL"],
        )
    ],
)
