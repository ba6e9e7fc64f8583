"""The versions of simdutf whose sources are on the machine, and how they are compiled."""

import os
import pathlib
import subprocess

CACHE = pathlib.Path(os.environ.get("XDG_CACHE_HOME") or pathlib.Path.home() / ".cache")
FOLDERS = [CACHE / "simdutf-of-nodejs", CACHE / "simdutf-of-debian"]
FLAGS = ["-O3", "-DNDEBUG", "-std=c++17"]


def sources():
    """Returns the folders with sources: those that SIMDUTF_SOURCE names, a colon between them, or those that
    compare/simdutf/fetch left."""
    named = os.environ.get("SIMDUTF_SOURCE")
    folders = [pathlib.Path(name) for name in named.split(":")] if named else FOLDERS
    return [folder for folder in folders if (folder / "simdutf.cpp").is_file()]


def where():
    """Returns where sources were looked for, as a message says it."""
    folders = os.environ.get("SIMDUTF_SOURCE") or ", ".join(map(str, FOLDERS))
    return f"{folders} has no simdutf.cpp (SIMDUTF_SOURCE names folders; compare/simdutf/fetch fetches the sources)"


def version_of(folder):
    """Returns the version that the header names."""
    for header in (folder / "simdutf.h", folder / "simdutf/simdutf_version.h"):
        for line in header.read_text(encoding="utf-8").splitlines() if header.is_file() else []:
            if line.startswith("#define SIMDUTF_VERSION "):
                return line.split('"')[1]
    return folder.name


def compile_to(made, source, folder, flags):
    """Compiles a source with the header of a version, unless what it made is newer than both."""
    newest = max(source.stat().st_mtime, (folder / "simdutf.h").stat().st_mtime)
    if not made.exists() or made.stat().st_mtime < newest:
        subprocess.run(["c++", *FLAGS, *flags, f"-I{folder}", "-c", source, "-o", made], check=True)
