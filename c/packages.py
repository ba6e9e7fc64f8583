"""Packs what c/dist laid out as other tools install it: a wheel for pip, and with --deb packages of Debian's. The same files
give the same bytes. Needs no network; the packages of Debian's need dpkg-deb and strip. Arguments: what was laid out, the
folder to write to, the version, the time of its commit, the processor, and --deb."""
import base64
import email.utils
import gzip
import hashlib
import os
import pathlib
import re
import shutil
import subprocess
import sys
import tempfile
import textwrap
import time
import zipfile

SUMMARY = "Proved strings of any 16-bit code units"
DESCRIPTION = """\
Strings of any UTF-16 code units, lone surrogates among them, as file names of Windows, JavaScript, Java and Python have
them. They are kept as WTF-8, a superset of UTF-8. Units, UTF-8 and Latin-1 go in and out, and strings are indexed by units,
searched, compared, hashed and edited. Each call's contract was proved."""
# What Debian calls each processor.
ARCHITECTURES = {"x86_64": "amd64", "aarch64": "arm64"}
# The newest version of glibc whose symbols the tag of the wheel allows.
MANYLINUX = "manylinux2014", (2, 17)
# The release that each symbol version began with.
RELEASES = {"WTF8_0": "0.1.0", "WTF8_0.2": "0.2.0", "WTF8_0.3": "0.3.0"}


def wheel(root, version, folder, packed, processor):
    """Writes the wheel: the module as a package, with the shared library in it."""
    library = root / "lib/libwtf8.so.0"
    needed = re.findall(r"GLIBC_(\d+)\.(\d+)", subprocess.run(["readelf", "-VW", library], check=True, capture_output=True, text=True).stdout)
    newest = max(tuple(map(int, each)) for each in needed)
    if MANYLINUX[1] < newest:
        sys.exit(f"c/dist: the library needs glibc {newest}, which {MANYLINUX[0]} does not allow")
    tag = f"py3-none-{MANYLINUX[0]}_{processor}"
    info = f"wtf8-{version}.dist-info"
    metadata = [
        "Metadata-Version: 2.1", "Name: wtf8", f"Version: {version}", f"Summary: {SUMMARY}",
        f"License: {(root / 'LICENSE').read_text().splitlines()[0]}", "Requires-Python: >=3.7",
        "Classifier: Operating System :: POSIX :: Linux",
    ]
    files = {
        "wtf8/__init__.py": (root / "lib/wtf8.py").read_bytes(),
        "wtf8/py.typed": b"",
        "wtf8/libwtf8.so.0": library.read_bytes(),
        f"{info}/LICENSE": (root / "LICENSE").read_bytes(),
        f"{info}/METADATA": "\n".join([*metadata, ""]).encode(),
        f"{info}/WHEEL": f"Wheel-Version: 1.0\nGenerator: c/dist\nRoot-Is-Purelib: false\nTag: {tag}\n".encode(),
    }
    lines = []
    for name, content in files.items():
        digest = base64.urlsafe_b64encode(hashlib.sha256(content).digest()).rstrip(b"=").decode()
        lines.append(f"{name},sha256={digest},{len(content)}")
    files[f"{info}/RECORD"] = "\n".join([*lines, f"{info}/RECORD,,", ""]).encode()
    to = folder / f"wtf8-{version}-{tag}.whl"
    with zipfile.ZipFile(to, "w", zipfile.ZIP_DEFLATED) as out:
        for name, content in files.items():
            entry = zipfile.ZipInfo(name, time.gmtime(packed)[:6])
            entry.external_attr = (0o755 if name.endswith(".so.0") else 0o644) << 16
            entry.create_system, entry.compress_type = 3, zipfile.ZIP_DEFLATED
            out.writestr(entry, content)
    print(to)


def symbols(root):
    """The file of symbols: each with the release that added it."""
    listed = subprocess.run(["readelf", "--dyn-syms", "-W", root / "lib/libwtf8.so.0"], check=True, capture_output=True, text=True).stdout
    lines = [f"{node}@{node} {release}" for node, release in RELEASES.items()]
    for name, node in re.findall(r" FUNC .* (\w+)@@(\S+)$", listed, re.M):
        lines.append(f"{name}@{node} {RELEASES[node]}")
    return "libwtf8.so.0 libwtf8-0 #MINVER#\n" + "".join(f" {line}\n" for line in sorted(lines))


def changes(version):
    """What is new in a version, as lines of CHANGELOG.md without links."""
    text = pathlib.Path(__file__).resolve().parent.parent.joinpath("CHANGELOG.md").read_text(encoding="utf-8")
    found = re.search(rf"^## {re.escape(version)},.*?\n(.*?)(?=^## |\Z)", text, re.M | re.S)
    lines = re.findall(r"^- (.*)$", re.sub(r"\[([^]]*)\]\([^)]*\)", r"\1", found[1] if found else ""), re.M)
    return lines or sys.exit(f"c/dist: CHANGELOG.md has no line of {version}")


def package(name, section, version, folder, packed, architecture, depends, about, files, control=()):
    """Writes a package of Debian's with files, by their places, and further files of its control. `about` says what it has.
    $DEBFULLNAME and $DEBEMAIL maintain it."""
    maintainer = f"{os.environ.get('DEBFULLNAME', 'nobody')} <{os.environ.get('DEBEMAIL', 'nobody@localhost')}>"
    with tempfile.TemporaryDirectory() as work:
        tree = pathlib.Path(work) / "tree"
        for place, file in files.items():
            to = tree / place
            to.parent.mkdir(parents=True, exist_ok=True)
            if isinstance(file, str):
                to.symlink_to(file)
            else:
                shutil.copyfile(file, to)
        lines = [textwrap.fill(line, 78, initial_indent="  * ", subsequent_indent="    ") for line in changes(version)]
        lines = [f"wtf8 ({version}) unstable; urgency=medium", "", *lines, "", f" -- {maintainer}  {email.utils.formatdate(packed)}", ""]
        (tree / f"usr/share/doc/{name}/changelog.gz").write_bytes(gzip.compress("\n".join(lines).encode(), mtime=0))
        (tree / "DEBIAN").mkdir()
        fields = [
            f"Package: {name}", "Source: wtf8", f"Version: {version}", f"Architecture: {architecture}", f"Section: {section}",
            "Priority: optional", f"Maintainer: {maintainer}", f"Depends: {depends}", f"Description: {SUMMARY}",
            *textwrap.wrap(DESCRIPTION, 78, initial_indent=" ", subsequent_indent=" "), " .", f" {about}", "",
        ]
        (tree / "DEBIAN/control").write_text("\n".join(fields))
        for file, text in dict(control).items():
            (tree / "DEBIAN" / file).write_text(text)
        for path in [tree, *tree.rglob("*")]:
            if not path.is_symlink():
                path.chmod(0o755 if path.is_dir() else 0o644)
        to = folder / f"{name}_{version}_{architecture}.deb"
        environment = {**os.environ, "SOURCE_DATE_EPOCH": str(packed)}
        subprocess.run(["dpkg-deb", "--root-owner-group", "-Zgzip", "--build", tree, to], check=True, stdout=subprocess.DEVNULL, env=environment)
        print(to)


def debs(root, version, folder, packed, processor):
    """Writes the packages of the library, of what a program is built with, and of the module for Python."""
    triplet, doc, architecture = f"{processor}-linux-gnu", "usr/share/doc", ARCHITECTURES[processor]
    lib, tools = f"usr/lib/{triplet}", "" if processor == "x86_64" else f"{triplet}-"
    with tempfile.TemporaryDirectory() as work:
        pc, cmake, stripped = (pathlib.Path(work) / name for name in ("wtf8.pc", "wtf8-config.cmake", "libwtf8.so.0"))
        text = (root / "lib/pkgconfig/wtf8.pc").read_text()
        pc.write_text(re.sub(r"^libdir=.*", f"libdir=${{prefix}}/lib/{triplet}", re.sub(r"^prefix=.*", "prefix=/usr", text, flags=re.M), flags=re.M))
        text = (root / "lib/cmake/wtf8/wtf8-config.cmake").read_text()
        cmake.write_text(text.replace("${wtf8_libdir}/../include", "${wtf8_libdir}/../../include"))
        subprocess.run([f"{tools}strip", "--strip-unneeded", "-o", stripped, root / "lib/libwtf8.so.0"], check=True)
        package("libwtf8-0", "libs", version, folder, packed, architecture, "libc6 (>= 2.17)", "This package has the shared library.", {
            f"{lib}/libwtf8.so.0": stripped,
            f"{doc}/libwtf8-0/copyright": root / "LICENSE",
        }, {"symbols": symbols(root), "shlibs": f"libwtf8 0 libwtf8-0 (>= {version})\n", "triggers": "activate-noawait ldconfig\n"})
        package("libwtf8-dev", "libdevel", version, folder, packed, architecture, f"libwtf8-0 (= {version})",
                "This package has the headers for C and C++, the static library and examples.", {
            f"{lib}/libwtf8.so": "libwtf8.so.0",
            f"{lib}/libwtf8.a": root / "lib/libwtf8.a",
            f"{lib}/pkgconfig/wtf8.pc": pc,
            f"{lib}/cmake/wtf8/wtf8-config.cmake": cmake,
            f"{lib}/cmake/wtf8/wtf8-config-version.cmake": root / "lib/cmake/wtf8/wtf8-config-version.cmake",
            f"{doc}/libwtf8-dev/copyright": root / "LICENSE",
            f"{doc}/libwtf8-dev/README.md": root / "README.md",
            **{f"usr/include/{file.name}": file for file in (root / "include").iterdir()},
            **{f"{doc}/libwtf8-dev/examples/{file.name}": file for file in (root / "examples").iterdir() if file.suffix != ".py"},
        })
        if processor != "x86_64":
            return
        package("python3-wtf8", "python", version, folder, packed, "all", f"python3 (>= 3.7), libwtf8-0 (>= {version})",
                "This package has the module for Python 3.", {
            "usr/lib/python3/dist-packages/wtf8.py": root / "lib/wtf8.py",
            f"{doc}/python3-wtf8/copyright": root / "LICENSE",
            f"{doc}/python3-wtf8/examples/join.py": root / "examples/join.py",
        })


def main(root, folder, version, packed, processor, is_deb=""):
    for pack in [wheel, debs] if is_deb else [wheel]:
        pack(pathlib.Path(root), version, pathlib.Path(folder), int(packed), processor)


main(*sys.argv[1:])
