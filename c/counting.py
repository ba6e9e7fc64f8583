"""Instructions of the programs in c/test over the libraries that c/build left, counted by valgrind."""
import os
import pathlib
import re
import subprocess
import sys
import tempfile

HERE = pathlib.Path(__file__).resolve().parent
sys.path.insert(0, str(HERE.parent / "compare"))
from callgrind import TUNABLES  # noqa: E402

ENVIRONMENT = {**os.environ, "GLIBC_TUNABLES": TUNABLES}


def build(folder, name, level):
    """Compiles a program of c/test with the build for a level of x86-64. $CC (cc) compiles."""
    program = pathlib.Path(folder) / name
    parts = [HERE / f"out/parts/{part}.a" for part in ("v1", "v2", "v3")]
    if not parts[0].exists():
        sys.exit("c/out is not there: run c/build")
    cc = os.environ.get("CC", "cc").split()
    sources = [HERE / f"test/{name}.c", HERE / "wtf8.c"]
    subprocess.run([*cc, "-std=c11", "-O2", f"-DWTF8_LEVEL={level}", "-o", program, *sources, *parts], check=True)
    return program


def dumps(program, *words):
    """Runs a program, and yields the name of each dump that it asks callgrind for, and the instructions that it counts."""
    with tempfile.TemporaryDirectory() as folder:
        out = pathlib.Path(folder) / "out"
        command = ["valgrind", "--tool=callgrind", f"--callgrind-out-file={out}", program, *words]
        subprocess.run(command, check=True, capture_output=True, env=ENVIRONMENT)
        for file in pathlib.Path(folder).glob("out.*"):
            text = file.read_text()
            name = re.search(r"^desc: Trigger: Client Request: (.*)$", text, re.M)
            if name:
                yield name[1], int(re.search(r"^(?:totals|summary): (\d+)", text, re.M)[1])
