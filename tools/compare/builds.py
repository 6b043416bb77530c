"""What a comparison stands on: the oracle's fixed build, our archives, and the driver. What is missing here is named, or installed where that is asked for."""
import glob
import hashlib
import os
import platform
import re
import shutil
import subprocess
import sys

HERE = os.path.dirname(os.path.abspath(__file__))
REPOSITORY = os.path.dirname(os.path.dirname(HERE))
BUILD = os.environ.get("XANGORAVIT_BUILD", f"{REPOSITORY}/oracle/target")
SOURCES = os.environ.get("XANGORAVIT_SRC", f"{REPOSITORY}/../shared/docs/src")
CRATES = ["c_api", "sheet_api"]
OLDEST = (1, 85)  # the first rustc that has the oracle's edition
# A C compiler for x86-64, with Debian's packages of it: here, and on a machine that is another
NATIVE, CROSS = ("gcc", ["gcc", "libc6-dev"]), ("x86_64-linux-gnu-gcc", ["gcc-x86-64-linux-gnu", "libc6-dev-amd64-cross"])


class Missing(Exception):
    """No comparison is possible here; the text says why."""


def get(compiler, install):
    """Has Debian's packages of all that is missing installed where that is asked for, which tools/packages decides; else names the one command that would."""
    name, packages = compiler
    there = os.environ.get("CC") or shutil.which(name)
    missing = [] if there else list(packages)
    missing += subprocess.run([f"{REPOSITORY}/oracle/build", "--packages"], check=True, stdout=subprocess.PIPE, text=True).stdout.split()
    if not missing:
        return
    told = subprocess.run([f"{REPOSITORY}/tools/packages", *(["--install"] if install else []), *missing], stdout=subprocess.PIPE, text=True)
    if told.returncode != 0:
        raise Missing(f"packages are missing (set CC, RUSTC or NUM_TRAITS instead). As root, this installs them, and --install does: {told.stdout.strip()}")


def tool(variable, name):
    """The tool that a variable of the environment names, or the usual one."""
    chosen = os.environ.get(variable) or name
    if not shutil.which(chosen):
        raise Missing(f"no {chosen} (set {variable})")
    return chosen


def new_enough(rustc):
    said = subprocess.run([rustc, "--version"], stdout=subprocess.PIPE, text=True).stdout.strip()
    version = re.match(r"rustc (\d+)\.(\d+)", said)
    if version and tuple(map(int, version.groups())) < OLDEST:
        raise Missing(f"{said} cannot build the oracle; {'.'.join(map(str, OLDEST))} or later can")


def oracle():
    """Built by oracle/build, which names what is missing; any other failure is one."""
    building = subprocess.Popen([f"{REPOSITORY}/oracle/build"], stderr=subprocess.PIPE, text=True)
    missing = []
    for line in building.stderr:
        if line.startswith("build: missing: "):
            missing.append(line.removeprefix("build: missing: ").strip())
        else:
            print(line, end="", file=sys.stderr, flush=True)
    if building.wait() != 0:
        if missing:
            raise Missing("missing: " + "; ".join(missing))
        sys.exit("run: the oracle did not build")
    return f"{BUILD}/oracle-fixed"


def emulator():
    """Our archives are built for x86-64. What a program for that runs in: nothing, or on another machine an emulator."""
    if platform.machine() == "x86_64":
        return []
    path = shutil.which("qemu-x86_64")
    if not path:
        raise Missing(f"our archives are built for x86-64, and this machine is {platform.machine()}, without qemu-x86_64 (Debian's qemu-user)")
    return [path]


def linked(linker, archives, room):
    driver = f"{room}/driver"
    subprocess.run([*linker, "-O2", "-fno-strict-aliasing", "-o", driver, *sorted(glob.glob(f"{HERE}/*.c")), *archives], check=True)
    return driver


def sum_of(paths):
    """A sum over the contents of files."""
    total = hashlib.sha256()
    for path in paths:
        with open(path, "rb") as file:
            total.update(hashlib.sha256(file.read()).digest())
    return total.hexdigest()


def builds(archives, room, install):
    """The oracle, the driver's command, and a sum over all that an answer depends on. What cannot be installed is looked for first."""
    if not os.path.isdir(SOURCES):
        raise Missing(f"the oracle's sources are not at {SOURCES} (set XANGORAVIT_SRC)")
    if not archives:
        tool("RT", "rt")  # tools/build runs it
    before = emulator()
    compiler = CROSS if before else NATIVE
    get(compiler, install)
    linker = [tool("CC", compiler[0]), "-static" if before else "-no-pie"]  # what an emulator runs needs no loader
    new_enough(tool("RUSTC", "rustc"))
    judge = oracle()
    if not archives:
        subprocess.run([f"{REPOSITORY}/tools/build", *CRATES], check=True)
        archives = [f"{REPOSITORY}/target/staticlib/lib{crate}.a" for crate in CRATES]
    driver = linked(linker, archives, room)
    return judge, [*before, driver], sum_of([judge, driver, f"{HERE}/run", f"{REPOSITORY}/oracle/generate.py"])
