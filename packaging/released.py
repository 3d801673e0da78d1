#!/usr/bin/env python3
"""released.py: unpacks the released program for this machine, for ./run, and prints where it is. Status 1 if there is
none that runs here and was made from these sources: it says why.

release/ has a Debian package for each kind of machine, SHA256SUMS, and in sources.sha256 the sum of the sources that
the programs were made from. packaging/release makes it. This takes Python alone, of 3.8 or later.
"""
import hashlib
import io
import os
import re
import struct
import sys
import tarfile
from pathlib import Path

TOP = Path(__file__).resolve().parent.parent
ARCHITECTURES = {"x86_64": "amd64", "aarch64": "arm64"}
PROGRAM = "./usr/bin/srcp_server"


def source_files(top):
    """Returns the files that the programs are made from, by their paths from the top."""
    found = [top / "crates.txt", *(top / "packaging" / "arm64").glob("helpers.[ch]")]
    for folder, folders, names in os.walk(top / "crates"):
        folders[:] = [name for name in folders if name != "out"]
        found += [Path(folder, name) for name in names if name.endswith((".rt", ".antt"))]
    return sorted(str(file.relative_to(top)) for file in found if file.exists())


def sum_of_sources(top):
    """Returns the sum of the lines that sha256sum prints of the sources."""
    lines = (f"{sum_of((top / file).read_bytes())}  {file}\n" for file in source_files(top))
    return sum_of("".join(lines).encode())


def sum_of(content):
    return hashlib.sha256(content).hexdigest()


def released_packages(top):
    """Returns the name of each released package and its sum, by the architecture; none if there is no release."""
    sums = top / "release" / "SHA256SUMS"
    lines = re.findall(r"^(\w+)  (\S+_(\w+)\.deb)$", sums.read_text(), re.M) if sums.exists() else []
    return {architecture: (name, told) for told, name, architecture in lines}


def is_of_these_sources(top):
    """Returns whether there is a release, and it was made from the sources that are here."""
    told = top / "release" / "sources.sha256"
    return told.exists() and told.read_text().strip() == sum_of_sources(top)


def program_of(package):
    """Returns the program in a Debian package, which is an archive by ar(1)."""
    at = len(b"!<arch>\n")
    while at < len(package):
        name, size = package[at:at + 16].strip().decode(), int(package[at + 48:at + 58])
        if name.startswith("data.tar"):
            with tarfile.open(fileobj=io.BytesIO(package[at + 60:at + 60 + size])) as files:
                if program := files.extractfile(PROGRAM):
                    return program.read()
        at += 60 + size + size % 2
    raise ValueError("the package has no program")


def unpack(top, machine):
    """Returns where the released program for that kind of machine is, and whether it was there whole; else it is
    unpacked now. None if there is none for these sources. ValueError if a package is not what it should be."""
    found = released_packages(top).get(ARCHITECTURES.get(machine))
    if not found or not is_of_these_sources(top):
        return None
    name, told = found
    target = top / "out" / "released" / told / "srcp_server"
    seal = target.with_suffix(".sha256")
    if target.exists() and seal.exists() and seal.read_text() == sum_of(target.read_bytes()):
        return target, True  # and not one that was cut, as by a loss of power
    package = (top / "release" / name).read_bytes()
    if sum_of(package) != told:
        raise ValueError(f"release/{name} is not the package whose sum is in release/SHA256SUMS")
    program = program_of(package)
    target.parent.mkdir(parents=True, exist_ok=True)
    for file, content in ((target, program), (seal, sum_of(program).encode())):
        begun = file.with_suffix(f".{os.getpid()}")
        begun.write_bytes(content)
        begun.chmod(0o755 if file == target else 0o644)
        begun.replace(file)
    return target, False


def library_of_this_system():
    """Returns the C library of this system and its version: "glibc 2.36"; None if the system tells none."""
    try:
        return os.confstr("CS_GNU_LIBC_VERSION")
    except (AttributeError, ValueError, OSError):
        return None


def needs_library(top):
    """Returns the version of the C library that the released program takes, as its package says."""
    control = (top / "packaging" / "debian" / "control").read_text()
    return re.search(r"libc6 \(>= ([\d.]+)\)", control)[1]


def reason(top, machine):
    """Returns why no released program runs on this machine, or is of these sources; None if one does."""
    if not sys.platform.startswith("linux"):
        return f"the program runs on Linux, and this is {sys.platform}"
    if machine not in ARCHITECTURES:
        return f"there is no released program for {machine}: only for {' and '.join(ARCHITECTURES)}"
    if struct.calcsize("P") != 8:
        return f"this system is one of 32 bits, on a processor of 64 ({machine}), and the program takes one of 64 bits"
    has, wanted = library_of_this_system(), needs_library(top)
    name, _, version = (has or "").partition(" ")
    if name != "glibc" or numbers(version) < numbers(wanted):
        return f"the released program takes the GNU C library {wanted} or later, and this system has {has or 'another'}"
    if ARCHITECTURES[machine] not in released_packages(top):
        return f"release/ has no package for {machine}"
    if not is_of_these_sources(top):
        return "release/ has a program that was made from other sources than those in crates/"
    return None


def numbers(version):
    return [int(number) for number in re.findall(r"\d+", version)]


def owner_of(path):
    try:
        return path.owner()
    except (KeyError, OSError):
        return "somebody else"


def refused(top, fault):
    """Returns what to say if the program cannot be unpacked."""
    if isinstance(fault, PermissionError):
        return (f"{top} belongs to {owner_of(top)}, and you may not write there, so the released program cannot be "
                "unpacked: clone it as yourself, or have its owner call ./run once")
    return str(fault)


def main():
    machine = os.uname().machine
    if why := reason(TOP, machine):
        sys.exit(f"./run: {why}")
    try:
        program, was_there = unpack(TOP, machine)
    except (OSError, ValueError) as fault:
        sys.exit(f"./run: {refused(TOP, fault)}")
    if not os.access(program, os.X_OK):
        sys.exit(f"./run: {program} may not be executed: is its file system mounted with noexec?")
    if not was_there:
        name, _ = released_packages(TOP)[ARCHITECTURES[machine]]
        told = f"./run: this is the program of release/{name}; ./run --build proves it and builds it here"
        print(told, file=sys.stderr)
    print(program)
    return 0


if __name__ == "__main__":
    sys.exit(main())
