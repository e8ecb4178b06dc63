#!/usr/bin/env python3
"""Packs the archive of tools/dist.sh, unpacks it elsewhere, and tests its contents without the kit: the checksums, the lines of its
INSTALL, the tours of README and QUICKSTART, the library with the first program of its page, the mount, the manual pages, the links
of all pages, and the completions. Packs the Debian packages of tools/dist.sh too, tests them with lintian, installs them in an empty
directory, and uses them there: the program runs with that directory as its root, and the first hour of QUICKSTART with the installed
program on the path.

    tests/dist.py [ARCHIVE]     tests this archive instead of a new one, and no packages

The environment variables PROGRAM and LIBRARY mean the same as in tools/dist.sh. The test reports and skips checks whose tools
are missing. It proves nothing.
"""
from __future__ import annotations

import gzip
import os
import re
import shutil
import sys
from functools import partial
from pathlib import Path
from typing import List, Optional, Tuple

sys.dont_write_bytecode = True

from harness import TOP, Failed, Ran, Report, Room, built_program, done, run, wait_until_free
from walk import FLOPPY, anchors_of, code_of, first_program, link_lines, links_of, readme, section_of, walk

DIST = str(TOP / "tools" / "dist.sh")
COMPILER = os.environ.get("CC") or "cc"
BARE_PATH = "/usr/bin:/bin"
# The path of root.
ROOT_PATH = "/usr/sbin:/usr/bin:/sbin:/bin"
PAGES = "share/doc/jiponuwha"
# What a page for users of a package does not send them to: scripts and directories of the repository.
OF_REPOSITORY = re.compile(r"(?<![\w/.-])(?:\./)?(?:tools|tests|bench|bindings|crates|examples)/|\./(?:test|prove|adf_serve|jip)\b")
# Imports the package for Python and uses it, below the directory in the first argument.
IMPORTS = """import importlib.metadata, sys
import jiponuwha as jip
assert jip.__file__.startswith(sys.argv[1]), jip.__file__
assert importlib.metadata.version("jiponuwha") == jip.version()
with jip.create("Work") as floppy:
    floppy["f"] = b"text"
    assert floppy.read("F") == b"text" and jip.check(floppy.image()) == ()
    floppy.close(discard=True)
"""
# Builds the file in the variable TOUR with the static library and with the shared one.
CMAKE = """cmake_minimum_required(VERSION 3.10)
project(tour C)
find_package(jiponuwha REQUIRED)
foreach(kind jiponuwha shared)
    add_executable(tour-${kind} ${TOUR})
    target_link_libraries(tour-${kind} jiponuwha::${kind})
endforeach()
"""


class Elsewhere(Room):
    """The room for the archive, which is unpacked in its directory `dist`."""

    def __init__(self, program: Path, report: Report) -> None:
        super().__init__(program, report)
        self.dist = self.top / "dist"
        self.archive = self.top / "archive.tar.gz"

    def bare(self, place: str = ".") -> List[str]:
        """The start of a command line that runs the rest in a directory without the kit, with only the machine's own
        tools and the contents of the archive."""
        path = f"PATH={self.dist}/bin:{BARE_PATH}"
        return ["env", "-i", "-C", place, path, "LC_ALL=C.UTF-8", f"HOME={self.top}"]


# ---- The archive ----


def lacking(program: Path) -> Optional[str]:
    """What the machine lacks for a new archive."""
    if not os.access(program, os.X_OK):
        return f"there is no {program}"
    if not os.environ.get("LIBRARY") and not (TOP / "crates/adf_c/out/libadf_c.a").is_file():
        return "there is no library for C"
    return None if shutil.which(COMPILER) else "there is no C compiler"


def pack(tried: Elsewhere) -> Optional[Path]:
    """A new archive, if one can be packed."""
    lacks = lacking(tried.program)
    if lacks:
        tried.report.skip("the archive", lacks)
        return None
    archive, again = tried.archive, tried.top / "again.tar.gz"
    ran = run([DIST, str(archive)], longest=None)
    tried.report.expect("the archive is packed", ran.status == 0, ran)
    ran = run([DIST, str(again)], longest=None)
    same = ran.status == 0 and archive.read_bytes() == again.read_bytes()
    tried.report.expect("packed again it has the same bytes", same, ran)
    return archive if archive.is_file() else None


def unpack(tried: Elsewhere, archive: Path) -> None:
    tried.archive = archive
    os.mkdir("elsewhere")
    tried.report.succeeds("it is unpacked", ["tar", "-xzf", str(archive), "-C", "elsewhere"])
    folders = [it.resolve() for it in Path("elsewhere").iterdir()]
    tried.report.expect("it is one folder", len(folders) == 1 and folders[0].is_dir(), folders)
    tried.dist = folders[0]


def files(tried: Elsewhere) -> None:
    """The checksums, and the description of the archive."""
    report, dist = tried.report, tried.dist
    report.succeeds("the sums are right", ["env", "-C", str(dist), "sha256sum", "--quiet", "-c", "SHA256SUMS"])
    found = {str(it.relative_to(dist)) for it in dist.rglob("*") if it.is_file()}
    summed = [it.split(maxsplit=1)[1] for it in (dist / "SHA256SUMS").read_text().splitlines()]
    report.same("each file has a sum", sorted(summed), sorted(found - {"SHA256SUMS"}))
    build = (dist / "BUILD").read_text()
    report.expect("it says the commit", re.search(r"(?m)^commit [0-9a-f]{40}$", build) is not None, repr(build))
    said = all(re.search(rf"(?m)^{it} .", build) for it in ("kit", "gate"))
    report.expect("it says the kit and the gate", said, repr(build))
    notices = dist / "share/doc/jiponuwha/notices"
    report.expect("it has notices", notices.is_dir() and any(notices.iterdir()))
    listed = (notices.parent / "NOTICES").read_text()
    report.expect("it says that the repository states no licence", listed.startswith("The repository of jiponuwha states no licence"), listed)
    lines = dict(re.findall(r"(?m)^(\w+): (.+)$", listed))
    files_of = {it.name: sorted(file.name for file in it.iterdir()) for it in notices.iterdir()}
    named = {name: sorted(re.findall(r"\(([^)]+)\)", line)) for name, line in lines.items() if "(" in line}
    report.same("the list names the files with licences of each crate", named, files_of)
    lacking = {"clap", "jiff", "std", "slab"} - {*lines}
    report.expect("and the crates of the program and of the library", not lacking, lacking)


def name_of(file: Path) -> str:
    """The name of a program, or of the program that a page for `man` is about."""
    return file.name.partition(".")[0]


def manual(tried: Elsewhere) -> None:
    """Each program has a page. `man` shows each page without a warning, and mandoc finds no fault in it."""
    folder = tried.dist / "share/man/man1"
    programs, pages = ({name_of(it) for it in where.iterdir()} for where in (tried.dist / "bin", folder))
    tried.report.same("each program has a page for man, and jip", pages, programs | {"jip"})
    for it in sorted(folder.iterdir()) if shutil.which("man") else []:
        ran = run(["man", "--warnings", "-l", str(it)])
        tried.report.expect(f"man shows {it.name}", b"NAME" in ran.output and not ran.texts, ran)
    if not shutil.which("man"):
        tried.report.lacks("man shows each page", "man (Debian: man-db)")
    linted(tried.report, folder)


def linted(report: Report, folder: Path) -> None:
    """mandoc finds no fault in a page of a directory."""
    if not shutil.which("mandoc"):
        report.lacks("mandoc of each page for man", "mandoc (Debian: mandoc)")
        return
    for it in sorted(folder.iterdir()):
        report.same(f"mandoc of {it.name}", run(["mandoc", "-Tlint", str(it)]), Ran(0, b"", b""))


def dead_links(top: Path) -> List[str]:
    """The links of the pages below a directory that lead nowhere."""
    found = []
    for page in sorted(top.rglob("*.md")):
        for path, anchor in links_of(page.read_text(encoding="utf-8")):
            to = page.parent / path if path else page
            if not to.is_file() or anchor and anchor not in anchors_of(to.read_text(encoding="utf-8")):
                found.append(f"{page.relative_to(top)}: {path}#{anchor}")
    return found


def strays(top: Path) -> List[str]:
    """The code of pages below a directory, but of the log of changes, that is of the repository."""
    pages = {it: it.read_text(encoding="utf-8") for it in sorted(top.rglob("*.md")) if it.name != "CHANGELOG.md"}
    code = [(it, found) for it, text in pages.items() for found in re.findall(r"(?ms)^```.*?^```$|`[^`\n]+`", text)]
    return [f"{it.relative_to(top)}: {found}" for it, found in code if OF_REPOSITORY.search(found)]


def lost_pages(top: Path) -> List[str]:
    """What the pages for `man` below a directory name and is not there: guides, and other pages. One is of another package, and
    adf_mount is not packed everywhere."""
    folder = top / "share/man/man1"
    there = {*(it.name for it in (top / PAGES).iterdir()), *(f"{name_of(it)}(1)" for it in folder.iterdir()), "fusermount3(1)", "adf_mount(1)"}
    found = []
    for it in sorted(folder.iterdir()):
        text = gzip.decompress(it.read_bytes()).decode()
        named = [*re.findall(r"(?m)^\.Pa ([A-Z]+\.md)", text), *(f"{page}(1)" for page in re.findall(r"(?m)^\.Nm (\w+) Ns \(1\)", text))]
        found += [f"{it.name}: {name}" for name in named or ["nothing"] if name not in there]
    return found


def links(report: Report, name: str, top: Path) -> None:
    """Each link of each page below a directory leads to a page there, and so does what the pages for `man` name. No page sends its
    reader to the repository. The README is that of the packages."""
    report.same(f"{name}: each link leads somewhere", dead_links(top), [])
    report.same(f"{name}: each page that one for man names is there", lost_pages(top), [])
    report.same(f"{name}: no page is for users of the repository", strays(top), [])
    text = (top / PAGES / "README.md").read_text(encoding="utf-8")
    report.expect(f"{name}: README is that of the packages", text.startswith("# jiponuwha\n") and "@" not in text, "it is not")


def pages_of_archive(tried: Elsewhere) -> None:
    links(tried.report, "the archive", tried.dist)


# ---- What is in it ----


def install(tried: Elsewhere) -> None:
    """The lines of INSTALL for the archive put its program on the path."""
    page = section_of((tried.dist / "INSTALL.md").read_text(encoding="utf-8"), "The archive")
    (lines,) = code_of(page, "sh")
    os.mkdir("install")
    shutil.copy(tried.archive, "install/jiponuwha-here.tar.gz")
    ran = run(["env", "-C", "install", "bash", "-e", "-c", f"{lines}command -v adf_serve; man -w adf_serve"])
    folder = tried.top / "install" / tried.dist.name
    wanted = [str(folder / "bin/adf_serve"), *([str(folder / "share/man/man1/adf_serve.1.gz")] if shutil.which("man") else [])]
    tried.report.same("INSTALL.md: its lines", ran.output.decode().split("\n")[: len(wanted)], wanted)


def walks(tried: Elsewhere) -> None:
    """README's tour and QUICKSTART, each in an empty directory, with the program on the path."""
    pages = tried.dist / PAGES
    for name in ("README.md", "QUICKSTART.md"):
        os.mkdir(name)
    readme(tried.report, "README.md", (pages / "README.md").read_text(), tried.bare("README.md"), FLOPPY)
    walk(tried.report, "QUICKSTART.md", (pages / "QUICKSTART.md").read_text(), tried.bare("QUICKSTART.md"))


Options = List[Tuple[str, List[str]]]


def told_options(dist: Path) -> Optional[Options]:
    """The commands in the program's help, with the options in their own help; None if there are none."""

    def help_of(*words: str) -> str:
        ran = run([str(dist / "bin/adf_serve"), *words, "--help"])
        return (ran.output + ran.texts).decode()

    def options_of(command: str) -> List[str]:
        return sorted(set(re.findall(r"(?m)^ {2,6}(?:-[a-z], )?(--[a-z]+)", help_of(command))) - {"--help"})

    names = re.findall(r"(?m)^  ([a-z]+) ", help_of().partition("Options:")[0])
    return sorted((it, options_of(it)) for it in names) or None


def completed_options(dist: Path) -> Options:
    """The commands that are completed, with their options."""
    text = (dist / "share/bash-completion/completions/adf_serve").read_text()
    return sorted((name, sorted(taken.split())) for name, taken in re.findall(r"(?m)^        ([a-z]+)\) options='([^']*)'", text))


def options(tried: Elsewhere) -> None:
    """Each command in the program's help is completed with its options, and no other."""
    told = told_options(tried.dist)
    if told is None:
        tried.report.skip("the commands of --help", "help lists none")
    else:
        tried.report.same("the completions have the commands and options of --help", completed_options(tried.dist), told)


def library(tried: Elsewhere) -> None:
    """The first program of the library's page finds the library by pkg-config, and runs on the floppy of QUICKSTART."""
    if not shutil.which("pkg-config") or not shutil.which(COMPILER):
        tried.report.lacks("the library", "C compiler, or no pkg-config")
        return
    page = (tried.dist / PAGES / "LIBRARY.md").read_text()
    tried.write("QUICKSTART.md/first.c", first_program(page))
    front = tried.bare("QUICKSTART.md")
    tried.report.succeeds("LIBRARY.md: the first program", [*front, "bash", "-e", "-c", link_lines(page, tried.dist, COMPILER)])
    walk(tried.report, "LIBRARY.md", page, front)


def use_mount(tried: Elsewhere) -> None:
    """A floppy is mounted, and has the new file afterwards."""
    front = tried.bare()
    os.mkdir("mounted")
    done([*front, "adf_serve", "blank", "--ffs", "Work", "mounted.adf"])
    done([*front, "adf_mount", "mounted.adf", "mounted"])
    try:
        Path("mounted/file").write_text("hello\n")
        if Path("mounted/FILE").read_text() != "hello\n":
            raise Failed("mounted/FILE has other bytes")
    finally:
        done([*front, "fusermount3", "-u", "mounted"])
    wait_until_free("mounted.adf")
    done([*front, "adf_serve", "check", "mounted.adf"])
    if b" file\n" not in done([*front, "adf_serve", "list", "mounted.adf"]):
        raise Failed("the image has no file")


def mount(tried: Elsewhere) -> None:
    if not (tried.dist / "bin/adf_mount").exists():
        tried.report.lacks("the mount", "libfuse 3 (Debian: libfuse3-dev, pkgconf)")
    elif Path("/dev/fuse").is_char_device() and shutil.which("fusermount3"):
        tried.report.ends("the mount", partial(use_mount, tried))
    else:
        tried.report.lacks("the mount", "/dev/fuse, or no fusermount3")


# ---- The Debian packages ----

def packed(tried: Elsewhere) -> List[Path]:
    """The new Debian packages. The list is empty if the machine cannot pack them."""
    lacks = lacking(tried.program)
    tools = [it for it in ("dpkg-deb", "dpkg-shlibdeps", "strip", "nm") if not shutil.which(it)]
    if lacks or tools:
        tried.report.skip("the Debian packages", lacks or f"there is no {tools[0]} (Debian: dpkg-dev, binutils)")
        return []
    for folder in ("packages", "packages again"):
        ran = run([DIST, "--debian", folder], longest=None)
        tried.report.expect(f"{folder} are packed", ran.status == 0, ran)
    files, again = (sorted(Path(it).glob("*.deb")) for it in ("packages", "packages again"))
    names = [it.name.partition("_")[0] for it in files]
    tried.report.same("the packages", sorted(names), ["jiponuwha", "jiponuwha-tools", "libjiponuwha-dev", "libjiponuwha1", "python3-jiponuwha"])
    same = [it.read_bytes() for it in files] == [it.read_bytes() for it in again]
    tried.report.expect("packed again they have the same bytes", same)
    return [it.resolve() for it in files]


def lintian(report: Report, files: List[Path]) -> None:
    """lintian says nothing of the packages, and no package has an override."""
    if not shutil.which("lintian"):
        report.lacks("what lintian says", "lintian (Debian: lintian)")
        return
    words = ["lintian", "--allow-root", "--no-cfg", "--show-overrides", "--tag-display-limit", "0", *map(str, files)]
    report.same("lintian says nothing", run(words, longest=None), Ran(0, b"", b""))


def put_in(report: Report, files: List[Path], root: Path) -> None:
    """Installs the packages in an empty directory: by dpkg as root, or else by unpacking them."""
    if os.geteuid() != 0 or not shutil.which("dpkg"):
        report.skip("the packages are installed by dpkg", "this is not root, or there is no dpkg; they are unpacked")
        for it in files:
            report.succeeds(f"{it.name} is unpacked", ["dpkg-deb", "-x", str(it), str(root)])
        return
    (root / "var/lib/dpkg/updates").mkdir(parents=True)
    (root / "var/lib/dpkg/info").mkdir()
    (root / "var/lib/dpkg/status").touch()
    # (the empty directory has no C library, no Python and no fuse3)
    words = ["dpkg", f"--root={root}", "--force-depends", "--install", *map(str, files)]
    ran = run(words, env={"PATH": ROOT_PATH})
    report.expect("the packages are installed", ran.status == 0, ran)
    listed = run(["dpkg-query", f"--admindir={root}/var/lib/dpkg", "-W", "-f", "${db:Status-Status}\n"]).output.split()
    report.same("each package is installed", listed, [b"installed"] * len(files))


def alone(report: Report, root: Path) -> None:
    """The program runs with the directory as its root, where beside the packages only the C library is, and makes a floppy."""
    chroot = shutil.which("chroot", path=ROOT_PATH)
    if os.geteuid() != 0 or not chroot or not shutil.which("ldd"):
        report.skip("the program needs no other package", "this is not root, or there is no chroot or ldd")
        return
    # (each line has a name, a path and an address)
    for it in re.findall(r"(/\S+) \(0x", run(["ldd", str(root / "usr/bin/adf_serve")]).output.decode()):
        (root / it[1:]).parent.mkdir(parents=True, exist_ok=True)
        shutil.copy(it, root / it[1:])
    for words, output in ((["blank", "Work", "/made.adf"], b""), (["check", "/made.adf"], b"ok\n")):
        report.check(f"without another package: {words[0]}", run([chroot, str(root), "/usr/bin/adf_serve", *words]), 0, output)


def taken_out(report: Report, files: List[Path], root: Path) -> None:
    """Once the packages are removed, no file of theirs is left."""
    if (root / "var/lib/dpkg").is_dir():
        names = [it.name.partition("_")[0] for it in files]
        words = ["dpkg", f"--root={root}", "--force-depends", "--purge", *names]
        ran = run(words, env={"PATH": ROOT_PATH})
        report.expect("the packages are removed", ran.status == 0, ran)
        report.same("nothing of them is left", [it for it in (root / "usr").rglob("*") if not it.is_dir()], [])


def same_code(tried: Elsewhere, root: Path) -> Optional[str]:
    """What is wrong if the installed program has other code or data than the proved one. Only its symbols are stripped."""
    for name, program in (("proved", tried.program), ("installed", root / "usr/bin/adf_serve")):
        done(["objcopy", "-O", "binary", str(program), name])
    return None if tried.content("proved") == tried.content("installed") else "it differs"


def use_installed(tried: Elsewhere, root: Path, multiarch: str) -> None:
    """Runs README's tour and the first hour of QUICKSTART, builds a C program by pkg-config and by CMake, and imports the package for
    Python."""
    report, lib, example = tried.report, root / "usr/lib" / multiarch, root / "usr/share/doc/libjiponuwha-dev/examples/tour.c"
    for name in ("tour", "hour"):
        os.makedirs(f"by packages/{name}")
    front, pages = [f"PATH={root}/usr/bin:{BARE_PATH}", "LC_ALL=C.UTF-8", f"HOME={tried.top}"], root / "usr/share/doc/jiponuwha"
    in_tour, in_hour = (["env", "-i", "-C", f"by packages/{it}", *front] for it in ("tour", "hour"))
    readme(report, "the packages: README.md", (pages / "README.md").read_text(), in_tour, FLOPPY)
    walk(report, "the packages: QUICKSTART.md", (pages / "QUICKSTART.md").read_text(), in_hour)
    found = {"PKG_CONFIG_SYSROOT_DIR": str(root), "PKG_CONFIG_LIBDIR": str(lib / "pkgconfig"), "LD_LIBRARY_PATH": str(lib)}
    if shutil.which("pkg-config") and shutil.which(COMPILER):
        for name in ("jiponuwha", "jiponuwha-shared"):
            flags = done(["pkg-config", "--cflags", "--libs", name], env=found).decode().split()
            words = [COMPILER, "-std=c11", str(example), *flags, "-o", f"tour-{name}"]
            report.succeeds(f"the packages: a C program by {name}", words)
            report.succeeds(f"the packages: it runs by {name}", [f"./tour-{name}", f"{name}.adf"], env=found)
        report.expect("the packages: it loads the shared library", needs(b"libjiponuwha.so.1", "tour-jiponuwha-shared"))
    else:
        report.lacks("the packages: a C program", "C compiler, or no pkg-config")
    by_cmake(tried, root, example)
    if sys.version_info >= (3, 11):
        imported = {"PYTHONPATH": str(root / "usr/lib/python3/dist-packages"), "LD_LIBRARY_PATH": str(lib), "JIPONUWHA_LIBRARY": ""}
        report.succeeds("the packages: Python imports", [sys.executable, "-B", "-c", IMPORTS, str(root)], env=imported)
        words = [sys.executable, "-B", str(root / "usr/bin/jip")]
        report.succeeds("the packages: the tool makes an image", [*words, "new", "-q", "tool.adf", "Work"], env=imported)
        report.check("the packages: the tool reads it", run([*words, "label", "tool.adf"], env=imported), 0, b"Work\n")
    else:
        report.skip("the packages: Python imports", "this is no Python 3.11 or later")


def by_cmake(tried: Elsewhere, root: Path, example: Path) -> None:
    if not shutil.which("cmake") or not shutil.which(COMPILER):
        tried.report.lacks("the packages: a C program by CMake", "CMake, or no C compiler")
        return
    os.mkdir("cmake")
    tried.write("cmake/CMakeLists.txt", CMAKE.encode())
    words = ["cmake", "-S", "cmake", "-B", "cmake/built", f"-DCMAKE_PREFIX_PATH={root}/usr", f"-DTOUR={example}"]
    tried.report.succeeds("the packages: CMake finds the library", words)
    tried.report.succeeds("the packages: a C program by CMake", ["cmake", "--build", "cmake/built"])
    for kind in ("jiponuwha", "shared"):
        tried.report.succeeds(f"the packages: it runs by CMake, {kind}", [f"cmake/built/tour-{kind}", f"cmake-{kind}.adf"])


def needs(library: bytes, program: str) -> bool:
    """Whether a program loads a shared library when it starts."""
    return not shutil.which("readelf") or library in done(["readelf", "-d", program])


def packages(tried: Elsewhere) -> None:
    files = packed(tried)
    if files:
        lintian(tried.report, files)
        root = tried.top / "root"
        root.mkdir()
        put_in(tried.report, files, root)
        links(tried.report, "the packages", root / "usr")
        alone(tried.report, root)
        beside = {it.name for it in files[0].parent.iterdir()} - {it.name for it in files}
        tried.report.same("INSTALL.md stands beside the packages", beside, {"INSTALL.md"})
        tried.report.ends("the installed program has the code of the proved one", partial(same_code, tried, root))
        use_installed(tried, root, done(["dpkg-architecture", "-qDEB_HOST_MULTIARCH"]).decode().strip())
        taken_out(tried.report, files, root)


def main(words: List[str]) -> int:
    report = Report()
    archive, program = Path(words[0]).resolve() if words else None, os.environ.get("PROGRAM")
    with Elsewhere(built_program([program] if program else []), report) as tried:
        report.succeeds("the script can be read", ["bash", "-n", DIST])
        archive = archive or pack(tried)
        if archive:
            unpack(tried, archive)
            report.same("the kit is not in the path", shutil.which("rt", path=BARE_PATH), None)
            for part in (files, manual, pages_of_archive, install, walks, options, library, mount):
                tried.part(part)
        if not words:
            tried.part(packages)
    return report.end()


if __name__ == "__main__":
    sys.exit(main(sys.argv[1:]))
