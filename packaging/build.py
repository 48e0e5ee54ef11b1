#!/usr/bin/env python3
"""Makes a Debian package of the built program: the program with its man pages and completions, units of systemd, the Wireshark dissector,
the schema of layouts, and the examples.

    python3 packaging/build.py STATION [FOLDER]      the program, and where the package is written: here, where none is told
"""
import gzip
import os
import pathlib
import re
import shutil
import subprocess
import sys
import tempfile

import help_pages

TOP = pathlib.Path(__file__).resolve().parent.parent
OWN = pathlib.Path(__file__).resolve().parent
MAINTAINER = "Zendurai maintainers <maintainers@users.noreply.zendurai.example>"
DISSECTORS = "usr/lib/x86_64-linux-gnu/wireshark/plugins"


def version_of(program):
    """The version that the program tells of itself."""
    return help_pages.printed(program, "--version").split()[-1]


def date_of_change():
    """The day of the last commit, so that the same tree makes the same package."""
    return subprocess.run(["git", "-C", TOP, "log", "-1", "--format=%ct"], check=True, capture_output=True, text=True).stdout.strip()


class Root:
    """The files of the package, below a folder."""

    def __init__(self, at):
        self.at = pathlib.Path(at)

    def write(self, path, text, mode=0o644):
        to = self.at / path
        to.parent.mkdir(parents=True, exist_ok=True)
        to.write_bytes(text if isinstance(text, bytes) else text.encode())
        to.chmod(mode)

    def write_packed(self, path, text):
        self.write(f"{path}.gz", gzip.compress(text.encode(), 9, mtime=0))

    def copy(self, file, path, mode=0o644):
        self.write(path, pathlib.Path(file).read_bytes(), mode)


def put_program(root, program):
    root.copy(program, "usr/bin/station", 0o755)
    subprocess.run(["strip", "--strip-unneeded", "--remove-section=.comment", root.at / "usr/bin/station"], check=True)


def put_help(root, program, version, day):
    for name, text in help_pages.man_pages(program, version, day).items():
        root.write_packed(f"usr/share/man/man1/{name}", text)
    root.write("usr/share/bash-completion/completions/station", help_pages.bash_completion(program))
    root.write("usr/share/zsh/vendor-completions/_station", help_pages.zsh_completion(program))


def put_units(root):
    for file in sorted((OWN / "systemd").iterdir()):
        root.copy(file, f"usr/lib/systemd/system/{file.name}")


def put_examples(root):
    for file in sorted((TOP / "examples").rglob("*")):
        if file.is_file() and file.suffix in (".toml", ".addresses", ".events", ".script"):
            root.copy(file, f"usr/share/doc/zendurai/examples/{file.relative_to(TOP / 'examples')}")
    root.copy(OWN / "station.conf", "usr/share/doc/zendurai/examples/station.conf")
    for name in ("field.py", "start.py"):
        root.copy(TOP / "examples" / "machines" / name, f"usr/share/zendurai/machines/{name}", 0o755)
    root.copy(TOP / "docs" / "layout.schema.json", "usr/share/zendurai/layout.schema.json")
    root.copy(TOP / "wireshark" / "zendurai.lua", f"{DISSECTORS}/zendurai.lua")


def put_documents(root, version, date):
    changes = f"zendurai ({version}) stable; urgency=medium\n\n  * As CHANGELOG.md of the repository tells.\n\n -- {MAINTAINER}  {date}\n"
    root.write_packed("usr/share/doc/zendurai/changelog", changes)
    root.copy(OWN / "copyright", "usr/share/doc/zendurai/copyright")
    for name in ("OPERATING", "INTERLOCKING", "PANEL", "DEPLOYMENT", "PROMISE"):
        root.write_packed(f"usr/share/doc/zendurai/{name}.md", (TOP / "docs" / f"{name}.md").read_text(encoding="utf-8"))


def control(root, version):
    """The head of the package. The program names the libraries that it was linked with."""
    size = sum(it.stat().st_size for it in root.at.rglob("*") if it.is_file()) // 1024 + 1
    lines = [
        ("Package", "zendurai"),
        ("Version", version),
        ("Architecture", "amd64"),
        ("Maintainer", MAINTAINER),
        ("Installed-Size", str(size)),
        ("Depends", depends(root)),
        ("Suggests", "python3, wireshark"),
        ("Section", "misc"),
        ("Priority", "optional"),
        ("Description", "interlocking of a railway station, proved from the wire to the lamp"),
    ]
    about = " A station interlocking with its object controllers and the links between\n them, as one process or as nodes of their own, with a signaller's panel."
    return "\n".join(f"{name}: {value}" for name, value in lines) + f"\n{about}\n"


def depends(root):
    """What the program needs of the C library: the newest of its versions that it names."""
    told = subprocess.run(["objdump", "-T", root.at / "usr/bin/station"], check=True, capture_output=True, text=True).stdout
    versions = {tuple(map(int, it.split("."))) for it in re.findall(r"GLIBC_([\d.]+)", told)}
    return f"libc6 (>= {'.'.join(map(str, max(versions, default=(2, 36))))})"


def build(program, folder):
    version, seconds = version_of(program), date_of_change()
    when = lambda form: subprocess.run(["date", "-u", "-d", f"@{seconds}", form], check=True, capture_output=True, text=True).stdout.strip()
    with tempfile.TemporaryDirectory(prefix="zendurai-package-") as room:
        root = Root(f"{room}/root")
        put_program(root, program)
        put_help(root, program, version, when("+%Y-%m-%d"))
        put_units(root)
        put_examples(root)
        put_documents(root, version, when("+%a, %d %b %Y %H:%M:%S +0000"))
        head = control(root, version)
        root.write("DEBIAN/control", head)
        sums = [it for it in sorted(root.at.rglob("*")) if it.is_file() and "DEBIAN" not in it.parts]
        told = subprocess.run(["md5sum", *(it.relative_to(root.at) for it in sums)], cwd=root.at, check=True, capture_output=True, text=True).stdout
        root.write("DEBIAN/md5sums", told)
        for it in root.at.rglob("*"):
            if it.is_dir():
                it.chmod(0o755)
        made = pathlib.Path(folder, f"zendurai_{version}_amd64.deb").resolve()
        words = ["dpkg-deb", "--root-owner-group", "--build", root.at, made]
        subprocess.run(words, check=True, stdout=subprocess.DEVNULL, env=os.environ | {"SOURCE_DATE_EPOCH": seconds})
    return made


def main(program, folder="."):
    if not shutil.which("dpkg-deb"):
        sys.exit("dpkg-deb isn't there")
    print(build(os.path.abspath(program), folder))


if __name__ == "__main__":
    if len(sys.argv) not in (2, 3):
        sys.exit(__doc__)
    main(*sys.argv[1:])
