#!/usr/bin/env python3
"""Makes the Debian package of a built program and judges it, as root: `lintian` finds no error, each man page is read without a warning,
both shells read their completions, `systemd-analyze` finds no fault in the units and calls their exposure at most 2.0, each of them ends its
process by a file; and in a root of its own the package is installed, its program checks the layout that came with it, and after its removal nothing of it is left.

    python3 bench/package.py STATION
"""
import os
import pathlib
import re
import shutil
import subprocess
import sys
import tempfile

TOP = pathlib.Path(__file__).resolve().parent.parent
SUITE = "bookworm"
MOST_EXPOSED = 2.0


def run(*words, **how):
    return subprocess.run([str(it) for it in words], text=True, stdout=subprocess.PIPE, stderr=subprocess.STDOUT, **how)


def well(what, ran, is_well=None):
    """Tells what was tried, and ends where it isn't well."""
    if not (ran.returncode == 0 if is_well is None else is_well):
        sys.exit(f"{what}: NOT WELL\n{ran.stdout}")
    print(f"{what}: well", flush=True)
    return ran.stdout


def lint(package):
    ran = run("lintian", "--allow-root", "--fail-on", "error", package)
    well("lintian", ran)
    warnings = [it for it in ran.stdout.splitlines() if it.startswith("W:")]
    print(*warnings, sep="\n")


def read_pages(root):
    for page in sorted((root / "usr/share/man/man1").iterdir()):
        ran = run("man", "--warnings", "--encoding=UTF-8", "--local-file", page, env=os.environ | {"MANROFFSEQ": "", "LC_ALL": "C.UTF-8"})
        well(page.name, ran, ran.returncode == 0 and "warning" not in ran.stdout.split("\n")[0])


def read_completions(root):
    well("bash's completion", run("bash", "-n", root / "usr/share/bash-completion/completions/station"))
    well("zsh's completion", run("zsh", "-n", root / "usr/share/zsh/vendor-completions/_station"))
    asked = f'. {root}/usr/share/bash-completion/completions/station; COMP_WORDS=(station node --ad); COMP_CWORD=2; _station; echo "${{COMPREPLY[@]}}"'
    ran = run("bash", "-c", asked)
    well("an option is completed", ran, ran.stdout.strip() == "--addresses")


def judge_units(room, root):
    """In a root that has what the units name: the judged instance is halden's."""
    units = pathlib.Path(room, "units")
    units.mkdir()
    for file in (root / "usr/lib/systemd/system").iterdir():
        shutil.copy(file, units / file.name)
        shutil.copy(file, units / file.name.replace("@", "@halden"))
    for file in sorted(units.glob("*@halden.service")):
        ends_by_a_file(file)
    for file in sorted(units.glob("*@halden.*")):
        ran = run("systemd-analyze", "verify", "--man=no", file)
        well(f"verify {file.name}", ran, ran.returncode == 0 and not ran.stdout.strip())
        if file.suffix == ".service":
            ran = run("systemd-analyze", "security", "--offline=true", "--no-pager", file)
            found = re.search(r"Overall exposure level .*: ([\d.]+)", ran.stdout)
            well(f"exposure of {file.name}, {found[1]}", ran, float(found[1]) <= MOST_EXPOSED)


def ends_by_a_file(file):
    """What the unit starts looks for the file that its end makes."""
    text = file.read_text(encoding="utf-8")
    looked_for = re.findall(r"^ExecStart=.*--stop-file[ =](\S+)", text, re.MULTILINE)
    made = re.findall(r"^ExecStop=/usr/bin/touch (\S+)$", text, re.MULTILINE)
    if len(made) != 1 or made != looked_for:
        sys.exit(f"{file.name} doesn't end by a file: NOT WELL")
    print(f"{file.name} ends by a file: well", flush=True)


def install(room, package):
    """Installs and removes it in a root of its own."""
    at = pathlib.Path(room, "chroot")
    well("debootstrap", run("debootstrap", "--variant=minbase", SUITE, at))
    before = files_of(at)
    shutil.copy(package, at / "zendurai.deb")
    well("installed", run("chroot", at, "dpkg", "--install", "/zendurai.deb"))
    layout = "/usr/share/doc/zendurai/examples/halden.toml"
    ran = run("chroot", at, "station", "check", layout)
    well("the installed program checks Halden", ran, ran.stdout.startswith("ok: "))
    well("removed", run("chroot", at, "dpkg", "--purge", "zendurai"))
    (at / "zendurai.deb").unlink()
    left = {it for it in files_of(at) - before if not it.startswith("var/")}
    if left:
        sys.exit(f"left after its removal: {', '.join(sorted(left))}")
    print("nothing is left")


def files_of(at):
    return {str(it.relative_to(at)) for top in ("usr", "etc", "var") for it in (at / top).rglob("*")}


def main(program):
    # (units are judged by what this machine has at their paths)
    own = pathlib.Path("/usr/bin/station")
    if own.exists():
        sys.exit("/usr/bin/station is there already")
    with tempfile.TemporaryDirectory(prefix="zendurai-package-") as room:
        made = run(sys.executable, TOP / "packaging/build.py", program, room)
        package = pathlib.Path(well("built", made).strip())
        print(f"{package.name}, {package.stat().st_size / 1e6:.1f} MB")
        root = pathlib.Path(room, "root")
        run("dpkg-deb", "--extract", package, root, check=True)
        lint(package)
        read_pages(root)
        read_completions(root)
        shutil.copy(root / "usr/bin/station", own)
        try:
            judge_units(room, root)
        finally:
            own.unlink()
        install(room, package)


if __name__ == "__main__":
    if len(sys.argv) != 2:
        sys.exit(__doc__)
    main(sys.argv[1])
