#!/usr/bin/env python3
"""Makes a package for Debian and Ubuntu of the proved programs.

    tools/package.py [--to FOLDER] [--version V] [--in CHECKOUT] [--dewfelt PROGRAM] [--jt808 PROGRAM]

The package `dewfelt` has the programs dewfelt and jt808 as ./dewfelt and ./jt808 have proved and built them, without a change; their
pages for man, made of docs/MANUAL.md; the unit of systemd, made of samples/platform.service; completions for bash, zsh and fish, made
of the programs' own words; documents and samples. The page of the service is within dewfelt. It needs no Rattle kit where it is
installed.

An installation makes the user dewfelt, the folder /var/lib/dewfelt, and in it a fleet with a secret of its own, each where it is
not there. It starts nothing. An upgrade starts a running service anew; a removal stops it. What stands in /var/lib/dewfelt is never
changed and never removed. /etc/default/dewfelt has words for the service, and is kept as Debian keeps such files.

--version is that of the package (default: the programs', with the date and the name of the commit). --in takes another checkout. With
--dewfelt or --jt808 programs of another place are taken, and the package says that they may not be proved. It wants dpkg-deb. It
prints the file's path (default: in out/). The status is 0; 2 where the words are wrong, a program is not built or dpkg-deb is missing.
"""
import glob
import gzip
import hashlib
import os
import re
import shutil
import subprocess
import tempfile
import time

import command_line
import completions
import manual_pages
import unproved

PROGRAMS = {"dewfelt": "a platform for JT/T 808 terminals", "jt808": "a viewer, terminal and platform for JT/T 808, for tests"}
HOME, UNIT, WORDS_FILE = "/var/lib/dewfelt", "usr/lib/systemd/system/dewfelt.service", "etc/default/dewfelt"
DOCUMENTS = "usr/share/doc/dewfelt"
PACKED_DOCUMENTS = ("MANUAL", "MANUAL.zh-CN", "WIRE", "PROMISES", "MEASURES")
# What the unit of samples/ says, and what that of the package says.
CHANGES = (
    ("StateDirectory=dewfelt\n", "StateDirectory=dewfelt\nStateDirectoryMode=0750\nEnvironmentFile=-/etc/default/dewfelt\n"),
    ("ExecStart=/usr/local/bin/dewfelt serve /var/lib/dewfelt\n", "ExecStart=/usr/bin/dewfelt serve /var/lib/dewfelt $DEWFELT_OPTIONS\n"),
    ("ExecStop=/usr/local/bin/dewfelt stop", "ExecStop=/usr/bin/dewfelt stop"),
)
OPTIONS = """# Words for `dewfelt serve` as the service runs it, as --listen 0.0.0.0:8808. The same can stand in /var/lib/dewfelt/dewfelt.toml.
DEWFELT_OPTIONS=
"""
AFTER_INSTALLATION = """#!/bin/sh
# Makes the user, the folder and the fleet of the service where they are not there. What is there stays as it is.
set -e
home=/var/lib/dewfelt
if [ "$1" = configure ]; then
    getent passwd dewfelt >/dev/null ||
        useradd --system --user-group --home-dir $home --no-create-home --shell /usr/sbin/nologin dewfelt
    [ -d $home ] || install -d -o dewfelt -g dewfelt -m 750 $home
    if ! [ -e $home/fleet ]; then
        umask 077
        {
            echo '# Who may report. The secret was made at the installation. Name each vehicle by its plate, its terminal id and its phone:'
            echo '# vehicle "AB12345" "1234567" 013912345678'
            printf 'secret '
            head -c 32 /dev/urandom | od -An -v -tx1 | tr -d ' \\n'
            echo
        } >$home/.fleet
        chown dewfelt:dewfelt $home/.fleet
        mv $home/.fleet $home/fleet
    fi
    if [ -d /run/systemd/system ]; then
        systemctl daemon-reload
        # (it was installed before, so it may run)
        [ -z "$2" ] || systemctl try-restart dewfelt.service
    fi
fi
"""
BEFORE_REMOVAL = """#!/bin/sh
# Stops the service.
set -e
if [ "$1" = remove ] && [ -d /run/systemd/system ]; then
    systemctl stop dewfelt.service
fi
"""
AFTER_REMOVAL = """#!/bin/sh
# Leaves the service's folder and user, which the rows belong to.
set -e
if [ "$1" = purge ]; then
    rm -f /etc/systemd/system/multi-user.target.wants/dewfelt.service
    [ ! -d /var/lib/dewfelt ] || echo "/var/lib/dewfelt is left as it is: it has the fleet and what was reported"
fi
if [ -d /run/systemd/system ] && { [ "$1" = remove ] || [ "$1" = purge ]; }; then
    systemctl daemon-reload
fi
"""
BEGINNING = """Dewfelt for Debian

A platform for terminals of JT/T 808. Nothing runs after the installation. To begin:

1. Name the vehicles in /var/lib/dewfelt/fleet, a line each, and settings in /var/lib/dewfelt/dewfelt.toml if others are wanted than
   the defaults (examples/service/dewfelt.toml has them): it listens on every address at port 8808, its page is http://127.0.0.1:8080
2. dewfelt check /var/lib/dewfelt
3. systemctl enable --now dewfelt
4. sudo -u dewfelt dewfelt page /var/lib/dewfelt        the address of the page, with its token
   journalctl -u dewfelt                               what happens, a line an event

An upgrade starts the service anew: links end, terminals dial again, and nothing that was accepted is lost. Neither an upgrade nor a
removal nor a purge changes anything in /var/lib/dewfelt. Everything else is in dewfelt(1), and of the program jt808 in jt808(1).

{proof}
"""


class Source:
    """The checkout of which the package is made."""

    def __init__(self, root):
        self.root = root
        with open(f"{root}/docs/MANUAL.md", encoding="utf-8") as file:
            self.manual = file.read()
        self.commit = self.git("rev-parse", "--short=8", "HEAD")
        self.moment = int(self.git("log", "-1", "--format=%ct") or time.time())

    def git(self, *words):
        ran = subprocess.run(["git", *words], cwd=self.root, capture_output=True, text=True)
        return ran.stdout.strip() if ran.returncode == 0 else ""

    def program(self, name):
        """The path of a program that is built of these sources."""
        path = f"{self.root}/crates/{name}/out/{name}"
        remedy = f"tools/build.py {name} proves and builds it, which takes a Rattle kit"
        if not os.access(path, os.X_OK):
            raise command_line.Mistake(f"{path} is not built: {remedy}")
        sources = (it for crate in unproved.below([name], self.root) for it in glob.glob(f"{self.root}/crates/{crate}/src/**/*.rt", recursive=True))
        newer = next((it for it in sources if os.path.getmtime(it) > os.path.getmtime(path)), None)
        if newer:
            raise command_line.Mistake(f"{path} is older than {newer}: {remedy}")
        return path


def said_by(program, *words):
    ran = subprocess.run([program, *words], stdin=subprocess.DEVNULL, capture_output=True, text=True)
    return ran.stdout


def version_of(source, programs):
    """The version of the program, with the moment and the name of the commit."""
    found = re.search(r"\d+(?:\.\d+)+", said_by(programs["dewfelt"], "--version"))
    if found is None:
        raise command_line.Mistake(f"{programs['dewfelt']} --version says no version: name the program dewfelt")
    commit = f"+{time.strftime('%Y%m%d.%H%M%S', time.gmtime(source.moment))}.{source.commit}" if source.commit else ""
    return found[0] + commit


def library_of(programs):
    """The oldest C library with all that the programs call."""
    found = set()
    for path in programs.values():
        with open(path, "rb") as file:
            found.update((int(major), int(minor)) for major, minor in re.findall(rb"GLIBC_(\d+)\.(\d+)", file.read()))
    return "libc6 (>= %d.%d)" % max(found, default=(2, 28))


def licences_of_kit(root):
    """The texts of licences in the sources of the kit's crates that the programs have parts of, each with their names."""
    kit = os.path.dirname(os.path.dirname(os.path.realpath(shutil.which("rt") or "")))
    listed, found = unproved.listed(root), {}
    names = [it for crate in unproved.below(list(PROGRAMS), root) for it in listed[crate] if it not in listed]
    for name in names:
        with open(f"{kit}/rlibs/{name}.rlib/format", encoding="utf-8") as file:
            names += [it for it in re.findall(r"^dep (\w+)$", file.read(), re.M) if it not in names]
    for name in sorted(set(names)):
        for path in sorted(glob.glob(f"{kit}/rattle/{name}/LICENSE*")):
            with open(path, encoding="utf-8") as file:
                found.setdefault(file.read(), []).append(name)
    return found


def copyright_of(source):
    """The copyright file."""
    own = next((it for it in ("LICENSE", "LICENSE.md", "LICENCE", "COPYING") if os.path.isfile(f"{source.root}/{it}")), None)
    parts = ["Dewfelt\n"]
    if own:
        with open(f"{source.root}/{own}", encoding="utf-8") as file:
            parts.append(file.read())
    else:
        parts.append("No licence is given for this program. It is its owner's to choose one. Until then nobody has leave to copy or to change it, or\nto pass this package on, but from its owner.\n")
    if shutil.which("rt"):
        parts.append("The programs have parts of crates of the Rattle kit, whose licences are these.\n")
        parts += [f"-- {', '.join(names)}\n\n{text}" for text, names in licences_of_kit(source.root).items()]
    else:
        parts.append("The programs have parts of crates of the Rattle kit, which was not there when this package was made: it has their licences.\n")
    return "\n".join(parts)


class Tree:
    """The files of the package."""

    def __init__(self, root):
        self.root = root

    def put(self, path, text, mode=0o644):
        """Writes a file, of a text or octets; packed where its name ends so."""
        octets = text.encode() if isinstance(text, str) else text
        full = f"{self.root}/{path}"
        os.makedirs(os.path.dirname(full), mode=0o755, exist_ok=True)
        with open(full, "wb") as file:
            file.write(gzip.compress(octets, mtime=0) if path.endswith(".gz") else octets)
        os.chmod(full, mode)

    def copy(self, path, name, mode=0o644):
        with open(path, "rb") as file:
            self.put(name, file.read(), mode)

    def files(self):
        every = glob.glob(f"{self.root}/**/*", recursive=True)
        return sorted(it[len(self.root) + 1 :] for it in every if os.path.isfile(it) and not it.startswith(f"{self.root}/DEBIAN/"))

    def sums(self):
        found = []
        for name in self.files():
            with open(f"{self.root}/{name}", "rb") as file:
                found.append(f"{hashlib.md5(file.read()).hexdigest()}  {name}\n")
        return "".join(found)

    def kilobytes(self):
        return sum(-(-os.path.getsize(f"{self.root}/{name}") // 1024) for name in self.files())


def unit_of(source):
    """The unit of systemd."""
    with open(f"{source.root}/samples/platform.service", encoding="utf-8") as file:
        text = file.read()
    for old, new in CHANGES:
        if text.count(old) != 1:
            raise command_line.Mistake(f"samples/platform.service has no longer the line {old.strip()!r}: put what it has now into tools/package.py")
        text = text.replace(old, new)
    return f"# The service of the package dewfelt. Change it by `systemctl edit dewfelt`.\n{text[text.index('[Unit]'):]}"


def words_of(programs, source):
    """The words of both programs."""
    return [completions.of_help("dewfelt", said_by(programs["dewfelt"], "--help")), completions.of_usage("jt808", said_by(programs["jt808"]), source.manual)]


def synopsis_of(words):
    return [f"{words.program} {command}" + "".join(f" {it}" for it in takes if not it.startswith("--")) + (" [OPTIONS]" if any(it.startswith("--") for it in takes) else "")
            for command, (takes, _) in words.commands.items()]


def put_words(tree, words, source, version):
    """The pages and the completions of a program."""
    day = time.strftime("%Y-%m-%d", time.gmtime(source.moment))
    page = manual_pages.page(source.manual, words.program, PROGRAMS[words.program], synopsis_of(words), version, day)
    tree.put(f"usr/share/man/man1/{words.program}.1.gz", page)
    tree.put(f"usr/share/bash-completion/completions/{words.program}", completions.bash(words))
    tree.put(f"usr/share/zsh/vendor-completions/_{words.program}", completions.zsh(words))
    tree.put(f"usr/share/fish/vendor_completions.d/{words.program}.fish", completions.fish(words))


def put_documents(tree, source, proof):
    for name in PACKED_DOCUMENTS:
        tree.copy(f"{source.root}/docs/{name}.md", f"{DOCUMENTS}/{name}.md.gz")
    for path in glob.glob(f"{source.root}/docs/*.svg"):
        tree.copy(path, f"{DOCUMENTS}/{os.path.basename(path)}")
    for path in glob.glob(f"{source.root}/samples/**/*", recursive=True):
        if os.path.isfile(path):
            tree.copy(path, f"{DOCUMENTS}/examples/{os.path.relpath(path, f'{source.root}/samples')}", 0o755 if os.access(path, os.X_OK) else 0o644)
    tree.copy(f"{source.root}/README.md", f"{DOCUMENTS}/README.md")
    tree.put(f"{DOCUMENTS}/README.Debian", BEGINNING.format(proof=proof))
    tree.put(f"{DOCUMENTS}/copyright", copyright_of(source))


def put_control(tree, version, programs, proof, source):
    """What dpkg reads, and the changelog."""
    date = time.strftime("%a, %d %b %Y %H:%M:%S +0000", time.gmtime(source.moment))
    by = "Dewfelt <dewfelt@localhost>"
    tree.put(f"{DOCUMENTS}/changelog.gz", f"dewfelt ({version}) unstable; urgency=medium\n\n  * Made of commit {source.commit or 'unknown'}.\n\n -- {by}  {date}\n")
    control = {
        "Package": "dewfelt", "Version": version, "Architecture": "amd64", "Maintainer": by, "Section": "net", "Priority": "optional",
        "Installed-Size": tree.kilobytes(), "Depends": f"{library_of(programs)}, passwd", "Suggests": "bash-completion, python3",
        "Description": f"{PROGRAMS['dewfelt']}\n dewfelt serves terminals of vehicles that report by JT/T 808, editions of 2013 and 2019, and keeps what\n"
        f" they report; jt808 views, checks and rehearses what goes between them. {proof}",
    }
    tree.put("DEBIAN/control", "".join(f"{key}: {value}\n" for key, value in control.items()))
    tree.put("DEBIAN/conffiles", f"/{WORDS_FILE}\n")
    tree.put("DEBIAN/md5sums", tree.sums())
    for name, text in (("postinst", AFTER_INSTALLATION), ("prerm", BEFORE_REMOVAL), ("postrm", AFTER_REMOVAL)):
        tree.put(f"DEBIAN/{name}", text, 0o755)


def fill(tree, source, programs, version, proof):
    for name, path in programs.items():
        tree.copy(path, f"usr/bin/{name}", 0o755)
    for words in words_of(programs, source):
        put_words(tree, words, source, version)
    tree.put(UNIT, unit_of(source))
    tree.put(WORDS_FILE, OPTIONS)
    put_documents(tree, source, proof)
    put_control(tree, version, programs, proof, source)


def read_words():
    asked = command_line.Words(__doc__)
    asked.add_argument("--to", metavar="FOLDER", type=command_line.folder, help="where the package is written (default: out/)")
    asked.add_argument("--version", metavar="V", help="of the package")
    asked.add_argument("--in", dest="root", metavar="CHECKOUT", type=command_line.folder, default=command_line.ROOT, help="default: this one")
    for name in PROGRAMS:
        asked.add_argument(f"--{name}", metavar="PROGRAM", type=command_line.program, help=f"default: crates/{name}/out/{name}")
    words = asked.parse_args()
    if words.version and not re.fullmatch(r"\d[A-Za-z0-9.+~-]*", words.version):
        asked.error(f"--version {words.version} is no version of a package: a digit first, then digits, letters and . + ~ -")
    return words


def main():
    words = read_words()
    command_line.want_command("dpkg-deb", "dpkg")
    source = Source(os.path.realpath(words.root))
    programs = {name: getattr(words, name) or source.program(name) for name in PROGRAMS}
    proof = f"They were proved and built at commit {source.commit or 'unknown'}."
    if any(getattr(words, name) for name in PROGRAMS):
        proof = "They were named to who made this package, and may not be proved."
    version = words.version or version_of(source, programs)
    to = words.to or f"{command_line.ROOT}/out"
    os.makedirs(to, exist_ok=True)
    made = os.path.join(to, f"dewfelt_{version}_amd64.deb")
    with tempfile.TemporaryDirectory(prefix="package-") as folder:
        os.chmod(folder, 0o755)
        fill(Tree(folder), source, programs, version, proof)
        environment = {**os.environ, "SOURCE_DATE_EPOCH": str(source.moment)}
        subprocess.run(["dpkg-deb", "--root-owner-group", "--build", folder, made], check=True, env=environment, stdout=subprocess.DEVNULL)
    print(made)
    return 0


if __name__ == "__main__":
    command_line.run(main)
