"""Debian's packages, fetched and unpacked into a folder: nothing is installed on this machine.

apt is given lists and a cache of its own, so that backports and another mirror can be asked without a
change to the machine's sources.
"""
import re
import subprocess
from pathlib import Path
from typing import List, NoReturn

GUEST = ['busybox-static', 'python3.11-minimal', 'libpython3.11-minimal', 'libpython3.11-stdlib',
         'libexpat1', 'zlib1g', 'libc6']
KEYRING = '/usr/share/keyrings/debian-archive-keyring.gpg'
SUITES = [('', 'bookworm'), ('', 'bookworm-backports'), ('-security', 'bookworm-security')]


class Impossible(Exception):
    """This machine or this mirror doesn't give what the trial needs."""


def refuse(reason: str) -> NoReturn:
    """Ends the trial with its reason."""
    raise Impossible(reason)


class Packages:
    """The mirror's packages, under one folder."""

    def __init__(self, folder: Path, mirror: str) -> None:
        self.folder = folder
        self.apt = folder / 'apt'
        for part in ('lists/partial', 'cache/archives/partial'):
            (self.apt / part).mkdir(parents=True, exist_ok=True)
        sources = self.apt / 'sources.list'
        lines = [f'deb [signed-by={KEYRING}] {mirror}{ending} {suite} main\n' for ending, suite in SUITES]
        fresh = not sources.exists() or sources.read_text() != ''.join(lines)
        sources.write_text(''.join(lines))
        self.options = ['-o', f'Dir::Etc::SourceList={sources}', '-o', 'Dir::Etc::SourceParts=/dev/null',
                        '-o', f'Dir::State::Lists={self.apt}/lists', '-o', f'Dir::Cache={self.apt}/cache',
                        '-o', 'APT::Sandbox::User=root']
        if fresh:
            self.run('apt-get', 'update')

    def run(self, program: str, *words: str, where: str = '.') -> str:
        """What one of apt's programs says, with lists and cache of ours."""
        done = subprocess.run([program, *self.options, *words], cwd=where, text=True,
                              stdout=subprocess.PIPE, stderr=subprocess.STDOUT)
        if done.returncode:
            refuse(f'{program} {" ".join(words)}: {done.stdout.strip()[-600:]}')
        return done.stdout

    def newest_kernel(self, line: str) -> str:
        """The newest kernel of a line (6.1, 6.12), as its packages spell it: 6.1.0-56-amd64."""
        found: List[str] = re.findall(rf'^linux-image-({re.escape(line)}\.[\w.+-]*-amd64) ',
                           self.run('apt-cache', 'search', '--names-only', f'^linux-image-{line}\\.'), re.M)
        plain = [v for v in found if not re.search(r'-(rt|cloud|dbg)-', v)]
        if not plain:
            refuse(f'the mirror has no linux-image-{line}.*-amd64')
        return max(plain, key=lambda v: [int(n) for n in re.findall(r'\d+', v)])

    def kernel_packages(self, version: str) -> List[str]:
        """The image, and what building a module for it takes."""
        todo, seen = [f'linux-headers-{version}'], [f'linux-image-{version}']
        while todo:
            name = todo.pop()
            if name in seen:
                continue
            seen.append(name)
            needs = re.findall(r'^\s+Depends: (linux-(?:headers|kbuild)\S*)',
                               self.run('apt-cache', 'depends', name), re.M)
            todo += needs
        return seen

    def unpack(self, names: List[str], to: Path) -> None:
        """Fetches the packages that aren't there yet, and unpacks them."""
        if to.exists():
            return
        debs, part = self.folder / 'debs', Path(f'{to}.part')
        debs.mkdir(exist_ok=True)
        missing = [n for n in names if not list(debs.glob(f'{n}_*.deb'))]
        if missing:
            self.run('apt-get', 'download', *missing, where=str(debs))
        for name in names:
            for deb in debs.glob(f'{name}_*.deb'):
                subprocess.run(['dpkg-deb', '-x', str(deb), str(part)], check=True)
        part.rename(to)


def repair_headers(root: Path, version: str) -> Path:
    """The headers' makefile names /usr; in a folder of ours it must name that folder."""
    headers = root / f'usr/src/linux-headers-{version}'
    makefile = headers / 'Makefile'
    makefile.write_text(re.sub(r'(?<![\w/])/usr/src/', f'{root}/usr/src/', makefile.read_text()))
    # With a vmlinux beside the headers the build wants pahole, for type information that no test here needs.
    vmlinux = headers / 'vmlinux'
    if vmlinux.exists():
        vmlinux.unlink()
    return headers
