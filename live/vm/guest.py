"""What the guest boots from: the kernel, modules built for it, and a first file system with Python in it."""
import gzip
import os
import shutil
import stat
import subprocess
import sys
from pathlib import Path
from typing import BinaryIO, Iterator, List, Tuple

from .packages import GUEST, Packages, refuse, repair_headers

HERE = Path(__file__).resolve().parent
LEFT_OUT = ('test', 'idlelib', 'lib2to3', 'ensurepip', 'distutils', 'pydoc_data', 'unittest', 'asyncio', 'tkinter',
            'turtledemo', 'multiprocessing', 'xml', 'email', 'curses', 'sqlite3', 'wsgiref', 'xmlrpc', 'concurrent')


def build_modules(headers: Path, folder: Path) -> List[Path]:
    """The patches and the module that they patch, built for this kernel."""
    shutil.rmtree(folder, ignore_errors=True)
    shutil.copytree(HERE / 'modules', folder)
    done = subprocess.run(['make', '-s', '-C', str(headers), f'M={folder}', 'modules'],
                          stdout=subprocess.PIPE, stderr=subprocess.STDOUT, text=True)
    if done.returncode:
        refuse(f'the modules could not be built: {done.stdout[-1500:]}')
    modules = sorted(folder.glob('*.ko'))
    for module in modules:
        subprocess.run(['strip', '--strip-debug', str(module)], check=True)
    return modules


def build_root(packages: Packages, folder: Path, modules: List[Path], bundle: Path) -> Path:
    """The guest's files, as a folder."""
    unpacked = packages.folder / 'guest'
    packages.unpack(GUEST, unpacked)
    shutil.rmtree(folder, ignore_errors=True)
    for name in ('bin', 'proc', 'sys', 'dev', 'room', 'modules', 'lib', 'usr/bin', 'usr/lib'):
        (folder / name).mkdir(parents=True)
    shutil.copy(unpacked / 'bin/busybox', folder / 'bin')
    shutil.copy(unpacked / 'usr/bin/python3.11', folder / 'usr/bin/python3')
    libraries = unpacked / 'lib/x86_64-linux-gnu'
    shutil.copytree(libraries, folder / 'lib/x86_64-linux-gnu', ignore=shutil.ignore_patterns('gconv', 'libnss*'))
    for library in (unpacked / 'usr/lib/x86_64-linux-gnu').glob('lib*.so*'):
        shutil.copy(library, folder / 'lib/x86_64-linux-gnu')
    (folder / 'lib64').symlink_to('lib/x86_64-linux-gnu')
    shutil.copytree(unpacked / 'usr/lib/python3.11', folder / 'usr/lib/python3.11',
                    ignore=shutil.ignore_patterns('config-*', '__pycache__', *LEFT_OUT))
    for module in modules:
        shutil.copy(module, folder / 'modules')
    shutil.copytree(HERE / 'scenarios', folder / 'scenarios')
    shutil.copy(HERE / 'guest.sh', folder / 'lib')
    shutil.copy(HERE / 'init', folder)
    shutil.copy(bundle, folder / 'bin/lpt-live')
    subprocess.run(['cc', '-O1', '-static', '-pthread', '-Wno-unused-result', '-o', str(folder / 'bin/workload'),
                    str(HERE / 'workload.c')], check=True)
    (folder / 'init').chmod(0o755)
    return folder


def entries(root: Path) -> Iterator[Tuple[str, Path]]:
    """Everything in a folder, by its name below it; a folder before what is in it."""
    for where, folders, files in os.walk(root):
        for name in sorted(folders + files):
            path = Path(where) / name
            yield str(path.relative_to(root)), path


def member(out: BinaryIO, number: int, name: str, mode: int, data: bytes) -> None:
    """One member of an archive of the kernel's own kind (newc): every field in eight hexadecimal digits."""
    fields = [number, mode, 0, 0, 1, 0, len(data), 0, 0, 0, 0, len(name) + 1, 0]
    head = b'070701' + ''.join(f'{f:08x}' for f in fields).encode() + name.encode() + b'\0'
    out.write(head + b'\0' * (-len(head) % 4) + data + b'\0' * (-len(data) % 4))


def pack(root: Path, to: Path) -> Path:
    """The folder as a first file system.  Written here, so that no cpio need be installed."""
    with open(to, 'wb') as raw, gzip.GzipFile(fileobj=raw, mode='wb', compresslevel=1) as packed:
        out: BinaryIO = packed      # type: ignore[assignment]
        for number, (name, path) in enumerate(entries(root), 1):
            mode = path.lstat().st_mode
            data = (os.readlink(path).encode() if stat.S_ISLNK(mode) else
                    path.read_bytes() if stat.S_ISREG(mode) else b'')
            member(out, number, name, mode, data)
        member(out, 0, 'TRAILER!!!', 0, b'')
    return to


def prepare(packages: Packages, line: str, bundle: Path) -> Tuple[str, Path, Path]:
    """The kernel's version, its image and its first file system, for a line as 6.1."""
    version = packages.newest_kernel(line)
    print(f'Linux {version}: packages, modules, first file system', file=sys.stderr, flush=True)
    unpacked = packages.folder / f'kernel-{version}'
    packages.unpack(packages.kernel_packages(version), unpacked)
    modules = build_modules(repair_headers(unpacked, version), packages.folder / f'modules-{version}')
    root = build_root(packages, packages.folder / f'root-{version}', modules, bundle)
    return version, unpacked / f'boot/vmlinuz-{version}', pack(root, packages.folder / f'first-{version}.gz')
