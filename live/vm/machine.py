"""One boot of the guest: its scenarios run one after another, its files come over the second serial line."""
import base64
import re
import subprocess
import sys
import time
from pathlib import Path
from typing import Dict, List, Set, Tuple

from .plan import Boot

MEMORY = '1200'
TRIES = 5


def accelerator(kvm: bool) -> str:
    """Emulated if not asked otherwise: that runs wherever QEMU does, while a machine may have a /dev/kvm that doesn't work."""
    return 'kvm' if kvm else 'tcg,thread=multi'


def command(image: Path, first: Path, words: str, console: Path, files: Path, how: str) -> List[str]:
    """QEMU's command line."""
    return ['nice', '-n', '5', 'qemu-system-x86_64', '-accel', how, '-cpu', 'qemu64', '-smp', '2', '-m', MEMORY, '-nodefaults',
            '-display', 'none', '-no-reboot', '-kernel', str(image), '-initrd', str(first),
            '-append', f'console=ttyS0 loglevel=4 panic=-1 oops=panic {words}',
            '-serial', f'file:{console}', '-serial', f'file:{files}']


def follow(qemu: 'subprocess.Popen[bytes]', console: Path, limit: float) -> bool:
    """Tells the scenarios as they come; whether the guest came to its end in time."""
    begun, told = time.monotonic(), 0
    while True:
        over = qemu.poll() is not None
        lines = console.read_text(errors='replace').split('\n')[:-1] if console.exists() else []
        for line in lines[told:]:
            if line.startswith('BEGIN '):
                print(f'  {line.split()[1]} ..', file=sys.stderr, flush=True)
        told = max(told, len(lines))
        if over:
            return True
        if time.monotonic() - begun > limit:
            qemu.kill()
            qemu.wait()
            return False
        time.sleep(0.5)


def unpack_files(text: str, folder: Path) -> Dict[str, Path]:
    """FILE NAME, base64, DONE: as the guest sent them.  One without DONE was cut, and is left out."""
    found: Dict[str, Path] = {}
    for name, body in re.findall(r'^FILE (\S+)\n(.*?)^DONE$', text.replace('\r', ''), re.M | re.S):
        path = folder / Path(name).name
        path.write_bytes(base64.b64decode(body))
        found[name] = path
    return found


def boot(image: Path, first: Path, run: Boot, folder: Path, limit: float, kvm: bool) -> Dict[str, Path]:
    """Boots, runs the scenarios, and gives the files that they left."""
    folder.mkdir(parents=True, exist_ok=True)
    console, files = folder / 'console', folder / 'files'
    for old in (console, files):                # of an earlier boot: they would be taken for this one's
        old.unlink(missing_ok=True)
    words = f'scenarios={",".join(run.scenarios)}' + (f' preempt={run.preempt}' if run.preempt else '')
    qemu = subprocess.Popen(command(image, first, words, console, files, accelerator(kvm)), stdin=subprocess.DEVNULL)
    try:
        if not follow(qemu, console, limit):
            print(f'  the guest was still running after {limit:.0f} s, and was ended', file=sys.stderr)
    finally:
        if qemu.poll() is None:
            qemu.kill()
            qemu.wait()
    found = unpack_files(files.read_text(errors='replace') if files.exists() else '', folder)
    files.unlink(missing_ok=True)
    return found


def ended(folder: Path) -> Set[str]:
    """The scenarios that came to their end in the last boot."""
    return set(re.findall(r'^END (\S+)', (folder / 'console').read_text(errors='replace'), re.M))


def boots(image: Path, first: Path, run: Boot, folder: Path, limit: float, kvm: bool) -> Tuple[Dict[str, Path], List[str]]:
    """The files of all scenarios, and the scenarios that never came to their end.

    A guest that dies is booted again for the rest.  From 6.4 on the kernel patches its own code at each transition, and
    emulated CPUs may see that too late: a guest died of a breakpoint that was gone already.
    """
    found: Dict[str, Path] = {}
    left = list(run.scenarios)
    for number in range(1, TRIES + 1):
        found.update(boot(image, first, run._replace(scenarios=left), folder, limit, kvm))
        done = ended(folder)
        left = [name for name in left if name not in done]
        if not left:
            break
        (folder / 'console').rename(folder / f'console-{number}')
        print(f'  the guest died in {left[0]}' + ('; again, for the rest' if number < TRIES else ''), file=sys.stderr, flush=True)
    return found, left
