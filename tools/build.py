#!/usr/bin/env python3
"""Proves the libraries of the command, several at a time, and builds the program.

    tools/build.py LOG

PIPS_JOBS=N proves N libraries at a time. Else it is half as many again as there are processors, since some wait for libraries below them, and at
most one for 2.5 GB of free memory. Lines on standard error say how many libraries are ready; what the kit says is in the file LOG. The status is
0 where the program is built, and else 1.

The kit's `rt lib` locks the library that it proves and all below it. So each worker has a copy of the sources, in which the libraries that
are ready stand as they were built: `rt` takes one whose stamp is that of its sources. What a library left in out/ is then put in its place in
the repository. `rt all check` would first read the program over the sources of all its libraries, which takes 18 GB.
"""
import fcntl
import os
import shutil
import subprocess
import sys
import tempfile
import threading
from concurrent.futures import FIRST_COMPLETED, Future, ThreadPoolExecutor, wait
from dataclasses import dataclass, field
from typing import Dict, List, Set

TOP = os.path.dirname(os.path.dirname(os.path.realpath(__file__)))
CRATES = os.path.join(TOP, 'crates')
PROGRAM = 'pips'
# kB that a proof may take
MEMORY_OF_ONE = 2_500_000
SOURCES = ('src', 'specs', 'proofs')
# how the folder of copies is named
COPIES = 'copies-'


def rows() -> Dict[str, List[str]]:
    """The libraries of the repository that each of its crates uses, as crates.txt lists them."""
    with open(os.path.join(TOP, 'crates.txt'), encoding='utf-8') as file:
        lines = [line.partition(':') for line in file if ':' in line and not line.startswith('#')]
    used = {name.strip(): rest.split() for name, _, rest in lines}
    return {name: [it for it in rest if it in used] for name, rest in used.items()}


def libraries_of(program: str, used: Dict[str, List[str]]) -> List[str]:
    """The libraries that a program is made of, each after those that it uses."""
    found: List[str] = []

    def visit(name: str) -> None:
        for below in used[name]:
            if below not in found:
                visit(below)
                found.append(below)

    visit(program)
    return found


def size_of(name: str) -> int:
    """About how long a proof takes: the bytes of the code."""
    folder = os.path.join(CRATES, name, 'src')
    return sum(os.path.getsize(os.path.join(at, file)) for at, _, files in os.walk(folder) for file in files)


def ways(order: List[str], used: Dict[str, List[str]]) -> Dict[str, int]:
    """For each library the size of the dearest chain of libraries from it upwards."""
    way = {name: size_of(name) for name in order}
    for name in reversed(order):
        for below in used[name]:
            way[below] = max(way[below], size_of(below) + way[name])
    return way


def newest(name: str) -> float:
    """When a source of a crate was last changed."""
    folders = [os.path.join(CRATES, name, part) for part in SOURCES]
    return max(os.path.getmtime(os.path.join(at, file)) for folder in folders for at, _, files in os.walk(folder) for file in files)


def current(order: List[str], used: Dict[str, List[str]]) -> Set[str]:
    """The libraries that were built after the last change of their sources, and after all libraries that they use."""
    built: Dict[str, float] = {}
    listed = os.path.getmtime(os.path.join(TOP, 'crates.txt'))
    for name in order:
        stamp = os.path.join(CRATES, name, 'out', 'rlib', 'stamp')
        if os.path.exists(stamp) and all(below in built for below in used[name]):
            when = os.path.getmtime(stamp)
            if when >= max([listed, newest(name)] + [built[below] for below in used[name]]):
                built[name] = when
    return set(built)


def jobs_at_once() -> int:
    """How many libraries are proved at a time."""
    if os.environ.get('PIPS_JOBS', '').isdigit():
        return max(int(os.environ['PIPS_JOBS']), 1)
    with open('/proc/meminfo', encoding='ascii') as file:
        free = next(int(line.split()[1]) for line in file if line.startswith('MemAvailable'))
    return max(1, min(free // MEMORY_OF_ONE, (len(os.sched_getaffinity(0)) * 3 + 1) // 2))


def jobs_of_one(at_once: int, libraries: int) -> int:
    """The jobs of each proof where so many libraries are proved now. A few more than there are processors, since some proofs end before others."""
    return max(1, min(len(os.sched_getaffinity(0)), at_once, 2 * at_once // (3 * max(1, libraries)) + 1))


# ---- copies of the repository

def copy_sources(to: str) -> None:
    """Copies crates.txt and the crates, without what was built."""
    os.makedirs(to)
    shutil.copy2(os.path.join(TOP, 'crates.txt'), to)
    shutil.copytree(CRATES, os.path.join(to, 'crates'), ignore=shutil.ignore_patterns('out'))


def out_of(top: str, name: str) -> str:
    """Where the kit puts what it makes of a crate."""
    return os.path.join(top, 'crates', name, 'out')


def move(name: str, source: str, to: str) -> None:
    """Moves what was built of a crate."""
    if os.path.isdir(out_of(source, name)):
        shutil.rmtree(out_of(to, name), ignore_errors=True)
        os.rename(out_of(source, name), out_of(to, name))


def lend(name: str, to: str) -> None:
    """Puts a built library into a copy: links, since nobody changes it."""
    os.makedirs(out_of(to, name), exist_ok=True)
    shutil.copytree(os.path.join(out_of(TOP, name), 'rlib'), os.path.join(out_of(to, name), 'rlib'), copy_function=os.link)


@dataclass
class Building:
    """What is ready, and the copies that no worker uses."""
    used: Dict[str, List[str]]
    order: List[str]
    log: str
    ready: Set[str] = field(default_factory=set)
    copies: List[str] = field(default_factory=list)
    lock: threading.Lock = field(default_factory=threading.Lock)

    def tell(self, name: str, said: str) -> None:
        """Keeps what the kit said."""
        with self.lock, open(self.log, 'a', encoding='utf-8') as file:
            file.write(f'== {name}\n{said}')

    def prove(self, name: str, jobs: int) -> bool:
        """Proves a library in a copy. Whether it is proved."""
        with self.lock:
            top = self.copies.pop()
        for below in libraries_of(name, self.used):
            if not os.path.isdir(os.path.join(out_of(top, below), 'rlib')):
                lend(below, top)
        move(name, TOP, top)
        ran = subprocess.run(['rt', 'lib', '--jobs', str(jobs)], cwd=os.path.join(top, 'crates', name), stdin=subprocess.DEVNULL, stdout=subprocess.PIPE, stderr=subprocess.STDOUT, errors='replace')
        move(name, top, TOP)
        self.tell(name, ran.stdout)
        with self.lock:
            self.copies.append(top)
        return ran.returncode == 0

    def ready_now(self, begun: Set[str]) -> List[str]:
        """What can be begun: all below it is ready."""
        return [name for name in self.order if name not in begun and all(below in self.ready for below in self.used[name])]

    def prove_all(self, at_once: int) -> bool:
        """Proves what is not ready, the dearest chain first."""
        way = ways(self.order, self.used)
        begun = set(self.ready)
        running: Dict[Future, str] = {}
        with ThreadPoolExecutor(at_once) as pool:
            while len(self.ready) < len(self.order):
                waiting = sorted(self.ready_now(begun), key=lambda name: -way[name])[:at_once - len(running)]
                jobs = jobs_of_one(at_once, len(running) + len(waiting))
                for name in waiting:
                    begun.add(name)
                    running[pool.submit(self.prove, name, jobs)] = name
                for done in wait(running, return_when=FIRST_COMPLETED).done:
                    name = running.pop(done)
                    if not done.result():
                        return False
                    self.ready.add(name)
                    print(f'pips: {len(self.ready)} of {len(self.order)} libraries are ready: {name}', file=sys.stderr, flush=True)
        return True


def build_program(building: Building) -> bool:
    """Proves and builds the program over the libraries."""
    with open(os.path.join(CRATES, PROGRAM, 'stdin'), 'rb') as text:
        ran = subprocess.run(['rt', 'run'], cwd=os.path.join(CRATES, PROGRAM), stdin=text, stdout=subprocess.PIPE, stderr=subprocess.STDOUT, errors='replace')
    building.tell(PROGRAM, ran.stdout)
    return ran.returncode == 0


def build(log: str) -> bool:
    """Builds what is not current. Whether that is done."""
    used = rows()
    order = libraries_of(PROGRAM, used)
    at_once = jobs_at_once()
    building = Building(used, order, log, ready=current(order, used))
    for left in os.listdir(out_of(TOP, PROGRAM)):
        if left.startswith(COPIES):
            shutil.rmtree(os.path.join(out_of(TOP, PROGRAM), left))
    with tempfile.TemporaryDirectory(prefix=COPIES, dir=out_of(TOP, PROGRAM)) as room:
        building.copies = [os.path.join(room, str(k)) for k in range(at_once)]
        if len(building.ready) < len(order):
            for top in building.copies:
                copy_sources(top)
        return building.prove_all(at_once) and build_program(building)


def main() -> int:
    """One build at a time: a second one in this tree waits, and then finds what the first has built."""
    os.makedirs(out_of(TOP, PROGRAM), exist_ok=True)
    with open(os.path.join(out_of(TOP, PROGRAM), 'building'), 'w', encoding='utf-8') as lock:
        fcntl.flock(lock, fcntl.LOCK_EX)
        return 0 if build(sys.argv[1]) else 1


if __name__ == '__main__':
    sys.exit(main())
