#!/usr/bin/env python3
"""Disturbs runs of the built program while they keep a base: afterwards the base must be the one before or a new whole one, and a run over it must end with 0 and leave no other file.

    python3 bench/kept_bases.py [PATH_TO_PIPS [PART[=COUNT]..]]      # PARTs: killed, together, limited, full, places; all of them unless some are named

killed (500 runs): a run is killed, half of them at a random moment, the others within 10 milliseconds after it began to keep its base. COUNT says how many.
together (200): two runs, or four, begin at once on different programs with one base; meanwhile the base is read again and again, and each time it must be whole.
limited (200): the size of files is limited (RLIMIT_FSIZE); the signal for it ends every other run, the others are told that they cannot write.
full (20): the base is in a small file system, with less room than the new base needs. Needs the right to mount one.
places: a base behind symbolic links, with other permissions, with the same bytes, and where the folder or the file cannot be written. Needs another user, so the right to become one.
"""
import os
import random
import resource
import subprocess
import sys
import tempfile
import time
from contextlib import contextmanager
from dataclasses import dataclass, field

from command_runs import content
from measure import binary_of, folded

BASE = 'b.json'
# the assignments of a program, whose base then has some 440 kB
STATEMENTS = 1_000
USER = 'nobody'


def program(constant, statements=STATEMENTS):
    """A program whose base is of some size and takes little time; another constant is another program."""
    return ''.join(folded(line) for line in ['PROGRAM P', *[f'I={constant}', 'J=I'] * (statements // 2), 'END'])


@dataclass
class Place:
    """A folder with programs, and the base that each of them leaves."""
    binary: str
    folder: str
    bases: list = field(default_factory=list)
    user: str = ''
    wrong: int = 0

    def path(self, name):
        return os.path.join(self.folder, name)

    def begin(self, number, base=BASE, **how):
        """A run on a program of the folder, with a base."""
        user = {'user': self.user} if self.user else {}
        return subprocess.Popen([self.binary, '--show', 'bare', '--base', base, f'p{number}.f'], cwd=self.folder, stdin=subprocess.DEVNULL, stdout=subprocess.DEVNULL, stderr=subprocess.DEVNULL, **user, **how)

    def ran(self, number, base=BASE, **how):
        """The status of such a run."""
        return self.begin(number, base, **how).wait()

    def held(self, base=BASE):
        return content(self.path(base))

    def put(self, data, base=BASE):
        with open(self.path(base), 'wb') as file:
            file.write(data)

    def others(self):
        """The files that are neither programs nor the base."""
        return [name for name in os.listdir(self.folder) if name != BASE and not name.endswith('.f')]

    def check(self, what, is_right):
        if not is_right:
            self.wrong += 1
            print(f'wrong: {what}', flush=True)

    def check_whole(self, what, may_be):
        """The base is one of these programs'."""
        self.check(f'{what}: the base is none of {may_be}', self.held() in [self.bases[number] for number in may_be])

    def check_goes_on(self, what, number):
        """A run over the base ends with 0, leaves the base of its program, and no other file."""
        self.check(f'{what}: a run over it', self.ran(number) == 0)
        self.check(f'{what}: the base after that run', self.held() == self.bases[number])
        self.check(f'{what}: other files {self.others()}', not self.others())


@contextmanager
def place_of(binary, programs, inside=None, user=''):
    """A folder with so many programs and, as the base, that of the first."""
    with tempfile.TemporaryDirectory(dir=inside) as folder:
        os.chmod(folder, 0o777)
        place = Place(binary, folder, user=user)
        for number in range(programs):
            with open(place.path(f'p{number}.f'), 'w') as file:
                file.write(program(number + 2))
        for number in range(programs):
            if place.ran(number) != 0:
                sys.exit(f'program {number} is not taken')
            place.bases.append(place.held())
            os.remove(place.path(BASE))
        place.put(place.bases[0])
        yield place


def spent(run):
    start = time.monotonic()
    run()
    return time.monotonic() - start


# ---- killed

def signs(place):
    """What shows that a run keeps its base: its new file, or a change of the base."""
    state = os.stat(place.path(BASE))
    return place.others(), state.st_ino, state.st_size, state.st_mtime_ns


def await_keeping(place, begun, before):
    """Waits until a run keeps its base, or has ended."""
    while begun.poll() is None and signs(place) == before:
        pass


def killed(binary, count):
    pick = random.Random(1)
    found, left = [0, 0], 0
    with place_of(binary, 2) as place:
        whole = max(spent(lambda: place.ran(number)) for number in (1, 0))
        for turn in range(count):
            old, new = turn % 2, 1 - turn % 2
            before = signs(place)
            begun = place.begin(new)
            if turn // 2 % 2:
                time.sleep(pick.random() * whole * 1.1)
            else:
                await_keeping(place, begun, before)
                time.sleep(pick.random() * .01)
            begun.kill()
            begun.wait()
            what = f'kill {turn}'
            place.check_whole(what, (old, new))
            found[place.held() == place.bases[new]] += 1
            left += bool(place.others())
            place.check_goes_on(what, new)
        print(f'killed: {count} runs; then the base was {found[0]} times the old one and {found[1]} times the new one, {left} times a new file was left, which the next run removed; {place.wrong} wrong', flush=True)
        return not place.wrong


# ---- together

def watch(place, runs):
    """Reads the base until all of these runs have ended; how often."""
    reads = 0
    while any(begun.poll() is None for begun in runs):
        place.check_whole('a read beside runs', range(len(place.bases)))
        reads += 1
        time.sleep(.0005)
    return reads


def together(binary, count):
    last, reads = [0] * 4, 0
    with place_of(binary, 4) as place:
        for turn in range(count):
            at_once = (2, 4)[turn % 2]
            first = turn // 2 % (5 - at_once)
            runs = [place.begin(first + number) for number in range(at_once)]
            reads += watch(place, runs)
            what = f'runs at once {turn}'
            place.check(f'{what}: {[begun.returncode for begun in runs]}', all(begun.returncode == 0 for begun in runs))
            place.check_whole(what, range(first, first + at_once))
            place.check(f'{what}: other files {place.others()}', not place.others())
            last[place.bases.index(place.held()) if place.held() in place.bases else 0] += 1
        place.check_goes_on('the last runs at once', 0)
        print(f'together: {count} times two or four runs; read {reads} times meanwhile; the bases of the four programs were left {last} times; {place.wrong} wrong', flush=True)
        return not place.wrong


# ---- limited

def limited(binary, count):
    pick = random.Random(2)
    ended = {}
    with place_of(binary, 2) as place:
        for turn in range(count):
            old, new = turn % 2, 1 - turn % 2
            most = pick.randrange(len(place.bases[new]))
            is_told = turn // 2 % 2
            status = place.ran(new, restore_signals=not is_told, preexec_fn=lambda: resource.setrlimit(resource.RLIMIT_FSIZE, (most, most)))
            what = f'limit {most}'
            ended[status] = ended.get(status, 0) + 1
            place.check(f'{what}: status {status}', status == (9 if is_told else -25))
            place.check_whole(what, (old,))
            place.check(f'{what}: other files {place.others()}', not (is_told and place.others()))
            place.check_goes_on(what, new)
        print(f'limited: {count} runs, which ended with {ended}; {place.wrong} wrong', flush=True)
        return not place.wrong


# ---- full

@contextmanager
def small_system(room):
    """A file system of so many bytes, or None where none can be mounted."""
    with tempfile.TemporaryDirectory() as point:
        if subprocess.run(['mount', '-t', 'tmpfs', '-o', f'size={room}', 'tmpfs', point], stderr=subprocess.DEVNULL).returncode:
            yield None
            return
        try:
            yield point
        finally:
            subprocess.run(['umount', point], check=True)


def full(binary, count):
    pick = random.Random(3)
    with small_system(1 << 22) as point:
        if point is None:
            print('full: no file system can be mounted here', flush=True)
            return True
        with place_of(binary, 2, inside=point) as place:
            for turn in range(count):
                old, new = turn % 2, 1 - turn % 2
                state = os.statvfs(point)
                filler = place.path('filler.f')
                with open(filler, 'wb') as file:
                    file.write(bytes(max(0, state.f_bavail * state.f_frsize - pick.randrange(len(place.bases[new]) - state.f_frsize))))
                status = place.ran(new)
                place.check(f'full {turn}: status {status}', status == 9)
                place.check_whole(f'full {turn}', (old,))
                place.check(f'full {turn}: other files {place.others()}', not place.others())
                os.remove(filler)
                place.check_goes_on(f'full {turn}', new)
            print(f'full: {count} runs; {place.wrong} wrong', flush=True)
            return not place.wrong


# ---- places

def behind_links(place):
    """The base is replaced where the links lead, and the links stay; also where there is no file yet."""
    os.mkdir(place.path('far.f'))
    os.chmod(place.path('far.f'), 0o777)
    os.symlink('far.f/base', place.path('near.f'))
    os.symlink('near.f', place.path('link.f'))
    for number in (0, 1):
        place.check(f'links, program {number}', place.ran(number, 'link.f') == 0 and place.held('far.f/base') == place.bases[number])
    place.check('links stay', os.path.islink(place.path('link.f')) and os.path.islink(place.path('near.f')))
    place.check('links: other files', os.listdir(place.path('far.f')) == ['base'])


def with_permissions(place):
    for mode in (0o600, 0o640, 0o664, 0o666):
        os.chmod(place.path(BASE), mode)
        for number in (1, 0):
            place.check(f'permissions {mode:o}', place.ran(number) == 0 and place.held() == place.bases[number] and os.stat(place.path(BASE)).st_mode & 0o777 == mode)


def with_same_bytes(place):
    place.put(place.bases[0])
    before = os.stat(place.path(BASE))
    place.check('same bytes', place.ran(0) == 0)
    after = os.stat(place.path(BASE))
    place.check('same bytes: not written', (before.st_ino, before.st_mtime_ns, before.st_ctime_ns) == (after.st_ino, after.st_mtime_ns, after.st_ctime_ns))


def not_writable(place, what, path, mode):
    """Where a file or its folder cannot be written the base serves as long as it would have the same bytes; else the run ends with 9, and it stays."""
    usual = os.stat(path).st_mode & 0o777
    os.chmod(path, mode)
    place.check(f'{what}: the same bytes', place.ran(0) == 0)
    place.check(f'{what}: other bytes', place.ran(1) == 9)
    place.check(f'{what}: the base, and no other file', place.held() == place.bases[0] and not place.others())
    os.chmod(path, usual)


def places(binary, count):
    with place_of(binary, 2, user=USER if os.getuid() == 0 else '') as place:
        place.ran(1)
        place.ran(0)
        behind_links(place)
        if os.getuid() == 0:
            os.remove(place.path(BASE))
            place.ran(0)
        with_permissions(place)
        with_same_bytes(place)
        not_writable(place, 'a file that cannot be written', place.path(BASE), 0o444)
        not_writable(place, 'a folder that cannot be written', place.folder, 0o555)
        print(f'places: {place.wrong} wrong', flush=True)
        return not place.wrong


PARTS = {killed: 500, together: 200, limited: 200, full: 20, places: 1}


def main(*words):
    binary = binary_of(words[:1])
    named = {name: int(count or 0) for name, _, count in (word.partition('=') for word in words[1:])}
    good = [part(binary, named.get(part.__name__) or count) for part, count in PARTS.items() if not named or part.__name__ in named]
    return 0 if all(good) else 1


if __name__ == '__main__':
    sys.exit(main(*sys.argv[1:]))
