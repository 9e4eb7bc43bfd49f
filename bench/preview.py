#!/usr/bin/env python3
"""Compares `./pips` with stored answers, and on names, streams and long inputs with the built program, or the reference where none is built.

    python3 bench/preview.py            # a tenth of the stored programs, all command lines, and cases of its own
    python3 bench/preview.py --all      # all stored programs too
    python3 bench/preview.py CLONE      # the script of that clone, which may have nothing built

Standard output and the exit number have to be the same, and standard error but for what a preview says of itself. The words of the script
alone (--help, --version, --build with others, a preview's --base) are tried as well.
"""
import os
import subprocess
import sys
import tempfile
from concurrent.futures import ThreadPoolExecutor

from pack import all_cases, content, status_of
from reference import FOLDER, STAGE, TOP

PROGRAM = os.path.join('crates', 'pips', 'out', 'pips')
SMALL = b'      DO I=1,9\n      J=I\n      END DO\n      END\n'
NO_KIT = '/usr/bin:/bin'


NUMBERS = {'Done': 0, 'Usage': 2, 'NoInput': 3}


class Case:
    """Words, what comes on standard input, the program in the file p.f, and the answer where it is stored."""

    def __init__(self, words, given=b'', program=SMALL, cut_off=False, stored=None):
        self.words, self.given, self.program, self.cut_off, self.stored = words, given, program, cut_off, stored

    def answer(self, command):
        """Exit number, standard output and standard error, in a folder with the files of the cases."""
        with tempfile.TemporaryDirectory() as folder:
            put_files(folder, self.program)
            with open('/dev/full', 'wb') as full:
                ran = subprocess.run([*command, *self.words], cwd=folder, input=self.given, stdout=full if self.cut_off else subprocess.PIPE, stderr=subprocess.PIPE)
        return ran.returncode, ran.stdout, told(ran.stderr)


def put_files(folder, program):
    """The files that the words name."""
    os.mkdir(os.path.join(folder, 'deep'))
    names = [b'p.f', b'a b.f', b'it\'s "q" $HOME *.f', b'-dash.f', b'--show', b'deep/p.f', b'p.f\n', b'n\xff.f', b'empty.f', b'long.f', b'longer.f']
    texts = {b'empty.f': b'', b'long.f': filled(1048576), b'longer.f': filled(1048577)}
    for name in names:
        with open(os.path.join(folder.encode(), name), 'wb') as file:
            file.write(texts.get(name, program))


def filled(size):
    """A program of this size, most of it comments."""
    return b'C\n' * ((size - len(SMALL) - 2) // 2) + b'C' * ((size - len(SMALL)) % 2 + 1) + b'\n' + SMALL


def told(err):
    """Standard error but for the lines of a preview on itself."""
    return b''.join(line for line in err.splitlines(True) if not line.startswith((b'pips: a preview: ', b'pips: compiling the preview')))


def own_cases():
    """Cases that no file of tests/ has."""
    words = [['p.f'], ['a b.f'], ['it\'s "q" $HOME *.f'], ['./p.f'], ['deep/../p.f'], ['deep/p.f'], [b'n\xff.f'], ['p.f\n'], ['-dash.f'], ['--', '-dash.f'], ['--', '--show'],
             ['deep'], ['empty.f'], ['long.f'], ['longer.f'], ['none.f'], [''], ['/dev/null'], ['--show', 'why', 'p.f'], ['--show=bare', 'p.f'], ['p.f', '--show', 'all'],
             ['--generate', '3'], ['--generate', '201'], ['--verify', 'p.f'], ['--help', 'p.f'], ['p.f', '--version'], ['--unknown'], ['--session', 'p.f']]
    script = b'source 4\n' + SMALL + b'make MARKS MAIN\nshow MARKS MAIN\nprint\n'
    found = [Case(line) for line in words]
    found += [Case(line, given) for line in ([], ['-'], ['--show', 'why'], ['--', '-']) for given in (SMALL, b'', b'      X=1\n      END\n', filled(1048577))]
    return found + [Case(['--session'], script), Case(['--session', '--show=bare', '-'], script), Case(['p.f'], cut_off=True)]


def stored_answer(case):
    """Exit number, standard output and standard error of a stored case. None where INPUT is standard input, which the stored cases do not have."""
    if b'p.f' not in case.words and case.wanted.endswith('.err') and status_of(content(case.wanted)) == 'NoInput':
        return None
    wanted = content(case.wanted)
    if case.wanted.endswith('.err'):
        return NUMBERS.get(status_of(wanted), 1), b'', wanted
    return 0, wanted, b''


def stored_cases(step):
    """Every so many stored programs and scripts, and all command lines. `--base` belongs to the built program alone."""
    cases = [case for case in all_cases() if b'--base' not in case.words]
    chosen = [case for place, case in enumerate(cases) if place % step == 0 or not case.words.endswith(b'p.f')]
    return [Case([os.fsdecode(word) for word in case.words.split()], program=case.program, stored=stored_answer(case)) for case in chosen]


def is_alone(words):
    """Whether these words are the script's own."""
    return len(words) == 1 and words[0] in ('--help', '-h', '--version', '--build')


def of_the_script(clone):
    """What the script itself answers, as names and truths."""
    script = os.path.join(clone, 'pips')

    def run(*words, **others):
        return subprocess.run([script, *words], stdout=subprocess.PIPE, stderr=subprocess.PIPE, stdin=subprocess.DEVNULL, **others)

    built = os.access(os.path.join(clone, PROGRAM), os.X_OK)
    yield '--help', run('--help').returncode == 0 and b'--generate N' in run('--help').stdout and run('-h').stdout == run('--help').stdout
    yield '--version', run('--version').returncode == 0 and b'commit' in run('--version').stdout
    yield '--build and a word', run('--build', 'p.f').returncode == 2
    if not built:
        refused = run('--base', 'x', 'p.f')
        yield '--base of a preview', (refused.returncode, refused.stdout, refused.stderr.count(b'\n')) == (99, b'', 1)
        lost = run('p.f', env={'PATH': NO_KIT})
        yield 'no kit', (lost.returncode, lost.stdout, lost.stderr.count(b'\n')) == (99, b'', 1)


def difference(case, command, wanted):
    """What a command answers otherwise than it should, or nothing. It is said at once."""
    found, right = case.answer(command), case.stored or case.answer(wanted)
    if found == right:
        return ''
    said = f'{case.words}: {found[0]}, wanted {right[0]}; {found[2][:100]}'
    print(said, flush=True)
    return said


def main(words):
    clone = os.path.abspath(([word for word in words if word != '--all'] or [TOP])[0])
    program = os.path.join(TOP, PROGRAM)
    wanted = [program] if os.access(program, os.X_OK) else [sys.executable, os.path.join(FOLDER, 'pips.py'), '--stage', STAGE]
    wrong = [name for name, is_so in of_the_script(clone) if not is_so]
    print('\n'.join(wrong), end='\n' if wrong else '', flush=True)
    cases = [case for case in own_cases() + stored_cases(1 if '--all' in words else 10) if not is_alone(case.words)]
    with ThreadPoolExecutor(os.cpu_count()) as pool:
        wrong += filter(None, pool.map(lambda case: difference(case, [os.path.join(clone, 'pips')], wanted), cases))
    print(f'{len(cases)} answers compared, those that are not stored with {"the built program" if len(wanted) == 1 else "the reference"}: {len(wrong)} wrong')
    return bool(wrong)


if __name__ == '__main__':
    sys.exit(main(sys.argv[1:]))
