#!/usr/bin/env python3
"""What `./pips` says of programs, as a summary, as lines that editors read, and as a page.

    tools/report.py FILE..                  # a line `FILE:LINE: note: ..` for each loop, and a summary
    tools/report.py FILE.. -o PAGE          # and one HTML file: the sources with what is said of each statement, and who calls whom
    tools/report.py --written TEXT FILE     # the text that `./pips --show all FILE` wrote stands in TEXT, and the command is not started
    tools/report.py --reductions FILE..     # by `./pips --reductions`: loops with REDUCTION clauses are parallel too
    tools/report.py --bounds FILE..         # by `./pips --bounds`: a line, too, for each statement with a reference that may leave its array

Each FILE is a program of its own. The status is 1 where one is refused, and 2 where the command or a file cannot be used.
"""
import argparse
import os
import re
import subprocess
import sys
from typing import Iterator, List, NoReturn, Optional, Tuple

sys.dont_write_bytecode = True
sys.path.insert(0, os.path.dirname(os.path.realpath(__file__)))

from page import page_of  # noqa: E402
from reasons import clauses_in_words, in_words  # noqa: E402
from written import Loop, Program, Statement, obstacles, program_of, references  # noqa: E402

PIPS = os.path.join(os.path.dirname(os.path.dirname(os.path.realpath(__file__))), 'pips')


def stop(why: str) -> NoReturn:
    print(f'report: {why}', file=sys.stderr)
    sys.exit(2)


# ---- programs

def content(path: str) -> str:
    """A file, a character for each byte."""
    try:
        with open(path, encoding='latin-1', newline='') as file:
            return file.read()
    except OSError as error:
        stop(f'{path}: {error.strerror}')


def refusal_of(path: str, said: str) -> Optional[str]:
    """The line of a refusal as editors read it."""
    found = re.search(r'^pips: line (\d+): (.*)$', said, re.M)
    return f'{path}:{found.group(1)}: error: {found.group(2)}' if found else None


def written_text(path: str, flags: List[str]) -> Optional[str]:
    """What the command writes of a file. None where it is refused, which is then said."""
    ran = subprocess.run([PIPS, '--show', 'all', *flags, '--', path], stdin=subprocess.DEVNULL, stdout=subprocess.PIPE, stderr=subprocess.PIPE)
    said = ran.stderr.decode('latin-1')
    if ran.returncode == 0:
        print(said, end='', file=sys.stderr)
        return ran.stdout.decode('latin-1')
    refusal = refusal_of(path, said)
    if refusal is None:
        print(said, end='', file=sys.stderr)
        stop(f'{path}: the command ended with {ran.returncode}')
    print(refusal)
    return None


def read(path: str, written: Optional[str], flags: List[str]) -> Optional[Program]:
    """A file with what is said of it, in the text of the file `written` or by the command."""
    source = content(path)
    text = written_text(path, flags) if written is None else content(written)
    return None if text is None else program_of(path, source, text)


# ---- the terminal

def note_of(path: str, loop: Loop) -> str:
    """A loop in one line."""
    start = f'{path}:{loop.statement.first}: note: {loop.statement.text}'
    if loop.private is None:
        return f'{start}: serial, {loop.obstacle}: {in_words(loop.obstacle)}'
    copies = [f'copies of {loop.private}'] if loop.private else []
    reduced = [f'REDUCTION clauses ({clauses_in_words(loop.reductions)})'] if loop.reductions else []
    return f'{start}: parallel' + (f', with {" and ".join(copies + reduced)}' if copies or reduced else '')


def check_of(path: str, statement: Statement) -> str:
    """What may leave its array in a statement, in one line."""
    return f'{path}:{statement.first}: note: check {", ".join(statement.references("CHECK"))}: perhaps outside the array'


def count(number: int, word: str) -> str:
    return f'{number} {word}{"" if number == 1 else "s"}'


def summary_of(program: Program) -> str:
    """Modules and loops of a program in one line."""
    serial = obstacles(program)
    parallel = len(program.loops) - sum(serial.values())
    why = ', '.join(f'{number} {reason}' for reason, number in serial.items())
    clauses = sum(len(loop.reductions) for loop in program.loops)
    reduced = f' ({count(sum(bool(loop.reductions) for loop in program.loops), "loop")} with {count(clauses, "REDUCTION clause")})' if clauses else ''
    counts = f'{count(len(program.modules), "module")}, {count(len(program.loops), "loop")}'
    return f'{program.name}: {counts}, {parallel} parallel{reduced}, {sum(serial.values())} serial' + (f' ({why})' if why else '') + safety_of(program)


def safety_of(program: Program) -> str:
    """How many references to array elements are safe; nothing where no line says it."""
    safe, others = references(program, 'SAFE'), references(program, 'CHECK')
    return f'; {count(safe + others, "reference")} to array elements, {safe} safe' if safe + others else ''


def notes(program: Program) -> Iterator[Tuple[int, str]]:
    """Each line on a loop or a reference, after the number of its line in the source."""
    for loop in program.loops:
        yield loop.statement.first, note_of(program.name, loop)
    for module in program.modules:
        for statement in module.statements:
            if statement.references('CHECK'):
                yield statement.first, check_of(program.name, statement)


def tell(program: Program) -> None:
    for _, note in sorted(notes(program), key=lambda note: note[0]):
        print(note)
    print(summary_of(program))


# ---- the command

def words() -> argparse.Namespace:
    parser = argparse.ArgumentParser(description='What pips says of programs: a line for each loop, a summary, and with -o a page.')
    parser.add_argument('files', nargs='+', metavar='FILE', help='a program in fixed-form FORTRAN 77')
    parser.add_argument('-o', dest='page', metavar='PAGE', help='the HTML file to be written')
    parser.add_argument('--written', metavar='TEXT', action='append', default=[], help='what --show all wrote of FILE; one for each FILE, in their order')
    parser.add_argument('--reductions', action='append_const', dest='flags', default=[], const='--reductions', help='loops with REDUCTION clauses are parallel too')
    parser.add_argument('--bounds', action='append_const', dest='flags', const='--bounds', help='a line for each statement with a reference that may leave its array')
    given = parser.parse_args()
    if given.written and len(given.written) != len(given.files):
        parser.error('--written is given once for each FILE')
    return given


def main() -> int:
    given = words()
    sys.stdout.reconfigure(errors='surrogateescape')
    texts: List[Optional[str]] = given.written or [None] * len(given.files)
    found = [read(path, text, sorted(set(given.flags))) for path, text in zip(given.files, texts)]
    programs = [program for program in found if program]
    for program in programs:
        tell(program)
    if given.page and programs:
        try:
            with open(given.page, 'w', encoding='utf-8') as file:
                file.write(page_of(programs))
        except OSError as error:
            stop(f'{given.page}: {error.strerror}')
    return int(len(programs) < len(found))


if __name__ == '__main__':
    sys.exit(main())
