#!/usr/bin/env python3
"""Lemmas that stand in two crates: their statements are the same up to the names of variables and of lemmas. One of them is enough, in the lowest crate.

    python3 bench/lemmas.py

Prints the place of each; its status is 1 where there are more than MOST_COPIES. Of definitions the whole text is compared. The files
on a single function (Answers, Invariants, Proof) are left out.
"""
import glob
import os
import re
import sys
from collections import defaultdict
from dataclasses import dataclass, field
from typing import Dict, List, Optional, Tuple

TOP = os.path.dirname(os.path.dirname(os.path.abspath(__file__)))
MOST_COPIES = 9
LEFT_OUT = ('Answers', 'Invariants', 'Proof', 'Lib')
TOKEN = re.compile(r'"(?:[^"\\]|\\.)*"|[^\s(){}\[\],;]+|[(){}\[\],;]')
USE = re.compile(r'(?:pub )?use ([^\s{]+)\.\{(.*)\}$')
HANDED_ON = re.compile(r'(?m)^pub use (Rattle\.[\w.]+) as (\w+)$')
STATED = re.compile(r'((?:pub |abbrev |unfoldable )*)([^\s:]+) : (.*)$')
DECLARED = re.compile(r'(?:pub )?(record|data) ([^\s:]+)(.*)$')
PROJECTED = re.compile(r'^([^\d.\s"][^.]*)((?:\.\w+)*\.?)$')
NAME = re.compile(r"^[A-Za-z_][\w'\-₀-₉]*$")
WORDS = frozenset('Type Unit tt where let in elim record if then else'.split())


@dataclass
class Said:
    """A lemma or a definition of a file."""
    module: str
    crate: str
    place: str
    name: str
    is_defined: bool
    statement: List[str]
    body: List[str] = field(default_factory=list)

    def words(self) -> List[str]:
        """Of a lemma the words of its statement, of a definition all."""
        return TOKEN.findall('\n'.join(self.statement + (['='] + self.body if self.is_defined else [])))


@dataclass
class Module:
    """A file of lemmas: where what it imports is defined, and what it says."""
    imports: Dict[str, str]
    said: Dict[str, Said]


def handed_on() -> Dict[Tuple[str, str, str], str]:
    """The path that a crate hands on under a name, of its definitions and of its lemmas."""
    found = {}
    for path in glob.glob(os.path.join(TOP, 'crates', '*', '*', 'Lib.antt')):
        crate, part = path.split(os.sep)[-3:-1]
        with open(path, encoding='utf-8') as file:
            found.update({(crate, part, name): handed for handed, name in HANDED_ON.findall(file.read())})
    return found


def defined_at(path: str, handed: Dict[Tuple[str, str, str], str]) -> str:
    """The path of a name in the crate that defines it."""
    parts = path.split('.')
    while len(parts) > 3 and (parts[1], parts[2], parts[3]) in handed:
        parts = handed[parts[1], parts[2], parts[3]].split('.') + parts[4:]
    return path.rpartition('.')[2] if parts[1] == 'std' else '.'.join(parts)


def imported(line: str, handed: Dict[Tuple[str, str, str], str]) -> Dict[str, str]:
    """Where the names of an import are defined. What std hands on has one name everywhere."""
    use = USE.match(line)
    pairs = [it.strip().split(' as ') for it in use[2].split(',')] if use else []
    return {pair[-1]: defined_at(f'{use[1]}.{pair[0]}', handed) for pair in pairs if use}


def begun(module: str, place: str, line: str) -> Optional[Said]:
    """The lemma or the definition that begins with a line."""
    crate = module.split('.')[1]
    declared, stated = DECLARED.match(line), STATED.match(line)
    if declared:
        return Said(module, crate, place, declared[2], True, [declared[1], declared[3]])
    if stated:
        return Said(module, crate, place, stated[2], 'abbrev' in stated[1] or 'unfoldable' in stated[1], [stated[3]])
    return None


def module_of(path: str, handed: Dict[Tuple[str, str, str], str]) -> Tuple[str, Module]:
    """A file of lemmas with its name. A block that declares several things at once is passed over."""
    name = 'Rattle.' + os.path.relpath(path, os.path.join(TOP, 'crates'))[:-len('.antt')].replace(os.sep, '.')
    here, last = Module({}, {}), None
    with open(path, encoding='utf-8') as file:
        for number, line in enumerate(file.read().splitlines(), 1):
            here.imports.update(imported(line, handed))
            if not line or line.startswith('--') or re.match(r'(pub )?(use|mod) ', line):
                continue
            if line[0] == ' ':
                if last:
                    (last.body if last.body else last.statement).append(line)
            elif last and line.split()[0] in (last.name, 'unfolding'):
                last.body.append(line)
            else:
                last = begun(name, f'{os.path.relpath(path, TOP)}:{number}', line)
                if last:
                    here.said[last.name] = last
    return name, here


def modules() -> Dict[str, Module]:
    """All files of lemmas by their names."""
    handed = handed_on()
    paths = glob.glob(os.path.join(TOP, 'crates', '*', 'proofs', '**', '*.antt'), recursive=True)
    return dict(module_of(path, handed) for path in sorted(paths) if os.path.basename(path)[:-len('.antt')] not in LEFT_OUT)


def form(said: Said, every: Dict[str, Module], above: Tuple[str, ...] = ()) -> str:
    """The words with variables numbered as they come, and with what is cited of other lemmas and definitions in the place of its name."""
    here, numbers = every[said.module], {said.name: '@'}
    above = above + (f'{said.module}.{said.name}',)
    shown = []
    for word in said.words():
        parts = PROJECTED.match(word)
        name, rest = (parts[1], parts[2]) if parts else (word, '')
        cited = here.said.get(name)
        path = here.imports.get(name, name)
        module, _, last = path.rpartition('.')
        if not cited and module in every:
            cited = every[module].said.get(last)
        if name in numbers:
            name = numbers[name]
        elif cited:
            name = '^' if f'{cited.module}.{cited.name}' in above else f'<{form(cited, every, above)}>'
        elif name in here.imports:
            name = path
        elif NAME.match(name) and name not in WORDS:
            name = numbers.setdefault(name, f'${len(numbers)}')
        shown.append(name + rest)
    return ' '.join(shown)


def copies() -> List[List[Said]]:
    """What stands in two or more crates."""
    every = modules()
    groups = defaultdict(list)
    for module in every.values():
        for said in module.said.values():
            groups[form(said, every)].append(said)
    return [group for group in groups.values() if len({said.crate for said in group}) > 1]


def check() -> int:
    """How many lemmas stand in two crates, with a line for each."""
    found = copies()
    for group in found:
        print('twice:', ', '.join(f'{said.name} ({said.place})' for said in group), file=sys.stderr)
    print(f'{len(found)} lemmas stand in two crates', file=sys.stderr)
    return len(found)


if __name__ == '__main__':
    sys.exit(int(check() > MOST_COPIES))
