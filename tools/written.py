"""A source in fixed form beside the text that `pips --show all` writes of it: modules, statements with what is said of them, and loops.

The written text has the statements of the source in their order. Added are an END DO for each DO or DO WHILE with a label, and a CONTINUE for the
label of an END, END IF or END DO. So each written statement has its lines of the source.
"""
import re
from dataclasses import dataclass, field
from typing import Dict, Iterator, List, Optional, Set, Tuple


@dataclass
class Statement:
    """A written statement: its text without label, its first and last line in the source, and the lines `C>` and `C$OMP` before it."""
    text: str
    first: int
    last: int
    said: List[str] = field(default_factory=list)

    def references(self, word: str) -> List[str]:
        """The references to array elements in the line of a word, SAFE or CHECK, before the statement."""
        start = f'C> {word} '
        return next((references_of(line[len(start):]) for line in self.said if line.startswith(start)), [])


@dataclass
class Original:
    """A statement of the source: its label, its text without blanks, and its first and last line."""
    label: str
    text: str
    first: int
    last: int


@dataclass
class Loop:
    """A DO: its statement, its last line in the source, how many loops it is in, and its mark."""
    statement: Statement
    last: int
    depth: int

    @property
    def directive(self) -> Optional[str]:
        """The directive of a parallel loop, in one line; None where the loop is serial."""
        return next((line for line in self.statement.said if line.startswith('C$OMP PARALLEL DO')), None)

    @property
    def private(self) -> Optional[str]:
        """The private names of a parallel loop; None where the loop is serial."""
        return None if self.directive is None else (re.findall(r'PRIVATE\(([^)]*)\)', self.directive) or [''])[0]

    @property
    def reductions(self) -> List[Tuple[str, str]]:
        """The operator and the name of each REDUCTION clause."""
        return re.findall(r'REDUCTION\(([^:]*):([^)]*)\)', self.directive or '')

    @property
    def obstacle(self) -> str:
        """Why a serial loop is serial, as it is written: `A W-R Carried`."""
        return next((line[len('C> SERIAL '):] for line in self.statement.said if line.startswith('C> SERIAL ')), '')

    @property
    def reason(self) -> str:
        """The last word of the obstacle, which LANGUAGE.md explains."""
        return self.obstacle.split()[-1] if self.obstacle else ''


@dataclass
class Module:
    """A main program, a subroutine or a function, with its statements, its loops, and the modules that it calls."""
    name: str
    statements: List[Statement]
    loops: List[Loop]
    calls: List[str]


@dataclass
class Program:
    """A source, by its name, with its lines and its modules."""
    name: str
    lines: List[str]
    modules: List[Module]

    @property
    def loops(self) -> List[Loop]:
        return [loop for module in self.modules for loop in module.loops]


# ---- lines into references

def references_of(text: str) -> List[str]:
    """References that are separated by the commas outside parentheses."""
    found, depth = [''], 0
    for letter in text:
        depth += (letter == '(') - (letter == ')')
        if letter == ',' and not depth:
            found.append('')
        else:
            found[-1] += letter
    return found


# ---- lines into statements

def is_comment(line: str) -> bool:
    """Whether a line of the source has no part of a statement (§3.2.1)."""
    return line[:1] in ('C', 'c', '*', '!') or not line[:72].strip()


def is_continuation(line: str) -> bool:
    return not line[:5].strip() and line[5:6] not in ('', ' ', '0')


def source_statements(lines: List[str]) -> Iterator[Original]:
    """Each statement of a source, without blanks and in capitals."""
    found: Optional[Original] = None
    for number, line in enumerate(lines, 1):
        if is_comment(line):
            continue
        if found is None or not is_continuation(line):
            if found:
                yield found
            found = Original(line[:5].strip().lstrip('0'), '', number, number)
        found.text += line[6:72].replace(' ', '').upper()
        found.last = number
    if found:
        yield found


def written_statements(lines: List[str]) -> Iterator[Tuple[str, str, List[str]]]:
    """Each statement of a written text, its label and its text, with the lines `C>` and `C$OMP` before it."""
    said: List[str] = []
    label, text, before = '', '', said
    for line in lines:
        if line.startswith('C$OMP&'):
            said[-1] += line[6:]
        elif line.startswith(('C> ', 'C$OMP ')):
            said.append(line)
        elif is_comment(line):
            continue
        elif is_continuation(line):
            text += line[6:72]
        else:
            if text:
                yield label, text, before
            label, text, before, said = line[:5].strip(), line[6:72], said, []
    if text:
        yield label, text, before


def is_added(label: str, text: str, original: Original, closes_label: bool) -> bool:
    """Whether a written statement is none of the source: the END DO of a loop with a label, or a CONTINUE for the label of an END, END IF or END DO."""
    return closes_label if text == 'END DO' else text == 'CONTINUE' and (label, text) != (original.label, original.text)


def paired(source: List[str], written: List[str]) -> Iterator[Statement]:
    """The written statements with their lines in the source. One that was added has the last line of the statement before it."""
    given = list(source_statements(source))
    labelled: List[bool] = []
    at, last = 0, 1
    for label, text, said in written_statements(written):
        original = given[min(at, len(given) - 1)]
        if is_do(text) or is_while(text):
            labelled.append(re.match(r'DO\d', original.text) is not None)
        if is_added(label, text, original, text == 'END DO' and labelled.pop()):
            yield Statement(text, last, last, said)
        else:
            at, last = at + 1, original.last
            yield Statement(text, original.first, original.last, said)


# ---- statements into modules

def is_do(text: str) -> bool:
    return re.match(r'DO \w+ = ', text) is not None


def is_while(text: str) -> bool:
    return text.startswith('DO WHILE (')


def is_title(text: str) -> bool:
    """Whether a module that others call begins with this statement."""
    return re.match(r'SUBROUTINE |(?:INTEGER |LOGICAL )?FUNCTION ', text) is not None


def name_of(text: str) -> str:
    """The name of the module that a statement begins: MAIN, where it is none of PROGRAM, SUBROUTINE and FUNCTION."""
    found = re.match(r'(?:PROGRAM|SUBROUTINE|(?:INTEGER |LOGICAL )?FUNCTION) (\w+)', text)
    return found.group(1) if found else 'MAIN'


def functions_of(statements: List[Statement]) -> Set[str]:
    """The functions among the modules of some statements."""
    return {name_of(statement.text) for statement in statements if is_title(statement.text) and 'FUNCTION ' in statement.text.split('(')[0]}


def arrays_of(statements: List[Statement]) -> Set[str]:
    """The names with bounds in a module."""
    declared = [statement.text for statement in statements if re.match(r'(?:INTEGER|LOGICAL|DIMENSION|COMMON) ', statement.text)]
    return {name for text in declared for name in re.findall(r'(\w+)\(', text)}


def called(text: str, functions: Set[str]) -> Optional[str]:
    """The module that a statement calls, also after the test of a logical IF: by CALL, or as a function of one of these names."""
    bare = re.sub(r"'[^']*'", '', text)
    found = re.search(r'(?:^|\) )CALL (\w+)', bare)
    if found:
        return found.group(1)
    found = re.search(r' = (\w+)\(', bare)
    return found.group(1) if found and found.group(1) in functions else None


def loops_of(statements: List[Statement]) -> List[Loop]:
    """The loops in the order of their DO statements. A DO WHILE, of which there is no mark, is none."""
    loops: List[Loop] = []
    active: List[Optional[Loop]] = []
    for statement in statements:
        if is_do(statement.text):
            loop = Loop(statement, statement.last, len(active) - active.count(None))
            loops.append(loop)
            active.append(loop)
        elif is_while(statement.text):
            active.append(None)
        elif statement.text == 'END DO':
            ended = active.pop()
            if ended:
                ended.last = statement.last
    return loops


def module_of(statements: List[Statement], functions: Set[str]) -> Module:
    known = functions - arrays_of(statements)
    calls = dict.fromkeys(name for name in (called(statement.text, known) for statement in statements) if name)
    return Module(name_of(statements[0].text), statements, loops_of(statements), list(calls))


def program_of(name: str, source: str, written: str) -> Program:
    """What is said in a written text, at the lines of its source."""
    lines = [line.rstrip('\r') for line in source.split('\n')]
    modules: List[Module] = []
    open_module: List[Statement] = []
    statements = list(paired(lines, written.split('\n')))
    functions = functions_of(statements)
    for statement in statements:
        open_module.append(statement)
        if statement.text == 'END':
            modules.append(module_of(open_module, functions))
            open_module = []
    return Program(name, lines[:-1] if lines[-1] == '' else lines, modules)


# ---- of a whole program

def references(program: Program, word: str) -> int:
    """How many references to array elements the lines of a word, SAFE or CHECK, have."""
    return sum(len(statement.references(word)) for module in program.modules for statement in module.statements)


def obstacles(program: Program) -> Dict[str, int]:
    """How many serial loops have each reason, most first."""
    counts: Dict[str, int] = {}
    for loop in program.loops:
        if loop.private is None:
            counts[loop.reason] = counts.get(loop.reason, 0) + 1
    return dict(sorted(counts.items(), key=lambda item: (-item[1], item[0])))
