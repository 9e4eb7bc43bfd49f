"""The marks of loops in words, as docs/LANGUAGE.md explains them."""
from typing import Dict, List, Tuple

# What the last word of an obstacle means, in one sentence and at length.
SHORT: Dict[str, str] = {
    'Jump': 'it may be left by a jump, or a jump leads to it',
    'InputOutput': 'it prints or reads',
    'Step': 'its step is no constant',
    'Index': 'its variable cannot be copied, or is needed after it',
    'Name': 'an iteration cannot have a copy of {name}',
    'Carried': 'an iteration may read what an earlier one left in {name}',
    'Live': 'what the last iteration leaves in {name} may be read after the loop',
}

LONG: Dict[str, str] = {
    'Jump': 'A GO TO names the label of the loop, or control may leave its body: by GO TO, RETURN or STOP, also by a STOP in what it calls. '
            'Find first how far the loop goes, or write the jump back as a loop.',
    'InputOutput': 'The body, or what it calls, prints or reads, and the order of that would change. Print from an array, in a loop of its own.',
    'Step': 'The step is no constant, or 0, so it is not known in which direction the loop goes. Make it a PARAMETER.',
    'Index': 'Each iteration of a parallel loop has its own DO variable. This one cannot be copied (it is in COMMON or EQUIVALENCE, a dummy, '
             'saved, or has DATA), or may be read after the loop, or stands in the bounds of its own DO. Compute the value after the loop.',
    'Name': 'Copies of the variable would help, but an iteration cannot have one: the variable is in COMMON or EQUIVALENCE, a dummy, saved, or has '
            'DATA; or the bounds of the DO read it. Work in a local variable, and set the other one after the loop.',
    'Carried': 'An iteration may read what an earlier one wrote, as in sums, in recurrences, and of a variable that is written under a condition '
               'alone. Compute from what the loop does not write, or write the variable in each iteration before it is read. With --reductions '
               'loops that sum, or find the greatest or least, may be parallel.',
    'Live': 'Copies of the variable would help, but the value that the last iteration leaves may be read after the loop, also by callers and in '
            'later calls. Read it later from where the loop put it.',
}

ACCESSES: Dict[str, str] = {
    'W-R': 'written by one iteration and read by a later one',
    'R-W': 'read by one iteration and written by a later one',
    'W-W': 'written by two iterations',
}


OPERATORS: Dict[str, str] = {
    '+': 'the sum',
    'MAX': 'the greatest value',
    'MIN': 'the least value',
    '.AND.': 'whether all hold',
    '.OR.': 'whether one holds',
}


def clauses_in_words(reductions: List[Tuple[str, str]]) -> str:
    """REDUCTION clauses in words: `K for the sum, M for the greatest value`."""
    return ', '.join(f'{name} for {OPERATORS[word]}' for word, name in reductions)


def in_words(obstacle: str) -> str:
    """An obstacle as a sentence: of `A W-R Carried` what Carried means, of A."""
    parts = obstacle.split()
    return SHORT[parts[-1]].format(name=parts[0])


def accesses_in_words(obstacle: str) -> str:
    """The accesses of an obstacle, which may be none."""
    return '; '.join(ACCESSES[part] for part in obstacle.split() if part in ACCESSES)
