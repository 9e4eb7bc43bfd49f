"""Cases on rows as text: one call a line, its variables, and after each `;` a system.

The reference has rows `Row(equal, terms, bound)` and systems `System(rows, weak)`; a variable is its kind (0 to 3) and its number.
"""
from reference import load

affine, model = load('affine'), load('model')

KINDS = 'cxpa'


def var_text(var):
    return f'{KINDS[var[0]]}{var[1]}'


def row_text(row):
    terms = ''.join(f'{factor} {var_text(var)} ' for var, factor in row.terms)
    return f'{terms}{"==" if row.equal else "<="} {row.bound}'


def system_text(sys_):
    return ('weak ' if sys_.weak else '') + ' , '.join(row_text(row) for row in sys_.rows)


def case_text(call, variables=(), systems=()):
    return ' '.join([call] + [var_text(v) for v in variables]) + ''.join(f' ; {s}' for s in systems)


def exact_text(exact, sys_):
    return ('exact' if exact else 'not exact') + f' ; {system_text(sys_)}'
