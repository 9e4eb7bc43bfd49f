"""The reference implementation in Python (reference/) for the scripts of this folder, and the stored cases of the drivers."""
import importlib
import importlib.util
import os
import sys

HERE = os.path.dirname(os.path.abspath(__file__))
TOP = os.path.dirname(HERE)
FOLDER = os.path.join(TOP, 'reference')

# the stage at which the reference answers as the command does today (reference/README.md lists them)
STAGE = 'bounds'
# the last stage that keeps bases of version 1, and the last with the format number 1 of every kind
VERSION_1, FORMATS_1 = 'verify', 'base-2'


def load(name):
    """A module of the reference by name, also where this folder has a module of that name."""
    if FOLDER not in sys.path:
        sys.path.append(FOLDER)
    if not os.path.exists(os.path.join(HERE, f'{name}.py')):
        return at_stage(importlib.import_module(name))
    full = f'reference_{name}'
    if full not in sys.modules:
        spec = importlib.util.spec_from_file_location(full, os.path.join(FOLDER, f'{name}.py'))
        sys.modules[full] = importlib.util.module_from_spec(spec)
        spec.loader.exec_module(sys.modules[full])
    return sys.modules[full]


def at_stage(module):
    """The same, with the choices that its own functions do not make by the stage: how many systems a region has, and what holds of FUNCTION and DO WHILE."""
    since = importlib.import_module('stages').since
    importlib.import_module('regions').set_pieces(4 if since(STAGE, 'pieces') else 1)
    importlib.import_module('scalars').set_whiles(since(STAGE, 'functions'))
    importlib.import_module('loops').set_copies(since(STAGE, 'copies'))
    if module.__name__ == 'soundness':
        module.FUNCTIONS = since(STAGE, 'references')
    return module


def as_bytes(text):
    """A text of the reference as bytes: a character is a byte."""
    return text.encode('latin-1') if isinstance(text, str) else text


def run(words, files, stage=STAGE):
    """What the command gives for these words and files: exit number, bytes on out, bytes on err."""
    return whole(words, files, stage)[:3]


def answer(words, text, stage=STAGE):
    """The same for these words and a text as its input."""
    return run([*words, 'p.f'], {'p.f': as_bytes(text)}, stage)


class Held:
    """Answers on texts, where one text comes several times with other words: its results are found once."""

    def __init__(self):
        self.text, self.db = None, None

    def answer(self, words, text):
        """As `answer`. The words name no base."""
        pips = load('pips')
        database = pips.Db
        if text != self.text:
            self.text, self.db = text, database(STAGE)
        pips.Db = lambda stage: self.db
        try:
            return answer(words, text)
        finally:
            pips.Db = database


def write_cases(crate, given, wanted):
    """Writes what a driver reads, and what it must print. Both are texts, or lists of texts that are joined as they are."""
    for name, texts in (('stdin', given), ('stdout', wanted)):
        with open(os.path.join(TOP, 'crates', crate, name), 'wb') as file:
            file.write(b''.join(map(as_bytes, [texts] if isinstance(texts, (str, bytes)) else texts)))


def whole(words, files, stage=STAGE):
    """The same with the files that are held afterwards."""
    status, out, err, after = load('pips').answer(words, files, stage)
    return status, as_bytes(out), as_bytes(err), after
