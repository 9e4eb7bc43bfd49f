"""Times the built program on a text: what it writes, the least processor seconds of three runs, and the greatest memory of them."""
import os
import resource
import subprocess
import sys
import tempfile
from dataclasses import dataclass

TOP = os.path.dirname(os.path.dirname(os.path.abspath(__file__)))
RUNS = 3


@dataclass
class Measured:
    out: int
    seconds: float
    mib: float


def binary_of(words):
    """The program that is named, or the one that ./pips builds."""
    return os.path.abspath(words[0]) if words else os.path.join(TOP, 'crates', 'pips', 'out', 'pips')


def processor_seconds():
    """What the programs that were run have taken so far, which other work on the machine changes little."""
    used = resource.getrusage(resource.RUSAGE_CHILDREN)
    return used.ru_utime + used.ru_stime


def one_run(binary, place, words):
    """A run on the file p.f of a folder."""
    out, err = os.path.join(place, 'out'), os.path.join(place, 'err')
    with open(out, 'wb') as to_out, open(err, 'wb') as to_err:
        begun = subprocess.Popen([binary, *words, os.path.join(place, 'p.f')], stdin=subprocess.DEVNULL, stdout=to_out, stderr=to_err)
        _, status, used = os.wait4(begun.pid, 0)
        begun.returncode = os.waitstatus_to_exitcode(status)
    if begun.returncode:
        with open(err, encoding='latin-1') as said:
            sys.exit(f'status {begun.returncode}: {said.read()}')
    return Measured(os.path.getsize(out), used.ru_utime + used.ru_stime, used.ru_maxrss / 1024)


def measured(binary, text, words=()):
    with tempfile.TemporaryDirectory() as place:
        with open(os.path.join(place, 'p.f'), 'w') as file:
            file.write(text)
        runs = [one_run(binary, place, words) for _ in range(RUNS)]
    return Measured(runs[0].out, min(run.seconds for run in runs), max(run.mib for run in runs))


def line_of(name, text, answer):
    return f'{name}: in {len(text)}, out {answer.out}, {answer.seconds:.3f} s, {answer.mib:.1f} MiB'


def report(name, binary, text, words=()):
    print(line_of(name, text, measured(binary, text, words)), flush=True)


def folded(statement):
    """A statement over as many lines as it needs."""
    pieces = [statement[k:k + 66] for k in range(0, len(statement), 66)]
    return '      ' + '\n     &'.join(pieces) + '\n'
