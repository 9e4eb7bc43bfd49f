#!/usr/bin/env python3
"""What the gate costs: processor seconds of each crate (proof, tests, must-fail edits), and the dearest functions.

    bench/gate.py run [WORD ..]        runs `rt ci WORD ..` at the top, samples the prover's processes once a second from /proc, and writes what it saw to
                                       bench/gate.json. Words are for kits whose gate takes some, and keeps what passed unless one of them forbids it (`rt help`)
    bench/gate.py table                prints the table of bench/gate.json, dearest first, as it stands in docs/PERFORMANCE.md
    bench/gate.py functions CRATE ..   checks each of these crates from nothing with one job and prints its dearest functions, each with all time since the line before it; their libraries must be built (`rt check`)

Nothing is read of a process after its last sample, so that a sum is up to a second a process too low. Linux alone has /proc.
"""
import json, os, re, subprocess, sys, time

TOP = os.path.dirname(os.path.dirname(os.path.abspath(__file__)))
SEEN = os.path.join(TOP, 'bench', 'gate.json')
TICKS = os.sysconf('SC_CLK_TCK')


def text_of(path):
    try:
        with open(path, 'rb') as file:
            return file.read().decode(errors='replace')
    except OSError:
        return ''


def folder_of(pid):
    try:
        return os.readlink(f'/proc/{pid}/cwd')
    except OSError:
        return ''


def command_of(pid):
    """The words of a prover's process, or None for any other."""
    try:
        if os.path.basename(os.readlink(f'/proc/{pid}/exe')) != 'rattle':
            return None
    except OSError:
        return None
    return text_of(f'/proc/{pid}/cmdline').split('\0')


def sample(seen):
    """Adds to `seen` what each prover's process has used until now."""
    for pid in filter(str.isdigit, os.listdir('/proc')):
        words = command_of(pid)
        fields = text_of(f'/proc/{pid}/stat').rpartition(')')[2].split()
        if not words or '--crate-name' not in words or len(fields) < 20:
            continue
        kind = 'tests' if '--test' in words else 'edits' if 'rt-edit-' in folder_of(pid) else 'proof'
        crate = words[words.index('--crate-name') + 1]
        entry = seen.setdefault(f'{pid}-{fields[19]}', {'crate': crate, 'kind': kind, 'seconds': 0, 'mib': 0})
        entry['seconds'] = max(entry['seconds'], (int(fields[11]) + int(fields[12])) / TICKS)
        peak = re.search(r'VmHWM:\s+(\d+)', text_of(f'/proc/{pid}/status'))
        entry['mib'] = max(entry['mib'], int(peak[1]) // 1024 if peak else 0)


def run(words):
    """Runs the gate and samples it. Returns its status."""
    seen, begun = {}, time.time()
    gate = subprocess.Popen(['rt', 'ci', *words], cwd=TOP)
    while gate.poll() is None:
        sample(seen)
        time.sleep(1)
    told = {'cores': os.cpu_count(), 'date': time.strftime('%Y-%m-%d'), 'minutes': (time.time() - begun) / 60, 'parts': list(seen.values())}
    with open(SEEN, 'w') as file:
        json.dump(told, file)
    return gate.returncode


def table():
    """Prints processor seconds by crate, dearest first."""
    with open(SEEN) as file:
        told = json.load(file)
    crates = {}
    for part in told['parts']:
        row = crates.setdefault(part['crate'], {'proof': 0, 'tests': 0, 'edits': 0, 'count': 0, 'mib': 0})
        row[part['kind']] += part['seconds']
        row['count'] += part['kind'] == 'edits'
        row['mib'] = max(row['mib'], part['mib'])
    total = {kind: sum(row[kind] for row in crates.values()) for kind in ('proof', 'tests', 'edits')}
    print(f"{told['date']}, {told['cores']} cores, {told['minutes']:.0f} minutes; processor minutes: " + ', '.join(f'{kind} {total[kind] / 60:.0f}' for kind in total) + f", in all {sum(total.values()) / 60:.0f}\n")
    print('| Crate | Proof (s) | Tests (s) | Edits (s) | Peak (MiB) |\n|---|---|---|---|---|')
    for crate, row in sorted(crates.items(), key=lambda it: -sum(it[1][kind] for kind in total)):
        print(f"| `{crate}` | {row['proof']:.0f} | {row['tests']:.0f} | {row['edits']:.0f} | {row['mib']} |")


def functions(crates):
    """Prints the dearest functions of crates, each with the time from the end of the one before it, so with that of lemmas that it is the first to need."""
    found = []
    for crate in crates:
        checking = subprocess.Popen(['rt', 'check', '--progress', '--jobs', '1'], cwd=os.path.join(TOP, 'crates', crate), stdout=subprocess.PIPE, stderr=subprocess.STDOUT, text=True)
        last = time.time()
        for line in checking.stdout:
            name = re.match(r'checked (\S+), \d+ of \d+', line)
            if name:
                found.append((time.time() - last, name[1]))
                last = time.time()
        checking.wait()
    for seconds, name in sorted(found, reverse=True)[:30]:
        print(f'| `{name}` | {seconds:.1f} |')


if __name__ == '__main__':
    verb, *words = sys.argv[1:] or ['']
    if verb == 'run':
        sys.exit(run(words))
    if verb == 'table':
        table()
    elif verb == 'functions':
        functions(words)
    else:
        sys.exit(__doc__)
