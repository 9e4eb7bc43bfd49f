#!/usr/bin/env bash
# Makes every stored answer again: the drivers' stdin and stdout, the random programs, the packed programs, and the runs as equations.
set -eu
cd "$(dirname "$0")/.."
python3 bench/cases_rows.py
python3 bench/cases_programs.py
python3 bench/cases_bases.py
python3 bench/cases_sessions.py
python3 bench/cases_faults.py
python3 bench/random_cases.py
python3 bench/pack.py --answers
python3 bench/pack.py
python3 bench/runs.py --write >/dev/null
python3 bench/language.py
git status --short crates tests
