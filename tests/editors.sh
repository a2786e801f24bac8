#!/usr/bin/env bash
# Tries the syntax files, the completions and the manual page. Needs no built program.
set -u
python3 "$(dirname "$(readlink -f "${BASH_SOURCE[0]}")")/editors.py"
