#!/bin/sh
# Writes the stored cases anew: the generated journal and the reference's answers.
set -eu

START=2002
TEXTS=700

here=$(cd "$(dirname "$0")" && pwd)
cases=$here/../crates/cases

mkdir -p "$cases"
python3 -B "$here/generate.py" --start "$START" --texts "$TEXTS" >"$cases/stdin"
python3 -B "$here/stocksheet.py" <"$cases/stdin" >"$cases/stdout"
