#!/bin/sh
# Makes the .txt, .term, .out and .bits files again, by the second implementation and tools/terms alone; and of arithmetic/, whose texts
# are written by hand, all other files.
set -e
cd "$(dirname "$0")/.."
bin=${GLOW2_DIR:-target/cargo/release}
"$bin/example_texts" examples
for t in examples/*.txt; do
    python3 tools/terms make -o "${t%.txt}.term" "@$t"
    "$bin/glow2" < "${t%.txt}.term" > "${t%.txt}.out"
done
for t in examples/15-*.term examples/16-*.term; do
    python3 tools/terms show --bits "$t" > "${t%.term}.bits"
done
definitions=@examples/arithmetic/church.txt
prelude=examples/arithmetic/church.prelude
python3 tools/terms prelude -o "$prelude" "$definitions"
for t in examples/arithmetic/[0-9]*.txt; do
    at=${t%.txt}
    python3 tools/terms make --prelude "$definitions" -o "$at.term" "@$t"
    "$bin/glow2" "$prelude" < "$at.term" > "$at.out"
    f=$(python3 tools/terms show --nodes "$at.term" | sed -n 's/^# f = //p')
    sed -n 's/^term //p' "$at.out" | python3 tools/terms make -f "$f" - | python3 tools/terms show --prelude "$definitions" - > "$at.shown"
done
