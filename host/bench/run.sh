#!/bin/sh
# usage: bench/run.sh
# The tables of docs/SPEED.md for the machine at hand, of the library that `tools/library.sh` built: first executed
# instructions, which repeat, then times, which do not.
set -eu

cd "$(dirname "$0")/.."
. ./link.sh
archive=../target/staticlib/libconsent.a
if [ ! -f "$archive" ]; then
    echo "There is no $archive. Run \`tools/library.sh\` at the repository's top." >&2
    exit 1
fi
link_archive . "$archive"
cargo build --offline --quiet --release -p bench
bench=target/release/bench
counts=target/counts
mkdir -p "$counts"

# Valgrind counts a repeated instruction at every repetition, so that a fill would count by its bytes: with these the C
# library fills and moves by stores, as it does on a processor that is not quick at repeating.
by_stores=glibc.cpu.x86_rep_stosb_threshold=1000000000:glibc.cpu.x86_rep_movsb_threshold=1000000000

# The instructions that one side executes for one work, from entry to return of the function `counted`.
instructions() {
    GLIBC_TUNABLES=$by_stores valgrind --quiet --tool=callgrind --callgrind-out-file="$counts/$1-$2" \
        --toggle-collect='bench::count::counted*' "$bench" count "$1" "$2" >"$counts/log" 2>&1 ||
        { cat "$counts/log" >&2; exit 1; }
    sed -n 's/^totals: //p' "$counts/$1-$2"
}

count_works() {
    echo "| millions of executed instructions | proved | plain | ratio |"
    echo "|---|---|---|---|"
    number=0
    "$bench" works | while read -r work; do
        number=$((number + 1))
        echo "$(instructions proved "$number") $(instructions plain "$number")" | awk -v work="$work" \
            '{ printf "| %s | %.1f | %.1f | %.2f |\n", work, $1 / 1e6, $2 / 1e6, $1 / $2 }'
    done
    echo
}

if [ "$(uname -m)" != x86_64 ]; then
    echo "Instructions are not counted here: the library is code for x86-64. docs/SPEED.md says how it can be done."
elif command -v valgrind >/dev/null; then
    count_works
else
    echo "Instructions are not counted: there is no valgrind."
fi
"$bench"
