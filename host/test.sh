#!/bin/sh
# usage: test.sh [ARCHIVE]
# Tests the host's crates and the C programs on the proved library, by default ../target/staticlib/libconsent.a, and the
# program ../target/bin/screen.
set -eu

cd "$(dirname "$0")"
. ./link.sh
archive=${1:-../target/staticlib/libconsent.a}
if [ ! -f "$archive" ]; then
    echo "There is no $archive. Run \`tools/library.sh\` at the repository's top." >&2
    exit 1
fi
screen=../target/bin/screen
if [ ! -x "$screen" ]; then
    echo "There is no $screen. Run \`tools/library.sh\` at the repository's top." >&2
    exit 1
fi
link_archive . "$archive" "$screen"

cargo test --offline --workspace

# The header serves C++ as well.
g++ -std=c++11 -Wall -Wextra -Werror -fsyntax-only -x c++ ../include/consent.h

mkdir -p target/c
for program in numbers two_screens; do
    gcc -std=c11 -O2 -Wall -Wextra -Werror -I../include \
        "c/$program.c" "$CONSENT_LIB_DIR/libconsent.a" -o "target/c/$program"
done
target/c/numbers
echo "Every number of consent.h is the library's."
target/c/two_screens >target/c/two_screens.txt
diff c/two_screens.expected.txt target/c/two_screens.txt
echo "The C program links the library and prints what it should."
