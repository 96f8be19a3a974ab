#!/bin/sh
# usage: build.sh FOLDER ARCHIVE [PROGRAM]
# For a machine that is not x86-64. `rt` writes code for x86-64 alone; this writes FOLDER/libconsent.a, a library for
# the machine at hand that hands each call to ARCHIVE in the toolchain's emulator, and FOLDER/screen, which runs PROGRAM
# in it.
set -eu

folder=$1 archive=$2 program=${3:+$(readlink -f "$3")}
here=$(cd "$(dirname "$0")" && pwd -P)
include=$here/../../include
home=${RATTLE_HOME:-$(dirname "$(dirname "$(readlink -f "$(command -v rt)")")")}
own=$home/on/$(uname -m)
tools=$own/toolchain

mkdir -p "$folder"
folder=$(cd "$folder" && pwd -P)

# The headers of the C language itself are the same for every processor.
headers=$(gcc -print-file-name=include)
"$tools/bin/clang" --target=x86_64-unknown-linux-gnu -std=c11 -O2 -ffreestanding -isystem "$headers" -I"$include" \
    -c "$here/bridge.c" -o "$folder/bridge.o"
"$own/bin/rattle-link" --target x86_64-unknown-linux-gnu --toolchain "$tools" -o "$folder/bridge" \
    "$folder/bridge.o" "$archive" 2>"$folder/link.log" || { cat "$folder/link.log" >&2; exit 1; }

gcc -std=c11 -O2 -fPIC -Wall -Wextra -Werror -I"$include" \
    -DEMULATOR="\"$tools/bin/qemu-x86_64\"" -DLOADER="\"$tools/lib/ld-linux-x86-64.so.2\"" \
    -DLIBRARIES="\"$tools/lib\"" -DBRIDGE="\"$folder/bridge\"" -c "$here/forward.c" -o "$folder/forward.o"
rm -f "$folder/libconsent.a"
ar rcs "$folder/libconsent.a" "$folder/forward.o"

[ -n "$program" ] || exit 0
cat >"$folder/screen" <<END
#!/bin/sh
exec "$tools/bin/qemu-x86_64" "$tools/lib/ld-linux-x86-64.so.2" --library-path "$tools/lib" "$program"
END
chmod +x "$folder/screen"
