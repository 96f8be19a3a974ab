# Sourced by test.sh, bench/run.sh and ../car: says by CONSENT_LIB_DIR and SCREEN_PROGRAM what cargo links and runs.
# Archive and program are code for x86-64; on another processor they run in the toolchain's emulator.

# usage: link_archive HOST ARCHIVE [PROGRAM], where HOST is the folder of this file
link_archive() {
    if [ "$(uname -m)" = x86_64 ]; then
        CONSENT_LIB_DIR=$(cd "$(dirname "$2")" && pwd -P)
        [ $# -lt 3 ] || SCREEN_PROGRAM=$(readlink -f "$3")
    else
        "$1/emulated/build.sh" "$1/target/emulated" "$2" ${3+"$3"}
        CONSENT_LIB_DIR=$(cd "$1/target/emulated" && pwd -P)
        [ $# -lt 3 ] || SCREEN_PROGRAM=$CONSENT_LIB_DIR/screen
    fi
    export CONSENT_LIB_DIR SCREEN_PROGRAM
}
