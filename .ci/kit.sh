# shellcheck shell=bash
# Sourced by the scripts that run x86-64 programs. It needs the kit and nothing else. After
#
#     source .ci/kit.sh
#
# these two stand, each a list of words that goes before a program, empty on x86-64 and elsewhere the kit's emulator:
#
#     "${x86_run[@]}" target/host              runs a program that was linked with -static
#     "${kit_run[@]}" crates/trip/out/trip     runs a program that rt linked: it needs the kit's loader and C library too
#
# What this file says goes to standard error.

# shellcheck disable=SC2034 # both are for the script that sources this file
x86_run=() kit_run=()
if [ "$(uname -m)" != x86_64 ]; then
    kit=${RATTLE_HOME:-$(dirname "$(dirname "$(readlink -f "$(command -v rt)")")")}
    kit_tools=$kit/on/$(uname -m)/toolchain
    x86_run=("$kit_tools/bin/qemu-x86_64")
    kit_run=("${x86_run[@]}" "$kit_tools/lib/ld-linux-x86-64.so.2" --library-path "$kit_tools/lib")
    [ -x "${x86_run[0]}" ] || {
        echo "kit.sh: the kit at $kit has no emulator for x86-64 programs on this machine" >&2
        exit 1
    }
fi
