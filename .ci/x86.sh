# shellcheck shell=bash
# Sourced by the scripts that link the library with C code. The library is x86-64 code, so such a program is built for x86-64
# whatever machine this is, and runs as it is on x86-64 and under the kit's emulator elsewhere. After
#
#     source .ci/x86.sh
#
# these two stand, each a list of words that goes before the rest of a command:
#
#     "${x86_cc[@]}" -std=c11 -Iinclude host.c -Ltarget/staticlib -lplanner -o target/host     compiles and links
#     "${x86_run[@]}" target/host                                                             runs it
#
# The compiler is installed from Debian's packages if it is not there. Programs are linked with -static, so that the emulator
# needs neither a loader nor a C library. What this file says goes to standard error.

source .ci/kit.sh
x86_cc=(gcc -static)
x86_packages=(gcc libc6-dev)
if [ "$(uname -m)" != x86_64 ]; then
    x86_cc=(x86_64-linux-gnu-gcc -static)
    x86_packages=(gcc-x86-64-linux-gnu libc6-dev-amd64-cross)
fi

# A compiler that is there may still lack the C library that programs are linked with.
if ! command -v "${x86_cc[0]}" >/dev/null || [ ! -f "$("${x86_cc[0]}" -print-file-name=libc.a)" ]; then
    {
        apt-get update
        DEBIAN_FRONTEND=noninteractive apt-get install -y --no-install-recommends "${x86_packages[@]}"
    } >&2
fi
