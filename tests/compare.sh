#!/usr/bin/env bash
# The compiled program and the C library beside the second implementation (differential.py), whose words it takes: --longer 10, say.
# Needs target/bin/planner, target/staticlib/libconsole.a, python3 and gcc; on Arm gcc for x86-64, and the kit's emulator runs both.
# All of it runs with 256 KB of stack: neither the program nor a call takes more.
set -euo pipefail
cd "$(dirname "$0")/.."
room=$(mktemp -d)
trap 'rm -rf "$room"' EXIT
compiler=gcc program=("$PWD/target/bin/planner") driver=("$room/driver")
if [ "$(uname -m)" != x86_64 ]; then
    kit=${RATTLE_HOME:-$(dirname "$(dirname "$(readlink -f "$(command -v rt)")")")}
    tools=$kit/on/$(uname -m)/toolchain
    compiler='x86_64-linux-gnu-gcc -static'
    emulator=("$tools/bin/qemu-x86_64" -s 262144)
    program=("${emulator[@]}" "$tools/lib/ld-linux-x86-64.so.2" --library-path "$tools/lib" "${program[@]}")
    driver=("${emulator[@]}" "${driver[@]}")
fi
# shellcheck disable=SC2086 # words
$compiler -std=c99 -O2 -Wall -Wextra -pedantic -Werror -Iinclude tests/driver.c target/staticlib/libconsole.a -o "$room/driver"
# After gcc, which may need more. On Arm the emulator's -s above is the limit: this one does not reach what it runs.
[ "$(uname -m)" != x86_64 ] || ulimit -s 256
# Words as one command line, quoted where a path has a space, say.
joined() { python3 -c 'import shlex, sys; print(shlex.join(sys.argv[1:]))' "$@"; }
python3 -B tests/differential.py "$(joined "${program[@]}")" "$(joined "${driver[@]}")" "$@"
