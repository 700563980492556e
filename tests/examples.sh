#!/usr/bin/env bash
# include/rastwob.h, examples/ and ./plan, tried as their users would. Needs target/bin/planner and target/staticlib/libconsole.a
# (tools/build), python3, gcc and g++; on Arm gcc for x86-64 too.
# Prints a line for each thing, FAILED where it is wrong, and ends with status 1 if any was.
set -uo pipefail
cd "$(dirname "$0")/.." || exit 1
top=$(pwd -P)
room=$(mktemp -d) || exit 1
trap 'rm -rf "$room"' EXIT
failed=0

good() { echo "examples: $*"; }
bad() {
    echo "examples: FAILED: $*"
    failed=$((failed + 1))
}
# Says what came of the command before it: its name, and what it printed where it failed.
judge() { # STATUS NAME
    if [ "$1" -eq 0 ]; then good "$2"; else bad "$2"; head -n 10 "$room/log"; fi
}

if [ ! -x target/bin/planner ]; then
    bad "target/bin/planner is not there; 'tools/build planner' makes it"
    exit 1
fi

# ---- The header
strict='-Wall -Wextra -pedantic -Wconversion -Werror'
cat >"$room/header.c" <<'EOF'
#include "rastwob.h"
#include "rastwob.h"
/* Each length is a constant, and that of the largest search is the one of the rules. */
typedef char domains_fit[RASTWOB_DOMAINS_BYTES(RASTWOB_MOST_VARIABLES) == 64 ? 1 : -1];
typedef char tables_fit[RASTWOB_TABLES_BYTES(RASTWOB_MOST_VARIABLES, RASTWOB_MOST_VALUES) == 32768 ? 1 : -1];
typedef char agenda_fits[RASTWOB_AGENDA_BYTES(RASTWOB_MOST_VARIABLES, RASTWOB_MOST_SLOTS) == 34816 ? 1 : -1];
typedef char requests_fit[RASTWOB_REQUESTS_BYTES(4, 5) == 70 ? 1 : -1];
typedef char words_fit[RASTWOB_FILE_WORDS(32, 16, 512) == 25385 ? 1 : -1];
typedef char file_fits[RASTWOB_FILE_BYTES(32, 16, 512) == RASTWOB_LARGEST_FILE_BYTES ? 1 : -1];
typedef char places_fit[RASTWOB_TABLE_WORD(4, 3, 1, 2, 1) == 19 ? 1 : -1];
typedef char slots_fit[RASTWOB_SLOT_WORD(4, 2, 1) == 13 ? 1 : -1];
uint32_t opens(uint8_t *bytes, uint32_t *number, uint64_t *checks);
uint32_t opens(uint8_t *bytes, uint32_t *number, uint64_t *checks)
{
    return rastwob_open(1, 1, bytes, RASTWOB_DOMAINS_BYTES(1), bytes + 2, RASTWOB_TABLES_BYTES(1, 1), bytes + 4,
                        RASTWOB_AGENDA_BYTES(1, 1), number, checks, number + 1);
}
EOF
cp "$room/header.c" "$room/header.cpp"
# shellcheck disable=SC2086 # words
{
    gcc -std=c99 $strict -Iinclude -c "$room/header.c" -o "$room/header.o" >"$room/log" 2>&1
    judge $? "rastwob.h is C99 without a warning"
    g++ -std=c++98 $strict -Wno-long-long -Iinclude -c "$room/header.cpp" -o "$room/header98.o" >"$room/log" 2>&1 &&
        g++ -std=c++17 $strict -Iinclude -c "$room/header.cpp" -o "$room/header.o" >"$room/log" 2>&1
    judge $? "rastwob.h is C++ without a warning"
    nm "$room/header.o" >"$room/log" 2>&1 && grep -q ' U rastwob_open$' "$room/log"
    judge $? "from C++ the calls have their C names"
}

# ---- The C example
compiler=gcc emulator=''
if [ "$(uname -m)" != x86_64 ]; then
    compiler='x86_64-linux-gnu-gcc -static'
    kit=${RATTLE_HOME:-$(dirname "$(dirname "$(readlink -f "$(command -v rt)")")")}
    emulator=$kit/on/$(uname -m)/toolchain/bin/qemu-x86_64
fi
if [ -f target/staticlib/libconsole.a ]; then
    # shellcheck disable=SC2086
    $compiler -std=c99 -O2 $strict -Iinclude examples/console.c target/staticlib/libconsole.a -o "$room/console" >"$room/log" 2>&1
    judge $? "console.c is compiled without a warning and linked with libconsole.a"
    if [ -x "$room/console" ]; then
        ${emulator:+"$emulator"} "$room/console" >"$room/out" 2>"$room/log"
        judge $? "console.c met only what it expects"
        diff "$room/out" examples/console.expected >"$room/log" 2>&1
        judge $? "console.c prints console.expected"
    fi
    # The program that README.md prints, from its first line of C to the end of main.
    sed -n '/^    #include <stdio.h>$/,/^    }$/s/^    //p' README.md >"$room/mine.c"
    # shellcheck disable=SC2086
    $compiler -std=c99 $strict -Iinclude "$room/mine.c" target/staticlib/libconsole.a -o "$room/mine" >"$room/log" 2>&1 &&
        ${emulator:+"$emulator"} "$room/mine" >"$room/out" 2>>"$room/log" && echo '1 2' | diff - "$room/out" >>"$room/log"
    judge $? "README.md's C is compiled without a warning and prints 1 2"
else
    bad "target/staticlib/libconsole.a is not there; 'tools/build console_c' makes it"
fi

# ---- The saved searches
python3 -B examples/make.py --check >"$room/log" 2>&1
judge $? "the saved searches and what is expected of them are what the descriptions make"
printf 'solved\nsteps 2 checks 3\n0 0\n1 1\n' | cmp - examples/printed.expected >"$room/log" 2>&1
judge $? "printed.expected is the text of the rules"
cmp examples/fallbacks.expected examples/midway.expected >"$room/log" 2>&1
judge $? "midway.expected is fallbacks.expected: the cut changes nothing"
for name in mine --fast; do
    python3 -B examples/make.py $name >"$room/log" 2>&1
    [ $? -eq 2 ] && head -n 1 "$room/log" | grep -qF -- "'$name'"
    judge $? "make.py $name: its first line says what is wrong"
done
# A description that make.py refuses: its last line, and what is said of it.
wrongly() { # LINE MESSAGE
    printf 'windows a b\npath x any\npath y any\n%s\n' "$1" >"$room/wrong.txt"
    python3 -B examples/make.py "$room/wrong.txt" >"$room/log" 2>&1
    [ $? -eq 1 ] && [ "$(wc -l <"$room/log")" -eq 1 ] && grep -qF -- "wrong.txt line 4: $2" "$room/log"
    judge $? "make.py on '$1': $2"
}
wrongly 'like x y' "it is written 'like NAME'"
wrongly 'like wrong' "$room/wrong.txt is like itself"
wrongly 'place x at a, x at b' "'x' stands here twice"
wrongly 'request extraction x a, y b, x b' "'x' stands here twice"
wrongly 'request halving z' "no path is called 'z'"

# ---- ./plan on them
# Runs a command on the present standard input, and holds its status, output and messages to what is told.
# OUT is a file; MESSAGE a part of standard error, empty for none at all.
says() { # NAME STATUS OUT MESSAGE COMMAND ...
    local name=$1 status=$2 out=$3 message=$4 got
    shift 4
    "$@" >"$room/out" 2>"$room/err"
    got=$?
    if [ "$got" -ne "$status" ]; then
        bad "$name: status $got, and not $status; it says '$(head -n 1 "$room/err")'"
    elif ! cmp -s "$room/out" "$out"; then
        bad "$name: it prints something else"
        diff "$room/out" "$out" | head -n 5
    elif [ -z "$message" ] && [ -s "$room/err" ]; then
        bad "$name: it says $(head -n 1 "$room/err")"
    elif ! grep -qF -- "$message" "$room/err" && [ -n "$message" ]; then
        bad "$name: it does not say '$message' but '$(head -n 1 "$room/err")'"
    else
        good "$name"
    fi
}
in_folder() ( # FOLDER COMMAND ...
    cd "$1" || exit 99
    shift
    exec "$@"
)
: >"$room/empty"
nothing=$room/empty

for file in examples/*.search; do
    expected=${file%.search}.expected
    says "./plan $file: $(head -n 2 "$expected" | paste -sd ' ')" 0 "$expected" '' ./plan "$file"
done
says "./plan < FILE" 0 examples/printed.expected '' ./plan <examples/printed.search
says "./plan at the end of a pipe" 0 examples/printed.expected '' ./plan < <(cat examples/printed.search)
printf 'refused 14\n' >"$room/14"
says "./plan with empty input: refused 14" 0 "$room/14" '' ./plan </dev/null
says "./plan on an empty file: refused 14" 0 "$room/14" '' ./plan "$room/empty"
says "./plan on a file that is no search: refused 14" 0 "$room/14" '' ./plan README.md

# ---- ./plan from elsewhere
here="$room/else where"
mkdir "$here"
cp examples/midway.search "$here/-mine *.search"
ln -s "$top/plan" "$room/link"
ln -s ../link "$here/link"
says "./plan from another folder, by a relative path" 0 examples/fallbacks.expected '' in_folder "$here" "$top/plan" './-mine *.search'
says "./plan by a link to a link" 0 examples/fallbacks.expected '' in_folder "$here" ./link './-mine *.search'
says "./plan by the PATH" 0 examples/fallbacks.expected '' in_folder "$here" env PATH="$top:$PATH" plan './-mine *.search'
says "./plan -- FILE, a name that begins with -" 0 examples/fallbacks.expected '' in_folder "$here" "$top/plan" -- '-mine *.search'

# ---- ./plan called wrongly
says "./plan, no such file" 2 "$nothing" "no such file: 'nowhere.search'" ./plan nowhere.search
says "./plan, an empty name" 2 "$nothing" 'the file name is empty' ./plan ''
says "./plan, a directory" 2 "$nothing" "a directory, not a file: 'examples'" ./plan examples
python3 -c 'import socket, sys; socket.socket(socket.AF_UNIX).bind(sys.argv[1])' "$room/socket"
says "./plan, a socket" 2 "$nothing" "cannot read '$room/socket'" ./plan "$room/socket"
says "./plan, a socket, by another shell" 2 "$nothing" "cannot read '$room/socket'" bash --posix plan "$room/socket"
says "./plan, a directory as standard input" 2 "$nothing" 'standard input is a directory' ./plan <examples
says "./plan, two arguments" 2 "$nothing" 'usage: plan FILE' ./plan examples/printed.search examples/printed.search
says "./plan, an unknown option" 2 "$nothing" 'usage: plan FILE' ./plan --fast examples/printed.search
says "./plan -" 2 "$nothing" 'standard input is read by plan < FILE' ./plan - <examples/printed.search
says "./plan --, no FILE" 2 "$nothing" 'no FILE after --' ./plan --
says "./plan, no FILE and standard input closed" 2 "$nothing" 'usage: plan FILE' ./plan <&-
terminal='import os, pty, subprocess, sys; sys.exit(subprocess.run(["./plan"], stdin=pty.openpty()[1]).returncode)'
says "./plan, no FILE at a terminal" 2 "$nothing" 'usage: plan FILE' python3 -c "$terminal"
says "./plan, an answer that cannot be written" 2 "$nothing" 'cannot write the answer' sh -c './plan examples/printed.search >/dev/full'
./plan --help >"$room/help" 2>&1 && grep -q '^usage: plan FILE' "$room/help" && grep -q '^Exit status' "$room/help"
judge $? "./plan --help"
says "./plan -h" 0 "$room/help" '' ./plan -h
says "./plan --help, which cannot be written" 2 "$nothing" 'cannot write the help' sh -c './plan --help >/dev/full'
# Root reads every file, so nobody is asked, of a copy that nobody can reach.
install -m 755 plan "$room/plan"
install -m 000 examples/printed.search "$room/unreadable"
chmod 755 "$room"
drop=()
[ "$(id -u)" -ne 0 ] || drop=(setpriv --reuid=65534 --regid=65534 --clear-groups)
if "${drop[@]}" test -x "$room/plan" 2>/dev/null && ! "${drop[@]}" test -r "$room/unreadable"; then
    says "./plan, a file that cannot be read" 2 "$nothing" "cannot read '$room/unreadable'" "${drop[@]}" "$room/plan" "$room/unreadable"
else
    good "./plan on a file that cannot be read was not tried: this user reads all, and cannot become nobody"
fi

# ---- ./plan builds: in a tree of its own, with a false kit whose rt makes a program that prints 'solved'
tree=$room/tree kit=$room/kit
mkdir -p "$tree/crates/planner/src" "$tree/tools" "$kit/bin" "$kit/on/aarch64/toolchain/bin" "$kit/on/aarch64/toolchain/lib" "$room/bin"
install -m 755 plan "$tree/plan"
install -m 755 tools/build "$tree/tools/build"
echo 'planner:' >"$tree/crates.txt"
echo 'fn main() {}' >"$tree/crates/planner/src/main.rt"
echo solved >"$tree/crates/planner/stdin"
echo solved >"$tree/crates/planner/stdout"
cat >"$kit/bin/rt" <<'EOF'
#!/bin/sh
# Called as 'rt run' in the planner's folder; says no where the file 'unproved' is there, and else runs what it made.
[ "$*" = run ] && [ -f ../../crates.txt ] && [ "${PWD##*/}" = planner ] || exit 9
echo "rt was here" >>../../calls
[ ! -e ../../unproved ] || { echo "rt: FAILED: planner" >&2; exit 1; }
mkdir -p out
printf '#!/bin/sh\nexec cat\n' >out/planner
chmod +x out/planner
exec out/planner
EOF
cat >"$kit/on/aarch64/toolchain/bin/qemu-x86_64" <<'EOF'
#!/bin/sh
# The kit's loader, its library path, the program; and no word to the emulator from outside.
lib=${0%/bin/*}/lib
[ "$1 $2 $3" = "$lib/ld-linux-x86-64.so.2 --library-path $lib" ] && [ -z "${QEMU_STRACE:-}" ] && echo solved && exec "$4"
EOF
chmod +x "$kit/bin/rt" "$kit/on/aarch64/toolchain/bin/qemu-x86_64"
cat >"$room/bin/uname" <<'EOF'
#!/bin/sh
echo "${MACHINE:-x86_64}"
EOF
chmod +x "$room/bin/uname"
# The PATH without any folder that has an rt.
without=$(IFS=:; for folder in $PATH; do [ -x "$folder/rt" ] || printf '%s:' "$folder"; done)
in_tree() { env -u RATTLE_HOME PATH="$room/bin:$without" "$@"; }
printf 'solved\n' >"$room/solved"
says "a missing program without rt" 2 "$nothing" 'rt (the Rattle kit) is not on the PATH' in_tree "$tree/plan" "$room/solved"
mkdir -p "$tree/target/bin"
cp "$room/bin/uname" "$tree/target/bin/planner"
says "a program that was not built here, without rt" 2 "$nothing" 'to run it as it is' in_tree "$tree/plan" "$room/solved"
says "the same on Arm" 2 "$nothing" 'was not built here' in_tree MACHINE=aarch64 "$tree/plan" "$room/solved"
! grep -q 'to run it as it is' "$room/err"
judge $? "on Arm it does not say to run the program as it is"
rm -r "$tree/target"
ln -s ../kit/bin/rt "$room/bin/rt"
says "a missing program is built, and a line says so" 0 "$room/solved" 'building the planner' in_tree "$tree/plan" "$room/solved"
says "a program that is there is only run" 0 "$room/solved" '' in_tree "$tree/plan" "$room/solved"
touch "$tree/crates/planner/out/planner"
says "what rt leaves in a crate's out/ is no source" 0 "$room/solved" '' in_tree "$tree/plan" "$room/solved"
touch "$tree/crates/planner/src/main.rt"
says "a program older than its source is built again" 0 "$room/solved" 'building the planner' in_tree "$tree/plan" "$room/solved"
touch "$tree/crates/planner/src/main.rt" "$tree/unproved"
says "a build that fails" 2 "$nothing" 'could not be built' in_tree "$tree/plan" "$room/solved"
says "a build that failed leaves nothing to run" 2 "$nothing" 'rt: FAILED: planner' in_tree "$tree/plan" "$room/solved"
rm "$tree/unproved" "$tree/calls"
in_tree "$tree/plan" "$room/solved" >"$room/one" 2>&1 &
in_tree "$tree/plan" "$room/solved" >"$room/two" 2>&1 &
wait
[ "$(tail -n 1 "$room/one") $(tail -n 1 "$room/two") $(wc -l <"$tree/calls")" = "solved solved 1" ] >"$room/log" 2>&1
judge $? "of two calls at once one builds and both answer"
printf 'solved\nsolved\n' >"$room/twice"
says "on Arm the kit's emulator runs it" 0 "$room/twice" '' in_tree MACHINE=aarch64 QEMU_STRACE=1 "$tree/plan" "$room/solved"
says "a machine that the kit has no emulator for" 2 "$nothing" 'no emulator for this machine, riscv64' in_tree MACHINE=riscv64 "$tree/plan" "$room/solved"
printf '#!/bin/sh\nkill -SEGV $$\n' >"$tree/target/bin/planner"
says "a program that ends for want of stack" 2 "$nothing" 'status 139 (it needs 256 KB of stack' in_tree "$tree/plan" "$room/solved"

if [ "$failed" -eq 0 ]; then good "all is as it should be"; else bad "$failed of the above"; fi
[ "$failed" -eq 0 ]
