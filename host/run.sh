#!/bin/sh
# Builds the header, the tools and the test against the library and runs them, also with the compiler's sanitizers:
#   host/run.sh [ARCHIVE]
# The archive is target/staticlib/libfollowup.a where none is named. Exit status 0 where all is well, 1 where something fails, 2 where
# there is no archive.
set -u
LC_ALL=C
export LC_ALL
archive=${1:-}
case $archive in
'' | /*) ;;
*) archive=$PWD/$archive ;;
esac
cd "$(dirname "$0")/.." || exit 2
archive=${archive:-$PWD/target/staticlib/libfollowup.a}
if [ ! -f "$archive" ]; then
    echo "host: no archive at $archive" >&2
    exit 2
fi
work=$(mktemp -d) || exit 2
trap 'rm -rf "$work"' EXIT
trap 'exit 1' HUP INT TERM

fail() {
    echo "host: failed: $1" >&2
    exit 1
}

warnings='-Wall -Wextra -Werror'
sanitizers='-fsanitize=address,undefined -fno-sanitize-recover=all'

# build PROGRAM SOURCES-AND-OPTIONS...: links a program with the archive.
build() {
    program=$1
    shift
    gcc -std=c11 $warnings -O2 -pthread -Ihost "$@" "$archive" -o "$work/$program" || fail "building $program"
}

# quiet STATUS WHAT COMMAND...: the command ends with that status, prints nothing on standard output and says why on standard error.
quiet() {
    wanted=$1
    what=$2
    shift 2
    "$@" >"$work/said" 2>"$work/why"
    if [ $? -ne "$wanted" ] || [ -s "$work/said" ] || [ ! -s "$work/why" ]; then
        fail "$what"
    fi
}

# unreadable PROGRAM SHEET: arguments that the tool does not know, what can't be read and what can't be printed give 2.
unreadable() {
    "$work/$1" --help | grep -q '^usage: ' || fail "$1 --help"
    quiet 2 "$1: no argument" "$work/$1"
    quiet 2 "$1: an option that is not known" "$work/$1" --loud "$2"
    quiet 2 "$1: two files" "$work/$1" "$2" "$2"
    quiet 2 "$1: a file that is not there" "$work/$1" "$work/none.sheet"
    quiet 2 "$1: a directory" "$work/$1" "$work"
    quiet 2 "$1: names that are not there" "$work/$1" --names "$work/none.names" "$2"
    quiet 2 "$1: names that are none" "$work/$1" --names "$2" "$2"
    quiet 2 "$1: a directory as standard input" sh -c '"$1" - <"$2"' sh "$work/$1" "$work"
    quiet 2 "$1: a closed standard input" sh -c '"$1" - <&-' sh "$work/$1"
    quiet 2 "$1: a full device" sh -c '"$1" "$2" >/dev/full' sh "$work/$1" "$2"
}

# judge_tool PROGRAM: what judge_file says of each example and of lines that are not in the form is as stored.
judge_tool() {
    judge_file=$work/$1
    {
        for sheet in examples/*.sheet; do
            "$judge_file" "$sheet"
            echo "exit status $?"
        done
        "$judge_file" --names examples/bank_day.names examples/bank_day_endless.sheet
        echo "exit status $?"
        echo '2 batch' >"$work/one.names"
        "$judge_file" --names "$work/one.names" examples/loop.sheet
        echo "exit status $?"
        host/faults.sh "$judge_file"
        "$judge_file" --dot examples/loop.sheet
        echo "exit status $?"
    } >"$work/said" 2>&1
    diff host/judge_file.expected "$work/said" || fail "$1: it says other than host/judge_file.expected"
    "$judge_file" - <examples/loop.sheet >"$work/said" 2>&1
    [ $? -eq 1 ] && grep -q '^standard input: endless' "$work/said" || fail "$1 on standard input"
    unreadable "$1" examples/loop.sheet
}

# carry_tool PROGRAM: what carry_file prints for each example and for labels that are not given, and what it says of a line that is not in the form, is as stored.
carry_tool() {
    carry_file=$work/$1
    {
        for sheet in examples/*.sheet; do
            "$carry_file" "$sheet"
            echo "exit status $?"
        done
        "$carry_file" --names examples/bank_day.names examples/pallets.sheet
        echo "exit status $?"
        printf 'K        1        2\r\n' | "$carry_file" -
        echo "exit status $?"
        printf 'K        1        2\nB        1        1        1\nH        1        2        1\nR        1        0        0\nR        1        0        0\nR        1        7        7\n' | "$carry_file" -
        echo "exit status $?"
        printf 'K        1        2\nR        1 99999999        0\n' | "$carry_file" -
        echo "exit status $?"
    } >"$work/said" 2>&1
    diff host/carry_file.expected "$work/said" || fail "$1: it says other than host/carry_file.expected"
    "$carry_file" - <examples/pallets.sheet >"$work/said" 2>&1
    [ $? -eq 0 ] && grep -q '^standard input: carried out' "$work/said" || fail "$1 on standard input"
    unreadable "$1" examples/pallets.sheet
}

echo '#include "followup.h"' >"$work/alone.c"
gcc -std=c99 $warnings -pedantic -Ihost -fsyntax-only "$work/alone.c" || fail 'the header as C99'
g++ -std=c++98 $warnings -Wno-long-long -Ihost -fsyntax-only -x c++ "$work/alone.c" || fail 'the header as C++98'
g++ $warnings -pedantic -Ihost -fsyntax-only -x c++ "$work/alone.c" || fail 'the header as C++'
echo 'host: the header compiles as C99 and as C++'

# Where the archive is not built for the machine, the header says so.
for machine in -U__x86_64__ -U__linux__ -D__ILP32__; do
    gcc -std=c99 $machine -Ihost -fsyntax-only "$work/alone.c" 2>"$work/why" && fail "the header with $machine"
    grep -q '#error "libfollowup.a is built for' "$work/why" || fail "what the header says with $machine"
done

# A header of another interface: the archive's number is another one, and no call links.
mkdir "$work/other" || fail 'mkdir'
awk '/^#define FOLLOWUP_VERSION / { $3++ } 1' host/followup.h >"$work/other/followup.h"
echo '#include "followup.h"
int main(void) { return followup_version() == FOLLOWUP_VERSION; }' >"$work/number.c"
gcc -std=c99 $warnings -I"$work/other" "$work/number.c" "$archive" -o "$work/number" || fail 'building with another number'
"$work/number" || fail 'the number of another header'
for call in 'read(0, 0, 0, 0)' 'write(0, 0, 0, 0)' 'pattern(0, 0)' 'judge(0, 0, 0, 0)' 'judge_text(0, 0, 0, 0)' 'explain(0, 0, 0, 0)' 'forecast(0, 0)' 'carry(0, 0, 0, 0)' 'step_at(0, 0, 0)' 'line_span(0, 0, 0)'; do
    echo "#include \"followup.h\"
int main(void) { return (void)followup_$call, 0; }" >"$work/call.c"
    gcc -std=c99 $warnings -Ihost "$work/call.c" "$archive" -o "$work/call" || fail "building with followup_$call"
    gcc -std=c99 $warnings -I"$work/other" "$work/call.c" "$archive" -o "$work/call" 2>"$work/why" && fail "followup_$call links with another interface"
    grep -q "undefined reference to .followup_${call%%(*}_v" "$work/why" || fail "why followup_$call does not link"
done
echo 'host: a header for another machine does not compile, and one of another interface does not link'

nm "$archive" >"$work/symbols" || fail 'reading the archive'
grep -E ' [BbCcDdGgSs] ' "$work/symbols" && fail 'the archive holds memory that can be written'
grep ' U ' "$work/symbols" | grep -vE ' U (memcpy|memset)$' && fail 'the archive uses more than memcpy and memset'
echo 'host: the archive holds no memory of its own and uses memcpy and memset alone'

tests='host/test.c host/test_calls.c host/test_sheets.c host/test_explain.c host/test_carry.c host/test_forecast.c host/check_steps.c host/check_sentences.c host/check_records.c host/check_figures.c'
build test $tests
"$work/test" || fail 'the test'
build test_sanitized $tests $sanitizers
"$work/test_sanitized" || fail 'the test with sanitizers'

build judge_file host/judge_file/*.c
judge_tool judge_file
build judge_file_sanitized host/judge_file/*.c $sanitizers
judge_tool judge_file_sanitized
carry_sources='host/carry_file/main.c host/judge_file/sheet.c host/judge_file/words.c host/judge_file/fault.c'
build carry_file $carry_sources
carry_tool carry_file
build carry_file_sanitized $carry_sources $sanitizers
carry_tool carry_file_sanitized
echo 'host: the tools say what is stored, and nothing of what they cannot read'

# The program of both READMEs, built from installed files.
for page in README.md host/README.md; do
    awk '/^```c$/ { on = 1; next } /^```$/ { on = 0 } on' $page >"$work/readme.c"
    [ ! -f "$work/program.c" ] || cmp "$work/program.c" "$work/readme.c" || fail 'the programs of the two READMEs differ'
    mv "$work/readme.c" "$work/program.c"
done
make -s -o prove archive="$archive" judge_file="$work/made_judge" carry_file="$work/made_carry" install PREFIX="$work/prefix" >"$work/said" 2>&1 || { cat "$work/said"; fail 'make install'; }
PKG_CONFIG_PATH=$work/prefix/lib/pkgconfig
export PKG_CONFIG_PATH
gcc -O2 $warnings "$work/program.c" $(pkg-config --cflags --libs followup) -o "$work/program" || fail 'building the program of the README'
[ "$("$work/program" <examples/loop.sheet)" = 'endless: row 1, trail 0, loop 3' ] || fail 'the program of the README'
quiet 2 'the program of the README on a directory' sh -c '"$1" <"$2"' sh "$work/program" "$work"
"$work/prefix/bin/judge_file" examples/pallets.sheet >/dev/null || fail 'the installed judge_file'
"$work/prefix/bin/carry_file" examples/pallets.sheet >/dev/null || fail 'the installed carry_file'
echo 'host: all is well'
