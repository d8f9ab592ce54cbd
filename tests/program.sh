#!/bin/sh
# Runs a built ion_cmd over real files, pipes and devices, and compares what it writes and its status.
# usage: tests/program.sh PROGRAM. It needs a POSIX shell, mkfifo and /dev/full.
set -u
program=$(realpath "$1")
folder=$(mktemp -d)
trap 'rm -r "$folder"' EXIT
cd "$folder" || exit 1
failed=0
passed=0
usage='usage: ion_cmd check|show|convert|compare FILE.. [--to text|binary] [--catalog FILE] [--depth N] [--item N]'

# expect NAME STATUS OUT ERR: what the run before left in `status`, `out` and `err`, against what it has to be.
expect() {
    if [ "$status" = "$2" ] && [ "$(cat out)" = "$3" ] && [ "$(cat err)" = "$4" ]; then
        passed=$((passed + 1))
    else
        failed=$((failed + 1))
        printf '%s: status %s, out %s, err %s\n' "$1" "$status" "$(head -c 300 out)" "$(head -c 300 err)"
    fi
}

# Runs the program with these words, standard input as it is given.
run() {
    "$program" "$@" > out 2> err
    status=$?
}

printf '\340\001\000\352\263\041\005\021' > short        # [5, true]
printf '\340\001\000\352\276\203\041\005\021' > long     # the same, its length as a VarUInt
printf '\340\001\000\352\041\005\041\006' > two          # 5 and 6
printf '\340\001\000\352\041\005\041' > cut              # 5, and an int without its octet
printf '\340\001\000\352\041\005\060' > malformed        # 5, and an int below 0 without a magnitude
: > empty
mkdir directory
mkfifo pipe

run check short < /dev/null;                expect 'a file' 0 'accepted 1' ''
run show short < /dev/null;                 expect 'its values' 0 "1 list depth 1 nodes 3
accepted 1" ''
run compare short long < /dev/null;         expect 'two spellings' 0 'equivalent 1' ''
run compare short short < /dev/null;        expect 'one file twice' 0 'equivalent 1' ''
run compare two short < /dev/null;          expect 'two streams' 1 'different 1' ''
run check empty < /dev/null;                expect 'an empty file' 0 'accepted 0' ''
run check cut < /dev/null;                  expect 'a file cut short' 2 '' 'refused 7 Incomplete'
run check malformed < /dev/null;            expect 'a malformed file' 2 '' 'refused 7 Malformed'
run compare malformed cut < /dev/null;      expect 'both refused' 2 '' 'refused left 7 Malformed'
run compare two cut < /dev/null;            expect 'the right refused' 2 '' 'refused right 7 Incomplete'
run check - < short;                        expect 'standard input' 0 'accepted 1' ''
run < short;                                expect 'no words' 0 "1 list depth 1 nodes 3
accepted 1" ''
run < /dev/null;                            expect 'no words, no octets' 0 'accepted 0' ''
run compare - long < short;                 expect 'standard input and a file' 0 'equivalent 1' ''
run compare - - < short;                    expect 'standard input twice' 3 '' "$usage"
run < /dev/null check;                      expect 'no file' 3 '' "$usage"
run --help < /dev/null;                     expect 'a call for help' 3 '' "$usage"
run check short --depth 0 < /dev/null;      expect 'a depth of 0' 3 '' "$usage"
run check short --depth 1 < /dev/null;      expect 'a depth that admits it' 0 'accepted 1' ''
run check short --item 3 < /dev/null;       expect 'an item too long' 2 '' 'refused 5 ItemTooLong'
run check absent < /dev/null;               expect 'a name that is not there' 4 '' 'fault Open'
run check directory < /dev/null
case "$(cat err)" in 'fault Open') echo 'fault Read' > err ;; esac    # a system refuses to read a folder, or to open it
                                            expect 'a folder' 4 '' 'fault Read'
run check "$(printf 'a\377')" < /dev/null;  expect 'a word that is no UTF-8' 3 '' "$usage"

cat short > pipe &
run check pipe < /dev/null;                 expect 'a named pipe' 0 'accepted 1' ''
wait
{ printf '\340\001'; sleep 1; printf '\000\352\041\005'; } > pipe &
run check - < pipe;                         expect 'a slow pipe' 0 'accepted 1' ''
wait
printf '"%s" ]' aaaaaaaaaaaaaaaaaaaaaaaa > closed        # a string, and a bracket that nothing opened
{ printf '"%s" [1' aaaaaaaaaaaaaaaaaaaaaaaa; sleep 2; : > waited; } > pipe &
run compare closed pipe < /dev/null
if [ -e waited ]; then echo 'it waited for the right' >> err; fi
expect 'a refused left beside a silent pipe' 2 '' 'refused left 28 Unexpected'
wait

# Standard streams that are closed: what reads or writes one finds a fault, and no file that is opened takes its place.
# closed READS STATUS OUT WORD..: whether the words read standard input, and what they answer where it is open.
closed() {
    reads=$1 wanted=$2 shows=$3
    shift 3
    for streams in 0 1 2 01 02 12 012; do
        closes=
        case $streams in *0*) closes="$closes <&-" ;; esac
        case $streams in *1*) closes="$closes >&-" ;; esac
        case $streams in *2*) closes="$closes 2>&-" ;; esac
        eval '"$program" "$@" < short > out 2> err' "$closes"
        status=$?
        answer="$wanted $shows" told=
        case $streams in *1*) answer='4 ' told='fault Write' ;; esac
        case $reads$streams in yes0*) answer='4 ' told='fault Read' ;; esac
        case $streams in *2*) told= ;; esac
        expect "$* with $streams closed" "${answer%% *}" "${answer#* }" "$told"
    done
}
closed no 0 'accepted 1' check short
closed yes 0 'accepted 1' check -
closed yes 0 'accepted 1' check - --catalog empty
closed yes 0 'accepted 1' check - --depth 2
closed yes 0 "1 list depth 1 nodes 3
accepted 1"
closed no 0 "1 list depth 1 nodes 3
accepted 1" show short
closed no 0 '[5,true]' convert short --to text
closed yes 0 '[5,true]' convert - --to text
closed no 0 'equivalent 1' compare short long
closed yes 0 'equivalent 1' compare - long
closed yes 0 'equivalent 1' compare long -
closed no 1 'different 1' compare two short
printf '1111' > ones      # it was read as both sides
"$program" compare ones - > out 2> err <&-; status=$?
expect 'a file beside a closed input' 4 '' 'fault Read'
"$program" check short --catalog - > out 2> err <&-; status=$?
expect 'a closed input as catalog' 4 '' 'fault Read'

"$program" check short > /dev/full 2> err < /dev/null; status=$?; : > out
expect 'a full device' 4 '' 'fault Write'
"$program" show short > /dev/full 2> err < /dev/null; status=$?; : > out
expect 'a full device, a line for each value' 4 '' 'fault Write'
"$program" check malformed 2> /dev/full > out < /dev/null; status=$?; : > err
expect 'nowhere to say the refusal' 2 '' ''
"$program" check short >&- 2> err < /dev/null; status=$?; : > out
expect 'no standard output' 4 '' 'fault Write'
"$program" check - <&- > out 2> err; status=$?
expect 'no standard input' 4 '' 'fault Read'
{ "$program" show short 2> err < /dev/null; echo $? > code; } | true
status=$(cat code); : > out; : > err
case $status in 0 | 4 | 141) status=closed ;; esac
expect 'a closed pipe' closed '' ''

"$program" convert short --to binary > out 2> err < /dev/null; status=$?
if cmp -s out short; then : > out; fi
expect 'to binary' 0 '' ''
run convert short --to text < /dev/null;    expect 'to text' 0 '[5,true]' ''
run convert short < /dev/null;              expect 'no target' 3 '' "$usage"

# nested OPEN INNER CLOSE: a value of 128 levels.
nested() {
    level=0; while [ $level -lt 128 ]; do printf '%s' "$1"; level=$((level + 1)); done
    printf '%s' "$2"
    level=0; while [ $level -lt 128 ]; do printf '%s' "$3"; level=$((level + 1)); done
}

# Runs the program in 256 KiB of stack, with what the system puts there.
run_in_little_stack() {
    (ulimit -s 256 && exec "$program" "$@" --depth 128) > out 2> err < /dev/null
    status=$?
}

nested 'x::{a:' "'''a''' '''b'''" ',b:1}' > deep
nested 'x::{b:1,a:' '"ab"' '}' > turned
nested 'x::[' '$4' ']' > deep_list
run_in_little_stack check deep_list;        expect 'a deep list' 0 'accepted 1' ''
run_in_little_stack show deep;              expect 'a deep value' 0 "1 struct depth 128 nodes 641
accepted 1" ''
run_in_little_stack compare deep turned;    expect 'deep values, turned around' 0 'equivalent 1' ''
run_in_little_stack convert deep --to binary
cp out deep_binary; : > out;                expect 'a deep value, to binary' 0 '' ''
run_in_little_stack compare turned deep_binary
                                            expect 'deep values of both encodings' 0 'equivalent 1' ''
run_in_little_stack convert deep_binary --to text
cp out deep_text; : > out;                  expect 'a deep value, to text' 0 '' ''
run_in_little_stack compare deep_text deep; expect 'a deep text, written again' 0 'equivalent 1' ''

echo "$passed passed, $failed failed"
[ "$failed" = 0 ]
