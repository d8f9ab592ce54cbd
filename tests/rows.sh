# What scripts of tests share: rows that are counted, in a folder of their own. Read by tests/door.sh, tools.sh, folders.sh, messages.sh,
# library.sh, diff.sh and machines.sh, which name the program as their first word.
top=$(cd "$(dirname "$0")/.." && pwd)
program=$(realpath "$1")
folder=$(mktemp -d)
trap 'rm -rf "$folder"' EXIT
mkdir "$folder/bin" "$folder/home" "$folder/tmp" "$folder/work"
ln -s "$program" "$folder/bin/ion_cmd"
PATH=$folder/bin:$top/tools:$PATH
TMPDIR=$folder/tmp
HOME=$folder/home
unset NO_COLOR ION_CMD PUREEFJORD_LIBRARY
export PATH TMPDIR HOME
failed=0
passed=0

# is NAME FOUND WANTED
is() {
    if [ "$2" = "$3" ]; then
        passed=$((passed + 1))
    else
        failed=$((failed + 1))
        printf '%s:\n  %s\nis not\n  %s\n' "$1" "$2" "$3"
    fi
}

# run COMMAND..: what it writes, errors too, and its status, in `out` and `status`.
run() {
    out=$("$@" 2>&1 < /dev/null)
    status=$?
}

# gives NAME STATUS OUT: what the run before wrote and how it ended.
gives() { is "$1" "$status $out" "$2 $3"; }

# ends NAME STATUS LINE: how the run before ended, and its last line.
ends() { is "$1" "$status ${out##*
}" "$2 $3"; }

# has NAME STATUS TEXT: how the run before ended, and what is somewhere in what it wrote.
has() { case $out in *"$3"*) is "$1" "$status" "$2" ;; *) is "$1" "$status $out" "$2 ..$3.." ;; esac; }

clean() { rm -rf "$folder/work"; mkdir "$folder/work"; cd "$folder/work" || exit 1; }

# ended: tells how many rows passed, and ends.
ended() {
    is 'no temporary file is left' "$(ls -A "$folder/tmp")" ''
    echo "$passed passed, $failed failed"
    [ "$failed" = 0 ]
    exit
}
