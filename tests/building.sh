#!/bin/sh
# Tries tools/progress, tools/clean and tools/vendor.sh in a copy of a few files, with a stand-in for rt: tests/building.sh.
# It ends with a line `N passed, M failed`.
set -u
top=$(cd "$(dirname "$0")/.." && pwd)
folder=$(mktemp -d)
trap 'rm -rf "$folder"' EXIT
passed=0
failed=0

# is NAME FOUND WANTED
is() {
    if [ "$2" = "$3" ]; then
        passed=$((passed + 1))
    else
        failed=$((failed + 1))
        printf '%s:\n  %s\nis not\n  %s\n' "$1" "$2" "$3"
    fi
}

mkdir -p "$folder/copy/crates" "$folder/bin"
cp -R "$top/tools" "$top/crates.txt" "$folder/copy"
for crate in ion_atoms ion_symtab ion_cmd ion_c; do mkdir -p "$folder/copy/crates/$crate/out"; done
cat > "$folder/bin/rt" << 'END'
#!/bin/sh
[ "$1" = run ] && exec 3>&2 || exec 3>&1
for crate in ion_atoms ion_symtab; do
    echo "rt: chose --jobs 2 for $crate" >&3
    echo 'so far: 3 of 40 functions checked' >&3
done
echo "rt: chose --jobs 2 for jiff" >&3
[ -z "${BROKEN-}" ] || { echo 'fn f: not proved' >&3; exit 1; }
[ "$1" = lib ] || echo 'equivalent 1'
END
chmod +x "$folder/bin/rt"
PATH=$folder/bin:$PATH
copy=$folder/copy

progress() {
    out=$("$copy/tools/progress" 2> "$folder/errors")
    is 'what the program prints' "$? $out" '0 equivalent 1'
    is 'a line for each crate' "$(sed 's/^ *[0-9:]* //' "$folder/errors")" 'crate 1 of 14, ion_atoms
crate 3 of 14, ion_symtab'
    is 'what rt prints is kept' "$(wc -l < "$copy/crates/ion_cmd/out/progress.log")" 5
    out=$("$copy/tools/progress" lib ion_c 2> "$folder/errors")
    is 'a library' "$? $out $(sed -n '1s/^ *[0-9:]* //p' "$folder/errors")" '0  crate 1 of 13, ion_atoms'
    BROKEN=1 "$copy/tools/progress" > "$folder/out" 2> "$folder/errors"
    is 'what is not proved' "$? $(grep -c 'fn f: not proved' "$folder/errors")" '1 1'
    "$copy/tools/progress" run nothing > /dev/null 2>&1
    is 'no such crate' "$?" 3
    if command -v script > /dev/null; then
        script -qec "$copy/tools/progress" "$folder/typed" > /dev/null < /dev/null
        is 'functions at a terminal' "$(grep -c '3 of 40 functions' "$folder/typed")" 2
    fi
}

clean() {
    echo program > "$copy/crates/ion_cmd/out/ion_cmd"
    echo archive > "$copy/crates/ion_c/out/libion_c.a"
    mkdir "$copy/crates/ion_cmd/out/incremental"
    dd if=/dev/zero of="$copy/crates/ion_atoms/out/kept" bs=1M count=3 2> /dev/null
    exec 9< "$copy/crates/ion_symtab" # as rt locks what it builds
    flock 9
    "$copy/tools/clean" > /dev/null 2>&1
    is 'not where rt works' "$? $(ls "$copy/crates/ion_atoms/out")" '75 kept'
    exec 9<&-
    cd "$copy/crates/ion_cmd" || exit 1
    is 'how much' "$("$copy/tools/clean")" 'let go of 3 MB'
    is 'what stays' "$(cd "$copy/crates" && ls -d ./*/out/*)" './ion_c/out/libion_c.a
./ion_cmd/out/ion_cmd'
    "$copy/tools/clean" --all > /dev/null
    is 'all' "$(find "$copy/crates" -name out)" ''
    "$copy/tools/clean" --everything > /dev/null 2>&1
    is 'a wrong word' "$?" 3
}

vendor() {
    "$top/tools/vendor.sh" "$folder/own" > "$folder/own.txt"
    is 'crates of the library' "$? $(wc -l < "$folder/own.txt")" "0 $(ls "$folder/own/crates" | wc -l)"
    is 'all that they use' "$(sed 's/.*://' "$folder/own.txt" | tr ' ' '\n' | grep '^ion' | sort -u | while read -r it; do [ -d "$folder/own/crates/$it" ] || echo "$it"; done)" ''
}

progress
clean
vendor
echo "$passed passed, $failed failed"
[ "$failed" = 0 ]
