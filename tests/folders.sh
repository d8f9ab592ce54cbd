#!/bin/bash
# Runs pureefjord and the scripts beside it over folders: with files that are no documents, packed ones, bad ones and odd names, on
# full disks, before closed pipes and under Ctrl-C: tests/folders.sh PROGRAM. tests/door.sh runs it, too.
set -u
. "$(dirname "$0")/rows.sh"

# Nothing passes that wasn't looked at

left_out() {
    clean
    mkdir one other empty bare full elsewhere
    echo '{"a":1}' > one/a.json; echo '{"a":2}' > other/a.json; : > bare/read.me; : > bare/.hidden.ion
    run ion_compare_trees one other; gives 'ion_compare_trees, .json' 1 'a.json: different 1 a
    OLD: 1
    NEW: 2'
    for folders in 'empty empty' 'bare bare'; do
        run ion_compare_trees $folders; gives "ion_compare_trees $folders" 4 "ion_compare_trees: ${folders% *} and ${folders% *}: no document in these folders"
        run pureefjord diff $folders; gives "diff $folders" 4 "pureefjord: ${folders% *} and ${folders% *}: no document in these folders"
    done
    run pureefjord check bare; gives 'check, no document beside another file' 4 'pureefjord: bare: no document in this folder
0 documents: 0 accepted, 0 refused (0 places); 1 other file was left out'
    for name in X.JSON y.JsonL x.json z.ION.GZ x.geojson read.me .hidden.ion; do echo 1 > full/$name; done
    echo 1 | gzip > full/z.ION.GZ; mkfifo full/pipe.ion; ln -s ../elsewhere full/link; echo 1 > elsewhere/a.ion
    run pureefjord check full; gives 'check, suffixes in any case, and what is left out' 0 'full/X.JSON: accepted 1
full/x.json: accepted 1
full/y.JsonL: accepted 1
full/z.ION.GZ: accepted 1
4 documents: 4 accepted, 0 refused (0 places); 4 other files were left out'
    run pureefjord check -q full; gives 'check -q tells what is left out, too' 0 '4 other files were left out'
    run pureefjord check -q one; gives 'check -q, nothing left out' 0 ''
    run pureefjord diff -q full full; gives 'diff, what is left out on both sides' 0 '4 documents: 4 equivalent, 0 different, 0 refused; 8 other files were left out'
    run pureefjord diff -q --format json full one; is 'diff, JSON lines beside what is left out' "$(printf '%s\n' "$out" | grep -v '^{')" 'pureefjord: 4 other files were left out'
    run ion_compare_trees full full; ends 'ion_compare_trees, what is left out' 0 '8 other files were left out'
    run pureefjord to text full -o text; gives 'to, what is left out' 0 'text: 4 documents; 4 other files were left out'
    sed -n 's/^ *run: \(pureefjord diff .*\)$/\1/p' "$top/examples/ci.yml" > step
    mkdir -p tests/expected tests/actual; run sh step; is 'ci.yml, a test that wrote nothing' "$status" 4
    cp one/a.json tests/expected; run sh step; is 'ci.yml, a file that lacks' "$status" 1
    cp other/a.json tests/actual; run sh step; is 'ci.yml, JSON that differs' "$status" 1
    cp one/a.json tests/actual; run sh step; is 'ci.yml, as expected' "$status" 0
}

# Packed documents

packed() {
    clean
    printf '{"id":1}\n{"id":2,"to":x y}\n{"id":3}\n{"id":]}\n' > log.jsonl; gzip -k log.jsonl
    pureefjord check log.jsonl > told; run pureefjord check log.jsonl.gz
    gives 'check, places in what was unpacked' 2 "$(sed 's/log.jsonl/log.jsonl.gz/' told)"
    run ion_where log.jsonl.gz; has 'ion_where, a packed document' 2 'log.jsonl.gz:2:16: Unexpected'
    echo '{"a":[1,2.5e3]}' | gzip > a.json.gz; gzip -dc a.json.gz | sed 's/e/d/' | ion_cmd convert - --to binary > a.10n
    run pureefjord check a.json.gz; has 'check, a float in it' 2 'a.json.gz:1:14: Float'
    run pureefjord check --floats a.json.gz; gives 'check --floats, packed' 0 'a.json.gz: accepted 1'
    run pureefjord diff --floats a.json.gz a.10n; gives 'diff --floats, packed' 0 'a.json.gz and a.10n: equivalent 1'
    echo '{a:[1,2]}' | ion_cmd convert - --to binary | gzip > b.10n.gz; { echo 1 | gzip; echo 2 | gzip; } > c.ion.gz
    run pureefjord json b.10n.gz; gives 'json, packed' 0 '{"a":[1,2]}'
    run pureefjord at b.10n.gz 1 'a[2]'; gives 'at, packed' 0 2
    run ion_at b.10n.gz 1 'a [2]'; gives 'ion_at, packed' 0 2
    run ion_to text b.10n.gz b.ion; is 'ion_to, packed' "$status $out$(cat b.ion)" '0 {a:[1,2]}'
    run pureefjord cat c.ion.gz; gives 'cat, packed in two parts' 0 '1
2'
    mkdir in; cp b.10n.gz in; run pureefjord to json in -o out; is 'to json, packed' "$status $out $(cat out/b.json)" '0 out: 1 document {"a":[1,2]}'
    mkdir other; echo '{"a":[1,2]}' > other/b.json; run pureefjord diff -q in other; gives 'diff, a packed one by its name' 0 '1 document: 1 equivalent, 0 different, 0 refused'
    head -c 20 b.10n.gz > cut.ion.gz; echo 1 > no.ion.gz; : > empty.ion.gz
    run pureefjord check cut.ion.gz no.ion.gz empty.ion.gz b.10n.gz
    is 'check, what is no whole gzip file' "$status $(printf '%s\n' "$out" | grep -c 'fault Read: the file cannot be read: no whole gzip file') ${out##*:}" '4 3  1 accepted, 0 refused (0 places), 3 without an answer'
    run pureefjord diff cut.ion.gz b.10n.gz; has 'diff, what is no whole gzip file' 4 'cut.ion.gz: fault Read'
    out=$(pureefjord check - < a.json.gz 2>&1); status=$?; has 'check, standard input that is packed' 2 'it is compressed by gzip; gzip -dc writes what is read'
    echo '$ion_shared_symbol_table::{name:"t",version:1,symbols:["x"]}' | gzip > tables.ion.gz
    echo '$ion_symbol_table::{imports:[{name:"t",version:1,max_id:1}]} $10' > uses.ion
    run pureefjord cat --catalog tables.ion.gz uses.ion; gives 'a catalog that is packed' 0 x
}

# Names that few have

names() {
    clean
    name=$(printf 'caf\351.json') moves=$(printf 'a\033[31m\nb.json')
    echo '{"a":1}' > "$name"
    for words in 'pureefjord at' 'ion_at'; do run $words "$name" 1 a; gives "$words, no UTF-8" 0 1; done
    for words in 'pureefjord json' 'ion_json'; do run $words "$name"; gives "$words, no UTF-8" 0 '{"a":1}'; done
    for words in 'pureefjord pretty' 'ion_pretty' 'ion_textconv'; do run $words "$name"; gives "$words, no UTF-8" 0 '{
  a: 1
}'; done
    run ion_to text "$name" out.ion; is 'ion_to, no UTF-8' "$status $out$(cat out.ion)" '0 {a:1}'
    out=$(printf '%s\0' "$name" | ion_check_all); status=$?; gives 'ion_check_all, no UTF-8' 0 "$name: accepted 1"
    out=$(printf '%s\n' "$name" | check_list -); status=$?; gives 'check_list, no UTF-8' 0 '#	1'
    out=$(printf '%s\t%s\n' "$name" out.ion | compare_list -); status=$?; gives 'compare_list, no UTF-8' 0 '#	1'
    echo '[1,,2]' > "$name"; out=$(printf '%s\n' "$name" | check_list -); status=$?; gives 'check_list, no UTF-8, refused' 0 "$name	2	refused 4 Unexpected
#	1"
    rm "$name"; out=$(printf '%s\n' "$name" | check_list -); status=$?; gives 'check_list, no UTF-8, not there' 75 "$name	4	fault Open
#	1"
    out=$(printf '%s\t%s\n' "$name" out.ion | compare_list -); status=$?; gives 'compare_list, no UTF-8, not there' 75 "$name	out.ion	4	fault Open
#	1"
    printf '#!/bin/sh\necho usage: >&2\nexit 3\n' > words; chmod +x words
    out=$(echo out.ion | ION_CMD=./words check_list -); status=$?; gives 'check_list, a name that is not judged' 75 'out.ion	3	usage:
#	1'
    out=$(echo out.ion | check_list --depth 0 - 2>&1); status=$?; has 'check_list, a wrong limit' 3 'usage: check_list'
    printf '#!/bin/sh\necho fault TooManyReads >&2\nexit 4\n' > words; out=$(echo out.ion | ION_CMD=./words check_list -); status=$?
    gives 'check_list, a document beyond the program' 4 'out.ion	4	fault TooManyReads
#	1'
    echo 1 > "$moves"; run pureefjord check "$moves"; gives 'check, a name that moves the terminal' 0 'a?[31m?b.json: accepted 1'
    echo '1 ]' > "$moves"; run pureefjord check "$moves"; has 'check, such a name refused' 2 'a?[31m?b.json:1:3: Unexpected'
    run pureefjord diff "$moves" out.ion; has 'diff, such a name' 2 'a?[31m?b.json and out.ion: left refused'
    run pureefjord cat "$moves"; has 'cat, such a name' 2 'a?[31m?b.json:1:3: Unexpected'
    run pureefjord json "$(printf 'gone\033[31m')"; has 'json, such a name that is not there' 4 'gone?[31m: fault Open'
    run pureefjord "$(printf 'chek\033[31m')"; has 'no command of such a name' 3 'no command chek?[31m'
    out=$(printf '%s\0' "$moves" | ion_check_all); status=$?; gives 'ion_check_all, such a name' 2 'a?[31m?b.json: refused 3 Unexpected'
    out=$(printf '%s\0' "$moves" | check_list -0 -); status=$?; gives 'check_list, such a name' 0 'a?[31m?b.json	2	refused 3 Unexpected
#	1'
    echo 1 > "$name"; echo 2 > "$moves"
    run pureefjord diff --format json "$name" "$moves"
    is 'diff, JSON of such names' "$(printf '%s\n' "$out" | python3 -c '
import json, os, sys
lines = [json.loads(line) for line in sys.stdin.buffer.read().decode("utf-8").splitlines()]
print(os.fsencode(lines[-1]["left"]) == b"caf\xe9.json", lines[-1]["right"] == "a\x1b[31m\nb.json")')" 'True True'
    run pureefjord diff --html page.html "$name" "$moves"; is 'diff, a page with such names' "$status $(grep -c '<th>a?\[31m?b.json' page.html)" '1 1'
}

# A folder with bad documents

others() {
    clean
    mkdir -p in/deep; echo '{"a":1}' > in/a.json; echo '[1,,2]' > in/b.json; echo '1e5' > in/deep/c.json; echo '{"d":1}' > in/d.json
    run pureefjord to binary in -o out; ends 'to, two of four refused' 2 "out: nothing is written; 2 of 4 documents aren't converted (--others writes the rest)"
    is 'to, nothing is written' "$(ls -A | tr '\n' ' ')" 'in '
    run pureefjord to binary in -o out --others; ends 'to --others' 2 "out: 2 documents; 2 of 4 documents aren't converted"
    is 'to --others, what is written' "$(cd out && find . | LC_ALL=C sort | tr '\n' ' ')" '. ./a.10n ./d.10n '
    run pureefjord to binary in -o more --others --floats; ends 'to --others --floats' 2 "more: 3 documents; 1 of 4 documents isn't converted"
    is 'to --floats, the float' "$(ion_cmd convert more/deep/c.10n --to text)" '1d5'
    rm in/b.json; run pureefjord to json in -o json --floats; gives 'to json, a folder' 0 'json: 3 documents'
    is 'to json, its files' "$(cat json/a.json json/deep/c.json)" '{"a":1}
1e5'
    echo 'x' > in/x.ion; run pureefjord to json in -o json.2 --floats; has 'to json, what JSON has not' 2 'in/x.ion: 1: a symbol, which JSON has not'
    run pureefjord to json in -o json.2 --floats --down-convert; is 'to json --down-convert' "$status $(cat json.2/x.json)" '0 "x"'
    run pureefjord to json in/a.json; gives 'to json, a file' 0 '{"a":1}'
    mkdir none; echo ']' > none/a.ion; run pureefjord to text none -o none.2 --others; ends 'to --others, none of one' 2 "none.2: nothing is written; 1 of 1 document isn't converted"
    run pureefjord to text in --others; gives 'to --others without -o' 3 'pureefjord: a folder goes to a folder: -o OUT'
    run pureefjord to text in/a.json --others; gives 'to --others, a file' 3 'pureefjord: --others is of folders'
    run pureefjord to text in/a.json --down-convert; gives 'to text --down-convert' 3 'pureefjord: --down-convert is of json'
    run pureefjord to text in/a.json --indent; gives 'to text --indent' 3 'pureefjord: --indent is of json'
    run pureefjord to json in/a.json --indent; gives 'to json --indent' 0 '{
  "a": 1
}'
    echo kept > file; run pureefjord cat -o file in/a.json none/a.ion; ends 'cat -o, one refused' 2 'file: nothing is written'
    for command in json pretty cat floats check; do run pureefjord $command none/a.ion in; has "$command, a folder" "$([ $command = floats ] && echo 4 || echo "$([ $command = check ] && echo 2 || echo 4)")" "$([ $command = check ] && echo accepted || echo 'in: fault Read: the file cannot be read: Is a directory')"; done
    is 'nothing is left beside' "$(ls -A | grep '^\.')" ''
}

# Disks that are full, pipes that are closed

disks() {
    clean
    mkdir in disk
    for number in 1 2 3 4 5 6; do awk 'BEGIN { for (i = 0; i < 9000; i++) print "[\"some text to fill a disk\"]" }' > in/$number.ion; done
    out=$( (ulimit -f 8; pureefjord to text in -o out) 2>&1); status=$?; gives 'to, a folder, no room' 4 'pureefjord: out: fault Write: File too large; nothing is written'
    for command in 'to text' pretty cat json; do
        out=$( (ulimit -f 8; pureefjord $command in/1.ion -o out) 2>&1); status=$?; gives "$command, no room" 4 'pureefjord: out: fault Write: File too large; nothing is written'
    done
    out=$( (ulimit -f 8; ion_to text in/1.ion out) 2>&1); status=$?; gives 'ion_to, no room' 4 'ion_to: out: fault Write: File too large; nothing is written'
    sed 's/some/other/' in/1.ion > other.ion; out=$( (ulimit -f 8; pureefjord diff in/1.ion other.ion -q --html out) 2>&1); status=$?; ends 'diff --html, no room' 4 'pureefjord: out: fault Write: File too large; nothing is written'
    out=$( (ulimit -f 1; pureefjord generate -o out) 2>&1); status=$?; gives 'generate, no room' 4 'pureefjord: out: fault Write: File too large; nothing is written'
    if mount -t tmpfs -o size=128k none disk 2> /dev/null; then
        for words in 'to text in -o disk/out' 'pretty in/1.ion -o disk/out' 'cat in/1.ion -o disk/out'; do
            run pureefjord $words; gives "$words, a full disk" 4 'pureefjord: disk/out: fault Write: No space left on device; nothing is written'
            is "$words, nothing is left" "$(ls -A disk)" ''
        done
        umount disk
        mount -t tmpfs -o size=1M,nr_inodes=4 none disk && run pureefjord to text in -o disk/out; umount disk
        gives 'to, a disk without room for names' 4 'pureefjord: disk/out: fault Write: No space left on device; nothing is written'
    else
        echo 'left out: a full disk (it cannot be mounted)'
    fi
    for command in 'cat in/1.ion' 'pretty in/1.ion' 'check in' 'diff in/1.ion other.ion' 'floats in/1.ion' 'at in/1.ion 1'; do
        out=$(pureefjord $command 2>&1 > /dev/full); status=$?; is "$command, a full device is told once" "$status $(printf '%s\n' "$out" | grep -c 'standard output: fault Write') $(printf '%s\n' "$out" | wc -l)" '4 1 1'
    done
    is 'nothing is left beside' "$(ls -A | grep '^\.')" ''
}

pipes() {
    clean
    awk 'BEGIN { for (i = 0; i < 90000; i++) print "{a:[\"some text to fill a pipe\"]} ]" }' > bad.ion; sed 's/]$//' bad.ion > great.ion; sed 's/some/more/' great.ion > other.ion
    mkdir many; for number in $(seq 1 300); do echo "$number" > many/$number.ion; done
    for words in 'pureefjord cat great.ion' 'pureefjord pretty great.ion' 'pureefjord json great.ion' 'pureefjord floats great.ion' 'pureefjord to text great.ion' 'pureefjord check bad.ion' \
        'pureefjord diff great.ion other.ion' 'pureefjord help' 'ion_json great.ion' 'ion_pretty great.ion' 'ion_floats_to_decimals great.ion' 'ion_where bad.ion' 'ion_compare_trees many many'; do
        out=$({ { $words; echo "$?" > ended; } | :; } 2>&1); is "$words, a closed pipe" "$(cat ended) $out" '141 '
    done
    (cd many && for _ in 1 2 3 4; do printf '%s\0' *; done) > names
    for script in 'ion_check_all' 'check_list -0 -' 'compare_list -0 -'; do
        out=$(cd many && { { $script < ../names; echo "$?" > ../ended; } | :; } 2>&1); is "$script, a closed pipe" "$(cat ended) $out" '141 '
    done
    out=$({ { pureefjord check bad.ion 2>&1 > /dev/null; echo "$?" > ended; } | :; } 2>&1); is 'errors before a closed pipe' "$(cat ended) $out" '2 '
    out=$({ { pureefjord cat absent 2>&1 > /dev/null; echo "$?" > ended; } | :; } 2>&1); is 'a fault before a closed pipe' "$(cat ended) $out" '141 '
}

# Ctrl-C at any moment: it ends by the signal, or has ended, and says nothing.
interrupts() {
    clean
    mkdir in; for number in 1 2 3; do echo $number > in/$number.ion; done; echo '1e5 ]' > bad.ion
    cat > interrupt.py <<'PYTHON'
import signal, subprocess, sys, time
signal.signal(signal.SIGINT, signal.SIG_DFL)
ends, told = set(), set()
for wait in range(0, 200, 8):
    ran = subprocess.Popen(sys.argv[1:], stdout=subprocess.DEVNULL, stderr=subprocess.PIPE)
    time.sleep(wait / 1000)
    ran.send_signal(signal.SIGINT)
    told.add(ran.communicate()[1].decode().replace("\n", "|")[:200])
    ends.add(ran.returncode)
print(sorted(ends - {0, -2}), sorted(told - {""}))
PYTHON
    for words in 'check in' 'diff in in' 'json in/1.ion' 'to text in/1.ion -o out'; do run python3 interrupt.py "$(command -v pureefjord)" $words; gives "$words, Ctrl-C" 0 '[] []'; done
    printf '#!/bin/sh\nexit 1\n' > "$folder/bin/env"; chmod +x "$folder/bin/env"
    run pureefjord check -q in/1.ion; gives 'an env that blocks no signal' 0 ''
    rm "$folder/bin/env"
    is 'nothing is left beside' "$(ls -A | grep '^\.')" ''
}

left_out
packed
names
others
disks
pipes
interrupts
ended
