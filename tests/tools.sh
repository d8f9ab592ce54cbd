#!/bin/sh
# Runs the scripts of tools/ over a built ion_cmd, and the examples of the manual page: tests/tools.sh PROGRAM.
# It needs what the scripts need (python3, find, sort and xargs that take NULs) and git. The manual page is set where groff is
# installed, completion is tried in bash and, where it is installed, in zsh.
set -u
. "$(dirname "$0")/rows.sh"
mkdir "$folder/kept"
HOME=$folder/kept
export HOME GIT_CONFIG_NOSYSTEM=1
cd "$folder/work" || exit 1
new_line='
'

# begins NAME STATUS OUT: how the run before ended, and what its first line begins with.
begins() {
    case $out in "$3"*) is "$1" "$status" "$2" ;; *) is "$1" "$status $out" "$2 $3.." ;; esac
}

usage_lines() {
    for script in ion_where ion_at ion_conformance ion_compare_trees ion_to check_list compare_list; do
        run "$script"; begins "$script without words" 3 "usage: $script "
    done
    run ion_where --deep 3 a; begins 'ion_where, an option it has not' 3 'usage: '
    run ion_check_all --jobs; begins 'ion_check_all, an option without its number' 3 'usage: '
    run ion_merge; begins 'ion_merge without words' 129 'usage: '
    run install.sh; begins 'install.sh without words' 3 'usage: '
}

# where REASON PLACE TEXT [OPTIONS]: what ion_where says of a text, in a file whose name has spaces.
where() {
    reason=$1 place=$2
    printf "$3" > 'a b.ion'
    shift 3
    run ion_where "$@" 'a b.ion'
    begins "ion_where, $reason" 2 "a b.ion:$place: $reason: "
}

places() {
    clean
    printf '$ion_shared_symbol_table::{name:"t",version:1,symbols:["x"]}' > tables.ion
    cat tables.ion tables.ion > twice.ion
    echo '[1]' > no.ion
    where Incomplete 1:4 '[1, '
    where TooLarge 1:39 '170141183460469231731687303715884105728'
    where Malformed 2:10 '1\n2007-02-29'
    where Float 1:8 '{a: 1e0}'
    where SymbolRange 1:4 '$99 '
    where ImportGap 2:4 '$ion_symbol_table::{imports:[{name:"t",version:1,max_id:5}]}\n$14\n' --catalog tables.ion
    where MissingImport 1:62 '$ion_symbol_table::{imports:[{name:"t",version:1}],symbols:[]}\n$14\n'
    where RepeatedField 1:48 '$ion_symbol_table::{symbols:["a"],symbols:["b"]}'
    where TableTooLarge 1:69 '$ion_symbol_table::{imports:[{name:"t",version:1,max_id:2147483647}]}' --catalog tables.ion
    where NullTable 1:32 '$ion_symbol_table::null.struct 1'
    where BadEscape 1:8 'a b "c\\q"'
    where BadUtf8 1:3 '"é\377"'
    where BadBase64 1:6 '{{abc}}'
    where Ambiguous 1:5 '(a--1)'
    where Unexpected 1:6 '{a:1 b:2}'
    where Depth 1:3 '[[[1]]]' --depth 2
    where ItemTooLong 1:4 '12345 6' --item 3
    where Version 1:10 '$ion_1_1 1'
    where KeywordAsName 1:6 '{null:1}'
    run ion_where --catalog twice.ion tables.ion; begins 'ion_where, DuplicateTable' 2 'twice.ion:1:120: DuplicateTable: '
    run ion_where --catalog no.ion tables.ion; begins 'ion_where, BadTable' 2 'no.ion:1:3: BadTable: '
    printf '#!/bin/sh\necho refused 3 Memory >&2\nexit 2\n' > memory && chmod +x memory
    ION_CMD=./memory; export ION_CMD
    run ion_where no.ion; begins 'ion_where, Memory' 2 'no.ion:1:3: Memory: there was too little memory'
    unset ION_CMD
    printf '{\r\n  a: "é\tü", b: 1..0 }\r\n' > lines.ion
    run ion_where lines.ion
    gives 'ion_where, the line and the place in it' 2 "lines.ion:2:20: Malformed: a number, word, timestamp, length or marker of no form that Ion has
      a: \"é ü\", b: 1..0 }${new_line}                       ^"
    printf '\340\001\000\352\041\005\060\041\006' > -x.10n
    run ion_where -- -x.10n
    gives 'ion_where, binary, a name with a hyphen' 2 '-x.10n: octet 7: Malformed: a number, word, timestamp, length or marker of no form that Ion has
       0: e0 01 00 ea 21 05 [30] 21 06'
    cp -- -x.10n "two${new_line}lines.10n"
    run ion_where "two${new_line}lines.10n"; begins 'ion_where, a name of two lines' 2 "two?lines.10n: octet 7: Malformed"
    run ion_where absent tables.ion; begins 'ion_where, no such file' 4 'absent: fault Open: '
    run ion_where tables.ion; gives 'ion_where, a document' 0 ''
    out=$(printf '1\n1e0' | ion_where - 2>&1); status=$?; begins 'ion_where, standard input' 2 '-:2:3: Float'
    mkfifo pipe; printf '1\n\n1e0' > pipe & run ion_where pipe; wait; begins 'ion_where, a pipe' 2 'pipe:3:3: Float'
    awk 'BEGIN { printf "["; for (i = 0; i < 90000; i++) printf "%d,", i; print "x::]" }' > long.ion
    run ion_where long.ion
    is 'ion_where, a long line is shown in part' "$status $(printf '%s\n' "$out" | awk 'NR == 2 { print (length($0) < 90) }')" '2 1'
}

many() {
    clean
    mkdir data 'data/a folder'
    for name in data/one.ion 'data/a folder/two.ion' "data/three${new_line}lines.ion" 'data/-four.ion' 'data/*.ion'; do echo 1 2 > "$name"; done
    printf '[1,,2]' > 'data/bad one.ion'
    out=$(find data -name '*.ion' -print0 | ion_check_all --jobs 3); status=$?
    out=$(printf '%s\n' "$out" | LC_ALL=C sort)
    gives 'ion_check_all' 2 'data/*.ion: accepted 2
data/-four.ion: accepted 2
data/a folder/two.ion: accepted 2
data/bad one.ion: refused 4 Unexpected
data/one.ion: accepted 2
data/three?lines.ion: accepted 2'
    out=$(cd data && printf '%s\0' -four.ion one.ion | ion_check_all --jobs 1); status=$?
    gives 'ion_check_all, a name with a hyphen' 0 './-four.ion: accepted 2
one.ion: accepted 2'
    out=$(printf '%s\0' absent data/one.ion | ion_check_all --depth 3 --item 100); status=$?
    is 'ion_check_all, a missing file' "$status $(printf '%s\n' "$out" | grep -c 'absent: fault Open')" '4 1'
    out=$(ion_check_all < /dev/null); status=$?; gives 'ion_check_all, no names' 0 ''
}

# at NUMBER PATH WANTED: what stands at a place of values.ion.
at() { run ion_at values.ion "$1" "$2"; gives "ion_at $1 $2" 0 "$3"; }

trees() {
    clean
    mkdir -p 'old tree/deep' new
    echo '{a:1,b:[1,2]}' > 'old tree/same.ion'; echo '{b:[1,2],a:1}' > new/same.ion
    echo '1 {a:1,"b c":[1,x::{y:"old"}]}' > 'old tree/deep/parts.ion'
    mkdir new/deep; echo '1 {a:1,"b c":[1,x::{y:"new"}]}' > new/deep/parts.ion
    echo 'a b' > 'old tree/coded.ion'; echo 'a b' | ion_cmd convert - --to binary > new/coded.10n
    echo '{a:1,a:2}' > 'old tree/fields.ion'; echo '{a:2}' > new/fields.ion
    echo 1 > 'old tree/gone.ion'; echo 1 > "new/come${new_line}.ion"; echo 1 2 > 'old tree/-n.ion'; echo 1 > new/-n.ion
    run ion_compare_trees 'old tree' new
    gives 'ion_compare_trees' 1 '-n.ion: different 2
    OLD: 2
    NEW: (nothing)
coded.ion, coded.10n: equivalent 2
come?.ion: only in NEW
deep/parts.ion: different 2 '"'b c'"' [2] y
    OLD: "old"
    NEW: "new"
fields.ion: different 1 a
    OLD: 1
    OLD: 2
    NEW: 2
gone.ion: only in OLD
same.ion: equivalent 1'
    echo '[1e0]' > new/same.ion
    run ion_compare_trees --jobs 2 -- 'old tree' new
    is 'ion_compare_trees, one refused' "$status $(printf '%s\n' "$out" | grep same)" '2 same.ion: refused right 5 Float'
    run ion_compare_trees new absent; gives 'ion_compare_trees, no folder' 4 'ion_compare_trees: absent: no folder'
    run ion_compare_trees new new; is 'ion_compare_trees, a tree with itself' "$(printf '%s\n' "$out" | grep -c equivalent)" 5
    cat > values.ion <<'ION'
2007-02-23T12:14:33Z {t:2007-02-23T12:14Z,'a b':(x + {{aGk=}} {{"c}}"}} "}\\\"" '\'')} a::'b'::{}
ION
    at 1 '' 2007-02-23T12:14:33Z
    at 2 t 2007-02-23T12:14Z
    at 2 "'a b' [2]" "'+'"
    at 2 "'a b' [3]" '{{aGk=}}'
    at 2 "'a b' [4]" '{{"c}}"}}'
    at 2 "'a b' [5]" '"}\\\""'
    at 2 "'a b' [6]" "'\\''"
    at 3 '' 'a::b::{}'
    run ion_at values.ion 3 x; gives 'ion_at, a wrong path' 1 'ion_at: nothing stands at 3 x of values.ion; a place is as 1 tags [2], counted from 1'
    run ion_at values.ion 4; gives 'ion_at, a number beyond the last' 1 'ion_at: nothing stands at 4 of values.ion; a place is as 1 tags [2], counted from 1'
}

conformance() {
    clean
    mkdir -p tests/good/equivs tests/good/non-equivs tests/bad tests/other
    echo '{a:1} [1,2]' > tests/good/read.ion
    echo '1e0' > tests/good/float.ion
    echo '[1,,2]' > tests/good/broken.ion
    echo '[1,,2]' > tests/bad/broken.ion
    echo '[1,2]' > tests/bad/read.ion
    echo '170141183460469231731687303715884105728' > tests/bad/large.ion
    echo '(1 0x1 0b1) [{a:1,b:2},{b:2,a:1}] ($ion_1_0 $ion_1_0) [$ion_symbol_table::{a:1},$ion_symbol_table::{a:1}] embedded_documents::["1 \"a\"", "0x1 \"\\x61\""]' > tests/good/equivs/same.ion
    echo '(1 1.0)' > tests/good/equivs/differ.ion
    echo '(1 1.0 1.00 "1" (1))' > tests/good/non-equivs/differ.ion
    echo '[1,2,0x1]' > tests/good/non-equivs/same.ion
    echo 'embedded_documents::("1e0" "1")' > tests/good/non-equivs/float.ion
    echo '[1,,2]' > tests/other/skipped.ion
    run ion_conformance tests
    gives 'ion_conformance' 1 'not judged: tests/bad/large.ion (bad): refused 40 TooLarge
otherwise: tests/bad/read.ion (bad): accepted 1
otherwise: tests/good/broken.ion (good): refused 4 Unexpected
otherwise: tests/good/equivs/differ.ion (equivs): [1] and [10d-1]: different 1 [1]
not judged: tests/good/float.ion (good): refused 4 Float
not judged: tests/good/non-equivs/float.ion (non-equivs): refused left 3 Float
otherwise: tests/good/non-equivs/same.ion (non-equivs): [1] and [1]: equivalent 1
4 as wanted, 4 otherwise, 3 not judged'
    run ion_conformance tests/bad; is 'ion_conformance, one of its folders' "$status $(printf '%s\n' "$out" | tail -n 1)" '1 1 as wanted, 1 otherwise, 1 not judged'
    rm -r tests/bad tests/good/broken.ion tests/good/equivs/differ.ion tests/good/non-equivs/same.ion
    run ion_conformance tests; is 'ion_conformance, all as wanted' "$status" 0
}

whole_or_nothing() {
    clean
    mkdir 'a folder'
    echo '[5, true]' > in.ion
    run ion_to binary in.ion 'a folder/out.10n'; gives 'ion_to' 0 ''
    run ion_cmd compare in.ion 'a folder/out.10n'; gives 'ion_to, what it wrote' 0 'equivalent 1'
    echo '1 2 [1,,2]' > broken.ion
    run ion_to binary broken.ion 'a folder/out.10n'; gives 'ion_to, a refusal' 2 'broken.ion: refused 8 Unexpected'
    run ion_cmd compare in.ion 'a folder/out.10n'; gives 'ion_to, OUT after a refusal' 0 'equivalent 1'
    run ion_to text in.ion in.ion; is 'ion_to, into itself' "$status $(cat in.ion)" '0 [5,true]'
    out=$(echo 7 | ion_to text - -out.ion 2>&1); status=$?; is 'ion_to, standard input, a name with a hyphen' "$status $out$(cat ./-out.ion)" '0 7'
    run ion_to text in.ion out.ion --depth 0; begins 'ion_to, a wrong limit' 3 'usage: '
    for name in 'a folder' /dev/null; do
        run ion_to text in.ion "$name"; gives "ion_to, $name" 4 "ion_to: $name is no file that can be replaced"
    done
    run ion_to text in.ion /dev/stdout; is 'ion_to, standard output' "$status" 4
    echo 1 > 'a folder/target.ion'; ln -s 'a folder/target.ion' link.ion; run ion_to text in.ion link.ion
    is 'ion_to, a link' "$status $(cat 'a folder/target.ion') $(readlink link.ion)" '0 [5,true] a folder/target.ion'
    rm link.ion 'a folder/target.ion'
    run ion_to text in.ion absent/out.ion; is 'ion_to, no folder' "$status" 4
    (umask 027; ion_to text in.ion rights.ion); is 'ion_to, the rights of a new file' "$(stat -c %a rights.ion)" 640
    mkfifo pipe
    with_signals='import os, signal, sys; signal.signal(signal.SIGINT, signal.SIG_DFL); os.execvp(sys.argv[1], sys.argv[1:])'
    for case in 'TERM 143' 'INT 130' 'HUP 129'; do
        signal=${case% *}
        (exec sleep 5 > pipe) & feeder=$!
        python3 -c "$with_signals" ion_to text pipe 'a folder/late.ion' 2>/dev/null & converter=$!
        until ls -A 'a folder' | grep -q '^\.late'; do sleep 0.1; done
        kill -s "$signal" "$converter"
        wait "$converter"; ended=$?
        kill "$feeder" 2>/dev/null
        wait "$feeder" 2>/dev/null
        is "ion_to, $signal" "$ended $(ls -A 'a folder')" "${case#* } out.10n"
    done 2>/dev/null
    is 'ion_to leaves nothing' "$(ls -A | LC_ALL=C sort | tr '\n' ' ')" '-out.ion a folder broken.ion in.ion pipe rights.ion '
}

versions() {
    clean
    git init -q . && git config user.name n && git config user.email n@localhost
    git config diff.ion.textconv ion_textconv
    git config merge.ion.driver 'ion_merge %O %A %B %P'
    echo '*.10n diff=ion merge=ion' > .gitattributes
    binary() { printf '%s\n' "$1" | ion_cmd convert - --to binary > "$2"; }
    binary '{id:1} {id:2} {id:3} {id:4} {id:5}' doc.10n && git add . && git commit -qm one
    printf '\340\001\000\352\041\005\110\077\360\000\000\000\000\000\000' > doc.10n && git commit -qam float
    binary '{id:1} {id:2} {id:3} {id:4} {id:6}' doc.10n && git commit -qam three
    run git log -p --format=%s; is 'git log goes on past a refused version' "$status $(printf '%s\n' "$out" | grep -c -e '^three$' -e '^float$' -e '^one$' -e '^+  id: 1$' -e '^+// refused 7 Float$')" '0 6'
    run git diff HEAD~2 HEAD; is 'git diff of binary' "$status $(printf '%s\n' "$out" | grep '^[-+] ' | tr '\n' ' ')" '0 -  id: 5 +  id: 6 '
    run git show HEAD~1:./doc.10n --textconv; is 'git show of a refused version' "$status" 0
    git checkout -qb side HEAD; binary '{id:0} {id:2} {id:3} {id:4} {id:6}' doc.10n; git commit -qam side
    git checkout -q -; binary '{id:1} {id:2} {id:3} {id:4} {id:7}' doc.10n; git commit -qam main
    run git merge -q -m merged side
    is 'a clean merge' "$status $(ion_cmd convert doc.10n --to text | tr '\n' ' ')" '0 {id:0} {id:2} {id:3} {id:4} {id:7} '
    is 'a clean merge writes binary' "$(head -c 4 doc.10n | od -An -tx1 | tr -d ' ')" e00100ea
    git checkout -qb other HEAD; binary '{id:8} {id:2} {id:3} {id:4} {id:7}' doc.10n; git commit -qam other
    git checkout -q -; binary '{id:9} {id:2} {id:3} {id:4} {id:7}' doc.10n; git commit -qam mine
    run git merge -q other
    is 'a conflict' "$status $(printf '%s\n' "$out" | grep -c 'ion_merge: doc.10n: both sides changed')" '1 1'
    is 'a conflict keeps ours' "$(ion_cmd convert doc.10n --to text | head -n 1) $(git ls-files -u | wc -l)" '{id:9} 3'
    git merge --abort
    printf '1e0' > base.ion; echo 1 > ours.ion; echo 2 > theirs.ion
    run ion_merge base.ion ours.ion theirs.ion doc; gives 'a refused side' 1 'ion_merge: doc, base: refused 3 Float'
    printf '1e0\n' > ./-bad.ion; run ion_textconv -bad.ion; gives 'ion_textconv of a refused text' 0 '// refused 4 Float
1e0'
    printf '\037\213\010\000' > zipped.ion; run ion_textconv zipped.ion
    is 'ion_textconv of octets' "$status $(printf '%s\n' "$out" | head -n 2 | cut -c 1-19 | tr '\n' '|')" '0 // refused 1 Unexpe|0000000 1f 8b 08 00|'
    run ion_textconv absent; is 'ion_textconv of no file' "$status" 0
}

lists() {
    clean
    echo 1 > good.ion; echo '[1,,2]' > 'bad one.ion'; echo '1e0' > float.ion; echo 1 > ./-n.ion
    printf '%s\n' good.ion 'bad one.ion' -n.ion > judged
    run check_list judged; gives 'check_list' 0 "bad one.ion	2	refused 4 Unexpected
#	3"
    printf '%s\n' good.ion absent float.ion > faulty
    run check_list faulty; gives 'check_list, a missing file' 75 "absent	4	fault Open
float.ion	2	refused 4 Float
#	3"
    out=$(printf 'two\nlines.ion\0good.ion\0' | check_list -0 -); status=$?
    gives 'check_list, names with NULs after them' 75 "two?lines.ion	4	fault Open
#	2"
    run check_list absent; gives 'check_list, no list' 75 'check_list: no list absent'
    awk 'BEGIN { for (i = 0; i < 450; i++) print "good.ion" }' | check_list - > told; is 'check_list, many names' "$(awk '{ n += $2 } END { print n }' told)" 450
    printf '#!/bin/sh\necho fault TooManyReads >&2\nexit 4\n' > reads && chmod +x reads
    ION_CMD=./reads; export ION_CMD
    run check_list judged; is 'check_list, a fault that stays' "$status" 4
    unset ION_CMD
    printf '%s\t%s\n' good.ion -n.ion good.ion float.ion 'bad one.ion' good.ion good.ion judged > pairs
    run compare_list pairs; gives 'compare_list' 0 "good.ion	float.ion	2	refused right 4 Float
bad one.ion	good.ion	2	refused left 4 Unexpected
good.ion	judged	2	refused right 5 Unexpected
#	4"
    printf 'good.ion\tabsent\n' > faulty; run compare_list faulty; gives 'compare_list, a missing file' 75 "good.ion	absent	4	fault Open
#	1"
    printf 'good.ion\n' > odd; run compare_list odd; begins 'compare_list, one name in a line' 3 'usage: '
    out=$(printf 'good.ion\0-n.ion\0' | compare_list -0 -); status=$?; gives 'compare_list, NULs' 0 "#	1"
    out=$(printf 'good.ion\0' | compare_list -0 - 2>&1); status=$?; begins 'compare_list, an odd number' 3 'usage: '
}

numbers() {
    clean
    python3 - > data.json <<'PYTHON'
import json
print(json.dumps({"a": [1, -2, 1.5, 0.25, None, True], "text": "\u00e9\ud83d\ude00/\b\f\n\r\t\"\\\x7f", "deep": {"empty": {}, "list": []}}, indent=1))
print(json.dumps(["plain", 12345678901234567890, "\u2028"], ensure_ascii=False))
PYTHON
    run ion_cmd check data.json; gives 'JSON is read' 0 'accepted 2'
    run ion_cmd compare data.json - < /dev/null; begins 'JSON beside nothing' 1 'different 1'
    echo '{"price":1.25e3,"name":"1e3"}' > exponent.json
    run ion_cmd check exponent.json; gives 'JSON with an exponent' 2 'refused 16 Float'
    out=$(ion_floats_to_decimals < exponent.json | ion_cmd convert - --to text); status=$?
    gives 'an exponent as a decimal' 0 '{price:125d1,name:"1e3"}'
    printf '%s' "1e0 -1.5E+3 // 1e0
/* 1e0 */ '1e0' \"\\\"1e0\" '''1e0''' {{ AAe0 }} {{ \"1e0\" }} a1e0 0x1e0 2007-01-01T 1_0e1 {a:1e0}" > floats.ion
    is 'floats as decimals' "$(ion_floats_to_decimals < floats.ion)" "1d0 -1.5d+3 // 1e0
/* 1e0 */ '1e0' \"\\\"1e0\" '''1e0''' {{ AAe0 }} {{ \"1e0\" }} a1e0 0x1e0 2007-01-01T 1_0d1 {a:1d0}"
}

installed() {
    clean
    run install.sh prefix "$program"
    begins 'install.sh' 0 "installed in $folder/work/prefix: "
    is 'install.sh, what it wrote' "$(cd prefix && find . -type f ! -name '*.py' | LC_ALL=C sort | tr '\n' ' ')" './bin/check_list ./bin/compare_list ./bin/ion_at ./bin/ion_check_all ./bin/ion_cmd ./bin/ion_compare_trees ./bin/ion_conformance ./bin/ion_floats_to_decimals ./bin/ion_json ./bin/ion_merge ./bin/ion_pretty ./bin/ion_textconv ./bin/ion_to ./bin/ion_where ./bin/pureefjord ./share/bash-completion/completions/ion_cmd ./share/bash-completion/completions/pureefjord ./share/man/man1/ion_cmd.1 ./share/man/man1/pureefjord.1 ./share/pureefjord/VERSION ./share/zsh/site-functions/_ion_cmd ./share/zsh/site-functions/_pureefjord '
    is 'every script is installed' "$(cd "$top/tools" && ls -p | grep -v / | grep -vx 'install.sh\|vendor.sh\|release.sh\|clean\|progress' | grep -v '\.py$' | sort | tr '\n' ' ')" "$(cd prefix/bin && ls | grep -vx ion_cmd | sort | tr '\n' ' ')"
    is 'every module is installed' "$(cd prefix/share/pureefjord && ls *.py)" "$(cd "$top/tools" && ls *.py)"
    echo '1 2' > a.ion
    out=$(PATH=$folder/work/prefix/bin:/usr/bin:/bin ion_at a.ion 2); status=$?; gives 'an installed script' 0 2
    run install.sh prefix absent; is 'install.sh, no program' "$status" 4
    : > prefix/bin/other
    run install.sh --remove prefix; begins 'install.sh, the way back' 0 "removed from $folder/work/prefix: "
    is 'install.sh leaves what it did not write' "$(cd prefix && find . -type f)" ./bin/other
    run install.sh --remove; begins 'install.sh --remove without a folder' 3 'usage: '
    run env "DESTDIR=$folder/work/stage" install.sh /usr "$program"
    begins 'install.sh under DESTDIR' 0 "installed in $folder/work/stage/usr: "
    is 'install.sh under DESTDIR, the program' "$(ls stage/usr/bin/ion_cmd)" stage/usr/bin/ion_cmd
}

completed() {
    for case in 'ion_cmd co|convert compare' 'ion_cmd convert a --t|--to' 'ion_cmd convert a --to |text binary' 'ion_cmd check --|--catalog --depth --item' \
        'pureefjord p|pretty' 'pureefjord to |text binary json' 'pureefjord diff --format |text json' 'pureefjord json --d|--depth --down-convert' 'pureefjord help f|floats' \
        'pureefjord try|try-writer try-reader' 'pureefjord generate --r|--refused'; do
        words=${case%%|*} command=${case%% *}
        out=$(bash -c 'source "$1"; IFS=" "; COMP_WORDS=($2); [ "${2% }" = "$2" ] || COMP_WORDS+=(""); COMP_CWORD=$((${#COMP_WORDS[@]} - 1)); _$3; echo "${COMPREPLY[*]}"' bash "$top/tools/completion/$command.bash" "$words" "$command" 2>/dev/null)
        is "completion in bash: $words" "$out" "${case#*|}"
    done
    if command -v zsh > /dev/null; then
        for command in ion_cmd pureefjord; do zsh -n "$top/tools/completion/_$command"; is "completion of $command in zsh" $? 0; done
    else
        echo 'left out: completion in zsh (no zsh)'
    fi
}

pipes() {
    clean
    awk 'BEGIN { for (i = 0; i < 200000; i++) print i }' > many.ion
    out=$({ ion_cmd show many.ion 2> told; echo $? > code; } | head -n 1)
    is 'before head' "$(cat code) $(cat told), $out" '4 fault Write, 1 int depth 0 nodes 1'
    { echo 1 2 3; sleep 1; } | ion_cmd show - > slow &
    sleep 0.5; is 'a slow feed is kept back' "$(cat slow)" ''
    wait; is 'and comes at its end' "$(tail -n 1 slow)" 'accepted 3'
    mkdir gone; echo 1 > gone/a.ion; gzip gone/a.ion
    out=$(gzip -dc gone/a.ion.gz | ion_cmd check -); gives 'a compressed document' 0 'accepted 1'
    run ion_where gone/a.ion.gz; gives 'a compressed document by its name' 0 ''
}

page() {
    cd "$top" || exit 1
    for page in ion_cmd pureefjord; do
        is "the version of the manual page $page" "$(sed -n '1s/.*Pureefjord \([0-9.]*\).*/\1/p' "docs/$page.1")" "$(cat VERSION)"
    done
    is 'the version of the changes' "$(sed -n 's/^## \([0-9.]*\),.*/\1/p' CHANGELOG.md | head -n 1)" "$(cat VERSION)"
    if command -v groff > /dev/null; then
        for page in ion_cmd pureefjord; do
            is "the manual page $page is set without a warning" "$(groff -ww -man -Tutf8 "docs/$page.1" 2>&1 > /dev/null)" ''
        done
    else
        echo 'left out: the manual page, set (no groff)'
    fi
    for reason in $(sed -n 's/^ *Reason::\([A-Za-z0-9]*\) => "\([A-Za-z0-9]*\)",$/\2/p' crates/ion_atoms/src/refusal.rt); do
        is "the manual page has $reason" "$(grep -cx "\.B $reason" docs/ion_cmd.1 | sed 's/[12]/there/')" there
        is "the scripts have $reason in words" "$(grep -c "^    \"$reason\": \"" tools/ion_places.py)" 1
    done
    cat docs/ion_cmd.1 docs/pureefjord.1 | sed -n '/^\.EX$/,/^\.EE$/p' | grep -v '^\.E[XE]$' > "$folder/examples"
    command=
    wanted=
    try() { [ -z "$command" ] || is "manual page: $command" "$(sh -c "$command" 2>&1 < /dev/null)" "$wanted"; }
    while IFS= read -r line; do
        case $line in
        '$ '*) try; command=${line#??}; wanted= ;;
        *) wanted=${wanted:+$wanted$new_line}$line ;;
        esac
    done < "$folder/examples"
    try
    for script in tools/*; do
        [ -d "$script" ] || [ "${script%.py}" != "$script" ] || is "$script says what it does" "$(sed -n '2p' "$script" | grep -c "${script#tools/}")" 1
    done
}

usage_lines
places
many
trees
conformance
whole_or_nothing
versions
lists
numbers
pipes
installed
completed
page
ended
