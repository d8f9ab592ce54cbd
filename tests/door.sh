#!/bin/bash
# Runs pureefjord, ion_json, ion_pretty and ion_floats_to_decimals over a built ion_cmd, and the scripts of tools/ where a program,
# a catalog, a file, a disk or a reader fails them: tests/door.sh PROGRAM. It needs git, and jq for a look at the JSON.
set -u
plain_path=$PATH
. "$(dirname "$0")/rows.sh"
mkdir "$folder/kept"
HOME=$folder/kept
export HOME GIT_CONFIG_NOSYSTEM=1
new_line='
'

words() {
    clean
    echo 1 > a.ion
    run pureefjord; has 'no words' 0 'Usage: pureefjord COMMAND'
    run pureefjord --help; has '--help' 0 'pretty [FILE..]'
    run pureefjord --version; gives '--version' 0 "pureefjord $(cat "$top/VERSION")"
    run pureefjord help diff; has 'help of a command' 0 '--html OUT'
    run pureefjord diff --help; has '--help of a command' 0 '--html OUT'
    run pureefjord help float; has 'help of a reason' 0 'Float: a float (1e0'
    run pureefjord help Memry; gives 'help of no word' 3 'pureefjord: no help about Memry; did you mean Memory?'
    run pureefjord chek a.ion; gives 'no command' 3 'pureefjord: no command chek; did you mean check?'
    run pureefjord frob; gives 'no command like it' 3 'pureefjord: no command frob; pureefjord help lists them'
    run pureefjord diff a.ion; gives 'one file to diff' 3 'pureefjord: the following arguments are required: RIGHT; pureefjord help diff tells its words'
    run pureefjord diff a.ion .; gives 'a file and a folder' 3 'pureefjord: two files or two folders'
    run pureefjord diff - -; gives 'standard input twice' 3 'pureefjord: standard input is read once'
    run pureefjord to txt a.ion; has 'no encoding' 3 'pureefjord: argument text|binary|json: invalid choice: '
    run pureefjord to text . ; gives 'a folder to standard output' 3 'pureefjord: a folder goes to a folder: -o OUT'
    run pureefjord check --depth 0 a.ion; has 'a wrong depth' 3 '0 is none of 1 to 128'
    run pureefjord check --item 2G a.ion; has 'a wrong item' 3 '2G is none of 1 to 1G'
    run pureefjord check --quite a.ion; has 'no option' 3 'unrecognized arguments: --quite'
    run pureefjord check --item 1K a.ion; gives 'an item with a letter' 0 'a.ion: accepted 1'
    for script in "$top"/tools/ion_* "$top"/tools/*_list; do
        name=${script##*/}
        [ "$name" = "${name%.py}" ] || continue
        run "$script" --help; case $out in "$name "*) is "$name --help" "$status" 0 ;; *) is "$name --help" "$status $out" "0 $name .." ;; esac
    done
}

checks() {
    clean
    mkdir -p 'logs/in a folder/.hidden' empty
    printf '{"id":1}\n{"id":2,"to":x y}\n{"id":3,\n{"id":4}\n  {"id":5,"to":1..0}\n{"id":6,"é":9e-05}\n{"id":7}\n{"id":8,"end":"no\n{"id":9' > logs/a.json
    printf '{\n  a: 1,\n  b: [\n    1,\n    2 3\n  ],\n}\n{\n  a: 2\n}\n{\n  c: )\n}\n' > 'logs/in a folder/b.ion'
    echo '1 2 3' | ion_cmd convert - --to binary > logs/c.10n
    echo '1e0' > 'logs/in a folder/.hidden/d.ion'; echo '1e0' > logs/d.txt; echo '1e0' > logs/.e.ion
    run pureefjord check logs
    gives 'check, all broken records' 2 'logs/a.json:2:16: Unexpected: an octet that cannot stand there; a comma or } was expected
    {"id":2,"to":x y}
                   ^
logs/a.json:4:1: Unexpected: an octet that cannot stand there; a field name or } was expected
    {"id":4}
    ^
logs/a.json:5:20: Malformed: a number, word, timestamp, length or marker of no form that Ion has
      {"id":5,"to":1..0}
                       ^
logs/a.json:6:18: Float: a float (1e0, nan, +inf); it is Ion, but this program reads null.float alone; pureefjord floats makes it 9d-05, and --floats reads it so
    {"id":6,"é":9e-05}
                     ^
logs/a.json:8:18: Unexpected: an octet that cannot stand there; an escape such as \n or the end " was expected
    {"id":8,"end":"no
                     ^
logs/a.json:9:7: Incomplete: the input ends inside something that began; a comma or } was expected
    {"id":9
          ^
logs/c.10n: accepted 3
logs/in a folder/b.ion:5:7: Unexpected: an octet that cannot stand there; a comma or ] was expected
        2 3
          ^
logs/in a folder/b.ion:12:6: Unexpected: an octet that cannot stand there; a value was expected
      c: )
         ^
3 documents: 1 accepted, 2 refused (8 places); 1 other file was left out'
    run pureefjord check -q --most 2 logs/a.json logs/c.10n; is 'check -q --most 2' "$status $(printf '%s\n' "$out" | grep -v '^    ' | cut -c 1-43)" '2 logs/a.json:2:16: Unexpected: an octet that
logs/a.json:4:1: Unexpected: an octet that 
logs/a.json: what stands behind this isn'"'"'t 
2 documents: 1 accepted, 1 refused (2 place'
    run pureefjord check -q logs/c.10n logs/c.10n; gives 'check -q, all accepted' 0 ''
    run pureefjord check logs/d.txt; has 'check, a file that is named, of any suffix' 2 'logs/d.txt:1:4: Float'
    run pureefjord check absent logs; has 'check, a missing file' 4 'absent: fault Open: the file cannot be opened'
    run pureefjord check empty; gives 'check, a folder without a document' 4 'pureefjord: empty: no document in this folder'
    printf '$ion_symbol_table::{symbols:["x"]}\n$10\n1 ]\n$10\n2 ]\n' > tables.ion
    run pureefjord check tables.ion; is 'check, with symbol tables the first alone' "$status $(printf '%s\n' "$out" | grep -c Unexpected)" '2 1'
    printf '\340\001\000\352\041\005\060\041\006' > -x.10n; run pureefjord check -- -x.10n
    gives 'check, binary' 2 '-x.10n: octet 7: Malformed: a number, word, timestamp, length or marker of no form that Ion has
       0: e0 01 00 ea 21 05 [30] 21 06'
    printf '\037\213\010\000\n\001\n\002\n' > zipped.json; run pureefjord check zipped.json; is 'check, no text' "$status $(printf '%s\n' "$out" | grep -c Unexpected)" '2 1'
    out=$(printf '1\n2 ]\n3 ]' | pureefjord check 2>&1); status=$?; is 'check, a pipe' "$status $(printf '%s\n' "$out" | grep -c Unexpected)" '2 2'
    name=$(printf 'n\377.ion'); cp tables.ion "$name"; run pureefjord check "$name"; has 'check, a name that is no UTF-8' 2 ":3:3: Unexpected"
    printf '[\n{"a":1},\n{"b":x y},\n{"c":2},\n{"d":3}\n]\n' > array.json; run pureefjord check array.json
    is 'check, an array without indents' "$status $(printf '%s\n' "$out" | grep -v '^    ' | cut -c 1-50)" "2 array.json:3:8: Unexpected: an octet that cannot s
array.json: what stands behind this isn't checked"
    printf '[\n  {"a":1},\n  {"b":x y},\n  {"c":2}\n]\n{}\n{"d":]}' > array.json; run pureefjord check array.json; is 'check, an array with indents' "$status $(printf '%s\n' "$out" | grep -c Unexpected)" '2 2'
    printf '{"lost":1\n{"next":2}\n{"next":]}\n{"lost":[\n{"next":1}\n' > lost.json; run pureefjord check lost.json; is 'check, records that lack their ends' "$status $(printf '%s\n' "$out" | grep -o '^[a-z.]*:[0-9]*:[0-9]*' | tr '\n' ' ')" '2 lost.json:2:1 lost.json:3:9 lost.json:5:11 '
    awk 'BEGIN { for (i = 0; i < 3000; i++) print "{a:" (i % 3 ? i : "]") "}" }' > many.ion
    run pureefjord check --most 9999 many.ion; is 'check, many' "$status $(printf '%s\n' "$out" | grep -c Unexpected)" '2 1000'
    mkfifo pipe; cat logs/c.10n > pipe & run pureefjord check pipe; wait; gives 'check, a named pipe' 0 'pipe: accepted 3'
}

differs() {
    clean
    cat > left.ion <<'ION'
{id:1, price:1.0, "b c":[1, x::{y:"old"}], t:"a"}
{id:2}
{id:3}
{id:4, tags:[a, b, c]}
ION
    cat > right.json <<'ION'
{"t":"a", "b c":[1, x::{y:"new"}], "price":1.00, "id":1}
{"id":3}
{"id":4, "tags":[a, c, d], "more":null}
[5]
ION
    run pureefjord diff left.ion right.json
    gives 'diff' 1 "--- left.ion
+++ right.json
@@ 1 price @@ one number, but in Ion two values: digits count
- 1.0
+ 1.00
@@ 1 'b c' [2] y @@
- \"old\"
+ \"new\"
@@ 2 @@
- {
-   id: 2
- }
@@ 4 tags [2] @@
- b
@@ 3 tags [3] @@
+ d
@@ 3 more @@
+ null
@@ 4 @@
+ [
+   5
+ ]
left.ion and right.json: 7 differences"
    run pureefjord at left.ion 1 "'b c'" '[2]' y; gives 'at, a place that diff told' 0 '"old"'
    run pureefjord diff --format json left.ion right.json
    is 'diff, JSON lines' "$(printf '%s\n' "$out" | sed -n '1p;$p')" '{"kind": "changed", "left": {"file": "left.ion", "place": "1 price", "value": "10d-1"}, "right": {"file": "right.json", "place": "1 price", "value": "100d-2"}, "note": "one number, but in Ion two values: digits count"}
{"verdict": "different", "left": "left.ion", "right": "right.json", "differences": 7, "first": "different 1 '"'b c'"' [2] y"}'
    if command -v jq > /dev/null; then is 'diff, JSON for jq' "$(printf '%s\n' "$out" | jq -r .kind | sort | uniq -c | tr -s ' \n' ' ')" ' 2 changed 2 left only 1 null 3 right only '; fi
    run pureefjord diff -q left.ion right.json; gives 'diff -q' 1 'left.ion and right.json: 7 differences'
    echo '{"id":1,"s":"1"}' > one.json; echo '{s:"1",id:1}' > one.ion; run pureefjord diff one.json one.ion; gives 'diff, equivalent' 0 'one.json and one.ion: equivalent 1'
    echo '1 x a::1 1 {a:1,a:2}' > kinds.ion; echo '1. "x" b::1 2 {a:2,a:3}' > kinds.2.ion; run pureefjord diff kinds.ion kinds.2.ion
    is 'diff, reasons' "$status $(printf '%s\n' "$out" | grep @@ | tr '\n' '|')" '1 @@ 1 @@ one number, but in Ion two values: an int and a decimal|@@ 2 @@ a symbol and a string|@@ 3 @@ the annotations differ|@@ 4 @@|@@ 5 a @@|'
    awk 'BEGIN { for (i = 0; i < 5000; i++) if (i != 100 && i != 4000) print "{id:" i ",v:" i % 7 "}" }' > long.ion
    awk 'BEGIN { for (i = 0; i < 5000; i++) { if (i == 3000) print "new"; print "{id:" i ",v:" (i == 50 ? 9 : i % 7) "}" } }' > long.2.ion
    run pureefjord diff long.ion long.2.ion; is 'diff, values put in' "$status $(printf '%s\n' "$out" | grep @@ | tr '\n' ' ')" '1 @@ 51 v @@ @@ 101 @@ @@ 3001 @@ @@ 4002 @@ '
    awk 'BEGIN { for (i = 0; i < 3000; i++) print "{id:" i ",v:1}" }' > all.ion; sed 's/v:1/v:2/' all.ion > all.2.ion
    run pureefjord diff -q all.ion all.2.ion; gives 'diff, every value' 1 'all.ion and all.2.ion: 3000 differences'
    echo '[1,,2]' > bad.ion; run pureefjord diff one.ion bad.ion; gives 'diff, one refused' 2 'bad.ion:1:4: Unexpected: an octet that cannot stand there; a value or ] was expected
    [1,,2]
       ^
one.ion and bad.ion: right refused'
    run pureefjord diff absent one.ion; has 'diff, a missing file' 4 'absent: fault Open: '
    out=$(pureefjord diff one.ion - < one.json 2>&1); status=$?; gives 'diff, standard input on the right' 0 'one.ion and -: equivalent 1'
    out=$(cat one.json | pureefjord diff - left.ion 2>&1); status=$?; has 'diff, a pipe on the left' 1 'and left.ion: '
    mkdir -p old/deep new/deep .git; cp left.ion old/deep/a.ion; cp right.json new/deep/a.json; cp one.ion old/b.ion; ion_cmd convert one.ion --to binary > new/b.10n
    cp one.ion old/gone.ion; cp one.ion new/come.ion; cp one.ion old/c.ion; cp bad.ion new/c.ion
    run pureefjord diff -q old new
    is 'diff, two folders' "$status $(printf '%s\n' "$out" | grep -v '^    ')" '2 new/c.ion:1:4: Unexpected: an octet that cannot stand there; a value or ] was expected
old/c.ion and new/c.ion: right refused
new/come.ion: only in new
old/deep/a.ion and new/deep/a.json: 7 differences
old/gone.ion: only in old
5 documents: 1 equivalent, 3 different, 1 refused'
    mkdir none nothing; run pureefjord diff none nothing; gives 'diff, two empty folders' 4 'pureefjord: none and nothing: no document in these folders'
    run python3 "$top/tests/differences.py" "$program"; gives 'diff of random documents' 0 '250 pairs: as the program says'
    run pureefjord diff --format json old new; is 'diff, two folders, JSON' "$status $(printf '%s\n' "$out" | grep -c '^{"verdict"')" '2 5'
}

pages() {
    clean
    mkdir old new
    echo '{id:1,text:"<b>&</b>",list:[1,2,3,4,5,6,7,8,9]} same' > old/a.ion; echo '{id:2,text:"<i>",list:[1,2,3,4,5,6,7,8,9]} same' > new/a.ion
    echo 1 > old/b.ion; echo 1 > new/b.ion; echo '1 ]' > old/c.ion; echo 1 > new/c.ion
    run pureefjord diff -q old/a.ion new/a.ion --html page.html; gives 'a page' 1 'old/a.ion and new/a.ion: 2 differences'
    is 'a page has both sides, marked' "$(grep -c '<td class="minus">  id: <mark>1</mark>,</td><td class="plus">  id: <mark>2</mark>,</td>' page.html) $(grep -c '&lt;<mark>b&gt;&amp;&lt;/b</mark>&gt;' page.html)" '1 1'
    is 'a page folds what is equal' "$(grep -c '<summary>10 equal lines</summary>' page.html)" 1
    is 'a page needs no network' "$(grep -c -i -e http -e 'src=' -e '@import' -e 'url(' page.html)" 0
    is 'a page is whole' "$(tail -n 1 page.html)" '</body></html>'
    run pureefjord diff -q old new --html page.html; is 'a page of two folders' "$status $(grep -o '<h2 id=[^<]*' page.html | cut -d '>' -f 2 | tr '\n' '|')" '2 old/a.ion and new/a.ion|old/c.ion and new/c.ion: left refused|'
    is 'a page tells a refusal' "$(grep -c 'old/c.ion:1:3: Unexpected' page.html)" 1
    run pureefjord diff old/a.ion new/a.ion --html absent/page.html; has 'a page, no folder' 4 'No such file or directory'
    run pureefjord diff old/a.ion new/a.ion --html /dev/full; gives 'a page, no file' 4 'pureefjord: /dev/full is no file that can be replaced'
    run pureefjord diff absent new/a.ion --html page.html; is 'a page of what is not there' "$status $(grep -c 'fault Open' page.html)" '4 3'
    is 'a page leaves nothing beside it' "$(ls -A | tr '\n' ' ')" 'new old page.html '
}

# Text, indented text, JSON

writes() {
    clean
    cat > all.ion <<'ION'
{a:38.01, 'c d':x::(+ y 5.), t:2007-02-23T12:14:33Z, n:null.int, b:{{aGk=}}, c:{{"c\xff"}}, s:"é\n\"", e:[], d:12d2, nullable:nullable}
[1, 2.50, -0., -0.0, 0d-3, 1d-40, 170141183460469231731687303715884105727, true, null, "x\x01", {}, [[]]]
ION
    run pureefjord pretty all.ion; is 'pretty is the same data' "$(printf '%s\n' "$out" | ion_cmd compare - all.ion)" 'equivalent 2'
    is 'pretty' "$(printf '%s\n' "$out" | head -n 7)" "{
  a: 38.01,
  'c d': x::(
    '+'
    y
    5.
  ),"
    run pureefjord cat all.ion all.ion; is 'cat' "$(printf '%s\n' "$out" | ion_cmd check -)" 'accepted 4'
    run pureefjord json all.ion; gives 'json refuses what JSON has not' 2 "all.ion: 1 'c d': an annotation, which JSON has not; --down-convert writes it"
    run pureefjord json --down-convert all.ion
    gives 'json, down-conversion' 0 '{"a":38.01,"c d":["+","y",5],"t":"2007-02-23T12:14:33Z","n":null,"b":"aGk=","c":"c\u00ff","s":"é\n\"","e":[],"d":12e2,"nullable":"nullable"}
[1,2.50,-0,-0.0,0.000,1e-40,170141183460469231731687303715884105727,true,null,"x\u0001",{},[[]]]'
    if command -v jq > /dev/null; then is 'json for jq' "$(printf '%s\n' "$out" | jq -c '.t?' | head -n 1)" '"2007-02-23T12:14:33Z"'; fi
    for case in 'x::1|an annotation' 'x|a symbol' '2007T|a timestamp' '{{"c"}}|a clob' '{{aGk=}}|a blob' '(1)|an s-expression' 'null.int|a null.int' '{a:1,"a":2}|a field name that stands twice' '$0|a symbol' '{$0:1}|a field name of unknown text' "'true'|a symbol"; do
        echo "[1, {deep: ${case%|*}}]" > what.ion
        run ion_json what.ion; gives "json, ${case%|*}" 2 "ion_json: what.ion: 1 [2] deep: ${case#*|}, which JSON has not; --down-convert writes it"
    done
    python3 - > data.json <<'PYTHON'
import json, random
random.seed(7)
def value(depth):
    kind = random.randrange(8 if depth else 6)
    if kind == 6: return [value(depth - 1) for _ in range(random.randrange(4))]
    if kind == 7: return {random.choice(["a", "b c", "é", "null", "", "\n", "x\"y"]): value(depth - 1) for _ in range(random.randrange(4))}
    return [None, random.random() < 0.5, random.randrange(-10**20, 10**20), round(random.random() * 100, 3) + 1, random.choice(["", "text", "\u2028\t\"\\/\x7f", "😀"]), 0][kind]
for _ in range(300): print(json.dumps(value(5), ensure_ascii=random.random() < 0.5))
PYTHON
    pureefjord to binary data.json -o data.10n && pureefjord json data.10n > back.json
    is 'JSON to binary and back' "$(python3 -c '
import json, decimal
lines = lambda name: [json.loads(line, parse_float=decimal.Decimal) for line in open(name, encoding="utf-8")]
print(repr(lines("data.json")) == repr(lines("back.json")), len(lines("back.json")))')" 'True 300'
    is 'JSON read again is the same Ion' "$(ion_cmd compare data.json back.json)" 'equivalent 300'
    echo '{"x":9e-05,"y":"1e5"}' > float.json; run pureefjord floats float.json; gives 'floats' 0 '{"x":9d-05,"y":"1e5"}'
    run pureefjord floats -o decimals.json float.json; run pureefjord json decimals.json; gives 'a float, as a decimal and back' 0 '{"x":0.00009,"y":"1e5"}'
    run python3 "$top/tests/layout.py" "$program"; has 'indented text and JSON, however cut' 0 '1500 documents: as they have to be'
    run ion_floats_to_decimals data.10n; gives 'floats of binary' 2 'ion_floats_to_decimals: data.10n is binary; floats of text alone are written'
    run ion_floats_to_decimals absent; gives 'floats, a missing file' 4 'ion_floats_to_decimals: absent: No such file or directory'
    run ion_floats_to_decimals a b; has 'floats, two names' 3 'usage: ion_floats_to_decimals [FILE]'
    printf '1\n1e0' > broken.ion; run pureefjord pretty all.ion broken.ion; has 'pretty, one refused' 2 'broken.ion:2:3: Float: a float'
    for command in cat pretty 'json --down-convert'; do
        run pureefjord $command absent; has "$command, a missing file" 4 'absent: fault Open: '
        run pureefjord $command -o out all.ion; is "$command -o" "$status $([ -s out ] && echo written)" '0 written'; cp out before
        run pureefjord $command -o out all.ion broken.ion; is "$command -o, one refused: OUT is as it was" "$status $(cmp out before && ls -A | grep -c '^\.')" '2 0'
        out=$(pureefjord $command all.ion 2>&1 > /dev/full); status=$?; has "$command, a full device" 4 'fault Write'
        out=$({ pureefjord $command long.ion; echo "ended $?" >&2; } 2>&1 > >(head -c 1 > /dev/null)); is "$command, a missing file before a closed pipe" "${out##*ended }" 4
        awk 'BEGIN { for (i = 0; i < 90000; i++) print "[\"some text to fill a pipe\"]" }' > great.ion
        out=$({ { pureefjord $command great.ion; echo "ended $?" >&2; } | head -c 1 > /dev/null; } 2>&1); is "$command, a closed pipe" "$(printf '%s\n' "$out" | grep -c -v ended) ${out##*ended }" '0 141'
    done
}

# What the script writes line by line, beside the floats of a text all at once.
streams() {
    clean
    run python3 "$top/tests/floats.py"; gives 'floats, line by line as all at once' 0 '20000 texts: the same'
    awk 'BEGIN { for (i = 0; i < 600000; i++) print "{\"id\":" i ",\"small\":" i % 9 "e-05,\"text\":\"1e5\"}" }' > great.json
    is 'floats, little memory' "$(python3 -c '
import resource, subprocess
subprocess.run(["ion_floats_to_decimals", "great.json"], stdout=subprocess.DEVNULL, check=True)
print(resource.getrusage(resource.RUSAGE_CHILDREN).ru_maxrss < 40000)')" True
}

converts() {
    clean
    mkdir -p 'in/a folder' in/.git
    echo '{"a":1}' > in/a.json; echo '[x]' > 'in/a folder/b.ion'; echo 1 | ion_cmd convert - --to binary > in/c.10n; echo text > in/read.me; echo '1 ]' > in/.git/x.ion
    run pureefjord to binary in -o out; gives 'to, a folder' 0 'out: 3 documents; 1 other file was left out'
    is 'to, the files of the folder' "$(cd out && find . -type f | LC_ALL=C sort | tr '\n' ' ')" './a folder/b.10n ./a.10n ./c.10n '
    run pureefjord diff -q in out; has 'to, the same data' 0 '3 documents: 3 equivalent'
    (umask 027; pureefjord to text in -o rights > /dev/null); is 'to, the rights of a folder' "$(stat -c %a rights rights/a.ion | tr '\n' ' ')" '750 640 '
    run pureefjord to text out -o out; gives 'to, a folder that is there' 4 'pureefjord: out is there already, and no empty folder'
    mkdir fresh; run pureefjord to text in -o fresh/; gives 'to, an empty folder' 0 'fresh: 3 documents; 1 other file was left out'
    echo '1 ]' > in/broken.ion; run pureefjord to binary in -o none; has 'to, one refused' 2 'in/broken.ion:1:3: Unexpected'
    is 'to, one refused: no folder' "$(ls -A | tr '\n' ' ')" 'fresh in out rights '
    rm in/broken.ion; echo 1 > in/a.ion; run pureefjord to binary in -o none; gives 'to, two of one name' 4 'pureefjord: a.ion and a.json would both be a.10n'; rm in/a.ion
    mkdir bare; run pureefjord to binary bare -o none; gives 'to, no documents' 4 'pureefjord: bare: no document in this folder'
    run pureefjord to binary in -o absent/none; has 'to, no place for the folder' 4 'No such file or directory'
    run pureefjord to binary in/a.json -o a.10n; is 'to, a file' "$status $(ion_cmd compare in/a.json a.10n)" '0 equivalent 1'
    echo '1 ]' > broken.ion; run pureefjord to binary broken.ion -o a.10n; is 'to, a refused file: OUT is as it was' "$status $(ion_cmd compare in/a.json a.10n)" '2 equivalent 1'
    run pureefjord to text a.10n; gives 'to, standard output' 0 '{a:1}'
    echo 1 > target.ion; ln -s target.ion link.ion; run pureefjord to text a.10n -o link.ion; is 'to, a link' "$(cat target.ion) $(readlink link.ion)" '{a:1} target.ion'
    awk 'BEGIN { for (i = 0; i < 9000; i++) print "[\"some text to fill a disk\"]" }' > great.ion
    out=$( (ulimit -f 8; pureefjord to text great.ion -o a.10n) 2>&1); status=$?; is 'to, no room: OUT is as it was' "$status $(ion_cmd compare in/a.json a.10n)" '4 equivalent 1'
    out=$( (ulimit -f 8; pureefjord pretty great.ion -o a.10n) 2>&1); status=$?; is 'pretty, no room: OUT is as it was' "$status $(ion_cmd compare in/a.json a.10n)" '4 equivalent 1'
    cp great.ion in; out=$( (ulimit -f 8; pureefjord to text in -o none) 2>&1); status=$?; is 'to, no room for a folder' "$status $(ls -A | grep -c none)" '4 0'
    is 'nothing is left beside' "$(ls -A | grep '^\.')" ''
}

signals() {
    clean
    mkdir in; echo 1 > in/a.ion; echo 1 > a.ion; echo kept > out
    printf '#!/bin/sh\n: > "%s/began"\nexec sleep 5\n' "$folder/work" > slow; chmod +x slow
    with_signals='import os, signal, sys; signal.signal(signal.SIGINT, signal.SIG_DFL); os.execvp(sys.argv[1], sys.argv[1:])'
    for words in 'to text in -o new' 'to text a.ion -o out' 'cat a.ion -o out' 'pretty a.ion -o out' 'check a.ion in' 'diff a.ion in/a.ion --html out'; do
        for case in 'TERM 143' 'INT 130' 'HUP 129'; do
            rm -f began
            ION_CMD=$folder/work/slow python3 -c "$with_signals" pureefjord $words 2> /dev/null & running=$!
            until [ -e began ]; do sleep 0.05; done
            kill -s "${case% *}" "$running"
            wait "$running"; ended=$?
            is "$words, ${case% *}" "$ended $(cat out) $(ls -A | LC_ALL=C sort | tr '\n' ' ')" "${case#* } kept a.ion began in out slow "
        done 2> /dev/null
    done
}

# What a terminal shows, without what moves the cursor.
shown() { "$top/tests/on_terminal.py" "$@" | tr -d '\r' | sed 's/\x1b\[K//g'; }

terminals() {
    clean
    echo '{a:1} x' > a.ion; echo '1 ]' > b.ion
    is 'a terminal without input' "$(shown -i "1 2$new_line" pureefjord check | grep pureefjord)" 'pureefjord: reading from the terminal; Ctrl-D ends the document'
    is 'a terminal without input, cat' "$(shown -i "1 2$new_line" pureefjord cat | grep -c -e pureefjord -e '^1$' -e '^2$')" 3
    is 'colours on a terminal' "$(shown pureefjord pretty a.ion | cat -v | tr '\n' ' ')" '{   ^[[34ma^[[0m: ^[[36m1^[[0m } ^[[35mx^[[0m '
    is 'no colours by NO_COLOR' "$(NO_COLOR=1 shown pureefjord pretty a.ion | cat -v | tr '\n' ' ')" '{   a: 1 } x '
    is 'no colours by --color never' "$(shown pureefjord pretty --color never a.ion | cat -v | tr '\n' ' ')" '{   a: 1 } x '
    is 'colours of check' "$(shown pureefjord check a.ion b.ion | cat -v | grep -c -e '^^\[\[1ma.ion: ^\[\[0m^\[\[32maccepted 2' -e '31mUnexpected')" 2
    is 'colours of diff' "$(shown pureefjord diff a.ion a.ion | cat -v) $(echo '{a:2} x' > c.ion; shown pureefjord diff a.ion c.ion | cat -v | grep -c -e '^^\[\[31m- 1' -e '^^\[\[32m+ 2' -e '^^\[\[36m@@')" 'a.ion and a.ion: equivalent 2 3'
    is 'no binary on a terminal' "$(shown pureefjord to binary a.ion)" "pureefjord: binary isn't written to a terminal; -o OUT names a file"
    awk 'BEGIN { for (i = 0; i < 9000; i++) print "[\"some text\"]" }' > great.ion
    printf '#!/bin/sh\nhead -c 56000 > /dev/null; sleep 2; exec "%s" "$@"\n' "$program" > slow; chmod +x slow
    is 'progress on a terminal' "$(ION_CMD=./slow shown pureefjord check great.ion | grep -c '% of 126 KB, .*/s, .* left')" 1
    is 'no progress in a pipe' "$(ION_CMD=./slow pureefjord check great.ion 2>&1 | grep -c %)" 0
    is 'progress of a conversion' "$(ION_CMD=./slow shown -o told pureefjord cat great.ion | grep -c '% of 126 KB')" 1
    is 'a terminal that can do nothing: colours' "$(TERM=dumb shown pureefjord pretty a.ion | cat -v | tr '\n' ' ') $(TERM=dumb shown pureefjord check a.ion | cat -v) $(TERM=dumb shown pureefjord diff a.ion c.ion | cat -v | grep -c '\^\[')" '{   a: 1 } x  a.ion: accepted 2 0'
    is 'a terminal that can do nothing: progress' "$(ION_CMD=./slow TERM=dumb "$top/tests/on_terminal.py" pureefjord check great.ion | tr -d '\r' | cat -v)" 'great.ion: accepted 5000'
    is 'a narrow terminal: progress in one row' "$(ION_CMD=./slow "$top/tests/on_terminal.py" sh -c 'stty cols 20; pureefjord check great.ion; pureefjord cat great.ion > told' | tr '\r' '\n' | sed 's/\x1b\[K//g' | awk '/%/ { shown++; if (length($0) > 19) wide++ } END { print (shown > 2), wide + 0 }')" '1 0'
    { echo '['; awk 'BEGIN { for (i = 0; i < 60000; i++) print "[\"some text\"]," }'; echo '1]'; } > one.ion; sed 's/some text/same text/' one.ion > two.ion
    printf '#!/bin/sh\n[ "$1" = compare ] || { { head -c 300000; sleep 2; cat; } | "%s" "$@"; exit; }\nexec "%s" "$@"\n' "$program" "$program" > later; chmod +x later
    is 'progress where differences are looked for' "$(ION_CMD=./later shown pureefjord diff -q one.ion two.ion | grep -c '% of 1.8 MB')" 1
    is 'no progress between lines' "$(ION_CMD=./slow shown pureefjord cat great.ion | grep -c %)" 0
}

# Several catalogs, and what is wrong with one

catalogs() {
    clean
    mkdir tables
    echo '$ion_shared_symbol_table::{name:"one",version:1,symbols:["first"]}' > tables/one.ion
    echo '$ion_shared_symbol_table::{name:"two",version:1,symbols:["second"]}' | ion_cmd convert - --to binary > tables/two.10n
    printf '$ion_symbol_table::{imports:[{name:"one",version:1,max_id:1},{name:"two",version:1,max_id:1}]}\n$10 $11\n' > uses.ion
    pureefjord cat tables/one.ion tables/two.10n > all.ion; run ion_cmd check uses.ion --catalog all.ion; gives 'catalogs put together by cat' 0 'accepted 2'
    cat tables/one.ion tables/one.ion | sed '2s/one/two/' > both.ion; run ion_cmd check uses.ion --catalog both.ion; gives 'texts of catalogs one after the other' 0 'accepted 2'
    run pureefjord cat --catalog tables/one.ion --catalog tables/two.10n uses.ion; gives 'several --catalog' 0 "first${new_line}second"
    run pureefjord check --catalog tables/one.ion uses.ion; has 'a catalog that lacks one' 2 'uses.ion:1:94: MissingImport'
    run pureefjord diff --catalog all.ion uses.ion uses.ion; gives 'diff with a catalog' 0 'uses.ion and uses.ion: equivalent 2'
    run pureefjord check --catalog tables/one.ion --catalog tables/one.ion uses.ion; has 'one catalog twice' 4 'the catalogs together: refused catalog'
    echo '[1]' > no.ion
    run pureefjord check --catalog all.ion --catalog no.ion uses.ion; has 'one catalog of two refused' 2 'no.ion:1:3: BadTable'
    run pureefjord check --catalog absent uses.ion; gives 'no such catalog' 4 'pureefjord: absent: fault Open: the file cannot be opened (is it there, and may you read it?)'
    run ion_where --catalog absent uses.ion; gives 'ion_where, no such catalog' 4 'ion_where: absent: fault Open: the file cannot be opened (is it there, and may you read it?)'
    run ion_where --catalog tables uses.ion; has 'ion_where, a folder as catalog' 4 'ion_where: tables: fault Read'
    run ion_compare_trees --catalog absent tables tables; has 'ion_compare_trees, no such catalog' 4 'ion_compare_trees: absent: fault Open'
    run ion_compare_trees --catalog no.ion tables tables; has 'ion_compare_trees, a refused catalog' 2 'no.ion:1:3: BadTable'
    for script in ion_check_all check_list compare_list; do
        words=-; [ "$script" != ion_check_all ] || words=
        absent=4 refused=2
        case $script in *_list) absent=75 refused=4 ;; esac
        run "$script" --catalog absent $words; gives "$script, no such catalog" "$absent" "$script: absent: fault Open"
        run "$script" --catalog no.ion $words; gives "$script, a refused catalog" "$refused" "$script: no.ion: refused 3 BadTable"
    done
    out=$(echo uses.ion | check_list --catalog all.ion -); status=$?; gives 'check_list --catalog' 0 '#	1'
    out=$(printf 'uses.ion\0' | check_list --depth 3 -0 --catalog all.ion --item 500 -); status=$?; gives 'check_list, all options' 0 '#	1'
    out=$(echo uses.ion | check_list -); status=$?; has 'check_list without it' 0 'MissingImport'
    out=$(printf 'uses.ion\tuses.ion\n' | compare_list --catalog all.ion -); status=$?; gives 'compare_list --catalog' 0 '#	1'
    out=$(printf 'uses.ion\0' | ion_check_all --catalog all.ion); status=$?; gives 'ion_check_all --catalog' 0 'uses.ion: accepted 2'
    run ion_textconv --catalog all.ion uses.ion; gives 'ion_textconv --catalog' 0 "first${new_line}second"
    run ion_textconv --catalog absent uses.ion; has 'ion_textconv, no such catalog' 0 '// the catalog absent: fault Open'
    run ion_merge --catalog absent uses.ion uses.ion uses.ion; has 'ion_merge, no such catalog' 1 'ion_merge: absent: fault Open'
}

# git, by indented text and with a catalog

versions() {
    clean
    git init -q . && git config user.name n && git config user.email n@localhost
    git config diff.ion.textconv 'ion_textconv --catalog tables.ion'
    git config merge.ion.driver 'ion_merge --catalog tables.ion %O %A %B %P'
    echo '*.10n diff=ion merge=ion' > .gitattributes
    echo '$ion_shared_symbol_table::{name:"t",version:1,symbols:["port"]}' > tables.ion
    # With the symbol 10 of the table t: {port:80,host:"h",region:"r"}
    import() { printf '$ion_symbol_table::{imports:[{name:"t",version:1,max_id:1}]}\n{$10:%s,host:"h",list:[1,2],region:"%s"}\n' "$1" "$2" > conf.10n; }
    import 80 r; git add . && git commit -qm one
    git checkout -qb side HEAD; import 80 s; git commit -qam side
    git checkout -q -; import 81 r; git commit -qam port
    run git diff HEAD~1 HEAD; is 'git diff with a catalog, a line for a field' "$status $(printf '%s\n' "$out" | grep '^[-+] ' | tr '\n' ' ')" '0 -  port: 80, +  port: 81, '
    mkdir -p deep && cd deep && run git diff HEAD~1 HEAD; is 'git diff in a folder below' "$(printf '%s\n' "$out" | grep -c '^+  port: 81,')" 1; cd ..
    run git merge -q -m merged side; is 'git merge of two fields of one struct' "$status $(cat conf.10n)" '0 {port:81,host:"h",list:[1,2],region:"s"}'
    git checkout -qb other HEAD; import 1 s; git commit -qam other
    git checkout -q -; import 2 s; git commit -qam mine
    run git merge -q other; is 'git merge, a conflict' "$status $(printf '%s\n' "$out" | grep -c -e 'both sides changed' -e '^<<<<<<< ours' -e '  port: 2,' -e '  port: 1,' -e '^>>>>>>> theirs')" '1 5'
    for side in 2 3; do git show ":$side:conf.10n" > "$side.ion"; done
    ion_pretty --catalog tables.ion 2.ion | sed 's/port: 2/port: 3/' > ended.ion && ion_to binary ended.ion conf.10n && git add conf.10n && git commit -qm ended
    is 'a conflict ended by hand' "$(ion_cmd convert conf.10n --to text) $(git status --porcelain -uno | wc -l)" '{port:3,host:"h",list:[1,2],region:"s"} 0'
}

merges() {
    clean
    echo '{a:1,b:2,c:3,d:4,e:5}' > base.ion
    echo '{new:1,a:1,b:2,c:3,d:4,e:5}' > ours.ion; echo '{a:1,b:2,c:3,d:4,e:5,new:2}' > theirs.ion; cp ours.ion before.ion
    run ion_merge base.ion ours.ion theirs.ion; gives 'ion_merge, one field put in by both' 1 'ion_merge: ours.ion: both sides put in the field new; ours stands in the file'
    is 'ion_merge, ours stays' "$(cmp ours.ion before.ion && ls -A | tr '\n' ' ')" 'base.ion before.ion ours.ion theirs.ion '
    echo '{a:1,b:2,c:3,d:4,e:5,new:2}' | sed 's/new/more/' > theirs.ion; run ion_merge base.ion ours.ion theirs.ion
    is 'ion_merge, two fields put in' "$status $out$(cat ours.ion)" '0 {new:1,a:1,b:2,c:3,d:4,e:5,more:2}'
    echo '{a:1,a:2,b:3,c:4,d:5}' > base.ion; echo '{a:1,a:2,b:3,c:4,d:6}' > ours.ion; echo '{a:1,a:9,b:3,c:4,d:5}' > theirs.ion; run ion_merge base.ion ours.ion theirs.ion
    is 'ion_merge, a field that stood twice' "$status $out$(cat ours.ion)" '0 {a:1,a:9,b:3,c:4,d:6}'
    echo 1 > base.ion; echo 2 > ours.ion; echo 1 2 > theirs.ion; run ion_merge base.ion ours.ion theirs.ion doc; has 'ion_merge, a conflict' 1 'ion_merge: doc: both sides changed the same values; ours stands in the file'
    run ion_merge base.ion ours.ion; has 'ion_merge, a missing word' 129 'usage: ion_merge [--catalog FILE]'
    run ion_merge base.ion absent theirs.ion; gives 'ion_merge, a missing side' 1 'ion_merge: absent, ours: fault Open'
    run env ION_CMD=./absent ion_merge base.ion ours.ion theirs.ion; has 'ion_merge, no program' 1 'ion_merge: no program ./absent'
}

# What failed before: each of these said something else, or nothing

faults() {
    clean
    echo 1 > a.ion; echo a.ion > list; printf 'a.ion\ta.ion\n' > pairs
    for words in 'ion_where a.ion' 'ion_at a.ion 1' 'ion_conformance .' 'ion_check_all' 'ion_compare_trees . .' 'ion_to text a.ion b.ion' 'ion_pretty a.ion' 'ion_json a.ion' 'check_list list' 'compare_list pairs' 'pureefjord check a.ion' 'pureefjord diff a.ion a.ion' 'pureefjord at a.ion 1'; do
        mkdir -p good
        out=$(ION_CMD=./absent $words 2>&1 < /dev/null); status=$?
        gives "$words, no program" 4 "${words%% *}: no program ./absent: put it on the PATH, or its path into ION_CMD"
        is "$words, no program: nothing is written" "$(ls | tr '\n' ' ')" 'a.ion good list pairs '
    done
    out=$(ls a.ion list | ion_check_all 2>&1); status=$?; has 'ion_check_all, lines for NULs' 3 'ion_check_all: no NUL stands after the names; find has -print0 for that'
    run ion_at a.ion 1 user.name; gives 'ion_at, a wrong path' 1 'ion_at: nothing stands at 1 user.name of a.ion; a place is as 1 tags [2], counted from 1'
    run pureefjord at a.ion 7; gives 'at, a wrong number' 1 'pureefjord: nothing stands at 7 of a.ion; a place is as 1 tags [2], counted from 1'
    ln -s loop loop; run pureefjord check loop; has 'a file that cannot be opened' 4 'loop: fault Open'; rm loop
    chmod 000 list; if [ ! -r list ]; then run pureefjord check list; has 'an unreadable file' 4 'list: fault Open'; else echo 'left out: an unreadable file (root reads all)'; fi; chmod 644 list
    for words in 'check a.ion' 'diff a.ion a.ion' 'help' 'help json' 'at a.ion 1' 'floats a.ion' '--version'; do
        out=$(pureefjord $words 2>&1 > /dev/full); status=$?; has "$words, a full device" 4 'fault Write'
    done
    out=$(echo 1 | ion_where - 2>&1 > /dev/full); status=$?; is 'ion_where, nothing to tell a full device' "$status" 0
    for words in 'pureefjord check a.ion' 'pureefjord cat a.ion' 'ion_json a.ion' 'ion_where a.ion'; do
        out=$($words 2>&1 >&-); status=$?; gives "$words, no standard output" 4 "${words%% *}: fault Write: no standard output"
    done
    out=$(pureefjord check absent 2>&-); status=$?; is 'check, no standard error' "$status" 4
    out=$(pureefjord check - 2>&1 <&-); status=$?; has 'check, no standard input' 4 '-: fault Open'
    without_reader='import os, subprocess, sys; there, here = os.pipe(); os.close(there); sys.exit(subprocess.run(sys.argv[1:], stdout=here).returncode)'
    for words in 'pureefjord check a.ion' 'pureefjord diff a.ion a.ion' 'pureefjord help' 'pureefjord at a.ion 1' 'pureefjord cat a.ion' 'pureefjord json a.ion' 'pureefjord floats a.ion' 'ion_at a.ion 1' 'ion_json a.ion' 'ion_pretty a.ion' 'ion_floats_to_decimals a.ion'; do
        run python3 -c "$without_reader" $words; gives "$words, no reader" 243 ''
    done
    mkdir with; mkfifo with/pipe.ion; ln -s absent with/gone.ion; run pureefjord check with; gives 'check, a pipe and a broken link in a folder' 4 'with/gone.ion: fault Open: the file cannot be opened: No such file or directory
1 document: 0 accepted, 0 refused (0 places), 1 without an answer; 1 other file was left out'
    printf '#!/bin/sh\nkill -9 $$\n' > killed; chmod +x killed
    for words in 'check a.ion' 'diff a.ion a.ion' 'cat a.ion' 'pretty a.ion' 'json a.ion' 'at a.ion 1' 'to text a.ion -o out'; do
        run env ION_CMD=./killed pureefjord $words; is "$words, a program that is killed" "$status" 4
    done
    run env ION_CMD=./killed check_list list; is 'check_list, a program that is killed' "$status" 75
    run env ION_CMD=./killed ion_where a.ion; gives 'ion_where, a program that is killed' 4 'a.ion: ion_cmd ended early'
    echo ']' > b.ion; out=$(ion_where b.ion 2>&1 > /dev/full); status=$?; gives 'ion_where, a full device' 4 'ion_where: standard output: fault Write: No space left on device'
}

installed() {
    clean
    "$top/tools/install.sh" prefix "$program" > /dev/null
    echo '[1]' > a.ion; echo '[2]' > b.ion; cp "$program" no_program
    out=$(PATH=$plain_path prefix/bin/pureefjord --version); status=$?; gives 'installed, the version' 0 "pureefjord $(cat "$top/VERSION")"
    for words in 'pureefjord check a.ion|a.ion: accepted 1' 'ion_at a.ion 1|[1]' 'ion_json a.ion|[1]' 'ion_where a.ion|' 'check_list list|#	1' 'ion_textconv a.ion|[
  1
]'; do
        echo a.ion > list
        out=$(cd / && cd "$folder/work" && PATH=/usr/bin:/bin prefix/bin/${words%%|*} 2>&1); status=$?
        gives "installed, by its path alone: ${words%%|*}" 0 "${words#*|}"
    done
    is 'installed, modules beside each other' "$(ls prefix/share/pureefjord | grep -c -e '^ion_lines.py$' -e '^VERSION$')" 2
}

# Random documents, and commands that are tried by them; tests/try_writer.py tries more, and takes a minute or more.
writers() {
    clean
    run pureefjord generate -o made --seed 7 --count 12; gives 'generate' 0 'made: 12 documents by the seed 7'
    run pureefjord generate -o again --seed 7 --count 12; run diff -r made again; gives 'generate, the same again' 0 ''
    run pureefjord diff -q made/documents made/values; has 'what is generated carries its values' 0 '12 equivalent, 0 different, 0 refused'
    run pureefjord generate -o made; gives 'generate, a folder that is there' 4 'pureefjord: made is there already, and no empty folder'
    run pureefjord generate --count 12; has 'generate without a folder' 3 'the following arguments are required: -o/--output'
    run pureefjord generate -o binary --binary --count 9; is 'generate, one encoding' "$(ls binary/documents | grep -vc '10n$')" 0
    run pureefjord generate -o plain --plain --text --count 20; is 'generate, plain' "$(cat plain/documents/*.ion | grep -c '/[*/] *c')" 0
    run pureefjord generate -o bad --refused --count 12; is 'generate --refused' "$(cat bad/reasons.txt | wc -l)" 12
    run pureefjord check bad/documents; has 'what has to be refused is refused' 2 '12 documents: 0 accepted, 12 refused'
    is 'for these reasons' "$(cut -f 2 bad/reasons.txt)" "$(printf '%s\n' "$out" | sed -n 's/^bad[^ ]* \(octet [0-9]*: \)\{0,1\}\([A-Z][A-Za-z0-9]*\): .*/\2/p')"
    printf '#!/bin/sh\nion_cmd convert "$1" --to text | sed s/-0d/0d/ > "$2"\n' > drops; printf '#!/bin/sh\nkill -9 $$\n' > killed
    printf '#!/bin/sh\ncat "$1" > "$2"; grep -q true "$1" && exit 7; exit 0\n' > fails; chmod +x drops killed fails
    run pureefjord try-writer './drops {in} {out}' -o wrong; has 'a writer that is wrong' 1 'shrunk to 4 octets of text)
    -0d0
  - -0d0
  + 0d0
try-writer: 1000 documents'
    is 'what is kept of it' "$(cat wrong/1/input.ion wrong/1/input_values.ion wrong/1/output.ion wrong/1/output_values.ion | tr '\n' ' ')" '-0d0-0d0 0d0 0d0 '
    run pureefjord try-writer 'cat {in}' --count 50; gives 'a writer that copies' 0 'try-writer: 50 documents, none wrong'
    run pureefjord try-writer cat --count 50 -o none; gives 'over standard streams' 0 'try-writer: 50 documents, none wrong'; is 'nothing is kept of it' "$(ls none 2>&1 | wc -l)" 1
    run pureefjord try-writer './fails {in} {out}' --most 1; has 'a writer that fails' 1 '1: status 7 (document'
    run pureefjord try-writer './killed {in} {out}' --count 3; has 'a writer that is killed' 1 '1: signal 9 (document'
    run pureefjord try-writer true --text --count 3; has 'a writer that writes nothing' 1 '1: different 1'
    run pureefjord try-writer 'sleep 9' --seconds 1 --count 1; has 'a writer that is slow' 1 '1: no answer in 1 second ('
    out=$("$top/tests/on_terminal.py" pureefjord try-writer 'sleep 2' --count 1); status=$?; has 'how far it is, on a terminal' 0 '0 of 1 documents, 0 wrong'
    run pureefjord try-writer './absent {in}'; gives 'no writer' 4 'pureefjord: ./absent: No such file or directory'
    run pureefjord try-writer ''; gives 'no words of a writer' 3 'pureefjord: a command is wanted'
    run pureefjord try-writer "'"; has 'a quote alone' 3 'pureefjord: '
    run pureefjord try-reader 'ion_cmd check {in}' --count 50; gives 'a reader' 0 'try-reader: 50 documents, none wrong'
    run pureefjord try-reader true --most 1; has 'a reader that takes everything' 1 '1: accepts what is no document: '
    run pureefjord try-reader false --most 1; has 'a reader that takes nothing' 1 '1: refuses a document: status 1 (document'
    run pureefjord inspect "$top/examples/cut.10n"; has 'inspect, a refusal' 2 '       6   0  21                       cut  int, 1 octet
'"$top/examples/cut.10n: octet 7: Incomplete"
    printf '\340\001\000\352\356\224\201\203\336\220\206\272\331\204\201t\205!\001\210!\002\207\262\201z\266q\012q\013q\014' > import.10n
    echo '$ion_shared_symbol_table::{name:"t",symbols:["p","q"]}' > tables.ion
    run pureefjord inspect import.10n --catalog tables.ion; has 'inspect, a catalog' 0 '$11 q  symbol'; has 'inspect, a local table' 0 '$12 = "z"'
    run pureefjord inspect import.10n; has 'inspect, an import that the catalog lacks' 2 'octet 26: MissingImport'
    run pureefjord inspect "$top/examples/short.ion"; has 'inspect, a text' 4 "pureefjord: $top/examples/short.ion is text"
    run pureefjord inspect absent; has 'inspect, no file' 4 'absent: fault Open'
    run python3 "$top/tests/generated.py" "$program" 100; has 'documents as they were spelled' 0 ' passed, 0 failed'
    run python3 "$top/tests/inspected.py" "$program" 60; gives 'inspect, random documents' 0 '120 passed, 0 failed'
}

# Tests in files of their own, each of which tells its rows

beside() {
    for test in folders messages library diff machines; do
        run bash "$top/tests/$test.sh" "$program"
        is "tests/$test.sh" "$status" 0
        printf '%s\n' "$out"
    done
}

words
checks
differs
pages
writes
streams
converts
signals
terminals
catalogs
versions
merges
writers
faults
installed
beside
ended
