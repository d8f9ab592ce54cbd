#!/bin/bash
# Runs pureefjord and ion_where over what they refuse or can't open, and looks at what they say: what kind of file it is, what was
# expected, what can be done, what the system says: tests/messages.sh PROGRAM. tests/door.sh runs it, too.
set -u
. "$(dirname "$0")/rows.sh"

# says NAME PLACE WORDS TEXT: what pureefjord and ion_where say of a text.
says() {
    printf -- "$4" > text.ion
    run pureefjord check text.ion; is "$1" "$status ${out%%
*}" "2 text.ion:$2: $3"
    run ion_where text.ion; is "$1, ion_where" "$status ${out%%
*}" "2 text.ion:$2: $3"
}

# kind NAME PLACE WORDS FRONT
kind() { says "$1" "$2" "Unexpected: an octet that cannot stand there; $3" "$4"; }

# wanted PLACE WORDS TEXT
wanted() { says "$3" "$1" "Unexpected: an octet that cannot stand there; $2" "$3"; }

# Files of another kind, by their first octets

kinds() {
    clean
    sixteen='it is UTF-16; iconv -f UTF-16'
    kind 'a byte order mark' 1:1 'a byte order mark; tail -c +4 leaves it out' '\357\273\277{"a":1}'
    kind gzip 1:1 'it is compressed by gzip; gzip -dc writes what is read, and a file named .gz is read so' '\037\213\010\000'
    kind zstd 1:1 'it is compressed by zstd; zstd -dc writes what is read' '\050\265\057\375\044'
    kind xz 1:1 'it is compressed by xz; xz -dc writes what is read' '\3757zXZ\000'
    kind bzip2 1:8 'it is compressed by bzip2; bzip2 -dc writes what is read' 'BZh91AY&SYM'
    kind 'UTF-16 with a mark' 1:1 "$sixteen -t UTF-8 writes what is read" '\377\376{\000}\000'
    kind 'UTF-16, big-endian, with a mark' 1:1 "$sixteen -t UTF-8 writes what is read" '\376\377\000{\000}'
    kind 'UTF-16 without a mark' 1:2 "${sixteen}LE -t UTF-8 writes what is read" '{\000}\000'
    kind 'UTF-16, big-endian, without a mark' 1:1 "${sixteen}BE -t UTF-8 writes what is read" '\000{\000}'
    kind HTML 1:1 'HTML and XML begin so' '<!DOCTYPE html>'
    kind YAML 1:2 'YAML begins so' '---\na: 1\n'
    kind 'a script' 1:1 'YAML and scripts begin so; a comment of Ion begins with //' '#!/bin/sh'
    kind 'a zip archive' 1:3 'it is a zip archive' 'PK\003\004'
    says 'such an octet later' 2:1 'Unexpected: an octet that cannot stand there; a value was expected' '{a:1}\n<a>'
    printf '\357\273\277{"a":1}' > mark.json; tail -c +4 mark.json > text.json; run pureefjord check text.json; gives 'what was said of a byte order mark' 0 'text.json: accepted 1'
    for order in '' LE BE; do
        echo '{"a":1}' | iconv -f UTF-8 -t UTF-16$order > sixteen.json; run pureefjord check sixteen.json
        command=$(printf '%s\n' "$out" | sed -n '1s/.*; \(iconv .*\) writes .*/\1/p'); $command sixteen.json > text.json; run pureefjord check text.json; gives "what was said of UTF-16$order" 0 'text.json: accepted 1'
    done
    for order in gzip:gz xz:xz bzip2:bz2 zstd:zst; do
        command -v ${order%:*} > /dev/null || { echo "left out: ${order%:*} (not there)"; continue; }
        echo '{"a":1}' | ${order%:*} -c > packed.json; run pureefjord check packed.json; has "what ${order%:*} makes is known" 2 "; ${order%:*} -dc writes what is read"
    done
}

# What was expected, for each place of the grammar

places() {
    clean
    wanted 1:9 'a comma or } was expected' '{"a": 1 "b": 2}'
    wanted 1:4 'a comma or ] was expected' '[1 2]'
    wanted 1:4 'a value or ] was expected' '[1,,2]'
    wanted 1:2 'a value or ] was expected' '[,1]'
    wanted 1:2 'a field name or } was expected' '{,}'
    wanted 1:8 'a field name or } was expected' '{"a":1,2}'
    wanted 1:6 'a colon was expected' '{"a" 1}'
    wanted 1:4 'a colon was expected' '{a }'
    wanted 1:6 'a value was expected' '{"a":}'
    wanted 1:4 'a value was expected; no [ is open' 'x::]'
    wanted 1:3 'a second colon was expected' 'x:1'
    wanted 1:6 'a second colon was expected' '{a:b:c}'
    wanted 1:4 'a value or ) was expected' '(a ]'
    wanted 1:3 'a value was expected; no [ is open' '1 ]'
    wanted 1:8 'a value was expected; no { is open' '{"a":1}}'
    wanted 1:8 'a value was expected; at the top level none has a comma behind it' '{"a":1},\n{"b":2}'
    wanted 1:3 'a value without + was expected' '[+1]'
    wanted 1:3 'a digit was expected' '[-x]'
    wanted 1:6 '// or /* were expected' '[1, /x]'
    wanted 1:4 'an escape such as \n or the end " was expected' '"ab\ncd"'
    wanted 1:4 "an escape such as \\n or the end ' was expected" "'ab\ncd'"
    wanted 1:7 '}} was expected' '{{"a" "b"}}'
    wanted 1:5 'a character of ASCII, an escape or the end " was expected' '{{"a\303\251"}}'
    wanted 1:11 "''' was expected" "['''a'''''b]"
    says 'an end within a list' 1:4 'Incomplete: the input ends inside something that began; a value or ] was expected' '[1, '
    says 'an end within a string' 1:3 'Incomplete: the input ends inside something that began; an escape such as \n or the end " was expected' '"ab'
    says 'an end within a comment' 1:4 'Incomplete: the input ends inside something that began; */ was expected' '/* a'
    says 'an end within a struct' 1:3 'Incomplete: the input ends inside something that began; a colon was expected' '{a '
    run python3 "$top/tests/expected.py" "$program"; gives 'what is said and what the program takes' 0 '300 places: 0 otherwise than the program says'
    awk 'BEGIN { for (i = 0; i < 90000; i++) print "{\"id\":" i ",\"text\":\"some text\"}"; print "{\"id\":1 2}" }' > far.json
    run pureefjord check far.json; has 'far behind, on a line of its own' 2 'far.json:90001:9: Unexpected: an octet that cannot stand there; a comma or } was expected'
    run ion_where far.json; has 'far behind, ion_where' 2 'far.json:90001:9: Unexpected: an octet that cannot stand there; a comma or } was expected'
    { echo '['; sed 's/$/,/' far.json; } > array.json; run pureefjord check array.json; has 'far behind in one value, nothing is guessed' 2 'array.json:90002:9: Unexpected: an octet that cannot stand there
'
}

# What can be done

cures() {
    clean
    float='Float: a float (1e0, nan, +inf); it is Ion, but this program reads null.float alone'
    large='TooLarge: a number beyond the bounds of this program (an int of 2^127 or more, over 38 digits of a fraction ..); it may be Ion'
    says 'a float' 1:7 "$float; pureefjord floats makes it 9d-05, and --floats reads it so" '[9e-05 ]'
    says 'a float at the end' 1:7 "$float; pureefjord floats makes it -1.5d+3, and --floats reads it so" '-1.5E+3'
    says 'nan' 1:5 "$float" '[nan]'
    says 'a great int' 1:41 "$large; a string, \"123..\", keeps all digits" '[170141183460469231731687303715884105728]'
    says 'a great exponent' 1:15 "$large; a string, \"123..\", keeps all digits" '[1d99999999999]'
    says 'a long fraction' 1:61 "$large" '2007-01-01T00:00:00.000000000000000000000000000000000000001Z '
    printf '\340\001\000\352\110\077\360\000\000\000\000\000\000' > float.10n; run pureefjord check float.10n; has 'a float of binary: no cure' 2 "$float
"
    echo '{"a":9e-05,"b":"1e5"}' > f.json; echo '{"a":9d-05,"b":"1e5"}' > d.ion; mkdir f d; cp f.json f; cp d.ion d/f.ion
    run pureefjord check --floats f.json; gives 'check --floats' 0 'f.json: accepted 1'
    out=$(pureefjord check --floats - < f.json); status=$?; gives 'check --floats, standard input' 0 '-: accepted 1'
    run pureefjord diff --floats f.json d.ion; gives 'diff --floats' 0 'f.json and d.ion: equivalent 1'
    run pureefjord diff --floats f d; gives 'diff --floats, folders' 0 'f/f.json and d/f.ion: equivalent 1
1 document: 1 equivalent, 0 different, 0 refused'
    run pureefjord to text --floats f.json; gives 'to --floats' 0 '{a:9d-5,b:"1e5"}'
    out=$(pureefjord to text --floats - < f.json); status=$?; gives 'to --floats, standard input' 0 '{a:9d-5,b:"1e5"}'
    run pureefjord check --floats float.10n; has 'check --floats, binary' 2 Float
    printf '[1e5,\n 2 3]' > g.json; run pureefjord check --floats g.json; has 'check --floats, places are those of the file' 2 'g.json:2:4: Unexpected'
}

# What can't be opened, and words

words() {
    clean
    echo 1 > a.ion; ln -s loop loop; mkdir d
    run pureefjord check absent; gives 'not there' 4 'absent: fault Open: the file cannot be opened: No such file or directory'
    run pureefjord check loop; gives 'a link to itself' 4 'loop: fault Open: the file cannot be opened: Too many levels of symbolic links'
    run pureefjord check a.ion/b; gives 'below a file' 4 'a.ion/b: fault Open: the file cannot be opened: Not a directory'
    run ion_where d; gives 'ion_where, a folder' 4 'd: fault Read: the file cannot be read: Is a directory'
    for case in 'compare a b|compare is a word of ion_cmd; here it is diff' 'convert a|convert is a word of ion_cmd; here it is to' 'show a|show is a word of ion_cmd; here it is cat or check' \
        'validate a|no command validate; did you mean check?' 'fmt a|no command fmt; did you mean pretty?' '-v|no command -v; did you mean --version?' 'a.ion|no command a.ion; did you mean check?'; do
        run pureefjord ${case%%|*}; gives "pureefjord ${case%%|*}" 3 "pureefjord: ${case#*|}"
    done
    run pureefjord check --quie a.ion; has 'an option cut short' 3 'unrecognized arguments: --quie'
    echo '{tags:[1,2],"a [1":3}' > p.ion
    for case in 'tags [2]|2' 'tags[2]|2' "'a [1'|3"; do run pureefjord at p.ion 1 "${case%|*}"; gives "at, ${case%|*}" 0 "${case#*|}"; done
    for path in 'tags [0]' 'tags[3]' .tags 'tags[' 'tags [x]'; do run pureefjord at p.ion 1 "$path"; gives "at, $path" 1 "pureefjord: nothing stands at 1 $path of p.ion; a place is as 1 tags [2], counted from 1"; done
    echo '{tags:[1,3]}' > q.ion; echo '{tags:1}' > r.ion
    is 'a terminal says from where is counted' "$("$top/tests/on_terminal.py" pureefjord diff p.ion q.ion | tr -d '\r' | tail -n 1)" 'Values, and items in [ ], are counted from 1.'
    is 'not where no item is told' "$("$top/tests/on_terminal.py" pureefjord diff p.ion r.ion | grep -c counted)" 0
    run pureefjord diff p.ion q.ion; is 'not in a pipe' "$(printf '%s\n' "$out" | grep -c counted)" 0
    run pureefjord help at; has 'help at' 0 'counted from 1'
    run pureefjord help check; has 'help check' 0 'not that it is JSON'
    run pureefjord help TooLarge; has 'help TooLarge' 0 'is kept as a string'
    run pureefjord help Float; has 'help Float' 0 'check, diff and to read'
    for number in 2 27; do run pureefjord help ItemTooLong; has "help ItemTooLong is as FORMAT.md, $number" 0 "$([ $number = 2 ] && echo '2 MB of memory and its longest name' || echo '27 times where')"; done
    is 'FORMAT.md has these figures' "$(grep -c 'in 2 MB of memory and its longest name.*27 times where two differ' "$top/docs/FORMAT.md")" 1
    complete() { bash -c 'source "$1"; IFS=" "; COMP_WORDS=($2); COMP_CWORD=$((${#COMP_WORDS[@]} - 1)); _pureefjord; echo "${COMPREPLY[*]}"' bash "$top/tools/completion/pureefjord.bash" "$1" 2> /dev/null; }
    is 'completion of a reason' "$(complete 'pureefjord help Fl')" Float
    is 'completion of an encoding' "$(complete 'pureefjord to j')" json
    is 'completion of --floats' "$(complete 'pureefjord check --fl')" --floats
    is 'completion has all reasons' "$(sed -n 's/^ *local reasons=.\(.*\).$/\1/p' "$top/tools/completion/pureefjord.bash" | tr ' ' '\n' | sort)" "$(sed -n 's/^    "\([A-Z][A-Za-z0-9]*\)": .*/\1/p' "$top/tools/ion_places.py" | sort -u)"
}

kinds
places
cures
words
ended
