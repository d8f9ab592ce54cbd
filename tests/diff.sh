#!/bin/bash
# What `pureefjord diff` leaves out when it is asked to, how it marks the part of a line that differs, its page, and indented JSON:
# tests/diff.sh PROGRAM. What has to come was written by hand. Headless Chromium looks at the page, where it is installed.
set -u
. "$(dirname "$0")/rows.sh"

# told WORD..: the last line of diff with these words, and its status.
told() { out=$(pureefjord diff "$@" 2>&1); status=$?; printf '%s %s\n' "$status" "$(printf '%s\n' "$out" | tail -n 1)"; }

cd "$folder/work" || exit 1

left_out() {
    cat > a.ion <<'ION'
{id:1, t:100, price:1.0, count:5, hosts:[{name:"a",t:1},{name:"b",t:2}], tags:["x","y"], 't u':1}
{id:2, t:101, 'b c':{t:1, deep:[1,2,3]}}
ION
    cat > b.ion <<'ION'
{id:1, t:200, price:1.00, count:5.0, hosts:[{name:"b",t:9},{name:"a",t:1}], tags:["y","x"], 't u':2}
{id:2, t:201, 'b c':{t:2, deep:[1,3]}}
ION
    is 'ignore, a name' "$(told --ignore t a.ion b.ion)" '1 a.ion and b.ion: 8 differences, 3 left out (3 by --ignore)'
    is 'ignore, several' "$(told --ignore t --ignore 't u' --ignore tags a.ion b.ion)" '1 a.ion and b.ion: 5 differences, 6 left out (6 by --ignore)'
    is 'ignore, a path' "$(told --ignore '1 t' a.ion b.ion | sed 's/.* differences, //')" '1 left out (1 by --ignore)'
    is 'ignore, a path with any number' "$(told --ignore '* t' a.ion b.ion | sed 's/.* differences, //')" '2 left out (2 by --ignore)'
    is 'ignore, a path with a quoted name' "$(told --ignore "2 'b c' t" a.ion b.ion | sed 's/.* differences, //')" '1 left out (1 by --ignore)'
    is 'ignore, a quoted name' "$(told --ignore "'t u'" a.ion b.ion | sed 's/.* differences, //')" '1 left out (1 by --ignore)'
    is 'ignore, all of a value' "$(told --ignore 2 --ignore 1 a.ion b.ion | cut -d , -f 1)" '0 a.ion and b.ion: 0 differences'
    is 'numbers' "$(told --numbers a.ion b.ion | sed 's/.* differences, //')" '2 left out (2 by --numbers)'
    is 'unordered, a name' "$(told --unordered tags a.ion b.ion | sed 's/.* differences, //')" '1 left out (1 by --unordered)'
    is 'unordered, items that differ in what is ignored' "$(told --unordered hosts --ignore t a.ion b.ion | sed 's/.* differences, //')" '5 left out (4 by --ignore, 1 by --unordered)'
    is 'all of it' "$(told --ignore t --ignore 't u' --ignore "2 'b c' deep" --numbers --unordered hosts --unordered '1 tags' a.ion b.ion)" \
        '0 a.ion and b.ion: 0 differences, 10 left out (6 by --ignore, 2 by --numbers, 2 by --unordered)'
    is 'nothing that has to be left out' "$(told --ignore t --numbers a.ion a.ion)" '0 a.ion and a.ion: equivalent 2'
    is 'in JSON' "$(told --format json --ignore t --ignore 't u' --ignore deep --numbers --unordered hosts --unordered tags a.ion b.ion | sed 's/ "first": [^,]*,//')" \
        '0 {"verdict": "left out", "left": "a.ion", "right": "b.ion", "differences": 0, "left_out": {"ignore": 6, "numbers": 2, "unordered": 2}}'
    echo '[3,1,{a:1,b:2},2,2]' > c.ion; echo '[{b:2,a:1},2,1,3,4]' > d.ion
    is 'unordered, a list alone' "$(pureefjord diff --unordered 1 c.ion d.ion | tr '\n' '|')" '--- c.ion|+++ d.ion|@@ 1 [5] @@|- 2|+ 4|c.ion and d.ion: 1 difference, 1 left out (1 by --unordered)|'
    awk 'BEGIN { for (i = 0; i < 2000; i++) print "{id:" i ",t:" 7 * i "}" }' > many.ion; awk 'BEGIN { for (i = 0; i < 2000; i++) if (i != 700) print "{id:" i ",t:" 9 * i "}" }' > fewer.ion
    is 'a value that is missing among those that differ in what is ignored' "$(pureefjord diff --ignore t many.ion fewer.ion | grep @@) $(told --ignore t many.ion fewer.ion)" \
        '@@ 701 @@ 1 many.ion and fewer.ion: 1 difference, 1998 left out (1998 by --ignore)'
    for id in 0 1 2; do awk -v id=$id 'BEGIN { printf "{id:%d,l:[", id; for (i = 0; i < 200000; i++) printf "%d,", i; print "1]}" }'; done > great.ion
    sed 1d great.ion > less.ion; sed 's/,77,78,/,77,x,/' great.ion > other.ion
    is 'a great value that is missing' "$(pureefjord diff great.ion less.ion | grep -v '^-') $(told -q great.ion less.ion)" "+++ less.ion
@@ 1 @@
great.ion and less.ion: 1 difference 1 great.ion and less.ion: 1 difference"
    is 'great values that differ inside' "$(pureefjord diff great.ion other.ion | grep '^[-+@]' | tr '\n' ' ')" '--- great.ion +++ other.ion @@ 1 l [79] @@ - 78 + x @@ 2 l [79] @@ - 78 + x @@ 3 l [79] @@ - 78 + x '
    mkdir old new; cp a.ion c.ion many.ion old; cp many.ion new; cp b.ion new/a.ion; cp d.ion new/c.ion
    is 'folders' "$(told -q --ignore t --ignore 't u' --ignore deep --numbers --unordered hosts --unordered tags old new)" \
        '1 3 documents: 1 equivalent, 1 different, 0 refused, 1 different in what is left out alone, 10 left out (6 by --ignore, 2 by --numbers, 2 by --unordered)'
    is 'folders, differences alone' "$(pureefjord diff -q --ignore t --ignore 't u' --ignore deep --numbers --unordered hosts --unordered tags old new | wc -l)" 2
}

marks() {
    echo '{s:"the quick brown fox jumps",n:12345}' > a.ion; echo '{s:"the quick brawn fox jumps",n:12346}' > b.ion
    is 'the part that differs' "$(pureefjord diff a.ion b.ion | sed -n '4,6p')" '- "the quick brown fox jumps"
+ "the quick brawn fox jumps"
?              ^'
    is 'the part that differs, in colours' "$(pureefjord diff --color always a.ion b.ion | grep -c -F -e "$(printf '\033[31m- "the quick br\033[7mo\033[27mwn fox jumps"\033[0m')" -e "$(printf '\033[32m+ 1234\033[7m6\033[27m\033[0m')")" 2
    python3 -c 'print("{b:\"" + "x" * 450 + "y" + "x" * 449 + "\"}")' > l.ion; python3 -c 'print("{b:\"" + "x" * 900 + "\"}")' > r.ion
    is 'long lines are cut around it' "$(pureefjord diff l.ion r.ion | sed -n '4,5p' | sed 's/xx*/x/g')" '- "x .. xyx .. (character 451)
+ "x .. x .. (character 451)'
    is 'long lines, their length' "$(pureefjord diff l.ion r.ion | awk 'NR == 4 { print (length($0) < 300) }')" 1
    python3 -c 'print("\"" + "x" * 900 + "\"")' > l.ion; python3 -c 'print("\"" + "y" * 900 + "\"")' > r.ion
    is 'long lines without a common part' "$(pureefjord diff l.ion r.ion | sed -n '4p' | sed 's/xx*/x/g')" '- "x .. (660 characters more)"'
}

pages() {
    rm -rf old new; mkdir old new
    for name in a b c d; do echo "{id:1,t:1,s:\"$name\"}" > old/$name.ion; cp old/$name.ion new; done
    echo '{id:2,t:2,s:"a"}' > new/a.ion; echo '{id:1,t:2,s:"b"}' > new/b.ion; echo '[' > new/c.ion
    pureefjord diff -q --ignore t old new --html page.html > /dev/null 2>&1
    is 'page, the sum first' "$(sed -n 's/^<p class="sum">\(.*\)<\/p>$/\1/p' page.html)" '4 documents: 1 equivalent, 1 different, 1 refused, 1 different in what is left out alone, 2 left out (2 by --ignore)'
    is 'page, links' "$(sed -n 's/^<li><a href="#\(d[0-9]\)">\(.*\)<\/a><\/li>$/\1 \2/p' page.html)" 'd1 old/a.ion and new/a.ion: 1 difference, 1 left out (1 by --ignore)
d2 old/c.ion and new/c.ion: right refused'
    is 'page, what the links name' "$(grep -o 'id="d[0-9]"' page.html | tr '\n' ' ')" 'id="d1" id="d2" '
    is 'page, equal pairs folded' "$(grep -c '<summary>2 without a difference that counts</summary>' page.html)" 1
    is 'page, the part that differs' "$(grep -c '<td class="minus">  id: <mark>1</mark>,</td><td class="plus">  id: <mark>2</mark>,</td>' page.html)" 1
    is 'page, what is left out' "$(grep -c '<td class="out">  t: <mark>1</mark>,</td><td class="out">  t: <mark>2</mark>,</td>' page.html)" 1
    awk 'BEGIN { printf "["; for (i = 0; i < 30000; i++) printf "%s{id:%d,v:1}", (i ? "," : ""), i; print "]" }' > l.ion; sed 's/{id:700,v:1}/{id:700,v:2}/' l.ion > r.ion
    pureefjord diff -q l.ion r.ion --html page.html > /dev/null
    is 'page, one great list' "$(wc -c < page.html | awk '{ print ($1 < 100000) }') $(grep -c '<mark>' page.html)" '1 1'
    if command -v chromium > /dev/null; then
        for size in 1200,900 400,900; do chromium --headless --no-sandbox --disable-gpu --window-size=$size --screenshot="$folder/$size.png" "$folder/work/page.html" > /dev/null 2>&1; done
        is 'page, in Chromium' "$(ls "$folder"/*.png | wc -l)" 2
    else
        echo 'left out: a page in Chromium'
    fi
}

indents() {
    echo '{a:1,b:[true,{}],c:{d:38.01,e:[]}} [] "x"' > a.ion
    is 'json --indent' "$(pureefjord json --indent a.ion)" '{
  "a": 1,
  "b": [
    true,
    {}
  ],
  "c": {
    "d": 38.01,
    "e": []
  }
}
[]
"x"'
}

left_out
marks
pages
indents
ended
