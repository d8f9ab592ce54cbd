#!/bin/bash
# What `pureefjord check --format` tells machines, and the hooks for pre-commit: those of README, and those of the repository:
# tests/machines.sh PROGRAM. Without pre-commit the hooks are left out.
set -u
. "$(dirname "$0")/rows.sh"
export GIT_CONFIG_NOSYSTEM=1

cd "$folder/work" || exit 1
mkdir -p 'data/a, b'
printf '{"id":1}\n{"id":2,"to":x y}\n{"id":6,"\303\251":9e-05}\n' > 'data/a, b/a.json'
printf '\340\001\000\352\041\005\060\041\006' > data/x.10n
echo 1 > data/ok.ion
ln -s loop.ion data/loop.ion
plain() { sed -e 's|, "message": .*|}|' -e 's|^\(::error [^:]*\)::.*|\1|'; }

is 'json' "$(pureefjord check --format json data | plain)" '{"file": "data/a, b/a.json", "verdict": "refused", "line": 2, "column": 16, "octet": 25, "reason": "Unexpected"}
{"file": "data/a, b/a.json", "verdict": "refused", "line": 3, "column": 18, "octet": 46, "reason": "Float"}
{"file": "data/loop.ion", "verdict": "fault", "reason": "Open"}
{"file": "data/ok.ion", "verdict": "accepted", "values": 1}
{"file": "data/x.10n", "verdict": "refused", "octet": 7, "reason": "Malformed"}'
is 'json -q' "$(pureefjord check -q --format json data | grep -c accepted)" 0
is 'github' "$(pureefjord check --format github data | plain)" '::error file=data/a%2C b/a.json,line=2,col=16,title=Unexpected
::error file=data/a%2C b/a.json,line=3,col=18,title=Float
::error file=data/loop.ion,title=Open
::error file=data/x.10n,title=Malformed at octet 7
4 documents: 1 accepted, 2 refused (3 places), 1 without an answer'
pureefjord check --format sarif data > out.sarif
is 'sarif' "$(python3 -c '
import json
run, = json.load(open("out.sarif"))["runs"]
known = {rule["id"] for rule in run["tool"]["driver"]["rules"]}
for result in run["results"]:
    place = result["locations"][0]["physicalLocation"]
    print(result["ruleId"], result["ruleId"] in known, bool(result["message"]["text"]), place["artifactLocation"]["uri"], *place.get("region", {}).items())
print(run["invocations"])')" "Unexpected True True data/a%2C%20b/a.json ('startLine', 2) ('startColumn', 16)
Float True True data/a%2C%20b/a.json ('startLine', 3) ('startColumn', 18)
Open True True data/loop.ion
Malformed True True data/x.10n ('byteOffset', 6) ('byteLength', 1)
[{'executionSuccessful': False}]"
name=$(printf 'data/n\001\377.ion'); echo ']' > "$name"
pureefjord check --format junit data > out.xml
is 'junit' "$(python3 -c '
import xml.dom.minidom
suite = xml.dom.minidom.parse("out.xml").documentElement
print(*(suite.getAttribute(word) for word in ("tests", "failures", "errors")))
for case in suite.getElementsByTagName("testcase"):
    print(case.getAttribute("name"), *((child.tagName, child.getAttribute("type"), child.firstChild.data.count("\n")) for child in case.childNodes))')" "5 3 1
data/a, b/a.json ('failure', 'Unexpected', 5)
data/loop.ion ('error', 'Open', 0)
data/n??.ion ('failure', 'Unexpected', 2)
data/ok.ion
data/x.10n ('failure', 'Malformed', 1)"
for form in text json github sarif junit; do
    pureefjord check --format $form data > /dev/null; is "$form, its status" "$?" 4
    pureefjord check --format $form 'data/a, b' > /dev/null; is "$form, its status, refused" "$?" 2
    pureefjord check --format $form data/ok.ion > /dev/null; is "$form, its status, accepted" "$?" 0
done
mkdir more; echo 1 > more/a.ion; echo text > more/a.txt
is 'how many other files there are, on the errors' "$(pureefjord check --format json more 2>&1 > /dev/null)" 'pureefjord: 1 other file was left out'
is 'how many other files there are, for people' "$(pureefjord check -q more 2>&1)" '1 other file was left out'
is 'sarif without findings' "$(pureefjord check --format sarif data/ok.ion | python3 -c 'import json, sys; run, = json.load(sys.stdin)["runs"]; print(run["results"], run["invocations"])')" "[] [{'executionSuccessful': True}]"

# hook FILE: whether pre-commit passes over a file that is committed alone.
hook() {
    git rm -rqf --cached . > /dev/null 2>&1
    git add .pre-commit-config.yaml "$1" && pre-commit run > told 2>&1
    echo "$? $(grep -c -e Passed told) $(grep -c -e Failed told)"
}

if command -v pre-commit > /dev/null; then
    git init -q .; git config user.name n; git config user.email n@localhost
    sed -n '/^```yaml/,/^```$/p' "$top/README.md" | grep -v '^```' > .pre-commit-config.yaml
    is 'the hook of README, a document' "$(hook data/ok.ion)" '0 1 0'
    is 'the hook of README, no document' "$(hook data/x.10n)" '1 0 1'
    git clone -q "$top" "$folder/hooks" && cp "$top/.pre-commit-hooks.yaml" "$folder/hooks" && (cd "$folder/hooks" && git add . && git -c user.name=n -c user.email=n@localhost commit -qm hooks --allow-empty)
    printf 'repos:\n- repo: %s\n  rev: %s\n  hooks: [{id: pureefjord-check}, {id: pureefjord-check-json}]\n' "$folder/hooks" "$(git -C "$folder/hooks" rev-parse HEAD)" > .pre-commit-config.yaml
    is 'the hooks of the repository, a document' "$(hook data/ok.ion)" '0 1 0'
    is 'the hooks of the repository, no document' "$(hook data/x.10n)" '1 0 1'
    is 'the hooks of the repository, JSON that is not read' "$(hook 'data/a, b/a.json')" '1 0 1'
else
    echo 'left out: hooks (no pre-commit)'
fi
ended
