"""What `pureefjord check` tells of documents: as text for people, or for machines. Read by pureefjord."""
import collections
import json
import os
import re
import urllib.parse
import xml.sax.saxutils

from ion_help import version
from ion_places import FAULTS, REASONS
from ion_sources import documents, other_files

# What was found of a document: its name, the status, the lines that tell it to people, and the octet of a refusal.
Finding = collections.namedtuple("Finding", "name status lines octet")
AT = re.compile(r"(?::([0-9]+):([0-9]+)|: octet [0-9]+): (\w+): (.*)", re.DOTALL)
UNCHECKED = "what stands behind this isn't checked"


def facts(finding):
    """What the lines of a finding say, part by part."""
    told = finding.lines[0][len(finding.name) :]
    if finding.status == 0:
        return {"file": finding.name, "verdict": "accepted", "values": int(told.split()[-1])}
    at = AT.fullmatch(told)
    if finding.status != 2 or not at:
        reason, _, message = told[2:].partition(": ")
        return {"file": finding.name, "verdict": "fault", "reason": reason[6:] if reason.startswith("fault ") else reason, "message": message or reason}
    line, column, reason, message = at.groups()
    place = {"line": int(line), "column": int(column)} if line else {}
    more = f"; {UNCHECKED}" if UNCHECKED in finding.lines[-1] else ""
    return {"file": finding.name, "verdict": "refused", **place, "octet": finding.octet, "reason": reason, "message": message + more}


class Text:
    """For people: the lines of each document, and a last line."""

    def __init__(self, quiet, paint):
        self.quiet, self.paint, self.refused = quiet, paint, 0

    def begin(self):
        return ""

    def of_document(self, found):
        """What is told of one document."""
        self.refused += sum(each.status == 2 for each in found)
        found = [each for each in found if each.lines and not (self.quiet and each.status == 0)]
        return "".join(map(self.of_finding, found))

    def of_finding(self, finding):
        return "".join(f"{self.paint(line)}\n" for line in finding.lines)

    def end(self, statuses, others):
        """What is told behind all; `statuses` counts the documents by their status, `others` are the files that weren't looked at."""
        total, faults = sum(statuses.values()), sum(count for status, count in statuses.items() if status not in (0, 2))
        places = f"({self.refused} place{'' if self.refused == 1 else 's'})"
        told = f"{documents(total)}: {statuses[0]} accepted, {statuses[2]} refused {places}"
        told += f", {faults} without an answer" if faults else ""
        parts = [] if self.quiet and statuses[0] == total or total < 2 and not others else [told]
        parts += [other_files(others)] if others else []
        return "; ".join(parts) + "\n" if parts else ""


class JsonLines(Text):
    """A line of JSON for each finding."""

    def of_finding(self, finding):
        return json.dumps(facts(finding)) + "\n"

    def end(self, statuses, others):
        return ""


class Github(Text):
    """Annotations of a GitHub workflow, for what isn't accepted."""

    def of_finding(self, finding):
        if finding.status == 0:
            return ""
        found = facts(finding)
        octet = "" if "line" in found or "octet" not in found else f" at octet {found['octet']}"
        words = {"file": found["file"], "line": found.get("line"), "col": found.get("column"), "title": found["reason"] + octet}
        told = ",".join(f"{word}={self.escaped(str(value), ':,')}" for word, value in words.items() if value is not None)
        return f"::error {told}::{self.escaped(found['message'])}\n"

    def escaped(self, text, more=""):
        return "".join(f"%{ord(letter):02X}" if letter in "%\r\n" + more else letter for letter in text)


class Sarif(Text):
    """SARIF 2.1.0, for what isn't accepted."""

    def __init__(self, quiet, paint):
        super().__init__(True, paint)
        self.apart = ""

    def begin(self):
        rules = [{"id": name, "shortDescription": {"text": text}} for name, text in {**FAULTS, **REASONS}.items()]
        driver = json.dumps({"driver": {"name": "pureefjord", "version": version(), "rules": rules}})
        schema = '"$schema": "https://json.schemastore.org/sarif-2.1.0.json", "version": "2.1.0"'
        return f'{{{schema}, "runs": [{{"tool": {driver}, "columnKind": "unicodeCodePoints", "results": ['

    def of_finding(self, finding):
        found = facts(finding)
        region = {"startLine": found["line"], "startColumn": found["column"]} if "line" in found else None
        region = {"byteOffset": found["octet"] - 1, "byteLength": 1} if not region and "octet" in found else region
        name = os.path.abspath(found["file"]) if os.path.isabs(found["file"]) else found["file"]
        uri = ("file://" if os.path.isabs(name) else "") + urllib.parse.quote(os.fsencode(name))
        place = {"artifactLocation": {"uri": uri}, **({"region": region} if region else {})}
        result = {"ruleId": found["reason"], "level": "error", "message": {"text": found["message"]}, "locations": [{"physicalLocation": place}]}
        apart, self.apart = self.apart, ","
        return f"{apart}\n{json.dumps(result)}"

    def end(self, statuses, others):
        done = "true" if set(statuses) <= {0, 2} else "false"
        return f'\n], "invocations": [{{"executionSuccessful": {done}}}]}}]}}\n'


class Junit(Text):
    """JUnit, a test for each document."""

    def __init__(self, quiet, paint):
        super().__init__(quiet, paint)
        self.cases = []

    def of_document(self, found):
        told = [each for each in found if each.lines]
        if not (self.quiet and all(each.status == 0 for each in told)):
            self.cases.append(self.case(told))
        return ""

    def case(self, found):
        wrong = [each for each in found if each.status != 0]
        inner = ""
        if wrong:
            kind, first = "failure" if wrong[0].status == 2 else "error", facts(wrong[0])
            lines = self.quoted("\n".join(line for each in wrong for line in each.lines))
            inner = f"<{kind} type={self.attribute(first['reason'])} message={self.attribute(first['message'])}>{lines}</{kind}>"
        return f'<testcase classname="pureefjord.check" name={self.attribute(found[0].name)}>{inner}</testcase>\n'

    def plain(self, text):
        return re.sub("[^\t\n -\ud7ff\ue000-\ufffd\U00010000-\U0010ffff]", "?", text)

    def quoted(self, text):
        return xml.sax.saxutils.escape(self.plain(text))

    def attribute(self, text):
        return xml.sax.saxutils.quoteattr(self.plain(text))

    def end(self, statuses, others):
        faults = sum(count for status, count in statuses.items() if status not in (0, 2))
        counts = f'tests="{len(self.cases)}" failures="{statuses[2]}" errors="{faults}"'
        return f'<?xml version="1.0" encoding="UTF-8"?>\n<testsuite name="pureefjord check" {counts}>\n{"".join(self.cases)}</testsuite>\n'


def report(form, quiet, paint):
    """What tells of documents in a form; `paint` colours lines for people."""
    return {"text": Text, "json": JsonLines, "github": Github, "sarif": Sarif, "junit": Junit}[form](quiet, paint)
