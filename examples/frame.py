#!/usr/bin/env python3
"""frame.py FILE..: logs, JSON or Ion, as a pandas frame, which is printed. Each struct of the top level is a row, and its fields are
columns; the annotations of a row are the column `annotations`. Timestamps become datetimes, and nulls of any type None. Of a document that
is refused it takes the records before, and says so. It needs pandas and the Python package of docs/BINDINGS.md."""
import pathlib
import sys

import pureefjord


def cell(value):
    """A value as pandas takes it."""
    if isinstance(value, pureefjord.Annotated):
        return cell(value.value)
    if isinstance(value, pureefjord.Timestamp):
        return value.to_datetime(truncate=True)
    return None if isinstance(value, pureefjord.Null) else value


def rows(path):
    """The records of a file, as dicts."""
    try:
        for value in pureefjord.values(path):
            notes = value.annotations if isinstance(value, pureefjord.Annotated) else ()
            record = value.value if notes else value
            if hasattr(record, "items"):  # a dict, or a Struct
                row = {name: cell(field) for name, field in record.items()}
                yield {"annotations": "::".join(map(str, notes)), **row} if notes else row
    except pureefjord.Refused as refused:
        print(f"{path}: {refused}", file=sys.stderr)


def main():
    try:
        import pandas
    except ImportError:
        sys.exit("frame.py: pandas isn't installed")
    print(pandas.DataFrame(row for name in sys.argv[1:] for row in rows(pathlib.Path(name))))


if __name__ == "__main__":
    main()
