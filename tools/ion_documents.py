"""Random documents of Ion 1.0, each with the values that it has to be read as. Nothing here is taken from the program."""
from ion_binary_spelling import MARKER, BinarySpelling, framed, pad, var_uint
from ion_spelling import TextSpelling, blank, may_be_long, plain, space
from ion_values import STYLES, Name, Value, name, value

SYSTEM = "$ion $ion_1_0 $ion_symbol_table name version imports symbols max_id $ion_shared_symbol_table".split()
FILLED = [0, 1, 120, 300]


class Item:
    """What stands at the top level: a value, a local symbol table (texts, None unknown, and whether they are appended), or a marker."""

    def __init__(self, value, texts, style):
        self.value, self.texts, self.style = value, texts, style

    def appends(self):
        return self.style[0] % 3 < 2

    def behind(self, context, texts):
        return (context if self.appends() else SYSTEM) + texts


def item(choices):
    shape = 0 if choices.plain else choices.below(10, 0.5)
    found = value(choices) if shape < 8 else None
    return Item(found, table(choices) if shape == 8 else None, choices.styles(STYLES))


def table(choices):
    unknown = [None] * choices.of(FILLED, 0.9)
    return unknown + choices.several(lambda: name(choices).text, 4)


def names_in(value):
    """The names of a value, in the order of their first use."""
    yield from value.notes
    if value.kind == "symbol" and value.holds:
        yield value.holds
    for part in value.holds or [] if value.kind in ("list", "sexp", "struct") else []:
        if value.kind == "struct":
            yield part[0]
        yield from names_in(part[1] if value.kind == "struct" else part)


def missing(item, context):
    """The texts of a value that need an id: all of them, where the table that comes before it isn't appended."""
    texts = [note.text for note in names_in(item.value) if note.text is not None]
    if all(text in context for text in texts):
        return []
    return list(dict.fromkeys(text for text in texts if text not in (context if item.appends() else SYSTEM)))


def in_binary(items):
    """The octets, the texts of the symbol ids behind them, and where the last value begins."""
    octets, context, begin = MARKER, SYSTEM, 0
    for item in items:
        texts = missing(item, context) if item.value else item.texts
        if texts or item.texts is not None:
            octets += table_octets(item, texts, context)
            context = item.behind(context, texts)
        octets += pad(item.style[4])
        if item.value:
            begin = len(octets)
            octets += BinarySpelling(context).value(item.value)
        elif item.texts is None:
            octets, context = octets + MARKER, SYSTEM
    return octets, context, begin


def in_text(items, more):
    """The octets and the texts of the symbol ids behind them; `more` says whether something comes behind."""
    shown, context = "", SYSTEM
    for at, item in enumerate(items):
        last = at + 1 == len(items)
        if item.value:
            long = not more if last else items[at + 1].value is not None and may_be_long(items[at + 1].value)
            shown += TextSpelling(context).value(item.value, "top", long)
        elif item.texts is None:
            shown, context = shown + "$ion_1_0", SYSTEM
        else:
            shown += table_text(item, context)
            context = item.behind(context, item.texts)
        shown += blank(item.style[5]) if last and not more else space(item.style[5])
    return shown.encode(), context


class Document:
    """A document of these choices. `binary` says its encoding; None leaves that to chance."""

    def __init__(self, choices, binary):
        self.choices = choices
        self.binary = bool(choices.flag(0.5)) if binary is None else binary
        self.items = choices.several(lambda: item(choices), 5, 0.7)
        self.octets = in_binary(self.items)[0] if self.binary else in_text(self.items, False)[0]
        self.lines = [plain(item.value) for item in self.items if item.value]

    def suffix(self):
        return ".10n" if self.binary else ".ion"


def table_octets(item, texts, context):
    """A local symbol table in binary: an annotation wrapper around a struct."""
    spelling = BinarySpelling(context)
    slots = [Value("null", None) if text is None else Value("string", text) for text in texts]
    symbols = b"\x87" + spelling.value(Value("list", slots, (), [item.style[2]] + [0] * 5))
    imports = b"\x86\x71\x03" if item.appends() else [b"", b"\x86\x0f", b"\x86\xb0", b"\x86\xb7\xd6\x84\x84$ion"][item.style[3] % 4]
    fields = [symbols, imports] if item.style[1] % 2 else [imports, symbols]
    inner = framed(13, b"".join(fields) + (b"\x84\x81a" if item.style[1] % 5 == 4 else b""), item.style[2])
    return framed(14, var_uint(1) + b"\x83" + inner, item.style[3])


def table_text(item, context):
    """A local symbol table in text, its own names spelled as the item's style says."""
    spelling, style = TextSpelling(context), item.style
    slots = [Value("null", None) if text is None else Value("string", text, (), [style[4], style[2], 0, 0, 0, 0]) for text in item.texts]

    def own(text):
        return spelling.field_name(Name(text, (style[1], 0))) if style[1] else f"${SYSTEM.index(text) + 1}"

    symbols = f"{own('symbols')}:{blank(style[2])}" + spelling.value(Value("list", slots, (), style))
    others = ["", "imports:null", "imports:[]", 'imports:[{name:"$ion"}]']
    imports = f"{own('imports')}:{'$ion_symbol_table' if style[1] else '$3'}" if item.appends() else others[style[3] % 4]
    fields = [symbols, imports] if style[1] % 2 else [imports, symbols]
    fields += ['name:"a"'] if style[1] % 5 == 4 else []
    return f"{'$ion_symbol_table' if style[1] else '$3'}{blank(style[2])}::{{{','.join(filter(None, fields))}}}"

