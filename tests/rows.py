"""Documents and the command lines over them that the scripts beside this file run a built ion_cmd with."""
import os

MARKER = bytes([0xE0, 0x01, 0x00, 0xEA])
SHELF = b"""$ion_shared_symbol_table::{name:"t",version:1,symbols:["x"]}
$ion_shared_symbol_table::{name:"t",version:3,symbols:["x","y","z"]} $ion_shared_symbol_table::{name:"u",symbols:["v",null]}"""
DOCUMENTS = {
    "scalars.ion": b"null null.clob true -5 0xff 1_000 170141183460469231731687303715884105727 1.5 -0. 2007-02-23T12:14:33.079-08:00 2007T",
    "texts.ion": b"\"\\x41\\u00e9\\U0001F600\\ud83d\\ude00\" '''long ''' '''text''' sym 'a b' $0 {{ aGVsbG8= }} {{\"clob\"}} /* a comment */ // and one\n",
    "nested.ion": b"[[], [[1,(a + b)],{x:{y:[{z:1}]}}], a::b::'c d'::{a:1,a:2,'q':(1 2 3)}] (((((deep)))))",
    "tables.ion": b"""$ion_symbol_table::{symbols:["a","b"]} $10 $ion_symbol_table::{imports:$ion_symbol_table,symbols:["c"]} [$11,$12,$10]
        $ion_symbol_table::{imports:[{name:"t",version:2,max_id:3},{name:"u",max_id:4}],symbols:["d"]} $11 $17
        $ion_symbol_table::{imports:$ion_symbol_table,symbols:["e"]} $18 $ion_1_0 name""",
    # Two tables, the second appended, then symbols and a struct of them.
    "tables.10n": MARKER + bytes.fromhex("EE8B8183DE8787BE8481618162 D68A21018B2102 EA8183D786710387B28163 710C B4710A710B"),
    # A null, numbers, a timestamp, texts, a pad, lists, a struct, an annotation.
    "values.10n": MARKER + bytes.fromhex("0F 2105 53C10564 67DE0FD081818080 8568656C6C6F A3010203 93616263 03000000 C3210111 B3B2B120 D6842101852102 E481842101"),
    "struct.ion": b"{a:1,b:[1,{c:2,d:3}],a:{x:1,y:2},a:{x:0}}",
    "fields.ion": b"{b:[1,{d:3,c:2}],a:{x:0},a:{y:2,x:1},a:1}",
    "differs.ion": b"{b:[1,{d:4,c:2}],a:{x:0},a:{y:2,x:1},a:1}",
    "refused.ion": b"a::[1,2] {b:\"text\"} 2007T [1,,2]",
    "cut.10n": MARKER + bytes.fromhex("b3210511 83 6162".replace(" ", "")),
    "repeated.ion": b'1 $ion_symbol_table::{symbols:["a"],symbols:["b"]}',
    "shelf.ion": SHELF,
    "twice.ion": SHELF + SHELF,
}
CASES = [[word, name] for name in sorted(DOCUMENTS) if name != "twice.ion" for word in ["check", "show"]]
CASES += [["convert", name, "--to", to] for name in sorted(DOCUMENTS) if name != "twice.ion" for to in ["binary", "text"]]
CASES += [
    ["compare", "struct.ion", "fields.ion"],
    ["compare", "struct.ion", "differs.ion"],
    ["compare", "scalars.ion", "texts.ion"],
    ["compare", "values.10n", "values.10n"],
    ["compare", "tables.10n", "tables.10n"],
    ["compare", "refused.ion", "cut.10n"],
    ["compare", "struct.ion", "refused.ion"],
    ["compare", "tables.ion", "tables.ion", "--catalog", "shelf.ion"],
    ["check", "tables.ion", "--catalog", "shelf.ion"],
    ["show", "tables.ion", "--catalog", "shelf.ion", "--depth", "9"],
    ["convert", "tables.ion", "--to", "text", "--catalog", "shelf.ion"],
    ["convert", "tables.ion", "--to", "binary", "--catalog", "shelf.ion", "--item", "4096"],
    ["check", "tables.ion", "--catalog", "twice.ion"],
    ["check", "scalars.ion", "--catalog", "refused.ion"],
    ["check", "absent.ion"],
    ["frob"],
    [],
]


def write_documents(folder):
    for name, octets in DOCUMENTS.items():
        with open(os.path.join(folder, name), "wb") as file:
            file.write(octets)
