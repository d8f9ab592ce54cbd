"""How values are spelled as binary Ion: each length and number in the fewest octets where the numbers that a value keeps are 0, else with
lengths and zeros that needn't be, pads, and structs that announce the order of their fields."""
import datetime

CODES = {kind: code for code, kind in enumerate("null bool int - float decimal timestamp symbol string clob blob list sexp struct".split())}
MARKER = bytes([0xE0, 1, 0, 0xEA])
PADS = [b"", b"\0", b"\3abc", b"\x0e\x81\0", b"\x0e\0\x8e" + bytes(14)]


def var_uint(number, zeros=0):
    digits = [number & 127 | 128]
    while number > 127:
        number >>= 7
        digits.append(number & 127)
    return bytes(zeros) + bytes(reversed(digits))


def var_int(number, negative, zeros=0):
    """The sign is that of the first octet."""
    octets = bytearray(var_uint(number))
    if zeros or octets[0] & 64:
        octets = bytearray(max(zeros, 1)) + octets
    octets[0] |= 64 if negative else 0
    return bytes(octets)


def uint(number, zeros=0):
    return bytes(zeros) + number.to_bytes((number.bit_length() + 7) // 8, "big")


def signed(number, negative, zeros=0):
    """An Int: its highest bit is the sign."""
    octets = bytearray(uint(number, zeros))
    if negative and not octets or octets and octets[0] & 128:
        octets = bytearray(1) + octets
    if negative:
        octets[0] |= 128
    return bytes(octets)


def framed(code, body, form=0):
    """A descriptor, the length and the body."""
    if len(body) < 14 and form % 4 in (0, 3) and not (code == 13 and len(body) == 1):
        return bytes([code << 4 | len(body)]) + body
    return bytes([code << 4 | 14]) + var_uint(len(body), form % 4 // 2 * (1 + form % 3)) + body


def pad(style):
    return PADS[style % len(PADS)]


class BinarySpelling:
    """How values are spelled where these are the texts of the symbol ids from 1 on, None unknown."""

    def __init__(self, context):
        self.context, self.ids = context, {}
        for at, text in enumerate([None, *context]):
            self.ids.setdefault(text, []).append(at)

    def id(self, name):
        ids = self.ids[name.text]
        return ids[name.style[0] % len(ids)]

    def value(self, value):
        octets = self.payload(value)
        if not value.notes:
            return octets
        style = value.style
        notes = b"".join(var_uint(self.id(note), note.style[1] % 3 // 2) for note in value.notes)
        return framed(14, var_uint(len(notes), style[3] % 4 // 3) + notes + octets, style[4])

    def payload(self, value):
        kind, holds, style = value.kind, value.holds, value.style
        code = CODES[kind]
        if holds is None:
            return bytes([code << 4 | 15])
        if kind == "bool":
            return bytes([0x10 | holds])
        if kind == "struct":
            return self.struct(value)
        if kind in ("list", "sexp"):
            return framed(code, b"".join(pad(item.style[5]) + self.value(item) for item in holds) + pad(style[2]), style[0])
        if kind == "int":
            zeros = style[1] % 4 // 2
            return framed(3 if holds < 0 else 2, uint(abs(holds), zeros), style[0])
        if kind == "symbol":
            return framed(code, uint(self.id(holds), style[1] % 4 // 2), style[0])
        bodies = {"decimal": decimal_body, "timestamp": time_body, "string": lambda text, _: text.encode()}
        return framed(code, bodies.get(kind, lambda octets, _: octets)(holds, style), style[0])

    def struct(self, value):
        style, fields = value.style, value.holds
        if style[1] % 4 == 3 and fields:
            fields.sort(key=lambda field: self.id(field[0]))
            body = b"".join(map(self.field, fields))
            return b"\xd1" + var_uint(len(body), style[0] % 2) + body
        padded = b"\x84" + pad(style[2]) if pad(style[2]) else b""
        return framed(13, b"".join(map(self.field, fields)) + padded, style[0])

    def field(self, field):
        name, value = field
        return var_uint(self.id(name), name.style[1] % 3 // 2) + self.value(value)


def decimal_body(number, style):
    zeros = style[1] % 4 // 2
    negative, coefficient, exponent = number
    if not (coefficient or exponent or negative or zeros):
        return b""
    return var_int(abs(exponent), exponent < 0, style[2] % 4 // 3) + signed(coefficient, negative, zeros)


def time_body(time, style):
    zeros = style[1] % 4 // 3
    if time.precision < 4:
        return b"\xc0" + b"".join(var_uint(part, zeros) for part in time[1 : time.precision + 1])
    local = datetime.datetime(*time[1:6])
    utc = local - datetime.timedelta(minutes=time.offset or 0)
    front = b"\xc0" if time.offset is None else var_int(abs(time.offset), time.offset < 0, style[2] % 4 // 3)
    parts = [utc.year, utc.month, utc.day, utc.hour, utc.minute] + [time.second] * (time.precision > 5)
    return front + b"".join(var_uint(part, zeros) for part in parts) + fraction(time, style)


def fraction(time, style):
    if time.precision < 7:
        return b"\x80" if time.precision == 6 and style[3] % 8 == 7 else b""
    return var_int(len(time.fraction), True, style[2] % 4 // 3) + signed(int(time.fraction), False, style[3] % 4 // 3)
