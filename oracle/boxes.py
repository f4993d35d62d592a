"""JP2 boxes put together by hand, and the oracle to ask about them."""

import pathlib
import subprocess

PROGRAM = pathlib.Path(__file__).resolve().parent.parent / "target" / "oracle" / "oracle"
NO_DATA = 4294967295


def number(value, width):
    return value.to_bytes(width, "big")


def box(kind, content=b"", length=None):
    """A box with the length field that its content asks for, or with `length` in it."""
    length = 8 + len(content) if length is None else length
    return number(length, 4) + kind.encode() + content


def extended(kind, content=b"", length=None, high=0):
    """A box with an extended length."""
    length = 16 + len(content) if length is None else length
    return number(1, 4) + kind.encode() + number(high, 4) + number(length, 4) + content


def ihdr(height=3, width=2, count=1, bpc=7):
    return box("ihdr", number(height, 4) + number(width, 4) + number(count, 2) + bytes([bpc, 7, 0, 0]))


def colr(meth=1, rest=number(17, 4)):
    return box("colr", bytes([meth, 0, 0]) + rest)


def pclr(widths, rows, nr_entries=None, nr_channels=None):
    """A palette: a width byte a column, and rows already in bytes."""
    nr_entries = len(rows) if nr_entries is None else nr_entries
    nr_channels = len(widths) if nr_channels is None else nr_channels
    return box("pclr", number(nr_entries, 2) + bytes([nr_channels]) + bytes(widths) + b"".join(rows))


def cmap(*mappings):
    return box("cmap", b"".join(number(cmp, 2) + bytes([mtyp, pcol]) for cmp, mtyp, pcol in mappings))


def cdef(*definitions):
    fields = b"".join(number(field, 2) for definition in definitions for field in definition)
    return box("cdef", number(len(definitions), 2) + fields)


def jp2h(*children):
    return box("jp2h", b"".join(children))


JP = box("jP  ", bytes.fromhex("0d0a870a"))
FTYP = box("ftyp", b"jp2 " + bytes(4) + b"jp2 ")
JP2C = box("jp2c")
START = JP + FTYP


def picture(*children):
    """A file whose jp2h holds these children."""
    return START + jp2h(*children) + JP2C


def read(file):
    return f"read {file.hex() or '-'}"


def finish(file, components, samples, ignore=0):
    """`components` are pairs of width and first sample's index; all are one row high."""
    comps = ";".join(component(width, data) for width, data in components)
    return f"finish {file.hex()} ignore={ignore} comps={comps} samples={','.join(map(str, samples))}"


def component(width, data, prec=8, sgnd=0, alpha=0):
    fields = [1, 1, width, 1, 0, 0, prec, 0, sgnd, 0, 0, data, alpha]
    return ",".join(map(str, fields))


def write(components, width, height, space, length=0, profile=b"", stored=0):
    fields = f"x0=0 y0=0 x1={width} y1={height} space={space} length={length}"
    return f"write comps={';'.join(components)} {fields} profile={profile.hex() or '-'} stored={stored}"


def ask(requests):
    """The oracle's answers, each a dictionary of its fields."""
    if not PROGRAM.exists():
        raise SystemExit("target/oracle/oracle is not there: run oracle/build first")
    lines = "".join(request + "\n" for request in requests)
    run = subprocess.run([PROGRAM], input=lines, capture_output=True, text=True, check=True)
    return [answer(line) for line in run.stdout.splitlines()]


def answer(line):
    fields = dict(field.split("=", 1) for field in line.split(" "))
    for key in [key for key in fields if key.startswith("comp") and key[4:].isdigit()]:
        fields["mark" + key[4:]] = fields[key].rsplit(",", 1)[1]
    return fields


def compare(cases):
    """Prints a line a case, what document 01 says and what the crate gives, and answers how many differ. A case is
    its name, its request, and those fields of the answer that document 01 fixes."""
    answers = ask(request for _, request, _ in cases)
    assert len(answers) == len(cases)
    different = 0
    for (name, _, says), given in zip(cases, answers):
        gives = {key: given.get(key, "nothing") for key in says}
        same = gives == says
        different += not same
        print(f"{'same' if same else 'DIFFERENT'}: {name}: document 01 {words(says)}; crate {words(gives)}")
    print(f"{len(cases)} cases, {different} different")
    return different


def words(fields):
    return " ".join(f"{key}={value}" for key, value in fields.items())
