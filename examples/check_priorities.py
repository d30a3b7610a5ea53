#!/usr/bin/env python3
"""Says where a priority file is wrong: check_priorities.py PRIORITY

pet tells the kind of a refusal alone, as `fault priority NeedRange`. This tells the line and the layer as well, and what stands
there. It finds the same first cause as pet does, by the table of docs/FORMATS.md, which is below; pet alone decides, and what
is checked here is not proved. It needs Python 3.11 or later, which reads TOML. The exit status is 0 where the file is
accepted, and 1 where it is not. Of a file that is accepted it tells on standard error where two needs that differ are nearer than
a burst of losses, of 5 packets, or of as many as BURST=10 says: such a burst more takes both layers at once.
"""
import itertools
import os
import re
import sys
import tomllib

WHERE = {
    "Long": "more than 65,536 bytes",
    "Text": "no UTF-8, no TOML, or an integer that a signed 64-bit number does not hold",
    "UnknownKey": "a key that the tables above do not list, or a layer with both `need` and `percent`",
    "MissingKey": "no `packets` or no `layer`; or a layer without `name`, without `kinds`, or with neither `need` nor `percent`",
    "WrongType": "a value of another type, an element of `layer` that is no table, or a text in `kinds` that is none of the 23",
    "PacketsRange": "`packets` is not from 1 to 4,096",
    "NeedRange": "a `need` is not from 1 to `packets`, or a `percent` not from 1 to 100",
    "Name": "a name of another form, or that of an earlier layer",
    "KindTwice": "a text stands twice, in one `kinds` or in two",
    "KindMissing": "one of `head`, `I`, `P` and `B` stands in no layer",
    "HeadNotFirst": "layer 0 does not list `head`",
    "TooManyLayers": "more than 32 layers",
}
LONGEST, MOST_PACKETS, MOST_LAYERS = 65_536, 4_096, 32
REQUIRED = ["head", "I", "P", "B"]
KINDS = REQUIRED + ["D"] + [f"{kind}{place}" for kind in "PB" for place in range(1, 10)]
NEEDS = ("need", "percent")
NAME = re.compile(r"[A-Za-z0-9_+-]{1,16}")


class Refused(Exception):
    """The kind of a refusal, what stands there, and the keys and places that lead there."""

    def __init__(self, kind, what, path=()):
        super().__init__(kind, what, path)
        self.kind, self.what, self.path = kind, what, path


def is_integer(value):
    return isinstance(value, int) and not isinstance(value, bool)


def values(value, path=()):
    """All values of a document, each behind the keys and places that lead to it."""
    yield path, value
    members = value.items() if isinstance(value, dict) else enumerate(value) if isinstance(value, list) else ()
    for key, member in members:
        yield from values(member, (*path, key))


def tables(document):
    """The layers that are tables, each behind its number."""
    layers = document.get("layer")
    return [(at, one) for at, one in enumerate(layers) if isinstance(one, dict)] if isinstance(layers, list) else []


def look_at_keys(document):
    for key in document:
        if key not in ("packets", "layer"):
            raise Refused("UnknownKey", f"the key {key}", (key,))
    for at, layer in tables(document):
        for key in layer:
            if key not in ("name", "kinds", *NEEDS):
                raise Refused("UnknownKey", f"the key {key}", ("layer", at, key))
        if all(key in layer for key in NEEDS):
            raise Refused("UnknownKey", "both need and percent", ("layer", at))
    for key in ("packets", "layer"):
        if key not in document:
            raise Refused("MissingKey", f"there is no {key}")
    for at, layer in tables(document):
        for keys in (("name",), ("kinds",), NEEDS):
            if not any(key in layer for key in keys):
                raise Refused("MissingKey", f"there is no {' and no '.join(keys)}", ("layer", at))


def look_at_types(document):
    if not is_integer(document["packets"]):
        raise Refused("WrongType", "packets is no integer", ("packets",))
    if not isinstance(document["layer"], list):
        raise Refused("WrongType", "layer is no array of tables", ("layer",))
    for at, layer in enumerate(document["layer"]):
        if not isinstance(layer, dict):
            raise Refused("WrongType", f"{layer!r} is no table", ("layer", at))
        if not isinstance(layer["name"], str):
            raise Refused("WrongType", "name is no text", ("layer", at, "name"))
        if not isinstance(layer["kinds"], list):
            raise Refused("WrongType", "kinds is no array", ("layer", at, "kinds"))
        for place, kind in enumerate(layer["kinds"]):
            if kind not in KINDS:
                raise Refused("WrongType", f"{kind!r} is none of the kinds", ("layer", at, "kinds", place))
        for key in NEEDS:
            if key in layer and not is_integer(layer[key]):
                raise Refused("WrongType", f"{key} is no integer", ("layer", at, key))


def look_at_numbers(packets, layers):
    if not 1 <= packets <= MOST_PACKETS:
        raise Refused("PacketsRange", f"packets = {packets}", ("packets",))
    for at, layer in enumerate(layers):
        for key, most in zip(NEEDS, (packets, 100)):
            if key in layer and not 1 <= layer[key] <= most:
                raise Refused("NeedRange", f"{key} = {layer[key]}, and the most is {most}", ("layer", at, key))


def look_at_names(layers):
    names = set()
    for at, layer in enumerate(layers):
        if not NAME.fullmatch(layer["name"]) or layer["name"] in names:
            raise Refused("Name", f"the name {layer['name']!r}", ("layer", at, "name"))
        names.add(layer["name"])


def look_at_kinds(layers):
    listed = set()
    for at, layer in enumerate(layers):
        for place, kind in enumerate(layer["kinds"]):
            if kind in listed:
                raise Refused("KindTwice", f"{kind} again", ("layer", at, "kinds", place))
            listed.add(kind)
    for kind in REQUIRED:
        if kind not in listed:
            raise Refused("KindMissing", f"{kind} stands in no layer")
    for at, layer in enumerate(layers[1:], 1):
        if "head" in layer["kinds"]:
            raise Refused("HeadNotFirst", "head stands here", ("layer", at, "kinds", layer["kinds"].index("head")))
    if len(layers) > MOST_LAYERS:
        raise Refused("TooManyLayers", f"there are {len(layers)} layers", ("layer", MOST_LAYERS))


def text_of(data):
    """The text of a file, without a byte order mark."""
    if len(data) > LONGEST:
        raise Refused("Long", f"it has {len(data)} bytes")
    try:
        return data.decode().removeprefix("\ufeff")
    except UnicodeDecodeError as fault:
        line = data.count(b"\n", 0, fault.start) + 1
        raise Refused("Text", f"line {line}: the byte {data[fault.start]:#04x} is no UTF-8") from None


def document_of(text):
    try:
        document = tomllib.loads(text)
    except (tomllib.TOMLDecodeError, RecursionError) as fault:
        raise Refused("Text", f"no TOML: {fault}") from None
    for path, value in values(document):
        if is_integer(value) and not -(2**63) <= value < 2**63:
            raise Refused("Text", f"the integer {value} is too large", path)
    return document


def judge(text):
    """Raises the first cause of the table for which a text is refused, and gives its document."""
    document = document_of(text)
    look_at_keys(document)
    look_at_types(document)
    layers = document["layer"]
    look_at_numbers(document["packets"], layers)
    look_at_names(layers)
    look_at_kinds(layers)
    return document


def leads(document, path):
    """Whether a document has something at the end of a path."""
    for key in path:
        inside = key in document if isinstance(document, dict) else isinstance(document, list) and key < len(document)
        if not inside:
            return False
        document = document[key]
    return True


def line_of(text, path):
    """The first line up to which the text has something at the end of a path. An array may go on behind it."""
    lines = text.split("\n")
    for count, line in enumerate(lines, 1):
        if not line.strip() or line.lstrip().startswith("#"):
            continue
        for end in ("\n", "\n]\n"):
            try:
                if leads(tomllib.loads("\n".join(lines[:count]) + end), path):
                    return count
            except (tomllib.TOMLDecodeError, RecursionError):
                pass
    return len(lines)


def place_of(text, path):
    """The line and the layer at which a path leads, in words."""
    if not path:
        return ""
    if path[0] != "layer" or len(path) == 1:
        return f"line {line_of(text, path)}: "
    layer = tomllib.loads(text)["layer"][path[1]]
    name = layer.get("name") if isinstance(layer, dict) else None
    named = f" ({name})" if isinstance(name, str) else ""
    return f"line {line_of(text, path)}, layer {path[1]}{named}: "


def near_needs(document, burst):
    """Pairs of layers whose needs differ, but by less than a burst: their names and needs, the lower one first."""
    packets = document["packets"]
    needs = {}
    for layer in document["layer"]:
        needs.setdefault(layer.get("need") or max(1, layer["percent"] * packets // 100), layer["name"])
    for low, high in itertools.pairwise(sorted(needs)):
        if high - low < burst:
            yield needs[low], low, needs[high], high


def burst_of(text):
    if not text.isdecimal() or int(text) == 0:
        sys.exit(f"check_priorities.py: BURST is a number of packets from 1 on, and not {text}")
    return int(text)


def main(name, burst):
    text = ""
    try:
        with open(name, "rb") as file:
            text = text_of(file.read())
        document = judge(text)
    except OSError as fault:
        sys.exit(f"check_priorities.py: {fault}")
    except Refused as refused:
        print(f"{refused.kind}: {place_of(text, refused.path)}{refused.what}")
        print(f"{refused.kind} is where {WHERE[refused.kind]}")
        return 1
    print(f"accepted: packets {document['packets']} layers {len(document['layer'])}")
    for lower, low, higher, high in near_needs(document, burst):
        print(f"warning: the needs {low} of {lower} and {high} of {higher} are nearer than a burst of {burst} packets", file=sys.stderr)
    return 0


if __name__ == "__main__":
    if len(sys.argv) != 2:
        sys.exit("usage: check_priorities.py PRIORITY")
    sys.exit(main(sys.argv[1], burst_of(os.environ.get("BURST", "5"))))
