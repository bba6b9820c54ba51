"""The first two faults of a bundle, Json and Field: reads bytes as JSON, and the JSON as the fields of a bundle. Part of
tools/bundle_model.py, and written as it is from docs/formats.md alone."""
import json
import re

import model

MOST_OPEN = 127


class Refused(Exception):
    """A bundle's first fault, by its text."""


class OddNumber:
    """A number of JSON that is no number of a bundle, such as 1.0 or -1."""


def refuse_json(_):
    raise Refused("json")


def odd_number(text):
    return refuse_json(text) if abs(float(text)) == float("inf") else OddNumber()


def whole_number(text):
    return int(text) if len(text) <= 20 and text.isdigit() and int(text) < 1 << 64 else odd_number(text)


def members(pairs):
    """An object: the last value of a key stays, and those that are dropped have to be texts too."""
    for key, value in pairs:
        see_texts(key)
        see_texts(value)
    return dict(pairs)


def see_texts(value):
    """Refuses halves of surrogate pairs. Objects were seen when they were made."""
    if isinstance(value, str):
        value.encode()
    elif isinstance(value, list):
        for item in value:
            see_texts(item)


def most_open(text):
    """How many arrays and objects are open at once, if the text is JSON."""
    now = most = 0
    for mark in re.findall(r'"(?:[^"\\]|\\.)*"|[\[\]{}]', text, re.S):
        now += (mark in "[{") - (mark in "]}")
        most = max(most, now)
    return most


def json_of(data):
    try:
        text = data.decode()
        if most_open(text) > MOST_OPEN:
            raise Refused("json")
        value = json.loads(text, object_pairs_hook=members, parse_constant=refuse_json, parse_int=whole_number, parse_float=odd_number)
        see_texts(value)
    except (ValueError, RecursionError) as fault:
        # broken UTF-8, halves of pairs and bad JSON are all errors of values
        raise Refused("json") from fault
    return value


class Missing:
    """In the place of a default: the field has to be there."""


def path_of(path, name):
    return f"{path}.{name}" if path else name


def field(path):
    return Refused(f"field {path}")


def kind(which):
    """Takes values of one type of Python's."""

    def read(value, path):
        # a truth value of Python's is an int too
        if type(value) is not which:
            raise field(path)
        return value

    return read


number, text, truth, mapping, array = kind(int), kind(str), kind(bool), kind(dict), kind(list)


def numeral(value, path):
    try:
        return model.number_of(text(value, path).encode())
    except model.Refused as fault:
        raise field(path) from fault


def digits(value, path):
    if not re.fullmatch(b"([0-9a-fA-F]{2})*", text(value, path).encode()):
        raise field(path)
    return bytes.fromhex(value)


def list_of(read):
    return lambda value, path: [read(item, f"{path}[{at}]") for at, item in enumerate(array(value, path))]


def routes(value, path):
    found = mapping(value, path)
    return {key: text(found[key], path_of(path, key)) for key in sorted(found, key=str.encode)}


def object_of(fields):
    def read(value, path):
        if type(value) is not dict:
            raise field(path or "-")
        found = {}
        for name, read_one, default in fields:
            here = path_of(path, name)
            if name in value:
                found[name] = read_one(value[name], here)
            elif default is Missing:
                raise field(here)
            else:
                found[name] = default
        strange = sorted(set(value) - set(found), key=str.encode)
        if strange:
            raise field(path_of(path, strange[0]))
        return found

    return read


HOST = object_of((("name", text, Missing), ("id", number, Missing), ("qos", number, 0), ("prot", number, 0), ("script", list_of(text), Missing)))
ROUTER = object_of((("name", text, Missing), ("side", number, 0), ("routes", routes, Missing)))
DEVICE = object_of((("name", text, Missing), ("base", numeral, Missing), ("pages", number, Missing), ("readonly", truth, False), ("image", digits, b"")))
LINK = object_of((("name", text, Missing), ("from", text, Missing), ("to", text, Missing), ("width", number, Missing), ("capacity", number, Missing)))
BUNDLE = object_of(
    (
        ("version", number, Missing),
        ("hosts", list_of(HOST), Missing),
        ("routers", list_of(ROUTER), Missing),
        ("devices", list_of(DEVICE), Missing),
        ("links", list_of(LINK), Missing),
        ("wire", text, None),
    )
)
