"""Large documents that bench/documents compares: entries, keys, `unique` statements, references, choices and state."""
from measuring import validated

SMALL, LARGE = 60_000, 300_000


def module(body):
    return f'module ex{{yang-version 1.1;namespace "urn:ex";prefix ex;{body}}}'


def name_of(number):
    return f"name-of-entry-{number}"


def listed(count, entry):
    """A document with this many entries, in a container: yanglint is slow at the top level."""
    return {"ex:c": {"e": [entry(n) for n in range(count)]}}


def list_of(body, key="k", more=""):
    return f"container c{{list e{{key \"{key}\";leaf k{{type string;}}{body}}}{more}}}"


class Kind:
    """A kind of document: its name, the body of its module, its entry by number and number of entries, and how many it has."""

    def __init__(self, name, body, entry, large=LARGE, small=None, make=listed):
        self.name, self.body, self.entry = name, body, entry
        self.large, self.small = large, large // 5 if small is None else small
        self.make = make

    def input(self, count, is_compared=True):
        """The input with this many entries."""
        made = validated(f"{count} {self.name}", lambda: (module(self.body), self.make(count, lambda n: self.entry(n, count))))
        made.theirs = made.theirs if is_compared else None
        return made


def plain(n, count):
    return {"k": name_of(n), "v": n}


def nested(count, entry):
    """Lists of ten entries each in other entries."""
    return listed(count // 10, lambda n: {"k": name_of(n), "f": [entry(m) for m in range(10 * n, 10 * n + 10)]})


def among(count, entry):
    """Entries that refer to the values of a leaf-list beside them."""
    return {"ex:c": {"t": list(range(count)), **listed(count, entry)["ex:c"]}}


COLOURS = ("red", "green", "blue", "black", "white")
MIX = (
    "leaf a{type enumeration{" + "".join(f"enum {colour};" for colour in COLOURS) + "}}"
    "leaf b{type decimal64{fraction-digits 2;}}leaf f{type bits{bit x;bit y;bit z;}}leaf i{type identityref{base kind;}}"
    "leaf o{type boolean;}leaf p{type string{pattern '[a-z]+-[0-9]+';}}leaf u{type union{type int8;type string;}}"
)


def mix(n, count):
    values = {"a": COLOURS[n % 5], "b": f"{n}.25", "f": "x z", "i": "kind-1", "o": n % 2 == 0, "p": f"port-{n}"}
    return {"k": name_of(n), **values, "u": n % 100 if n % 2 else "text"}


def choices(depth):
    """Choices in cases of choices, each case with a leaf."""
    text = ""
    for level in reversed(range(depth)):
        text = f"choice h{level}{{case c{level}{{leaf l{level}{{type int32;}}{text}}}case d{level}{{leaf m{level}{{type int32;}}}}}}"
    return text


def referring(count, entry):
    """Values of a leaf-list that refer to a leaf."""
    return {"ex:c": {"t": "x", "e": [entry(n) for n in range(count)]}}


# One of each kind of value, key, `unique` statement and reference, all of them valid, so that both programs read it all.
VALID = (
    Kind("entries with a key", list_of("leaf v{type int32;}"), plain),
    Kind("entries with a key of two parts", list_of("leaf l{type int32;}", "k l"), lambda n, count: {"k": str(n % 100), "l": n}),
    Kind("entries with a unique value", list_of("unique v;leaf v{type int32;}"), plain),
    Kind("entries with two unique statements", list_of('unique v;unique "v k";leaf v{type int32;}'), plain),
    Kind("values of a leaf-list", "container c{leaf-list e{type int32;}}", lambda n, count: n),
    Kind("values of a leaf-list of texts", "container c{leaf-list e{type string;}}", lambda n, count: f"value{n}"),
    Kind("entries in lists of ten", list_of("list f{key k;leaf k{type string;}leaf v{type int32;}}"), plain, make=nested),
    Kind("entries that refer to the key of another", list_of('leaf r{type leafref{path "/ex:c/ex:e/ex:k";}}'),
         lambda n, count: {"k": name_of(n), "r": name_of(count - 1 - n)}, 200_000),
    Kind("entries that refer to the key of another by ..", list_of('leaf r{type leafref{path "../../e/k";}}'),
         lambda n, count: {"k": name_of(n), "r": name_of(count - 1 - n)}, 200_000),
    Kind("entries that refer to a leaf that is not a key",
         list_of('leaf m{type string;}leaf r{type leafref{path "/ex:c/ex:e/ex:m";}}'),
         lambda n, count: {"k": str(n), "m": name_of(n), "r": name_of(count - 1 - n)}, 180_000),
    Kind("entries that refer to a value of a leaf-list",
         list_of('leaf r{type leafref{path "/ex:c/ex:t";}}', more="leaf-list t{type int32;}"),
         lambda n, count: {"k": str(n), "r": count - 1 - n}, 180_000, make=among),
    Kind("state entries without a key", "container c{config false;list e{leaf v{type int32;}leaf w{type string;}}}",
         lambda n, count: {"v": n, "w": "some text"}),
    Kind("entries with values of eight types", "identity kind;identity kind-1{base kind;}" + list_of(MIX), mix, 140_000),
    Kind("entries with unique values in containers",
         list_of('unique "a d/b";leaf a{type int32;}container d{leaf b{type int32;}}'),
         lambda n, count: {"k": name_of(n), "a": 1, "d": {"b": n}}, 100_000),
    Kind("entries with eight unique statements", list_of("".join(f"unique u{n};leaf u{n}{{type int32;}}" for n in range(8))),
         lambda n, count: {"k": str(n), **{f"u{m}": n for m in range(8)}}, 100_000),
    Kind("values of a state leaf-list", "container c{leaf-list e{config false;type string;}}", lambda n, count: "x", 100_000),
    Kind("entries that refer to a sibling leaf", list_of('leaf m{type string;}leaf r{type leafref{path "../m";}}'),
         lambda n, count: {"k": str(n), "m": "x", "r": "x"}, 100_000),
    Kind("entries in lists of ten that refer to another",
         list_of('list f{key k;leaf k{type string;}leaf r{type leafref{path "../../f/k";}}}'),
         lambda n, count: {"k": name_of(n), "r": name_of(n - n % 10 + 9 - n % 10)}, 100_000, make=nested),
    Kind("entries with a leaf in twenty choices", list_of(choices(20)), lambda n, count: {"k": str(n), "l19": n}, 100_000),
    Kind("values of a leaf-list that refer to one leaf",
         'container c{leaf t{type string;}leaf-list e{type leafref{path "/ex:c/ex:t";}config false;}}',
         lambda n, count: "x", 100_000, make=referring),
)


# Documents with faults: yangcheck reports each of them, yanglint only the first, so only yangcheck is measured.
FAULTY = (
    Kind("entries with the same key", list_of("leaf v{type string;}"), lambda n, count: {"k": "same", "v": "x"}, 100_000),
    Kind("entries that lack a leaf", list_of("leaf a{type int32;mandatory true;}"), lambda n, count: {"k": str(n)}, 100_000),
    Kind("entries that refer to a key that does not exist", list_of('leaf r{type leafref{path "/ex:c/ex:e/ex:k";}}'),
         lambda n, count: {"k": str(n), "r": f"no-{n}"}, 100_000),
    Kind("entries with the same default in a unique", list_of("unique a;leaf a{type int32;default 5;}"),
         lambda n, count: {"k": str(n)}, 100_000),
)


def inputs():
    """Each kind in two sizes, the second five times the first."""
    for kind in VALID + FAULTY:
        for count in (kind.small, kind.large):
            yield kind.input(count, kind in VALID)
