"""Small inputs that ask for much, each of which is to take at most 3 seconds and 300 MB.

An input has a name, the text of a module, perhaps a document, and the words for yangcheck. Sizes are those at which an earlier program
took too long or too much; most of the inputs grow with the numbers in them.
"""
from module_inputs import doubled, leafs, module, numbered

MEGABYTE = "a" * 1_000_000


class Hostile:
    """A hostile input. `make` returns the text of a module and that of a document, which is None where there is none."""

    def __init__(self, name, make, words=None):
        self.name, self.make, self.words = name, make, words


def compiled(name, make, *options):
    """An input that is only compiled. `make` returns what is in the module."""
    words = ["compile", "--max-nodes", "1000000", *options, "ex.yang"]
    return Hostile(name, lambda: (module(make()), None), words)


def drawn(name, make):
    """An input whose diagram is drawn."""
    return Hostile(name, lambda: (module(make()), None), ["tree", "--module", "ex", "--max-nodes", "1000000", "ex.yang"])


def validated(name, make):
    """An input with a document. `make` returns what is in the module, and the document."""
    def files():
        body, document = make()
        return module(body), document
    return Hostile(name, files, ["validate", "--max-nodes", "1000000", "--data", "data.json", "ex.yang"])


def document(name, body, data):
    """An input whose document is large, for a module of one line. `data` returns the document."""
    return validated(name, lambda: (body, data()))


def listed(entries, name="e"):
    """A document with these texts of entries."""
    return f'{{"ex:{name}":[{",".join(entries)}]}}'


def each(count, unit):
    """A document with an entry for each number, as the unit says."""
    return listed([unit.replace("#", str(n)) for n in range(count)])


def nest(count, opening, inner, closing="}"):
    return opening * count + inner + closing * count


def copies(count, uses="uses g;"):
    return numbered(count, "container c{n}{{" + uses + "}}")


def grouping(body, name="g"):
    return f"grouping {name}{{{body}}}"


# Compiling: statements, names and copies.

def key_of_absent_names(count):
    return "list e{key \"" + " ".join(short_name(n) for n in range(count)) + '";leaf a{type int32;}}'


def short_name(number):
    """A short name for a number."""
    letters = "abcdefghijklmnopqrstuvwxyz"
    text = letters[number % 26]
    while number >= 26:
        number //= 26
        text += letters[number % 26]
    return text


def supported(count):
    """Features that are all named on the command line, and leafs with them as conditions."""
    names = ["f" + short_name(n) for n in range(count)]
    body = "".join(f"feature {name};leaf l{name}{{if-feature {name};type int32;}}" for name in names)
    words = ["compile", "--support", f"ex:{','.join(names)}", "ex.yang"]
    return Hostile("features-supported-by-a-long-list", lambda: (module(body), None), words)


def refined_at_levels(leafs_of_each, levels, copied):
    refines = "".join(f"refine l{n}{{{{reference r;}}}}" for n in range(leafs_of_each))
    each_level = numbered(levels + 1, "grouping g{n}{{uses g{before}{{" + refines + "}}}}", 1)
    return grouping(leafs(leafs_of_each), "g0") + each_level + copies(copied, f"uses g{levels};")


def refined_conditions(levels, size):
    """Each level refines one leaf with a long condition, and is used once itself."""
    condition = "f" + " or f" * (size // 5)
    each_level = numbered(levels + 1, "grouping g{n}{{uses g{before}{{refine l{{if-feature \"" + condition + "\";}}}}}}", 1)
    used = numbered(levels + 1, "container c{n}{{uses g{n};}}", 1)
    return "feature f;" + grouping("leaf l{type int32;}", "g0") + each_level + used


def unique_of_paths(paths, copied):
    unique = 'unique "' + " ".join(f"l{n}" for n in range(paths)) + '";'
    return grouping("list e{key k;leaf k{type int32;}" + unique + leafs(paths) + "}") + copies(copied)


def many_uniques(count, names, copied):
    pairs = [(a, b) for a in range(names) for b in range(names) if a != b][:count]
    uniques = "".join(f'unique "l{a} l{b}";' for a, b in pairs)
    return grouping("list e{key k;leaf k{type int32;}" + uniques + leafs(names) + "}") + copies(copied)


def keys_copied(keys, copied):
    key = " ".join(f"l{n}" for n in range(keys))
    return grouping(f'list e{{key "{key}";{leafs(keys)}}}') + copies(copied)


def long_keys_copied(keys, size, copied):
    """A list, copied, whose key has long names that differ only at their ends."""
    names = [f"{'a' * size}{n}" for n in range(keys)]
    return grouping(f'list e{{key "{" ".join(names)}";{"".join(f"leaf {name}{{type int32;}}" for name in names)}}}') + copies(copied)


def leafref_up(depth, count):
    path = "../" * (depth + 1) + "t"
    leafrefs = numbered(count, 'leaf r{n}{{type leafref{{path "' + path + '";}}}}')
    return "leaf t{type int32;}" + nest(depth, "container c{", leafrefs)


def by_prefixes(count):
    """A module that imports another under many prefixes, and defaults that use each of them."""
    imported = numbered(count, "import b{{prefix p{n};}}")
    uses = numbered(count, "leaf l{n}{{type identityref{{base p{n}:i;}}default p{n}:j;}}")
    return "module ex{yang-version 1.1;namespace u;prefix ex;" + imported + uses + "}"


BASE = "module b{yang-version 1.1;namespace v;prefix b;identity i;identity j{base i;}}"


def extended(count):
    """A module with a short prefix and this many statements of four bytes."""
    return module("extension e;" + "p:e;" * count).replace("prefix ex;", "prefix p;", 1)


def schema_inputs():
    yield Hostile("extensions-many", lambda: (extended(900_000), None), ["compile", "ex.yang"])
    yield supported(20_000)
    yield compiled("refines-at-many-levels", lambda: refined_at_levels(300, 300, 100))
    yield compiled("refines-long-conditions-at-many-levels", lambda: refined_conditions(480, 1_400))
    list_of_long_key = f"list e{{key {MEGABYTE};leaf {MEGABYTE}{{type int32;}}}}"
    yield compiled("lists-of-a-long-key-copied", lambda: grouping(list_of_long_key) + copies(20_000))
    yield compiled("lists-of-five-long-keys-copied", lambda: long_keys_copied(5, 200_000, 20_000))
    long_case = f"choice h{{default {MEGABYTE};leaf {MEGABYTE}{{type int32;}}}}"
    yield compiled("choices-with-a-long-default-copied", lambda: grouping(long_case) + copies(20_000))
    yield compiled("unique-of-many-paths-copied", lambda: unique_of_paths(10_000, 90))
    yield compiled("lists-of-a-thousand-uniques-copied", lambda: many_uniques(1_000, 100, 9_000))
    yield compiled("duplicate-nodes-last", lambda: leafs(100_000) + "leaf l7{type int32;}")
    yield compiled("leaves-refused-at-the-end", lambda: leafs(100_000) + "leaf a{type int32;default x;}")
    yield compiled("leafref-schema-deep-up", lambda: leafref_up(58, 7_500))
    yield compiled("rpcs-with-input-and-output",
                   lambda: numbered(50_000, "rpc r{n}{{input{{leaf a{{type int32;}}}}output{{leaf b{{type int32;}}}}}}"))
    yield compiled("key-of-names-that-are-there-not", lambda: key_of_absent_names(680_000))
    yield compiled("groupings-doubled-to-a-million", lambda: doubled(17))
    words = ["compile", "ex.yang", "b.yang"]
    yield Hostile("defaults-of-identityrefs-by-many-prefixes", lambda: (by_prefixes(30_000), None, BASE), words)


def long_condition():
    return "feature f;" + grouping('leaf l{if-feature "f' + " or f" * 20_000 + '";type int32;}') + copies(20_000)


def tree_inputs():
    name = "a" * 100_000
    yield drawn("tree-of-a-long-name-copied", lambda: grouping(f"leaf {name}{{type int32;}}") + copies(20_000))
    yield drawn("tree-of-a-long-condition-copied", long_condition)
    yield drawn("tree-of-a-long-type-name-copied",
                lambda: f"typedef {name}{{type int32;}}" + grouping(f"leaf l{{type {name};}}") + copies(20_000))
    yield drawn("tree-of-many-keys-copied", lambda: keys_copied(40, 20_000))


# Types and values.

def identityref_chain(count):
    unit = "identity i{n}{{base i{before};}}leaf l{n}{{type identityref{{base i{n};}}}}"
    return "identity i0;" + numbered(count, unit, 1)


def identityref_chain_beside(count):
    """The same, and an identity below the last that has another base first: then values are not consecutive."""
    return "identity o;" + identityref_chain(count) + f"identity x{{base o;base i{count - 1};}}"


def long_module_values(count, size):
    """Identities of a module with a long name, and as many values."""
    name = "m" + "a" * size
    body = "identity b;" + numbered(count, "identity i{n}{{base b;}}") + "leaf-list e{type identityref{base b;}}"
    text = f"module {name}{{yang-version 1.1;namespace u;prefix ex;{body}}}"
    values = ",".join(f'"i{n}"' for n in range(count))
    return text, f'{{"{name}:e":[{values}]}}'


def union_chain(count):
    union = "typedef t0{type union{" + numbered(64, 'type int32{{range "{n}";}}') + "}}"
    return union + numbered(count, "typedef t{n}{{type t{before};}}", 1) + f"leaf a{{type t{count - 1};}}"


def long_typedef_default(count):
    return f"typedef t{{type string;default {MEGABYTE};}}" + numbered(count, "leaf l{n}{{type t;}}")


def tests_of(count):
    return "".join(f"pattern 'x{n}|[a-z0-9]*';" for n in range(count))


def patterns_by_values(count):
    return f"leaf-list e{{config false;type string{{{tests_of(count)}}}}}", each(count, '"a#"')


def patterns_by_defaults(count):
    return f"typedef t{{type string{{{tests_of(count)}}}}}" + numbered(count, "leaf l{n}{{type t;default a{n};}}")


def patterns_by_refines(count):
    refined = numbered(count, "container c{n}{{uses g{{refine l{{default a{n};}}}}}}")
    return grouping(f"leaf l{{type string{{{tests_of(count)}}}}}") + refined


def union_of_patterns(count):
    return "type union{" + numbered(count, "type string{{pattern 'x{n}[a-z]*';}}") + "}"


def class_patterns(count):
    return "".join(f"leaf l{n}{{type string{{pattern '\\p{{L}}{{1,{n % 900 + 1}}}[{short_name(n)}]';}}}}" for n in range(count))


def types_inputs():
    yield compiled("identityrefs-down-a-chain", lambda: identityref_chain(15_000))
    yield compiled("identityrefs-down-a-chain-small", lambda: identityref_chain(8_000))
    yield compiled("identityrefs-down-a-chain-beside-another", lambda: identityref_chain_beside(4_000))
    words = ["validate", "--data", "data.json", "ex.yang"]
    yield Hostile("identityref-values-in-a-long-module", lambda: long_module_values(20_000, 1_000_000), words)
    yield Hostile("identityref-values-in-a-long-module-small", lambda: long_module_values(4_000, 1_000_000), words)
    yield compiled("typedef-chain-of-a-union-of-64", lambda: union_chain(110_000))
    yield compiled("typedef-defaults-of-a-long-text", lambda: long_typedef_default(10_000))
    yield compiled("typedef-defaults-of-a-long-text-small", lambda: long_typedef_default(1_000))
    yield validated("patterns-by-values", lambda: patterns_by_values(4_000))
    yield validated("patterns-by-values-small", lambda: patterns_by_values(2_000))
    yield compiled("patterns-by-defaults", lambda: patterns_by_defaults(4_000))
    yield compiled("patterns-by-defaults-small", lambda: patterns_by_defaults(2_000))
    yield compiled("refined-defaults-by-patterns", lambda: patterns_by_refines(2_000))
    yield compiled("leaves-of-a-pattern-of-unicode-classes-each-its-own", lambda: class_patterns(11_000))
    none_fits = f"leaf-list e{{config false;{union_of_patterns(64)}}}"
    yield document("json-union-of-64-none-fits", none_fits, lambda: listed(['"abcd"'] * 1_000_000))
    last = f"leaf-list e{{config false;{union_of_patterns(64)}}}"
    yield document("union-values-by-the-last-of-64-patterns", last, lambda: listed(['"x63a"'] * 270_000))


# Entries: keys, `unique` statements, references, defaults and choices.

KEYED = "list e{key k;leaf k{type int32;}"


def patterned_keys(pattern, count, repeated, key):
    """Different keys, and then some of them once more: a sentence is made for each of the first twenty that are repeated."""
    entries = [f'{{"k":"{key(n)}"}}' for n in list(range(count)) + list(range(count - repeated, count))]
    return f"list e{{key k;leaf k{{type string{{pattern '{pattern}';}}}}}}", listed(entries)


def address(number):
    return f"10.{number >> 16 & 255}.{number >> 8 & 255}.{number & 255}"


OCTET = "([0-9]|[1-9][0-9]|1[0-9][0-9]|2[0-4][0-9]|25[0-5])"
ADDRESS = rf"({OCTET}\.){{3}}{OCTET}(%[\p{{N}}\p{{L}}]+)?"


def pairs_of_uniques(names):
    uniques = "".join(f'unique "a{a} a{b}";' for a in range(names) for b in range(names) if a != b)
    return KEYED + uniques + numbered(names, "leaf a{n}{{type int32;}}") + "}"


def nested_choices(depth):
    text = f"leaf l{depth}{{type int32;}}"
    for level in reversed(range(depth)):
        text = f"choice h{level}{{leaf l{level}{{type int32;}}{text}}}"
    return KEYED + text + "}"


def long_default_unique(entries):
    return f"{KEYED}unique 'k a';leaf a{{type string;default {MEGABYTE};}}}}", each(entries, '{"k":#}')


def long_default_target(entries):
    body = f'{KEYED}leaf a{{type string;default {MEGABYTE};}}}}leaf r{{type leafref{{path "/ex:e/ex:a";}}}}'
    return body, each(entries, '{"k":#}')[:-1] + ',"ex:r":"x"}'


def state(body):
    return "list e{config false;" + body + "}"


def empty(count):
    return listed(["{}"] * count)


def deep_defaults(chains, depth):
    opening = "container d{leaf l{type int32;default 5;}"
    chain = nest(depth, opening, "").replace("{", "{{").replace("}", "}}")
    return KEYED + numbered(chains, "container t{n}{{" + chain + "}}") + "}"


def entries_inputs():
    yield validated("duplicates-of-patterned-keys", lambda: patterned_keys(r"(\p{L}|\p{N}){0,300}", 5_000, 20, str))
    yield validated("duplicates-of-an-address-key", lambda: patterned_keys(ADDRESS, 100_000, 20, address))
    yield document("unique-of-64-statements", pairs_of_uniques(8),
                   lambda: each(100_000, '{"k":#,' + ",".join(f'"a{n}":#' for n in range(8)) + "}"))
    yield document("unique-of-one-default", KEYED + "unique a;leaf a{type int32;default 5;}}", lambda: each(300_000, '{"k":#}'))
    yield validated("unique-of-a-key-and-a-long-default", lambda: long_default_unique(20_000))
    yield validated("unique-of-a-key-and-a-long-default-small", lambda: long_default_unique(2_000))
    yield validated("target-of-a-long-default", lambda: long_default_target(20_000))
    yield document("keys-in-no-order", "list e{key k;leaf k{type string;}}",
                   lambda: listed([f'{{"k":"x{n * 2654435761 % 2**32}"}}' for n in range(300_000)]))
    yield document("targets-of-one-value", KEYED + 'leaf v{type int32;}}leaf r{type leafref{path "/ex:e/ex:v";}}',
                   lambda: each(300_000, '{"k":#,"v":1}')[:-1] + ',"ex:r":1}')
    yield validated("choice-of-many-cases-one-entry-each",
                    lambda: (KEYED + "choice h{" + leafs(100_000) + "}}", each(1_000, '{"k":#,"l#":0}')))
    yield document("choices-nested-fifty-in-entries", nested_choices(50), lambda: each(300_000, '{"k":#,"l50":1}'))
    yield validated("choice-all-cases-at-once",
                    lambda: ("choice h{" + leafs(60_000) + "}", "{" + ",".join(f'"ex:l{n}":1' for n in range(60_000)) + "}"))


def products_inputs():
    """Many entries over many schema nodes that are absent in each."""
    yield validated("empty-entries-times-leaves", lambda: (state(leafs(4_000)), empty(40_000)))
    defaults = numbered(4_000, "leaf l{n}{{type int32;default 5;}}")
    yield validated("empty-entries-times-defaults", lambda: (state(defaults), empty(40_000)))
    containers = numbered(2_000, "container c{n}{{leaf l{{type int32;}}}}")
    yield validated("entries-times-containers", lambda: (state(containers), empty(20_000)))
    yield validated("keyed-entries-times-leaves", lambda: (KEYED + leafs(6_000) + "}", each(10_000, '{"k":#}')))
    with_defaults = numbered(2_900, "container c{n}{{leaf l{{type int32;default 5;}}}}")
    yield validated("keyed-entries-times-containers-with-defaults", lambda: (KEYED + with_defaults + "}", each(14_000, '{"k":#}')))
    yield validated("nested-defaults-by-entries", lambda: (deep_defaults(70, 10), each(20_000, '{"k":#}')))
    mandatory = numbered(1_000, "leaf l{n}{{type int32;mandatory true;}}")
    yield validated("json-mandatory-missing-in-all-entries", lambda: (state(mandatory), empty(1_000)))


# Defaults of leaf-lists, which are in use together.

def defaults_of(count):
    return numbered(count, "default {n};")


def many_defaults(count, name="l"):
    return f"leaf-list {name}{{type int32;{defaults_of(count)}}}"


def referring(path, name="r"):
    """A leaf-list of leafrefs."""
    return f'leaf-list {name}{{config false;type leafref{{path "{path}";}}}}'


def targets(count, each_of):
    """Leaf-lists with defaults, and a leafref to each of them."""
    refer = numbered(count, 'leaf r{n}{{type leafref{{path "/ex:l{n}";}}}}')
    return "".join(many_defaults(each_of, f"l{n}") for n in range(count)) + refer


def defaults_inputs():
    yield validated("copies-of-a-thousand-defaults", lambda: (grouping(many_defaults(1_024)) + copies(100_000), "{}"))
    yield compiled("defaults-of-one-leaf-list", lambda: many_defaults(270_000))
    refined = "uses g{{refine l{{" + defaults_of(1_024) + "}}}}"
    yield compiled("refines-of-a-thousand-defaults", lambda: grouping(many_defaults(1_024)) + copies(300, refined))
    inner = "list e{config false;" + many_defaults(1_024) + "}"
    yield document("entries-of-a-thousand-defaults", inner + 'leaf r{config false;type leafref{path "/ex:e/ex:l";}}',
                   lambda: empty(2_000_000)[:-1] + ',"ex:r":7}')
    yield document("references-among-a-thousand-defaults", many_defaults(1_024) + referring("/ex:l", "e"),
                   lambda: listed(["1023"] * 2_000_000))
    yield validated("references-to-many-leaf-lists-with-defaults",
                    lambda: (targets(300, 1_000), "{" + ",".join(f'"ex:r{n}":{n}' for n in range(300)) + "}"))


# Documents: JSON, values, and faults.

ANYDATA = "anydata d;"
VALUES = "leaf-list e{type int32;}"
WHOLE = "leaf-list e{config false;type int32;}"


def anything(item, count):
    return '{"ex:d":{"a":[' + ",".join([item] * count) + "]}}"


def below(depth, values):
    """A document with these values of a leaf-list below this many containers."""
    inner = '{"e":[' + ",".join(values) + "]}"
    return '{"ex:c":' + nest(depth - 1, '{"c":', inner) + "}"


def members(count):
    return ",".join(f'"x{100_000 + n}":0' for n in range(count))


def deep_containers(depth, inner):
    """Containers below one another, deeper than statements can be: groupings of 50 each."""
    first = grouping(nest(50, "container c{", inner), "g0")
    return first + "container c{" + nest(depth - 51, "container c{", "uses g0;") + "}"


def all_faults(count):
    body = "list e{key k;leaf k{type int32;}leaf v{type int32;}leaf m{type int32;mandatory true;}}"
    return body, listed([f'{{"k":{n // 2},"v":"x","z":0}}' for n in range(count)])


def long_paths(size, count):
    name = "a" * size
    return f"container {name};", f'{{"ex:{name}":{{{members(count)}}}}}'


def json_inputs():
    yield document("json-small-objects", ANYDATA, lambda: anything('{"a":0}', 1_980_000))
    yield document("json-objects-in-objects", ANYDATA, lambda: anything('{"":{"":0}}', 1_320_000))
    yield document("json-arrays-of-one", ANYDATA, lambda: anything("[1]", 3_900_000))
    yield document("json-deep-chains", ANYDATA, lambda: anything("[" * 120 + "]" * 120, 60_000))
    yield document("json-deep-objects", ANYDATA, lambda: anything(nest(120, '{"":', "0"), 25_000))
    yield document("json-one-long-number", "leaf a{type int32;}", lambda: '{"ex:a":' + "1" * 15_000_000 + "}")
    yield document("json-numbers-with-exponents", nest(5, "container c{", VALUES), lambda: below(5, ["1.0000e10"] * 1_000_000))
    yield document("json-bad-at-the-end", WHOLE, lambda: listed(["1"] * 4_000_000)[:-1] + "x")
    yield document("json-bad-at-the-end-of-one-line-of-blanks", WHOLE, lambda: '{"ex:e":[' + " " * 16_000_000 + "x")
    yield document("json-leaf-list-repeats", "leaf-list e{type int32;}", lambda: listed(["1"] * 4_000_000))
    yield document("json-wrong-values", nest(3, "container c{", VALUES), lambda: below(3, ['"abc"'] * 1_000_000))
    yield document("duplicates-in-a-leaf-list", "leaf-list e{type string;}", lambda: listed(['"a"'] * 1_000_000))
    yield document("json-unknown-members", "container c;", lambda: '{"ex:c":{' + members(990_000) + "}}")
    yield document("json-unknown-members-at-the-top", "container c;", lambda: "{" + members(990_000) + "}")
    yield validated("json-all-faults-at-once", lambda: all_faults(180_000))
    yield validated("json-output-of-long-paths", lambda: long_paths(10_000, 20_000))
    yield document("wrong-values-sixty-deep", nest(60, "container c{", VALUES), lambda: below(60, ['""'] * 1_000_000))
    dangling = 'leaf t{type int32;}' + nest(60, "container c{", 'leaf-list e{config false;type leafref{path "/ex:t";}}')
    yield document("dangling-leafrefs-sixty-deep", dangling, lambda: below(60, ["1"] * 1_000_000))
    yield document("unknown-members-hundred-deep", deep_containers(100, ""),
                   lambda: '{"ex:c":' + nest(99, '{"c":', "{" + members(300_000) + "}") + "}")


def inputs():
    yield from schema_inputs()
    yield from tree_inputs()
    yield from types_inputs()
    yield from entries_inputs()
    yield from products_inputs()
    yield from defaults_inputs()
    yield from json_inputs()
