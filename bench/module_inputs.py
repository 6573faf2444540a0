"""Large and hostile modules that bench/run compares: statements, texts, imports, identities, features, typedefs and copies."""
import type_sets
from measuring import Input, compiled, validated

MOST = 4_194_304
HEAD = 'module ex{yang-version 1.1;namespace "urn:ex";prefix ex;'


def module(body):
    return HEAD + body + "}"


def numbered(count, unit, first=0):
    """This many units, each written with its own number and the number before."""
    return "".join(unit.format(n=n, before=n - 1) for n in range(first, count))


def filled(front, unit, back):
    """The front, as many units as still fit into a file, and the back."""
    return front + unit * ((MOST - len(front) - len(back)) // len(unit)) + back


def leafs(count):
    return numbered(count, "leaf l{n}{{type int32;}}")


# Several files.

def module_text(number, body):
    return f'module m{number}{{yang-version 1.1;namespace "urn:m{number}";prefix m{number};{body}}}'


def imports(numbers):
    return "".join(f"import m{n}{{prefix m{n};}}" for n in numbers)


def chain(count):
    """Each module imports the next."""
    return [module_text(n, imports(range(n + 1, min(n + 2, count))) + "leaf a{type int32;}") for n in range(count)]


def mesh(count):
    """Each module imports all that follow it."""
    return [module_text(n, imports(range(n + 1, count)) + "leaf a{type int32;}") for n in range(count)]


def parts(count):
    """A module and its submodules, each of which includes all others."""
    includes = "".join(f"include s{n};" for n in range(1, count))
    own = f'module s0{{yang-version 1.1;namespace "urn:s";prefix s;{includes}leaf l0{{type int32;}}}}'
    head = "submodule s{n}{{yang-version 1.1;belongs-to s0{{prefix s;}}" + includes + "leaf l{n}{{type int32;}}}}"
    return [own] + [head.format(n=n) for n in range(1, count)]


def repeated_imports():
    """Two modules; one imports the other as often as fits into 4 MiB."""
    texts, size, number = [], 0, 0
    while size < MOST - 200:
        text = f"import b{{prefix p{number};}}"
        texts.append(text)
        size += len(text)
        number += 1
    return ["module a{namespace u;prefix a;" + "".join(texts) + "}", "module b{namespace v;prefix b;}"]


def many_revisions():
    """A module with as many revisions as fit into 4 MiB, and one that imports the last."""
    dates = [f"{n:04d}-{m:02d}-{d:02d}" for n in range(10_000) for m in range(1, 13) for d in range(1, 29)]
    dates = dates[: (MOST - 200) // 20]
    own = "module a{namespace u;prefix a;" + "".join(f"revision {date};" for date in dates) + "}"
    return [own, f"module b{{namespace v;prefix b;import a{{prefix a;revision-date {dates[-1]};}}}}"]


def named(texts):
    """Texts by the names of their files."""
    return {text.split("{", 1)[0].split()[1] + ".yang": text for text in texts}


def several(name, make, modules, data, submodules=()):
    """An input of several files. yanglint finds submodules by itself."""
    ours = ["validate", "--data", "data.json", *modules, *submodules]
    return Input(name, lambda: {**named(make()), "data.json": data}, ours, ["-t", "config", *modules, "data.json"])


def several_inputs():
    count = 256
    modules = [f"m{n}.yang" for n in range(count)]
    yield several("256 modules in a chain of imports", lambda: chain(count), modules, '{"m255:a":1}')
    yield several("256 modules, each of which imports all that follow", lambda: mesh(count), modules, '{"m255:a":1}')
    submodules = [f"s{n}.yang" for n in range(1, count)]
    name = "a module and 255 submodules, each of which includes all others"
    yield several(name, lambda: parts(count), ["s0.yang"], '{"s0:l255":1}', submodules)
    yield several("150000 imports of one module", repeated_imports, ["a.yang", "b.yang"], "{}")
    yield several("200000 revisions", many_revisions, ["a.yang", "b.yang"], "{}")


# One file.

def diamonds(count):
    pair = "identity a{n}{{base a{before};base b{before};}}identity b{n}{{base a{before};base b{before};}}"
    return "identity a0;identity b0;" + numbered(count, pair, 1)


def names_inputs():
    """Identities, features and conditions."""
    chain_of = "identity i{n}{{base i{before};}}"
    yield compiled("100000 identities in a chain", lambda: module("identity i0;" + numbered(100_000, chain_of, 1)))
    star_of = "identity i{n}{{base i0;}}"
    yield compiled("100000 identities of one base", lambda: module("identity i0;" + numbered(100_000, star_of, 1)))
    yield compiled("80000 identities in diamonds", lambda: module(diamonds(40_000)))
    feature = "feature f{n}{{if-feature f{before};}}"
    yield compiled("100000 features in a chain", lambda: module("feature f0;" + numbered(100_000, feature, 1)))
    condition = 'leaf l{n}{{if-feature "f or not f";type int32;}}'
    yield compiled("60000 leafs with conditions", lambda: module("feature f;" + numbered(60_000, condition)))
    yield compiled("an if-feature of 4 MiB", lambda: filled(HEAD + 'feature f;leaf a{if-feature "', "not f or ", 'f";type int32;}}'))


def texts_inputs():
    """Comments, quoted texts and files that are no YANG."""
    yield compiled("one comment of 4 MiB", lambda: filled(HEAD + "/*", "x", "*/}"))
    yield compiled("200000 comments between leafs, 4 MiB", lambda: filled(HEAD + "leaf a{type int32;}", "// some words here\n", "}"))
    commented = "/*" + "some words " * 27 + "*/leaf l{n}{{type int32;}}"
    yield compiled("10000 leafs, each after a comment of 300 bytes", lambda: module(numbered(10_000, commented)))
    yield compiled("one quoted text of 4 MiB", lambda: filled(HEAD + 'description "', "x", '";}'))
    yield compiled("one unquoted token of 4 MiB", lambda: filled(HEAD + "description ", "x", ";}"))
    yield compiled("a quoted text of line breaks and tabs", lambda: filled(HEAD + 'description "', "\n\t", '";}'))
    yield compiled("a quoted text of backslashes", lambda: filled(HEAD + 'description "', "\\\\", '";}'))
    yield compiled('4 MiB of "a"+', lambda: filled(HEAD + "description ", '"a"+', '"a";}'))
    yield compiled("4 MiB of {", lambda: filled(HEAD, "{", ""))


def typedef_chain(count):
    return "typedef t0{type int32;}" + numbered(count, "typedef t{n}{{type t{before};}}", 1)


def used_chain(count):
    return typedef_chain(count) + f"leaf a{{type t{count - 1};}}"


def ranged_chain(count):
    unit = 'typedef t{n}{{type t{before}{{range "{n}..max";}}}}'
    return "typedef t0{type int32;}" + numbered(count, unit, 1) + f"leaf a{{type t{count - 1};}}"


def types_inputs():
    """Chains of typedefs, and long lists of names."""
    for count in (5_000, 50_000):
        yield compiled(f"a chain of {count} typedefs that no leaf uses", lambda count=count: module(typedef_chain(count)))
        yield compiled(f"a chain of {count} typedefs, and a leaf of the last", lambda count=count: module(used_chain(count)))
    yield compiled("a chain of 5000 typedefs, each with a range", lambda: module(ranged_chain(5_000)))
    own = "typedef t{n}{{type string;}}leaf l{n}{{type t{n};}}"
    yield compiled("10000 leafs, each of a typedef of its own", lambda: module(numbered(10_000, own)))
    yield compiled("10000 enums", lambda: module("leaf a{type enumeration{" + numbered(10_000, "enum e{n};") + "}}"))


def doubled(times):
    """2^times leafs: groupings that each copy the one before twice, in containers."""
    each = "grouping g{n}{{container a{{uses g{before};}}container b{{uses g{before};}}}}"
    return "grouping g0{leaf l{type int32;}}" + numbered(times + 1, each, 1) + f"container c{{uses g{times};}}"


def copies_inputs():
    """Copies of groupings, and augments."""
    for times in (13, 15, 17):
        yield compiled(f"2^{times} leafs by doubling", lambda times=times: module(doubled(times)), "--max-nodes", "1000000")
    hollow = "grouping g0;" + numbered(60, "grouping g{n}{{uses g{before};uses g{before};}}", 1) + "container c{uses g59;}"
    yield compiled("2^60 uses by doubling", lambda: module(hollow))
    copied = "grouping g{" + leafs(90) + "}" + numbered(1_000, "container c{n}{{uses g;}}")
    yield compiled("1000 copies of 90 leafs", lambda: module(copied))
    augment = "augment /c{{leaf l{n}{{type int32;}}}}"
    yield compiled("2000 augments of one container", lambda: module("container c;" + numbered(2_000, augment)))


def written_leafs(count):
    members = ",".join(f'"l{n}":{n}' for n in range(count))
    return module("container c{" + leafs(count) + "}"), '{"ex:c":{' + members + "}}"


def long_named(count):
    name = "m" + "a" * 1_048_576
    return {"ex.yang": f"module {name}{{yang-version 1.1;namespace u;prefix p;{leafs(count)}}}", "data.json": "{}"}


def leafs_inputs():
    """Many leafs at one place."""
    yield compiled("20000 leafs in a container", lambda: module("container c{" + leafs(20_000) + "}"))
    for count in (1_000, 20_000, 99_999):
        yield validated(f"{count} leafs in a container, all in the document", lambda count=count: written_leafs(count), "config")
    words = (["validate", "--data", "data.json", "ex.yang"], ["-t", "config", "ex.yang", "data.json"])
    yield Input("a module name of 1 MiB, and 60000 leafs at the top", lambda: long_named(60_000), *words)
    yield compiled("4 MiB of leafs with one name", lambda: filled(HEAD, "leaf a{type int32;}", "}"), "--max-nodes", "1000000")


def set_input(name):
    """A set of modules with the types of RFC 6991."""
    files = list(type_sets.files_of(name))
    return Input(f"types of RFC 6991: {name}", lambda: type_sets.files_of(name), ["compile", *files], files)


def set_inputs():
    for name in type_sets.names():
        yield set_input(name)


def large_inputs():
    """All inputs but the sets."""
    yield compiled("an empty module", lambda: module(""))
    yield from leafs_inputs()
    yield from names_inputs()
    yield from types_inputs()
    yield from copies_inputs()
    yield from texts_inputs()
    yield from several_inputs()


def inputs():
    yield from set_inputs()
    yield from large_inputs()
