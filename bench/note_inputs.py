"""Modules of up to 4 MB that are refused, and documents of 16 MB, in which the note has much to look at.

An input has a name, which begins with that of the refusal, and the texts of files. Where what is refused can't be
read, as a text that is not closed, `is_read` is false: then its note reads it again up to that place.
"""
from module_inputs import MOST, module, numbered

# What is left of a file beside its head and what is wrong in it.
ROOM = MOST - 1_000
LONG = "n" * 60


class Refused:
    """Files that are refused, and the words for yangcheck before their names. `make` returns their texts by name."""

    def __init__(self, code, about, make, is_read=True, words=("compile", "--max-nodes", "1000000")):
        self.code, self.make, self.is_read, self.words = code, make, is_read, list(words)
        self.name = f"{code}-{about}".replace(" ", "-")


def one(code, about, make):
    """An input of one module. `make` returns what is in it."""
    return Refused(code, about, lambda: {"ex.yang": module(make())})


def unread(code, about, make):
    """An input of one file that can't be read as statements. `make` returns its text or its bytes."""
    return Refused(code, about, lambda: {"ex.yang": make()}, False)


def many(unit, room=ROOM):
    """As many of these units as fit, each written with its own number and the number before."""
    return numbered(count_of(unit, room), unit)


def count_of(unit, room=ROOM):
    return room // len(unit.format(n=100_000, before=100_000))


def nest(depth, opening, inner):
    return numbered(depth, opening) + inner + "}" * depth


def leafs(room=ROOM):
    return many("leaf l{n}{{type int8;}}", room)


def names(count, prefix="l"):
    return " ".join(f"{prefix}{n}" for n in range(count))


# Files that can't be read.

def lines(unit="  leaf a { type int8; }\n"):
    """The front of a module in lines, all but its end."""
    head = "module ex {\n  yang-version 1.1;\n  namespace u;\n  prefix ex;\n"
    return head + unit * ((ROOM - len(head)) // len(unit))


def odd_braces():
    """Blocks in blocks over many lines, of which the last is not closed."""
    block = "  container c {\n" + "    container d {\n      leaf a { type int8; }\n    }\n" * 10 + "  }\n"
    return lines(block) + "  container e {\n"


def unread_inputs():
    yield unread("BadToken", "quote-after-a-long-text", lambda: lines() + 'a"b";}')
    yield unread("BadToken", "open-quote-at-the-front", lambda: 'module ex { description "' + "a\n" * (ROOM // 2))
    yield unread("BadToken", "open-comment", lambda: lines() + "/* a")
    yield unread("BadToken", "quote-after-one-comment", lambda: "/*" + "*" * ROOM + '*/ a"b"')
    yield unread("BadEscape", "after-lines", lambda: lines() + 'leaf "\\q";}')
    yield unread("BadSyntax", "text-after-a-quoted-text", lambda: lines() + "leaf 'a' b;}")
    yield unread("BadSyntax", "file-not-closed", lines)
    yield unread("BadSyntax", "block-not-closed", odd_braces)
    yield unread("BadSyntax", "brace-too-many", lambda: lines() + "}}")
    yield unread("BadSyntax", "word-of-4-MB", lambda: "module ex {" + "a" * ROOM + " b c;}")
    yield unread("BadCharacter", "after-lines", lambda: lines() + "leaf \x01;}")
    yield unread("NotUtf8", "after-lines", lambda: lines().encode() + b"\xff}")
    yield unread("TooDeep", "after-lines", lambda: lines() + "a{" * 70 + "}" * 71)
    yield unread("TooLarge", "lines", lambda: lines() + "/" * 2_000)


# Keywords and arguments.

def form_inputs():
    yield one("UnknownStatement", "at-the-end", lambda: leafs() + "leav l{type int8;}")
    yield one("Unsupported", "at-the-end",
              lambda: leafs() + "anyxml x{must a;}deviation /ex:l0{deviate not-supported;}")
    yield one("BadArgument", "at-the-end", lambda: leafs() + "leaf l{type int8;config maybe;}")
    yield one("BadArgument", "of-4-MB", lambda: "leaf a{type int8;config " + "a" * ROOM + "’;}")
    yield one("Cardinality", "second-of-a-block", lambda: "container c{presence a;" + leafs() + "presence b;}")
    yield one("Cardinality", "lacks-a-type-among-extensions", lambda: "leaf a{" + many("ex:x{n};") + "}")
    yield one("Cardinality", "lacks-a-type-before-words-like-it", lambda: "leaf a;" + many("typ t{n};"))
    yield one("Cardinality", "misplaced", lambda: leafs() + "leaf a{leaf b;}")


# Modules.

def file_of(name, body, own=""):
    return f"module {name}{{yang-version 1.1;namespace \"urn:{name}\";prefix {name};{own}{body}}}"


def beside(body, others=255):
    """Modules in small files beside one."""
    return {"ex.yang": module(body), **{f"m{n}.yang": file_of(f"m{n}", "") for n in range(others)}}


def ring(count, room):
    """Modules that import one another in a ring, with as much more in them."""
    texts = {}
    for n in range(count):
        following = f"m{(n + 1) % count}"
        texts[f"m{n}.yang"] = file_of(f"m{n}", leafs(room // count), f"import {following}{{prefix p;}}")
    return texts


def submodule_of(owner, body):
    return f"submodule s{{yang-version 1.1;belongs-to {owner}{{prefix p;}}{body}}}"


def unknown_prefixes(count):
    """An expression of names with prefixes of which the last is not declared, after as many statements as fit."""
    declared = numbered(64, "import m{n}{{prefix p{n};}}")
    expression = " or ".join(f"p{n % 63}:f" for n in range(count)) + " or q:f"
    return declared + leafs(ROOM - 5_000) + f'leaf x{{type int8;if-feature "{expression}";}}'


def feature_module():
    return {f"m{n}.yang": file_of(f"m{n}", "feature f;") for n in range(64)}


def revisions():
    dates = (f"{1000 + n // 336:04d}-{n // 28 % 12 + 1:02d}-{n % 28 + 1:02d}" for n in range(ROOM // 20))
    dates = "".join(f"revision {date};" for date in dates)
    return {"ex.yang": module("import a{prefix a;revision-date 9999-01-01;}"), "a.yang": file_of("a", dates)}


def modules_inputs():
    yield Refused("MissingModule", "beside-255-others", lambda: beside("import m1000{prefix a;}" + leafs()))
    yield Refused("DuplicateModule", "at-the-end", lambda: {**beside(leafs(), 254), "z.yang": module("")})
    yield Refused("Revision", "of-200000", revisions)
    yield Refused("Submodule", "of-another-module", lambda: {
        "ex.yang": module("include s;" + leafs()), "s.yang": submodule_of("m0", ""), "m0.yang": file_of("m0", "")})
    yield Refused("Submodule", "not-included", lambda: {"ex.yang": module(leafs()), "s.yang": submodule_of("ex", "")})
    yield Refused("ImportCycle", "of-256-modules", lambda: ring(256, ROOM))
    yield Refused("ImportCycle", "of-256-modules-of-20-MB", lambda: ring(256, 5 * ROOM))
    yield Refused("UnknownPrefix", "beside-imports", lambda: {
        "ex.yang": module(many("import m0{{prefix p{n};}}") + "leaf a{type q:t;}"), "m0.yang": file_of("m0", "")})
    yield Refused("UnknownPrefix", "last-of-64-words", lambda: {
        "ex.yang": module(unknown_prefixes(63)), **feature_module()})


# Names.

def features(word):
    return many("feature f{n};") + f'leaf a{{type int8;if-feature "{word}";}}'


def sixty_four_features():
    known = " or ".join(f"f{200_000 + n}" for n in range(63))
    return many("feature f{n};") + f'leaf a{{type int8;if-feature "{known} or nope";}}'


def cycle_of(unit, first, room=ROOM):
    """Definitions each of which leads to the one before, and the first to the last."""
    count = count_of(unit, room)
    return first.format(last=count - 1) + numbered(count, unit, 1)


def nested_groupings():
    """Groupings in one another, each of which uses the next one in it; the innermost uses the outermost."""
    opening = "".join(f"grouping g{n}{{uses g{n + 1};" for n in range(55))
    return opening + "grouping g55{uses g0;" + leafs(ROOM - 5_000) + "}" * 56


def names_inputs():
    yield one("UnknownFeature", "among-features", lambda: features("f100000x"))
    yield one("UnknownFeature", "last-of-64-words", sixty_four_features)
    yield one("UnknownIdentity", "among-identities", lambda: many("identity i{n};") + "identity x{base i100000x;}")
    yield one("UnknownIdentity", "among-long-names",
              lambda: many(f"identity {LONG}{{n}};") + f"identity x{{base {LONG};}}")
    yield one("UnknownType", "among-typedefs",
              lambda: many("typedef t{n}{{type int8;}}") + "leaf x{type t100000x;}")
    yield one("UnknownType", "seen-in-its-own-block-only",
              lambda: many("container c{n}{{typedef t{{type int8;}}}}") + "leaf x{type t;}")
    yield one("UnknownGrouping", "among-groupings", lambda: many("grouping g{n};") + "uses g100000x;")
    yield one("DuplicateName", "among-typedefs",
              lambda: many("typedef t{n}{{type int8;}}") + "typedef t99999{type int8;}")
    yield one("DuplicateName", "of-a-nested-block",
              lambda: "grouping g;" + many("grouping h{n}{{grouping i;}}")
                  + nest(50, "container c{n}{{", "grouping g;"))
    yield one("FeatureCycle", "of-a-long-ring",
              lambda: cycle_of("feature f{n}{{if-feature f{before};}}", "feature f0{{if-feature f{last};}}"))
    yield one("FeatureCycle", "of-64-names-each", lambda: cycle_of(
        'feature f{n}{{if-feature "f{before}' + " or f0" * 60 + '";}}', "feature f0{{if-feature f{last};}}"))
    yield one("IdentityCycle", "of-a-long-ring",
              lambda: cycle_of("identity i{n}{{base i{before};}}", "identity i0{{base i{last};}}"))
    yield one("TypeCycle", "of-a-long-ring",
              lambda: cycle_of("typedef t{n}{{type t{before};}}", "typedef t0{{type t{last};}}"))
    yield one("TypeCycle", "of-unions", lambda: cycle_of(
        "typedef t{n}{{type union{{type t{before};type t{before};}}}}", "typedef t0{{type t{last};}}"))
    yield one("GroupingCycle", "of-a-long-ring",
              lambda: cycle_of("grouping g{n}{{uses g{before};}}", "grouping g0{{uses g{last};}}"))
    yield one("GroupingCycle", "of-nested-groupings", nested_groupings)


# Refines and augments.

def deep_path(depth, last, step="c{n}"):
    return "/".join(step.format(n=n) for n in range(depth)) + "/" + last


def absolute(depth, last):
    return "/" + "/".join(f"ex:c{n}" for n in range(depth)) + f"/ex:{last}"


def copied(inner, depth=60):
    return "grouping g{" + nest(depth, "container c{n}{{", inner) + "}"


def unused(room=ROOM):
    """Groupings that add nothing to the tree, so that many statements take a short time."""
    return many("grouping u{n};", room)


def changes_inputs():
    yield one("RefineTarget", "after-60-steps",
              lambda: copied(leafs()) + f"uses g{{refine {deep_path(60, 'nope')};}}")
    yield one("RefineTarget", "after-60-steps-before-groupings",
              lambda: copied("leaf l{type int8;}") + unused(ROOM - 5_000)
                  + f"uses g{{refine {deep_path(60, 'nope')};}}")
    yield one("RefineTarget", "by-256-uses",
              lambda: unused(ROOM - 20_000) + numbered(250, "grouping g{n}{{leaf a{n}{{type int8;}}}}")
              + "grouping h{" + numbered(250, "uses g{n};") + "}uses h{refine nope;}")
    yield one("BadRefine", "at-the-end",
              lambda: copied("leaf l{type int8;}") + unused(ROOM - 5_000)
              + f"uses g{{refine {deep_path(60, 'l')}{{presence a;}}}}")
    yield one("AugmentTarget", "after-60-steps",
              lambda: nest(60, "container c{n}{{", leafs())
              + f"augment {absolute(60, 'nope')}{{leaf a{{type int8;}}}}")
    yield one("AugmentTarget", "among-augments",
              lambda: nest(60, "container c{n}{{", "leaf l{type int8;}")
                  + many("grouping u{n}{{uses v{n}{{augment c0;}}}}grouping v{n};", ROOM - 5_000)
              + f"augment {absolute(60, 'nope')}{{leaf a{{type int8;}}}}")
    yield Refused("AugmentTarget", "unprefixed-beside-8-imports", lambda: {
        "ex.yang": module(numbered(8, "import m{n}{{prefix p{n};}}") + "augment " + "/c" * 40
            + "/nope{leaf a{type int8;}}"),
        **{f"m{n}.yang": file_of(f"m{n}", "container c{" * 40 + leafs(ROOM // 8) + "}" * 40) for n in range(8)}})
    yield one("BadAugment", "a-case-at-the-end", lambda: "container c;augment /ex:c{" + leafs() + "case k;}")


# Types.

def members(keyword, room=ROOM):
    return many(keyword + " name-{n};", room)


def typedefs(count):
    return numbered(count, "typedef t{n}{{type t{before};}}", 1)


def types_inputs():
    parts = "|".join(f"{n * 2}" for n in range(ROOM // 8))
    yield one("BadRestriction", "last-of-many-parts", lambda: f'leaf a{{type uint32{{range "{parts}|0";}}}}')
    yield one("BadRestriction", "of-a-typedef-of-many-parts",
              lambda: f'typedef t0{{type uint32{{range "{parts}";}}}}' + typedefs(62)
                  + 'leaf a{type t61{range "1";}}')
    yield one("BadNumbering", "second-enum-of-a-name",
              lambda: "leaf a{type enumeration{" + members("enum") + "enum name-7;}}")
    yield one("BadNumbering", "second-enum-of-a-number",
              lambda: "leaf a{type enumeration{" + members("enum") + "enum x{value 7;}}}")
    yield one("BadNumbering", "not-of-the-base",
              lambda: "typedef t{type enumeration{" + members("enum") + "}}leaf a{type t{enum name-1000000;}}")
    yield one("BadNumbering", "other-number-than-in-the-base",
              lambda: "typedef t{type bits{" + members("bit") + "}}leaf a{type t{bit name-100000{position 1;}}}")
    yield one("BadType", "before-groupings", lambda: "leaf a{type int8{length 1;}}" + unused())
    yield one("BadType", "needs-a-path", lambda: unused() + "leaf a{type leafref;}")
    yield one("BadPattern", "of-4-MB", lambda: "leaf a{type string{pattern '" + "a?" * (ROOM // 2) + "\\q';}}")
    yield one("BadPattern", "of-a-category-of-4-MB",
              lambda: "leaf a{type string{pattern '\\p{" + "L" * ROOM + "}';}}")
    yield one("BadPattern", "of-a-count-of-4-MB", lambda: "leaf a{type string{pattern 'a{" + "1" * ROOM + "}';}}")
    yield one("TooManyMembers", "at-the-end", lambda: unused() + "leaf a{type union{" + "type int8;" * 65 + "}}")


def identities_of_chain():
    return numbered(count_of("identity i{n}{{base i{before};}}"), "identity i{n}{{base i{before};}}", 1)


def chain_in_reverse():
    count = count_of("identity i{n}{{base i{before};}}")
    return "".join(f"identity i{n}{{base i{n - 1};}}" for n in range(count, 0, -1))


def long_defaults(size, count=1_000):
    return "".join(f"default {'a' * size}{n};" for n in range(count))


def bits_by_eight():
    """Many bits, and defaults of eight of the last of them each; the last is written twice."""
    count = count_of("bit name-{n};", ROOM - 10_000)
    each = " ".join(f"name-{n}" for n in range(count - 8, count))
    defaults = "".join(f'default "name-{n} {each}";' for n in range(31))
    return (
        "leaf-list a{type bits{" + numbered(count, "bit name-{n};") + "}" + defaults + 'default "name-0 ' + each
        + '";}'
    )


def defaults_inputs():
    yield one("BadDefault", "of-an-enumeration",
              lambda: "leaf a{type enumeration{" + members("enum") + "}default name-1000000;}")
    yield one("BadDefault", "of-bits",
              lambda: "leaf a{type bits{" + members("bit") + "}default 'name-1 name-1000000';}")
    yield one("BadDefault", "of-bits-32-times", bits_by_eight)
    yield one("BadDefault", "of-a-chain-of-identities",
              lambda: "identity i0;" + identities_of_chain() + "leaf a{type identityref{base i0;}default nope;}")
    yield one("BadDefault", "of-a-chain-in-reverse",
              lambda: chain_in_reverse() + "identity i0;leaf a{type identityref{base i0;}default nope;}")
    yield one("BadDefault", "of-a-range-of-many-parts",
              lambda: 'leaf a{type int32{range "' + "|".join(str(n * 2) for n in range(ROOM // 8))
              + '";}default 1;}')
    yield one("BadDefault", "of-many-patterns",
              lambda: "leaf a{type string{" + "pattern 'a*';" * (ROOM // 13) + "}default b;}")
    yield one("BadDefault", "repeated-long-texts",
              lambda: "leaf-list a{type string;" + long_defaults(4_000) + "default " + "a" * 4_000 + "7;}")
    yield one("BadDefault", "repeated-numbers",
              lambda: unused(ROOM - 20_000) + "leaf-list a{type int32;" + numbered(1_000, "default {n};")
              + "default 0x3e7;}")
    yield one("BadDefault", "of-a-choice", lambda: "choice h{default nope;" + leafs() + "}")
    yield one("BadDefault", "by-a-refine",
              lambda: "grouping g{leaf a{type int8;}}" + many("grouping u{n}{{uses g{{refine a;}}}}", ROOM - 100)
              + "uses g{refine a{default x;}}")


# Nodes.

def unique_of_all(count):
    return f'unique "{names(count)} nope";' + numbered(count, "leaf l{n}{{type int8;}}")


def uniques_below(containers, each):
    """A `unique` of paths through many containers, of which the last is unknown."""
    paths = " ".join(f"c{n}/l{m}" for n in range(containers) for m in range(each))
    inner = numbered(each, "leaf l{n}{{type int8;}}")
    return f'unique "{paths} c0/nope";' + "".join(f"container c{n}{{{inner}}}" for n in range(containers))


def leafrefs_in_a_ring(depth, count):
    """Leafrefs deep in groupings that refer to one another in a ring, each by a path up to the top and down again."""
    down = "".join(f"c{n}/" for n in range(depth))
    to_top = "../" * (depth + 1)
    refer = "".join(f'leaf r{n}{{type leafref{{path "{to_top}{down}r{(n + 1) % count}";}}}}' for n in range(count))
    text = f"grouping g{depth}{{{refer}}}"
    for n in range(depth - 1, -1, -1):
        text += f"grouping g{n}{{container c{n}{{uses g{n + 1};}}}}"
    return text + "uses g0;"


def namesakes(count):
    """A node of one name in many groupings that are used apart, and twice in one place."""
    return (
        numbered(count, "grouping g{n}{{leaf a{{type int8;}}}}container c{n}{{uses g{n};}}")
        + "container x{uses g0;leaf a{type int8;}}"
    )


KEYED = "list l{key k;leaf k{type int8;}"


def deeper(count):
    """Groupings that each put a container around the one before."""
    return (
        "grouping g0{leaf l{type int8;}}"
        + numbered(count, "grouping g{n}{{container c{{uses g{before};}}}}", 1) + f"uses g{count - 1};"
    )


def nodes_inputs():
    yield one("TreeTooDeep", "before-groupings", lambda: deeper(130) + unused(ROOM - 20_000))
    yield one("DuplicateNode", "at-the-end", lambda: leafs() + "leaf l7{type int8;}")
    yield one("DuplicateNode", "of-many-groupings", lambda: unused(ROOM - 30_000) + namesakes(250))
    yield one("BadKey", "among-many-leafs", lambda: "list l{key nope;" + leafs() + "}")
    yield one("BadKey", "last-of-64-names", lambda: f'list l{{key "{names(63)} nope";' + leafs() + "}")
    yield one("BadKey", "last-of-64-names-before-groupings",
              lambda: f'list l{{key "{names(63)} nope";' + leafs(2_000) + "}" + unused(ROOM - 5_000))
    yield one("BadUnique", "of-many-paths", lambda: KEYED + unique_of_all(100_000) + "}")
    yield one("BadUnique", "of-many-statements", lambda: KEYED + "unique k;" * (ROOM // 9) + "}")
    yield one("BadUnique", "of-64-statements",
              lambda: KEYED + "unique k;" * 63 + "unique nope;" + leafs(ROOM - 2_000) + "}")
    yield one("BadUnique", "of-configuration-and-state",
              lambda: KEYED + f'unique "{names(60_000)} s";leaf s{{config false;type int8;}}'
                  + numbered(60_000, "leaf l{n}{{type int8;}}") + "}")
    yield one("BadUnique", "through-containers", lambda: KEYED + uniques_below(40, 1_500) + "}")
    yield one("BadUnique", "through-many-containers", lambda: KEYED + uniques_below(20_000, 2) + "}")
    yield one("BadUnique", "through-a-large-container", lambda: KEYED + uniques_below(1, 60_000) + "}")
    yield one("BadUnique", "below-60-containers",
              lambda: nest(60, "container c{n}{{", KEYED + unique_of_all(60_000) + "}"))
    yield one("BadMandatory", "in-a-case-at-the-end",
              lambda: "choice h{default c;case c{" + leafs() + "leaf m{type int8;mandatory true;}}}")
    yield one("BadPath", "after-60-steps",
              lambda: nest(60, "container c{n}{{", leafs())
              + f'leaf r{{type leafref{{path "{absolute(60, "nope")}";}}}}')
    yield one("BadPath", "up-and-down-60-steps", lambda: nest(60, "container c{n}{{", leafs(ROOM - 5_000)
              + 'leaf r{type leafref{path "' + "../" * 61 + deep_path(60, "nope") + '";}}'))
    yield one("BadPath", "up-through-60-groupings",
              lambda: unused(ROOM - 10_000) + leafrefs_in_a_ring(55, 1).replace("/r0", "/nope"))
    yield one("PathCycle", "of-60-leafrefs", lambda: unused(ROOM - 100_000) + leafrefs_in_a_ring(40, 60))
    yield one("BadConfig", "below-60-containers",
              lambda: "container x{config false;" + nest(60, "container c{n}{{", leafs()
              + "leaf a{type int8;config true;}") + "}")
    yield one("BadOperation", "in-many-uses",
              lambda: unused(ROOM - 50_000) + "grouping g{action a;}" + numbered(200, "grouping h{n}{{uses g;}}")
              + "rpc r{input{uses h199;}}")
    yield one("TooManyNodes", "by-copies", lambda: unused(ROOM - 2_000) + "grouping a0{leaf l{type int8;}}"
              + numbered(21, "grouping a{n}{{container x{{uses a{before};}}container y{{uses a{before};}}}}", 1)
                  + "uses a20;")


# Documents and diagrams.

VALUES = "leaf-list e{type int8;}"


def document(about, make):
    """A document that is not JSON."""
    words = ["validate", "--data", "data.json"]
    return Refused("not JSON", about, lambda: {"ex.yang": module(VALUES), "data.json": make()}, False, words)


def documents_inputs():
    yield document("not-closed", lambda: '{"ex:e":[' + "1," * 8_000_000)
    yield document("names-without-values", lambda: "{" + '"a":1,' * 2_600_000 + '"b"}')
    yield document("text-not-closed", lambda: '{"ex:e":"' + "a" * 16_000_000)
    yield Refused("no such module", "among-255", lambda: beside("", 255), False, ["tree", "--module", "m1000"])


def inputs():
    yield from unread_inputs()
    yield from form_inputs()
    yield from modules_inputs()
    yield from names_inputs()
    yield from changes_inputs()
    yield from types_inputs()
    yield from defaults_inputs()
    yield from nodes_inputs()
    yield from documents_inputs()
