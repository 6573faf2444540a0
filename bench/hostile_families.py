"""More small inputs that ask for much: patterns, identities, bits, refines, augments, and rounds of augments."""
from hostile_inputs import Hostile

WORDS = ["validate", "--max-nodes", "1000000", "--data", "data.json", "ex.yang"]


def many(count, unit):
    """This many units, each with its number and the number before."""
    return "".join(unit.format(n=n, before=n - 1) for n in range(1, count + 1))


def module(body, name="ex"):
    return f'module {name}{{yang-version 1.1;namespace "urn:ex";prefix ex;{body}}}'


def pattern_leaf(number, pattern):
    return f"leaf l{number}{{type string{{pattern '{pattern}';}}}}"


def patterns_inputs():
    """The names of inputs with patterns, their modules and documents."""
    for count in (400, 800):
        leaves = "".join(pattern_leaf(n, rf"\w{{250}}x{n}") for n in range(count))
        yield f"{count} patterns like \\w{{250}}x1, all different", module(leaves), "{}"
    for count in (20_000, 40_000):
        yield f"{count} small patterns, all different", module("".join(pattern_leaf(n, f"x{n}") for n in range(count))), "{}"
    for count in (1_000, 2_000):
        yield f"{count} times the pattern \\w{{50}}", module("".join(pattern_leaf(n, r"\w{50}") for n in range(count))), "{}"
    yield "one pattern of 4 MB", module(pattern_leaf(0, "a?" * 2_000_000)), "{}"
    for count in (10_000, 20_000):
        chain = many(count, "typedef t{n}{{type t{before}{{pattern 'x{n}|.*';}}}}")
        body = f"typedef t0{{type string;}}{chain}leaf a{{type t{count};}}"
        yield f"a chain of {count} typedefs with a pattern each", module(body), '{"ex:a":"x1"}'
    for count in (1_000, 2_000):
        tests = "".join(f"pattern 'x{n}|[a-z0-9]*';" for n in range(count))
        leaves = "".join(f"leaf l{n}{{type t;default a{n};}}" for n in range(count))
        yield f"{count} patterns by {count} defaults", module(f"typedef t{{type string{{{tests}}}}}{leaves}"), "{}"
    for count in (1_000, 2_000, 4_000):
        tests = "".join(f"pattern 'x{n}|[a-z0-9]*';" for n in range(count))
        items = ",".join(f'"a{n}"' for n in range(count))
        yield f"{count} patterns by {count} values", module(f"leaf-list a{{config false;type string{{{tests}}}}}"), f'{{"ex:a":[{items}]}}'


def identities_inputs():
    """The names of inputs with identities, their modules and documents."""
    long = "m" + "a" * 100_000
    leaf = "leaf a{type identityref{base b;}}"
    for count in (10_000, 20_000):
        derived = many(count, "identity i{n}{{base b;}}")
        yield f"{count} identities in a module with a name of 100 KB", module("identity b;" + derived + leaf, long), "{}"
    for count in (10_000, 20_000):
        leaves = many(count, "leaf l{n}{{type identityref{{base b;}}}}")
        yield f"{count} identityrefs of an identity with a name of 100 KB", module(f"identity b;identity {long}{{base b;}}" + leaves), "{}"
    for count in (20_000, 40_000):
        leaves = many(count, "leaf l{n}{{type identityref{{base b;}}}}")
        yield f"{count} identityrefs of one base", module("identity b;identity c{base b;}" + leaves), '{"ex:l1":"c"}'
    for count in (10_000, 20_000):
        derived = many(count, "identity i{n}{{base b;}}")
        bases = "leaf a{type identityref{" + "base b;" * count + "}}"
        yield f"{count} times the same base, of {count} identities", module("identity b;" + derived + bases), "{}"
    for count in (16_000, 32_000):
        pairs = many(count, "identity b{n};identity i{n}{{base b{n};}}leaf l{n}{{type identityref{{base b{n};}}}}")
        yield f"{count} identityrefs, each of a base of its own", module(pairs), "{}"


def bits_inputs():
    """The names of inputs with bits, their modules and documents."""
    for count in (4_000_000, 8_000_000):
        union = "type bits{bit b;bit c;}" * 64
        yield f"{count} words against 64 bits types", module(f"leaf a{{type union{{{union}}}}}"), '{"ex:a":"' + "b " * (count - 1) + 'b"}'


def refines_inputs():
    """The names of inputs with refines, their modules and documents."""
    leaf = "grouping h{leaf l1{type int32;}}"
    for count, copies in ((50_000, 15_000), (100_000, 30_000)):
        uses = "grouping g{uses h{" + "refine l1{reference r;}" * count + "}}"
        yield f"{count} refines in a grouping copied {copies} times", module(leaf + uses + many(copies, "container c{n}{{uses g;}}")), "{}"
        more = many(copies, "container c{n}{{uses g{{refine l1{{reference r;}}}}}}")
        yield f"{count} refines in a grouping copied {copies} times, with a refine for each copy", module(leaf + uses + more), "{}"
    for count in (150, 300):
        leaves = "grouping g0{" + many(count, "leaf l{n}{{type int32;}}") + "}"
        levels = many(count, "grouping g{n}{{uses g{before}{{" + "".join(f"refine l{n}{{{{reference r;}}}}" for n in range(1, count + 1)) + "}}}}")
        yield f"{count} leafs, refined at each of {count} levels, copied 20 times", module(leaves + levels + many(20, f"container c{{n}}{{{{uses g{count};}}}}")), "{}"
    for count in (10_000, 20_000):
        uses = "grouping g{uses h{" + many(count, "refine n{n}{{reference r;}}") + "}}"
        yield f"{count} refines of nothing in a grouping copied {count} times", module(leaf + uses + many(count, "container c{n}{{uses g;}}")), "{}"
        beside = many(count, "leaf n{n}{{type int32;}}")
        yield f"{count} refines of nothing in {count} copies in one container, next to as many leafs", module(f"{leaf}{uses}container c{{{'uses g;' * count}{beside}}}"), "{}"
    for count in (150, 300):
        deep = "container a{" * 50 + many(count, "leaf l{n}{{type int32;}}") + "}" * 50
        uses = "grouping g{uses h{" + many(count, f"refine {'a/' * 50}l{{n}}{{{{reference r;}}}}") + "}}"
        yield f"{count} refines fifty steps deep, copied {count} times", module(f"grouping h{{{deep}}}{uses}" + many(count, "container c{n}{{uses g;}}")), "{}"
    for count in (20_000, 40_000):
        leaf = "feature f;grouping g0{leaf l{type int32;}}"
        levels = many(count, "grouping g{n}{{uses g{before}{{refine l{{if-feature f;}}}}}}")
        yield f"a leaf in {count} nested groupings, each with a condition for it", module(f"{leaf}{levels}uses g{count};"), "{}"


def in_turn(count, units):
    """This many of these units, one after the other and then the first again."""
    return "".join(units[n % len(units)] for n in range(count))


def augments_inputs():
    """The names of inputs with augments of `uses`, their modules and documents."""
    nodes = "grouping h{container c{}container d{}}"
    paths = {"of one path": ["c"], "of one path in two spellings": ["c", "ex:c"], "of two paths in turn": ["c", "d"]}
    for count, copies in ((30_000, 6_000), (100_000, 20_000)):
        for name, steps in paths.items():
            uses = "grouping g{uses h{" + in_turn(count, [f"augment {path};" for path in steps]) + "}}"
            text = module(nodes + uses + many(copies, "container c{n}{{uses g;}}"))
            yield f"{count} augments {name} that give nothing, in a grouping copied {copies} times", text, "{}"
    for steps, copies in ((200_000, 10_000), (400_000, 20_000)):
        path = "a/" * (steps - 1) + "a"
        for name, block in (("nothing", ";"), ("a leaf", "{leaf l{type int32;}}")):
            text = module(f"grouping h{{}}grouping g{{uses h{{augment {path}{block}}}}}" + "uses g;" * copies)
            yield f"an augment {steps} steps deep that gives {name}, in a grouping copied {copies} times", text, "{}"
    for count in (10_000, 20_000):
        uses = "grouping g{uses h{" + many(count, "augment n{n};") + "}}"
        yield f"{count} augments of nothing in a grouping copied {count} times", module(nodes + uses + many(count, "container c{n}{{uses g;}}")), "{}"
    for count in (150, 300):
        for name, before in (("", ""), (", each after one that gives nothing", "augment c;")):
            uses = "grouping g{uses h{" + many(count, before + "augment c{{leaf l{n}{{type int32;}}}}") + "}}"
            text = module(nodes + uses + many(count, "container c{n}{{uses g;}}"))
            yield f"{count} augments that give a leaf each{name}, in {count} copies", text, "{}"


def augment(path, count, body):
    """An augment of the node below the container t to which a path leads that is repeated this many times."""
    return f"augment /t{path * count}{{{body}}}"


def each(path, count, body):
    """Augments at each depth below this one, each of which waits for what the next one gives: a round applies one of them."""
    return "".join(augment(path, depth, body) for depth in range(count - 1, -1, -1))


def rounds_inputs():
    """The names of inputs whose augments are applied in many rounds, their modules and documents."""
    gone = 'if-feature "off and not off";'
    for rounds, waiting in ((350, 800), (700, 1_600)):
        begin = "feature off;container t;"
        first, later = ("".join(augment("/g", n, f"leaf x{{{off}type int8;}}") for n in range(1, rounds + 1)) for off in ("", gone))
        before = begin + first + each("/g", rounds, "container g;") + later
        waits = "".join(augment("/g", rounds, f"leaf l{n}{{type int8;}}") for n in range(waiting))
        yield f"{rounds} rounds that each put a node before one of its name, {waiting} augments waiting", module(before + waits), "{}"
        aside = "".join(augment("/w", depth, "container w{" * 50 + "}" * 50) for depth in range(0, rounds, 50))
        missing = augment("/w" * rounds + "/n", 1, "") * waiting
        yield f"{rounds} rounds that each put a node before one of its name, {waiting} augments waiting elsewhere", module(before + aside + missing), "{}"
        through = begin + each("/g/h", rounds, "container g{container h;}") + each("/g/h", rounds, f"container g{{{gone}}}")
        fewer = waiting * 9 // 20
        waits = "".join(augment("/g/h", rounds, f"leaf l{n}{{type int8;}}") for n in range(fewer))
        yield f"{rounds} rounds that each put a node before one that {fewer} waiting augments go through", module(through + waits), "{}"


def families():
    yield from patterns_inputs()
    yield from identities_inputs()
    yield from bits_inputs()
    yield from refines_inputs()
    yield from augments_inputs()
    yield from rounds_inputs()


def inputs():
    for name, text, data in families():
        yield Hostile(name, lambda text=text, data=data: (text, data), WORDS)
