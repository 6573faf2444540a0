"""Twenty sets of modules with the types of RFC 6991: addresses, prefixes, names, dates, identifiers and counters.

Each set has the two modules of types, which are written here with the names and patterns of that RFC and texts of our own, and a
module about one part of a device, as its topics ask. Some sets have one more module that augments that one.
"""
OCTET = "([0-9]|[1-9][0-9]|1[0-9][0-9]|2[0-4][0-9]|25[0-5])"
HEX = "[0-9a-fA-F]"
ZONE = r"(%[\p{N}\p{L}]+)?"
DOTTED = r"((25[0-5]|2[0-4][0-9]|[01]?[0-9]?[0-9])\.){3}(25[0-5]|2[0-4][0-9]|[01]?[0-9]?[0-9])"
IPV4 = rf"({OCTET}\.){{3}}{OCTET}"
IPV6 = f"((:|{HEX}{{0,4}}):)({HEX}{{0,4}}:){{0,5}}((({HEX}{{0,4}}:)?(:|{HEX}{{0,4}}))|({DOTTED}))"
IPV6_PARTS = r"(([^:]+:){6}(([^:]+:[^:]+)|(.*\..*)))|((([^:]+:)*[^:]+)?::(([^:]+:)*[^:]+)?)"
IPV4_LENGTH = "/(([0-9])|([1-2][0-9])|(3[0-2]))"
IPV6_LENGTH = "(/(([0-9])|([0-9]{2})|(1[0-1][0-9])|(12[0-8])))"
LABEL = r"([a-zA-Z0-9_]([a-zA-Z0-9\-_]){0,61})?[a-zA-Z0-9]"
DATE = r"\d{4}-\d{2}-\d{2}T\d{2}:\d{2}:\d{2}(\.\d+)?(Z|[\+\-]\d{2}:\d{2})"
OBJECT = r"(([0-1](\.[1-3]?[0-9]))|(2\.(0|([1-9]\d*))))(\.(0|([1-9]\d*)))*"
UUID = f"{HEX}{{8}}-{HEX}{{4}}-{HEX}{{4}}-{HEX}{{4}}-{HEX}{{12}}"


def typedef(name, base, more="", patterns=()):
    """A typedef of a built-in or derived type, with restrictions."""
    said = more + "".join(f" pattern '{pattern}';" for pattern in patterns)
    about = f"A value of the kind {name}, as all modules of a device write it."
    return f'  typedef {name} {{\n    type {base} {{{said} }}\n    description "{about}";\n  }}\n'


def union(name, *members):
    return f"  typedef {name} {{\n    type union {{ {' '.join(f'type {member};' for member in members)} }}\n  }}\n"


def module(name, prefix, body):
    """The text of a module that imports the types, unless it is one of theirs."""
    own = prefix in ("inet", "yang")
    imports = "" if own else "  import inet-types { prefix inet; }\n  import yang-types { prefix yang; }\n"
    head = f'module {name} {{\n  yang-version 1.1;\n  namespace "urn:example:{name}";\n  prefix {prefix};\n{imports}'
    return f'{head}  organization "Example";\n  description "Module {name} of the measurements.";\n{body}}}\n'


def inet_types():
    return module("inet-types", "inet", "".join([
        "  typedef ip-version { type enumeration { enum unknown { value 0; } enum ipv4 { value 1; } enum ipv6 { value 2; } } }\n",
        typedef("dscp", "uint8", " range 0..63;"),
        typedef("ipv6-flow-label", "uint32", " range 0..1048575;"),
        typedef("port-number", "uint16", " range 0..65535;"),
        "  typedef as-number { type uint32; }\n",
        union("ip-address", "ipv4-address", "ipv6-address"),
        typedef("ipv4-address", "string", "", [IPV4 + ZONE]),
        typedef("ipv6-address", "string", "", [IPV6 + ZONE, f"{IPV6_PARTS}(%.+)?"]),
        union("ip-address-no-zone", "ipv4-address-no-zone", "ipv6-address-no-zone"),
        typedef("ipv4-address-no-zone", "ipv4-address", "", [r"[0-9\.]*"]),
        typedef("ipv6-address-no-zone", "ipv6-address", "", [r"[0-9a-fA-F:\.]*"]),
        union("ip-prefix", "ipv4-prefix", "ipv6-prefix"),
        typedef("ipv4-prefix", "string", "", [IPV4 + IPV4_LENGTH]),
        typedef("ipv6-prefix", "string", "", [IPV6 + IPV6_LENGTH, f"({IPV6_PARTS})(/.+)"]),
        typedef("domain-name", "string", " length 1..253;", [rf"(({LABEL}\.)*{LABEL}\.?)|\."]),
        union("host", "ip-address", "domain-name"),
        "  typedef uri { type string; }\n",
    ]))


def yang_types():
    counters = "".join(f"  typedef {name}{size} {{ type uint{size}; }}\n" for name in ("counter", "gauge") for size in (32, 64))
    zeroed = "".join(f"  typedef zero-based-counter{size} {{ type counter{size}; default 0; }}\n" for size in (32, 64))
    return module("yang-types", "yang", counters + zeroed + "".join([
        typedef("object-identifier", "string", "", [OBJECT]),
        typedef("object-identifier-128", "object-identifier", "", [r"\d*(\.\d*){1,127}"]),
        typedef("yang-identifier", "string", " length 1..max;", [r"[a-zA-Z_][a-zA-Z0-9\-_.]*", ".|..|[^xX].*|.[^mM].*|..[^lL].*"]),
        typedef("date-and-time", "string", "", [DATE]),
        "  typedef timeticks { type uint32; }\n  typedef timestamp { type timeticks; }\n",
        typedef("phys-address", "string", "", [f"({HEX}{{2}}(:{HEX}{{2}})*)?"]),
        typedef("mac-address", "string", "", [f"{HEX}{{2}}(:{HEX}{{2}}){{5}}"]),
        "  typedef xpath1.0 { type string; }\n",
        typedef("hex-string", "string", "", [f"({HEX}{{2}}(:{HEX}{{2}})*)?"]),
        typedef("uuid", "string", "", [UUID]),
        typedef("dotted-quad", "string", "", [IPV4]),
    ]))


SETTINGS = (
    "inet:ip-address", "inet:port-number", "yang:date-and-time", "inet:domain-name", "inet:ip-prefix", "string", "yang:mac-address",
    "inet:host", "boolean", "inet:ipv4-address-no-zone", "uint32", "inet:dscp", "yang:uuid", "inet:ipv6-prefix", "inet:uri",
    "yang:yang-identifier", "inet:as-number", "yang:dotted-quad", "yang:hex-string", "inet:ipv6-address", "yang:phys-address",
    "yang:object-identifier", "inet:ipv4-prefix", "int16", "inet:ip-version", "yang:object-identifier-128",
)
MEASURES = ("yang:counter64", "yang:gauge32", "yang:zero-based-counter32", "yang:timestamp", "yang:counter32", "yang:date-and-time")

# The part of a device, with how many topics its module has, and how many settings each.
PARTS = {
    "access-lists": (8, 9), "addresses": (4, 6), "border-routes": (20, 8), "certificates": (5, 7), "clocks": (4, 8),
    "interfaces": (6, 12), "labels": (11, 6), "leases": (6, 8), "logging": (5, 6), "names": (3, 5), "neighbours": (4, 4),
    "policies": (16, 7), "routing": (10, 10), "servers": (3, 8), "shortest-paths": (14, 9), "system": (12, 8), "telemetry": (7, 9),
    "tunnels": (9, 11), "users": (3, 4), "vlans": (5, 5),
}
# Those whose module another one augments.
AUGMENTED = ("addresses", "interfaces", "routing", "tunnels", "system")


def leaf(name, type_name, more=""):
    about = f"What the {name.replace('-', ' ')} is set to, or was found to be, for this entry of the list."
    end = "" if type_name.endswith("}") else ";"
    return f'        leaf {name} {{\n          type {type_name}{end}{more}\n          description\n            "{about}";\n        }}\n'


def topic(part, number, settings):
    """A list with settings, measures, a choice, a reference to another entry, and a use of a grouping."""
    at = 5 * number + len(part)
    rows = [leaf(f"setting-{n}", SETTINGS[(at + n) % len(SETTINGS)]) for n in range(settings)]
    rows.append(leaf("peer", f"leafref {{ path ../../entry-{number}/name; }}"))
    rows.append(leaf("mode", "enumeration { enum off; enum on; enum automatic; }", " default automatic;"))
    rows.append(leaf("family", "identityref { base kind; }"))
    choice = f"        choice way {{\n  {leaf('name-of-way', 'inet:domain-name')}  {leaf('address-of-way', 'inet:ip-address')}        }}\n"
    state = "".join(leaf(f"measure-{n}", MEASURES[(number + n) % len(MEASURES)]) for n in range(4))
    inner = f"        container state {{\n          config false;\n{state}        }}\n"
    body = leaf("name", "yang:yang-identifier") + "".join(rows) + choice + "        uses end-point;\n" + inner
    return f"      list entry-{number} {{\n        key name;\n{body}      }}\n"


def part_of_device(name, topics, settings):
    identities = "  identity kind;\n" + "".join(f"  identity kind-{n} {{ base kind; }}\n" for n in range(topics))
    ends = leaf("near-address", "inet:ip-address-no-zone") + leaf("far-host", "inet:host") + leaf("far-port", "inet:port-number")
    grouping = f"  grouping end-point {{\n    container end-point {{\n{ends}    }}\n  }}\n"
    lists = "".join(topic(name, number, settings) for number in range(topics))
    notice = f"  notification change {{\n{leaf('when-changed', 'yang:date-and-time')}{leaf('who', 'inet:host')}  }}\n"
    return module(name, "it", f"{identities}{grouping}  container {name} {{\n{lists}  }}\n{notice}")


def augmenting(name, settings):
    body = "".join(leaf(f"more-{n}", SETTINGS[(3 * n) % len(SETTINGS)]) for n in range(settings))
    imports = f"  import {name} {{ prefix base; }}\n"
    text = module(f"{name}-more", "more", f"  augment /base:{name}/base:entry-0 {{\n{body}  }}\n")
    return text.replace("  import inet-types", imports + "  import inet-types", 1)


def files_of(name):
    """The texts of a set, by the names of its files."""
    topics, settings = PARTS[name]
    files = {"inet-types.yang": inet_types(), "yang-types.yang": yang_types(), f"{name}.yang": part_of_device(name, topics, settings)}
    if name in AUGMENTED:
        files[f"{name}-more.yang"] = augmenting(name, settings)
    return files


def names():
    return sorted(PARTS)
