"""Many documents in one run, which bench/documents compares: against five published modules, and against 200 modules that are made here.

The published modules are those of Debian's libyuma-base (RFC 6991, 7224, 8343 and 8344). The made ones are as those of a device: one has
lists of units, and each of the others adds a container to an entry of each list.
"""
import glob
import json
import os

from measuring import Input

DOCUMENTS = 1_000
SIZES = (2_000, 20_000)
FOLDERS = ("/usr/share/yuma", "/usr/share/yang/modules", "/usr/share/doc/libyang2-tools/examples")
# Each after those that it imports.
PUBLISHED = (
    "ietf-yang-types@2013-07-15.yang", "ietf-inet-types@2013-07-15.yang", "ietf-interfaces@2018-02-20.yang", "iana-if-type@2014-05-08.yang",
    "ietf-ip@2018-02-22.yang",
)
MADE, LISTS = 200, 4


class ManyDocuments(Input):
    """An input of modules and documents: `make` returns the text of each file by its name, and the list of the documents is one of them.

    yangcheck must take less than `most` times the seconds of yanglint. `needed` are the names of modules that have to be installed.
    """

    def __init__(self, name, modules, documents, most=1.0, needed=()):
        """`modules` returns the texts of the modules by their names, and `documents` those of the documents."""
        self.most, self.modules, self.documents, self.needed = most, modules, documents, needed
        super().__init__(name, self.files, [], [])

    def missing(self):
        """The modules that have to be installed, and aren't."""
        return sorted(set(self.needed) - set(published_paths())) if self.needed else []

    def files(self):
        """The texts of all files, by their names. The words of both programs name them."""
        modules, documents = self.modules(), self.documents()
        self.ours = ["validate", "--kind", "config", "--each", "name", "--data", "list", *modules]
        self.theirs = ["-t", "config", *modules, *documents]
        return {**modules, **documents, "list": "".join(name + "\n" for name in documents)}


def documents_of(count, size, top, entry):
    """So many documents of at least this size, each with another number: `top` returns a document around entries, `entry` the next one."""
    found = {}
    for number in range(count):
        entries, length = [], 0
        while length < size:
            entries.append(entry(number, len(entries)))
            length += len(json.dumps(entries[-1], separators=(",", ":"))) + 1
        found[f"document-{number:04}.json"] = json.dumps(top(entries), separators=(",", ":"))
    return found


# The published modules.

def published_paths():
    """The paths of the published modules by their names. Those that aren't installed are missing."""
    found = {}
    for folder in FOLDERS:
        for path in glob.glob(os.path.join(folder, "**", "*.yang"), recursive=True):
            found.setdefault(os.path.basename(path), path)
    return {name: found[name] for name in PUBLISHED if name in found}


def published_modules():
    """The texts of the published modules."""
    texts = {}
    for name, path in published_paths().items():
        with open(path, encoding="utf-8") as file:
            texts[name] = file.read()
    return texts


def interface(document, number):
    """An interface with addresses of both kinds, and a neighbour."""
    at = f"{document // 250}.{number % 250}"
    name = f"eth{document}.{number}"
    addresses = [{"ip": f"10.{at}.{last}", "prefix-length": 24} for last in (1, 2)]
    neighbours = [{"ip": f"10.{at}.9", "link-layer-address": f"00:1b:{number % 256:02x}:0a:00:09"}]
    wide = [{"ip": f"2001:db8:{document:x}:{number:x}::1", "prefix-length": 64}]
    return {
        "name": name, "description": f"The link {number} of the device {document}", "type": "iana-if-type:ethernetCsmacd", "enabled": True,
        "ietf-ip:ipv4": {"forwarding": number % 2 == 0, "mtu": 1500, "address": addresses, "neighbor": neighbours},
        "ietf-ip:ipv6": {"mtu": 1500, "address": wide, "autoconf": {"create-global-addresses": False}},
    }


def interfaces(count, size):
    """Documents of interfaces."""
    return documents_of(count, size, lambda entries: {"ietf-interfaces:interfaces": {"interface": entries}}, interface)


# The modules that are made.

def made_module(name, body, imports=""):
    return f'module {name} {{\n  yang-version 1.1;\n  namespace "urn:{name}";\n  prefix {name};\n{imports}{body}}}\n'


def base_module():
    types = "  typedef name { type string { length 1..64; pattern '[a-zA-Z0-9_.-]*'; } }\n"
    types += "  typedef percent { type uint8 { range 0..100; } }\n"
    lists = "".join(f"    list unit{n} {{ key id; leaf id {{ type uint32; }} leaf name {{ type name; }} }}\n" for n in range(LISTS))
    return made_module("base", f"{types}  identity kind;\n  container system {{\n{lists}  }}\n")


COUNTERS = "  grouping counters {\n" + "".join(
    f'    leaf count{n} {{ type uint64; description "Packets of class {n} since the start."; }}\n' for n in range(10)) + "  }\n"
SETTINGS = """\
  grouping settings {
    leaf mode { type enumeration { enum off; enum on; enum auto; } default auto; }
    leaf limit { type base:percent; units percent; }
    leaf label { type base:name; description "A label that an operator gives."; }
    leaf kind { type identityref { base base:kind; } }
    container stats { config false; uses counters; }
  }
"""
RULE = """\
      list rule {
        key seq;
        leaf seq { type uint32; }
        leaf action { type enumeration { enum permit; enum deny; } mandatory true; }
        leaf-list tag { type base:name; }
        container hits { config false; uses counters; }
      }
"""


def function_module(number):
    """A module that adds a container to an entry of each list."""
    first = "      leaf enabled { type boolean; default true; }\n      uses settings;\n"
    inside = f'{first}{RULE}      leaf peer {{ type leafref {{ path "../../base:id"; }} }}\n'
    augments = "".join(
        f"  augment /base:system/base:unit{n} {{\n    container f{number} {{\n{inside}    }}\n  }}\n" for n in range(LISTS))
    own = f"  identity kind{number} {{ base base:kind; }}\n"
    return made_module(f"f{number}", own + COUNTERS + SETTINGS + augments, "  import base { prefix base; }\n")


def made_modules():
    """The texts of the modules that are made: 26,281 nodes."""
    texts = {f"f{number}.yang": function_module(number) for number in range(MADE - 1)}
    return {"base.yang": base_module(), **texts}


def unit(document, number):
    """An entry of a list, with what three modules add to it."""
    def function(own):
        rules = [{"seq": 1, "action": "permit", "tag": ["first", f"of-{document}"]}, {"seq": 2, "action": "deny"}]
        settings = {"mode": "on", "limit": number % 101, "label": f"label-{document}", "kind": f"f{own}:kind{own}"}
        return {"enabled": True, **settings, "rule": rules, "peer": number}
    owners = [(document + 7 * n) % (MADE - 1) for n in range(3)]
    return {"id": number, "name": f"unit-{number}", **{f"f{own}:f{own}": function(own) for own in owners}}


def systems(count, size):
    """Documents of units."""
    def system(entries):
        lists = {f"unit{n}": entries[n::LISTS] for n in range(LISTS)}
        return {"base:system": {name: of_list for name, of_list in lists.items() if of_list}}
    return documents_of(count, size, system, unit)


# All inputs.

MEMORY = f"memory of 2 documents and of {DOCUMENTS + 1}"


def inputs():
    """Many documents of each size: against the published modules, and against those that are made."""
    for size in SIZES:
        name = f"{DOCUMENTS} documents of {size // 1000} KB, five published modules"
        yield ManyDocuments(name, published_modules, lambda size=size: interfaces(DOCUMENTS, size), 0.6, PUBLISHED)
    for size in SIZES:
        name = f"{DOCUMENTS} documents of {size // 1000} KB, {MADE} modules"
        yield ManyDocuments(name, made_modules, lambda size=size: systems(DOCUMENTS, size))


def few_and_many():
    """Two documents and 1,001 of them, which may take the same memory."""
    return [ManyDocuments(f"{count} documents", made_modules, lambda count=count: systems(count, SIZES[1])) for count in (2, DOCUMENTS + 1)]
