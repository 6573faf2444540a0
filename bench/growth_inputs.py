"""Inputs that grow in steps, for the picture and README's table: for each kind what a container holds, and a document, by size.

All is in a container, since yanglint has no tables to search the top level of a document by.
"""
from measuring import compiled, validated


def module_of(body):
    return f'module ex{{yang-version 1.1;namespace "urn:ex";prefix ex;container c{{{body}}}}}'


def list_of(body):
    return "list e{key k;leaf k{type string;}" + body + "}"


def entries(size, entry):
    return {"ex:c": {"e": [entry(number) for number in range(size)]}}


def keyed_entries(size):
    return list_of("leaf v{type int32;}"), entries(size, lambda n: {"k": f"name-of-entry-{n}", "v": n})


def leafrefs_to_keys(size):
    body = list_of('leaf r{type leafref{path "/ex:c/ex:e/ex:k";}}')
    return body, entries(size, lambda n: {"k": f"name-of-entry-{n}", "r": f"name-of-entry-{size - 1 - n}"})


def leafrefs_to_other_leafs(size):
    body = list_of('leaf m{type int32;}leaf r{type leafref{path "/ex:c/ex:e/ex:m";}}')
    return body, entries(size, lambda n: {"k": str(n), "m": n, "r": size - 1 - n})


def entries_without_key(size):
    return "list e{config false;leaf v{type int32;}}", entries(size, lambda n: {"v": n})


def leaf_list_values(size):
    return "leaf-list e{type int32;}", entries(size, lambda n: n)


def leafs(size):
    return "".join(f"leaf l{n}{{type int32;}}" for n in range(size)), None


def identity_chain(size):
    return "}identity i0;" + "".join(f"identity i{n}{{base i{n - 1};}}" for n in range(1, size)) + "container d{", None


def copied_leafs(size):
    """Groupings that each copy the one before twice, up to so many leafs, which is a power of two."""
    times = size.bit_length() - 1
    uses = "".join(f"grouping g{n}{{container a{{uses g{n - 1};}}container b{{uses g{n - 1};}}}}" for n in range(1, times + 1))
    return "grouping g0{leaf l{type int32;}}" + uses + f"uses g{times};", None


INPUTS = {
    "keyed-entries": keyed_entries, "leafrefs-to-keys": leafrefs_to_keys, "leafrefs-to-other-leafs": leafrefs_to_other_leafs,
    "entries-without-key": entries_without_key, "leaf-list-values": leaf_list_values, "leafs": leafs,
    "identity-chain": identity_chain, "copied-leafs": copied_leafs,
}


def input_of(kind, size):
    """The input of this kind and size."""
    body, document = INPUTS[kind](size)
    if document is None:
        return compiled(kind, lambda: module_of(body), "--max-nodes", "1000000")
    return validated(kind, lambda: (module_of(body), document))
