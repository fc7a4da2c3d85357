#!/usr/bin/env python3
"""Spells this repository's own definitions and lemmas as today's Rattle does: words in snake case, where they were in camel case.

usage: tools/respell.py [--check]

Run once, at the top of the repository, after the toolchain's port.py. A name that begins with a small letter and has a capital inside
(readRequest, take-bytesOf) is spelled with underscores (read_request, take-bytes_of) wherever it is a whole word: in definitions, proofs,
clauses, edits, documents and scripts. Names of types, of modules and of Rust's items stay. Where a file has the new
name already, APART says which lemma gives way. --check lists such files and writes nothing."""
import os
import re
import subprocess
import sys

WORD = re.compile(r"(?<![\w\\'′-])[a-z_][\w'′]*(?:-[\w'′]+)*")
# These are words of other languages in scripts and documents, or of a format.
NOT_OURS = re.compile(r"b'.*|x[0-9A-F]{2}")
# Lemmas and fields that a new spelling would meet in a file of these crates: they get the ending _lem.
APART = {
    "given_back": ("address_ledger_laws",),
    "walked_by": ("address_ledger_laws",),
    "list_back": ("cojp_laws",),
    "address_read": ("cojp_laws", "node_call_laws"),
    "map_read": ("cojp_map",),
    "all_valid": ("cojp_rfc9031_laws",),
    "end_read": ("cojp_serial",),
    "end_marked": ("serial_calls",),
    "list_count": ("cojp_write",),
    "has_kept": ("network", "node_laws"),
    "gives_up": ("node_laws",),
    "not_yet": ("node_laws",),
    "placed_by": ("node_laws", "node_history_laws"),
    "key_in": ("network_call_laws",),
    "same_key": ("network_call_laws",),
    "keys_in": ("node_call_laws",),
    "sign_at": ("tool_numerals",),
    "node_at": ("node_image", "capi_judge", "capi_node"),
}


def spelled(word):
    parts = (re.sub(r"([a-z0-9'])([A-Z])", lambda m: m[1] + "_" + m[2].lower(), p) for p in word.split("-"))
    return "-".join(parts)


def own_names(texts):
    """Each name in camel case that a definition or a proof has, with its new spelling."""
    names = {}
    for path, text in texts.items():
        if path.endswith(".antt"):
            for word in WORD.findall(text):
                if re.search(r"[a-z0-9'][A-Z]", word) and not NOT_OURS.fullmatch(word):
                    names[word] = spelled(word)
    return names


def read(path):
    with open(path, encoding="utf-8") as f:
        return f.read()


def main():
    listed = subprocess.run(["git", "ls-files", "-z", "--cached", "--others", "--exclude-standard"], capture_output=True, check=True).stdout
    endings = (".antt", ".rt", ".edit", ".md", "theorems.txt")
    paths = [p for p in listed.decode().split("\0") if p.endswith(endings) and os.path.isfile(p)]
    texts = {p: read(p) for p in paths}
    names = own_names(texts)
    for path, text in texts.items():
        words = set(WORD.findall(text))
        for word in sorted(words & names.keys()):
            if path.endswith(".antt") and names[word] in words:
                print("meets: %s: %s and %s" % (path, word, names[word]))
    if "--check" in sys.argv[1:]:
        return
    known = {names.get(w, w) for p, text in texts.items() if p.endswith(".antt") for w in WORD.findall(text)}

    def of_document(word):
        """An edit or a document may have a name whose definition has its new spelling already."""
        return spelled(word) if re.search(r"[a-z0-9'][A-Z]", word) and spelled(word) in known else word

    for path, text in texts.items():
        crate = path.split("/")[1] if path.startswith("crates/") and path.endswith(".antt") else None
        apart = {word: word + "_lem" for word, crates in APART.items() if crate in crates}
        of_code = path.endswith((".antt", ".rt"))
        new = WORD.sub(lambda m: names.get(m[0]) or apart.get(m[0]) or (m[0] if of_code else of_document(m[0])), text)
        if new != text:
            with open(path, "w", encoding="utf-8") as f:
                f.write(new)
    print("%d names" % len(names))


if __name__ == "__main__":
    main()
