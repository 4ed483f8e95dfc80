#!/usr/bin/env python3
"""The definitions that the claims rest on, as a page to read: TRUSTED.md.

`scripts/trusted.py` writes docs/TRUSTED.md. It takes the clauses that are listed below from the sources, finds each definition in `*/specs` that
they cite, each that those cite, and so on, and quotes them, lowest first. `scripts/trusted.py --check` compares that page, and the sentence of
README.md that counts the definitions, with what the sources say now. It exits with 1, and says what to do, where they differ, where a part
below lacks a definition, or where one stands before one that it cites. The last line is 'N passed, M failed'.
"""

import collections
import os
import re
import sys
import textwrap

sys.dont_write_bytecode = True
from specs import MODULES, TOP, block, cited, closure, find, imports, indent, is_comment, lines_of

PAGE = f"{TOP}/docs/TRUSTED.md"

# A clause is a caption, a file, the line that its item begins with, and `ensures NAME`, `ensures` or `ghost NAME`, or None for a whole trait.
# Of a clause `ensures: RECORD.FIELD`, which says a record of many fields, that field alone counts.
CLAIMS = [
    ("Claim 1, from a reader to a writer", "age_protocol/src/whole.rt", "pub fn encrypt_all", ["ensures file"]),
    ("Claim 2", "age_protocol/src/opening.rt", "pub fn answers", ["ensures cursor"]),
    ("Claim 3, from a reader to a writer", "age_protocol/src/whole.rt", "pub fn decrypt_all", ["ensures: DecryptsAll.file"]),
    ("Claim 3, of a slice", "age_protocol/src/simple.rt", "pub fn decrypt", ["ensures success"]),
    ("What a clause sees of random bytes", "age_suite/src/draw.rt", "impl Model for Draw", ["ghost view"]),
    ("Of grease", "age_format/src/grease.rt", "impl Model for Grease", ["ghost view"]),
]
OWN_WRITES = [
    ("Claim 1, by writes of one's own", "age_protocol/src/encryptor.rt", "    pub fn wrap_output", ["ensures file"]),
    ("What it sees of an encryptor", "age_protocol/src/encryptor.rt", "impl<S> Model for Encryptor", ["ghost view"]),
    ("The writer that it gives tells its bytes where the output does",
     "age_stream/src/writing.rt", "impl<S: Suite, W: Write> Write for StreamWriter", ["ghost tells"]),
    ("Its end", "age_stream/src/writer.rt", "    pub fn finish", ["ensures ok"]),
]
READ = [f"ghost {name}" for name in "tells steady content place rest faults refuses".split()]
WRITE = [f"ghost {name}" for name in "tells faults refuses appended".split()]
TRAITS = [
    ("A reader", "age_io/src/traits.rt", "pub trait Read", None),
    ("One that seeks (`Failure` is `Error`, and `Target` is `SeekFrom`)", "age_io/src/seeking.rt", "pub trait Seek", None),
    ("A writer", "age_io/src/traits.rt", "pub trait Write", None),
    ("A slice as a reader", "age_io/src/memory.rt", "impl<'a> Read for Bytes<'a>", READ),
    ("A list as a writer", "age_io/src/memory.rt", "impl Write for Vec<u8>", WRITE),
    ("A suite", "age_suite/src/suite.rt", "pub trait Suite", None),
    ("A recipient", "age_format/src/recipient.rt", "pub trait Recipient", None),
    ("An identity", "age_format/src/identity.rt", "pub trait Identity", None),
    ("What a clause sees of a file key", "age_suite/src/secrecy.rt", "impl Model for FileKey", ["ghost view"]),
    ("Of a stanza", "age_format/src/stanza.rt", "impl Model for Stanza", ["ghost view"]),
]
RECIPIENT, IDENTITY = "impl<S: Suite> age_format::Recipient for Recipient", "impl<S: Suite> age_format::Identity for Identity"
KEYS = [
    ("A recipient of X25519", "age_keys/src/x25519/recipient.rt", RECIPIENT, ["ghost wraps"]),
    ("What it sees of it: its public key", "age_keys/src/x25519/recipient.rt", "impl<S> Model for Recipient", ["ghost view"]),
    ("An identity of X25519", "age_keys/src/x25519/identity.rt", IDENTITY, ["ghost unwraps"]),
    ("What it sees of it: its secret", "age_keys/src/x25519/identity.rt", "impl<S> Model for Identity", ["ghost view"]),
    ("A recipient of a passphrase", "age_keys/src/scrypt/recipient.rt", RECIPIENT, ["ghost wraps"]),
    ("What it sees of it", "age_keys/src/scrypt/recipient.rt", "impl<S> Model for Recipient", ["ghost view"]),
    ("An identity of a passphrase", "age_keys/src/scrypt/identity.rt", IDENTITY, ["ghost unwraps"]),
    ("What it sees of it", "age_keys/src/scrypt/identity.rt", "impl<S> Model for Identity", ["ghost view"]),
]
STANDARD = [
    ("The suite of the standard", "age_standard/src/suite.rt", "impl Suite for StandardSuite",
     [f"ghost {name}" for name in "seal_of opened shared_of public_of stretch_of accepts".split()]),
]

# The page's parts: title, what it is, its clauses, and its sections: title, and the specs of whose definitions those that the clauses need come
# there: `crate/File`, or some of them by name.
PARTS = [
    ("For any suite", "What the three claims rest on, whatever cipher, recipients, identities, readers and writers are handed in.", CLAIMS, [
        ("Bytes, lines and base64", ["age_error/Bytes", "age_base64/Lines", "age_base64/Base64"]),
        ("Recipient stanza", ["age_v1/Stanza"]),
        ("Header", ["age_v1/Header"]),
        ("Header MAC", ["hmac_sha256/Hmac", "hmac_sha256/Hkdf", "age_v1/HeaderMac"]),
        ("Payload", ["age_v1/Payload"]),
        ("Encrypted file format", ["age_v1/File"]),
        ("ASCII armor", ["age_v1/Armor"]),
        ("Refusals", ["age_error/ResolveErrors", "age_error/DecryptErrors", "age_error/EncryptErrors",
                      "age_error/FileErrors"]),
        ("What recipients come to", ["age_suite/Draw", "age_v1/Recipients", "age_v1/Encrypting"]),
        ("What identities come to", ["age_v1/Identities"]),
        ("A cursor on a plaintext", ["age_io/Cursor", "age_io/Replies"]),
        ("Whole files", ["age_io/Stretch", "age_v1/Claims"]),
    ]),
    ("What a suite, a reader and a writer are", "The claims speak of a reader's `rest` and a writer's `appended`, of a suite's `seal_of`, of a "
     "recipient's `wraps` and an identity's `unwraps`. These are members of traits. An implementation says what its members are, and is proved to "
     "meet the clauses of the trait; slices (`Bytes`) and lists of bytes (`Vec<u8>`) are the readers and writers that everyone has.", TRAITS, [
         ("What one call does", ["age_error/Refusals", "age_io/Stretch", "age_io/Reading", "age_io/Cursor", "age_io/Writing", "age_io/Slices"]),
         ("The laws of a suite", ["age_suite/Suite"]),
         ("Answers, apart from where they lie in memory",
          ["age_error/Labels", "age_error/EncryptErrors", "age_format/Wrapping", "age_format/Unwrapping"]),
     ]),
    ("A file by writes of one's own", "What `encrypt_all` claims holds of a file too that is written through `Encryptor::wrap_output`, by writes of "
     "any number.", OWN_WRITES, [
         ("The writer", ["age_stream/Writing", "age_protocol/Starting"]),
     ]),
    ("With native keys", "What the recipients and identities of X25519 and of passphrases answer, for any suite.", KEYS, [
        ("Both", ["age_v1/Identities", "age_v1/RecipientType"]),
        ("X25519", ["age_v1/X25519"]),
        ("Passphrases", ["age_v1/Scrypt"]),
    ]),
    ("With the primitives of the standard", "What the members of `StandardSuite` are.", STANDARD, [
        ("ChaCha20 (RFC 8439)", ["chacha20/Rounds", "chacha20/Block", "chacha20/Encryption"]),
        ("Poly1305 and the AEAD (RFC 8439)", ["poly1305/Mac", "chacha20poly1305/Aead"]),
        ("X25519 (RFC 7748)", ["curve25519/Field", "curve25519/Encoding", "curve25519/X25519"]),
        ("scrypt (RFC 7914, RFC 8018)", ["scrypt/Encoding", "scrypt/Salsa", "scrypt/BlockMix", "scrypt/RomMix", "scrypt/Pbkdf2", "scrypt/Scrypt"]),
    ]),
]

INTRODUCTION = """# What a reader trusts

A proof shows that the code does what its clauses say. Whether the clauses say what is meant, a reader has to judge. For that the reader needs the
clauses, the definitions that they cite, those that these cite, and so on. This page quotes all that the three claims of README need, and nothing else,
with their comments; each definition stands above those that cite it. The clauses stand at the end of each part. What can't be quoted is named at the
end of the page.

- The format stands in [age_v1](../crates/age_v1/specs/Lib.antt), a crate of definitions without functions: a file for each section of the standard,
  which `Lib.antt` lists in the standard's order (`Stanza` to `Scrypt`). Between them `Recipients` to `RecipientType` say what recipients and
  identities do; at the end `Claims` has what a success of the calls says.
- HMAC, HKDF and base64 stand in `hmac_sha256` and `age_base64`.
- Errors stand in `age_error`, readers and writers in `age_io`, random bytes in `age_suite`.

For these claims the other definitions of `*/specs`, and all of `*/proofs`, are steps of proofs, which the prover checks and nobody has to read.

`scripts/trusted.py` makes this page from the sources, and the gate compares. Lines are counted without blank ones, and the clauses aren't counted.

| Part | definitions | files | crates | lines of code | with comments |
|---|---|---|---|---|---|
{rows}
{whole}

**How to read a definition.** After its name and `:` stands its type, then its equations. `abbrev`, `unfoldable` and `pub` say who may look
inside; they don't matter here. `module _ (x : A) where` says that each definition below it takes this `x` first. In a comment, what the standard asks stands
after `standard:`, in our words.

| | |
|---|---|
| `ℕ`, `ℤ`, `Bool`; `List ℕ` | numbers from 0 on, integers, true or false; a list of numbers, as bytes are. No sum wraps |
| `A → B`, in a type | a function from A to B. With `Type 0` at its end it is a fact about these arguments, which holds or not |
| `Name : Type 0` | without arguments: a type, as `Seal` and `StanzaValue` are |
| `{{A : Type 0}}` | for any type A, which isn't written where the name is used |
| `P → Q`, `P × Q`, `P ⊎ Q` | if P then Q; P and Q; P or Q |
| `(x : A) → P`, `(x : A) × P` | P for each x; P for some x |
| `x ≡ y`, `x ≢ y`, `⊥`, `⊤` or `Unit {{0}}` | equal, not equal, never, always |
| `record`, `data` | all of these fields; one of these forms. A record of facts holds where each of them does |
| `[]`, `x ∷ xs`, `xs ++ ys`, `codes "ab"` | the empty list, x before a list, two lists joined, the bytes of a text |
| `λ x. y`, `let x = y in z` | the y of an x; z, where x is y |
| `zero`, `suc n`; `pos k`, `negsuc k` | 0, n + 1; the integers k and -(k + 1) |
| `m - n`, `m / n`, `m % n` | 0 where n is the larger; the whole quotient and its rest |
| `take n xs`, `drop n xs`, `replicate n x`, `flat_map f xs` | the first n items; all after them; n times x; the lists `f x` of each x, joined |
| `sha256 xs`; `encode symbols 61 padded xs` | SHA-256; base64 in these symbols, 61 for `=`, with padding if `padded` is true |
| `bytes_high_first n i`, `join_with_byte 32 xs` | the number i in n bytes, big-endian; the lists, joined with one byte 32 between two |
| `All P xs`, `AllByRecursion P xs` | P of each item |
| `AllZip P xs ys` | both lists have as many items, and P holds of each pair at one place |
| `IsTrue b`; `nat_le`, `nat_lt`, `nat_eq`, `bytes_eq`, `list_all`, `list_any` | b is true; tests that are true or false: at most, below, equal, equal bytes, each item passes, some item does |
| `Some x`, `None`; `Ok x`, `Err e` | a value or none; a value or a refusal |
| `IfOk r P`, `OnOk r P` | if r is `Ok x`, then `P x`; if r is an `Ok`, then `P`. So `IfErr`, `OnErr` of `Err e` |
| `MatchResult r P Q`, `MatchOption o P Q` | P of x where r is `Ok x`, Q of e where it is `Err e`; P where o is `None`, Q of x where it is `Some x` |
| `x.old`, `x.new`; `x.now`; `result` | in a clause: what a `&mut` points to before and after the call; what a `&` points to; what the call answers |
| `S.seal_of`, `⟦<S as Suite>⟧` | the member `seal_of` of a type, and all members that it has by this trait |
| `draw.old`, `grease`, `self` | if the type has a `ghost view` (quoted with the clauses), that view. Grease is a stanza that means nothing |
"""

# What the claims say, in words: before all of them, and before the one of this caption.
IN_WORDS = {
    "": "A reader's `rest` is what it can still deliver, and `ends_well` says that a clean end follows. A writer's "
        "`appended`: which bytes went out between two of its states. `tells`: whether these say anything of the bytes; those of a real file or pipe don't, "
        "and so the claims say nothing of it. `steady`: a place has the same bytes however one came there. `faults`: how often the device failed. Part 2 "
        "has them all.",
    "Claim 1, from a reader to a writer":
        "If the reader and the writer tell their bytes, `Ok` says: the input ended well, and exactly the file of all that was left of it was appended, bare "
        "or in armor. Its file key, stanzas and nonce are what recipients, grease and random bytes come to (`Prepares`).",
    "Claim 2":
        "It is of a reader that tells its bytes, is steady and ends well, of a type that never fails, as a slice is. Its bytes carry a file for the "
        "identities (`IsFileFor`): to the file's stanzas they can answer nothing but its file key or want of memory, the plaintext has at most 2^60 bytes, and "
        "a full last chunk doesn't open as a middle one too. Then `Ok` says: a cursor on the plaintext would answer the same, where a read reads until it has "
        "what was asked, or to the end. Where one answer is want of memory, nothing is said of any. `Err` is want of memory. Of damaged files the claim says "
        "nothing.",
    "Claim 3, from a reader to a writer":
        "If both tell their bytes and the reader is steady, `Ok` says: the input ended well, all that was left of it carried a file, and exactly that file's "
        "plaintext was appended. Its file key is the answer of the first identity that answered. The input may be any bytes.",
}

REST = """## What else is trusted

- The kit: that its compiler and prover mean by these words what its guides say ([README](../README.md#what-is-proved), "Trusted").
- The types of the code that definitions speak of, as they are declared:
{own}
- The words of the standard library and of two ported crates, as the kit defines them. Those of `sha2` and `base64` are SHA-256 (FIPS 180-4), and
  base64 (RFC 4648) with the symbols that are handed in, 61 for `=`, with padding or without:
{others}

Not trusted, though the claims go through them: the other members of `StreamWriter`, those of `StreamReader`, `ArmoredReader`, `ArmoredWriter` and
`BufReader`, which are proved to meet the clauses of part 2, and the invariants of structs, which are proved of each value that the code makes.
"""


def balanced(lines, start):
    """The lines from one on until each brace that it opens is closed."""
    end = start + 1
    while "".join(lines[start:end]).count("{") > "".join(lines[start:end]).count("}"):
        end += 1
    return lines[start:end]


def field_of(record, name):
    """The head of a record, and one field of it with its comment."""
    lines = record.text
    head = [at for at, line in enumerate(lines) if line.startswith("pub record ") or line.endswith(" where")]
    first = last = next(at for at, line in enumerate(lines) if line.strip().startswith(f"pub {name} :"))
    while is_comment(lines[first - 1]):
        first -= 1
    while last + 1 < len(lines) and indent(lines[last + 1]) > indent(lines[first]):
        last += 1
    return lines[head[0]:head[1] + 1] + lines[first:last + 1]


def clauses_of(path, item, wanted):
    """The text of an item's clauses, or of a whole trait, and what these cite."""
    lines, uses, aliases = lines_of(f"crates/{path}"), {}, {}
    for line in lines:
        if line.lstrip().startswith("ghost use "):
            imports(line.strip(), uses, aliases)
    starts = [at for at, line in enumerate(lines) if re.match(rf"{re.escape(item)}(?!\w)", line)]
    if len(starts) != 1:
        sys.exit(f"`{item.strip()}` begins {len(starts)} lines of crates/{path}: name the clauses anew in scripts/trusted.py\n0 passed, 1 failed")
    start, depth = starts[0], indent(item)
    end = next(at for at in range(start, len(lines)) if lines[at] in (" " * depth + "}", " " * depth + "{"))
    if wanted is None:
        text = first = lines[start:end + 1]
        while lines[start - 1].startswith("///"):
            start -= 1
            first = [lines[start], *first]
        return first, set(cited("\n".join(line for line in text if "//" not in line), uses, aliases))
    is_call = lines[end].strip() == "{"
    head = next(at for at in range(start, end + 1) if re.match(r"(ensures|requires|where|ghost|\})\b", lines[at].strip()) or at == end)
    text, names = lines[start:head], set()
    if depth:
        text = [next(line for line in reversed(lines[:start]) if line and not indent(line)), "    ..", *text]
    for clause in wanted:
        word, _, field = clause.partition(": ")
        found = [at for at in range(start, end) if re.match(rf"{word} ?[={{]", lines[at].strip())]
        if len(found) != 1:
            sys.exit(f"`{item.strip()}` of crates/{path} has {len(found)} clauses `{word}`: name it anew in scripts/trusted.py\n0 passed, 1 failed")
        more = balanced(lines, found[0])
        text += more
        names |= set(cited("\n".join(more), uses, aliases))
        if field:
            record = find(*uses[field.split(".")[0]])
            more = field_of(record, field.split(".")[1])
            text += ["", f"-- {record.module.path}, of a record of several fields this one:", *more]
            names |= {(where or record.module.name, name) for where, name in cited("\n".join(more), record.module.uses, record.module.aliases)}
            names.discard(uses[record.name])
    return text + ([] if is_call else ["}"]), names


def lines_in(text):
    return sum(1 for line in text if line.strip())


def wrapped(text, more=""):
    return textwrap.wrap(text, 148, subsequent_indent=more, break_long_words=False, break_on_hyphens=False)


def told(definitions):
    """How many definitions these are, and how many lines."""
    places, crates = {made.module.path for made in definitions}, {made.module.path.split("/")[1] for made in definitions}
    code, lines = sum(len(made.code) for made in definitions), sum(lines_in(made.text) for made in definitions)
    return len(definitions), len(places), len(crates), code, lines


def part(number, title, what, clauses, sections, seen, outside, faults):
    """One part of the page: its text and its definitions, in the order in which they stand there."""
    quoted = [(caption, path, *clauses_of(path, item, wanted)) for caption, path, item, wanted in clauses]
    left = set(closure(set().union(*(names for *_, names in quoted)), seen, outside))
    text, made = [f"## {number}. {title}", "", *wrapped(what), ""], []
    for section, places in sections:
        text += [f"### {section}", ""]
        for place in places:
            module = MODULES.get(place.replace("/", ".specs.", 1))
            here = sorted((it for it in left if it.module is module), key=lambda it: it.first)
            if not here:
                faults.append(f"part {number} needs nothing of {place}: take it out of PARTS in scripts/trusted.py")
                continue
            left -= set(here)
            made += here
            each = ", ".join(f"`{it.name}` {lines_in(it.text)}" for it in here)
            text += [*wrapped(f"[{module.path[len('crates/'):]}](../{module.path}), lines of each: {each}."), "", "```text", *block(here), "```", ""]
    faults += [f"{it.module.path}: `{it.name}` is needed by part {number}: name its file in PARTS in scripts/trusted.py" for it in left]
    text += ["### The claims", "", *wrapped(IN_WORDS[""]), ""] if number == 1 else ["### The clauses", ""]
    for caption, path, clause, _ in quoted:
        text += wrapped(f"**{caption}** ([{path}](../crates/{path})). {IN_WORDS[caption]}" if caption in IN_WORDS else f"**{caption}** ([{path}](../crates/{path})):")
        text += ["", "```text", *clause, "```", ""]
    return text, made


def listed(names):
    return ", ".join(f"`{name}`" for name in sorted(names))


def rest(outside, faults):
    """What is cited that no file of `*/specs` defines: types of the code, and names of the standard library and of other crates."""
    types, others = collections.defaultdict(set), collections.defaultdict(set)
    for where, name in outside:
        crate, _, below = where.partition(".specs.declared.")
        if not os.path.isdir(f"{TOP}/crates/{crate.split('.')[0]}"):
            others[where].add(name)
        elif below:
            types[f"{crate}/src/{below.split('.')[0]}.rt"].add(below.split(".")[1])
        else:
            faults.append(f"`{name}` of {where} isn't found: cite it where it is defined")
    own = [f"  - [{path}](../crates/{path}): {listed(names)}" for path, names in sorted(types.items())]
    return own, [line for where, names in sorted(others.items()) for line in wrapped(f"  - `{where}`: {listed(names)}", "    ")]


def page():
    """The page, the sentence for README.md, how many definitions and clauses were found, and what is wrong."""
    seen, outside, faults, parts, made, rows = set(), set(), [], [], [], []
    for number, (title, what, clauses, sections) in enumerate(PARTS, 1):
        text, new = part(number, title, what, clauses, sections, seen, outside, faults)
        parts += text
        made += new
        rows.append("| {}. {} | {} | {} | {} | {} | {} |".format(number, title, *told(new)))
        if number == 1:
            first = told(new)
    place = {it: at for at, it in enumerate(made)}
    for it in made:
        for other in {find(*name) for name in it.cites()} - {it}:
            if place.get(other, -1) > place[it]:
                faults.append(f"{it.module.path}: `{it.name}` stands before `{other.name}`, which it cites: change PARTS in scripts/trusted.py")
    whole = told(made)
    sentence = (f"The claims rest on {first[0]} definitions ({first[3]} lines), for any cipher and keys; with the keys and primitives of the standard on "
                f"{whole[0]} ({whole[3]} lines): [TRUSTED](docs/TRUSTED.md) quotes these, and the clauses.")
    own, others = rest(outside, faults)
    head = INTRODUCTION.format(rows="\n".join(rows), whole="| **all** | {} | {} | {} | {} | {} |".format(*whole))
    text = [head, *parts, REST.format(own="\n".join(own), others="\n".join(others))]
    return "\n".join(text), sentence, len(made) + sum(len(clauses) for _, _, clauses, _ in PARTS), faults


def words(text):
    return " ".join(text.split())


def main():
    text, sentence, looked, faults = page()
    if sys.argv[1:] == ["--check"]:
        with open(PAGE, encoding="utf-8") as it:
            if it.read() != text:
                faults.append("docs/TRUSTED.md isn't what the sources say now: run scripts/trusted.py, and read what changed (git diff docs/TRUSTED.md)")
    elif not sys.argv[1:]:
        with open(PAGE, "w", encoding="utf-8") as it:
            it.write(text)
    else:
        print("scripts/trusted.py [--check]", file=sys.stderr)
        return 2
    with open(f"{TOP}/README.md", encoding="utf-8") as it:
        if words(sentence) not in words(it.read()):
            faults.append("README.md doesn't say so: its section on the three claims has to have the sentence above")
    print(sentence)
    for fault in faults:
        print(fault)
    print(f"{looked} passed, {len(faults)} failed")
    return 1 if faults else 0


sys.exit(main())
