#!/usr/bin/env python3
"""Brings the names of specs/ and proofs/ to snake case, in every file of crates/: definitions, lemmas, fields, constructors and bound names.
Run once, at the top, behind the port of the spelling. Types and modules are in camel case already; names of src/, of the library and of
generated modules stay. Without --write it prints what it would do, and the names that would fall together in a file."""
import collections
import glob
import re
import sys

TOKEN = re.compile(r"[^\s(){}.,;:«»\[\]`\"\\∷]+")
SIGNATURE = re.compile(r"^\s*(?:(?:abbrev|unfoldable|pub|data|record|mutual|\||where)\s+)*([^\s:(){}.,;|]+(?: [^\s:(){}.,;|]+)*)\s+:\s")
BINDER = re.compile(r"[({]([^(){}:,]+?) : ")
LAMBDA = re.compile(r"λ ([^.(){}]+)\.")
USE = re.compile(r"\buse ([^\s{;]+?)(?:\.\{([^}]*)\})?(?: as (\S+?))?;?$", re.M)

# Names that fall together with another one of the same file, or that snake case alone does not give.
OTHERWISE = {
    # a definition after a function of lstrlib.c, and the item that it is about
    "startCapture": "do_start_capture", "endCapture": "do_end_capture", "backReference": "do_back_reference",
    "flags-getD": "flags_get_or", "Upwards-from": "UpwardsFrom", "lua53andLuau": "lua53_and_luau", "withFF": "with_ff",
    "endsIn14Columns": "ends_in_14_columns",
}

# A lemma that would have the name of the definition that it is about.
LEMMAS = """after-close after-utf8 byte-at class-of closed-as decimal-escape escape-as fixed-string frontier-by get-format good-modifiers held-as
    ill-formed is-short item-reversed kept-alignment kept-turn line-numbers other-escape plain-read read-escape read-frontier repeat-width scan-format
    scan-precision scan-width set-as set-by start-of""".split()
OTHERWISE.update({name: name.replace("-", "_") + "_lem" for name in LEMMAS})

# The same of names that are in snake case already, by file.
IN_FILE = {
    "lstr_gsub/proofs/Writings.antt": {"all_closed": "all_closed_lem"}, "luck_pattern/proofs/Flags.antt": {"all_closed": "all_closed_lem"},
    "lstr_class/proofs/Classes.antt": {"by_bits": "by_bits_lem", "by_mask": "by_mask_lem"}, "lstr_item/proofs/Reading.antt": {"read_set": "read_set_lem"},
    "luck_pack/proofs/Packs.antt": {"kept_next": "kept_next_lem"}, "luck_pattern/proofs/Places.antt": {"walk_from": "walk_from_lem"},
    "luck_line/proofs/Heads.antt": {"too_long": "too_long_lem"}, "luck_lines/proofs/Listings.antt": {"too_long": "too_long_lem"},
    "luck_replacement/proofs/Replacements.antt": {"is_digit": "is_a_digit"},
}


def snake(name):
    if name in OTHERWISE:
        return OTHERWISE[name]
    if name[0].isupper():
        return name
    name = re.sub(r"(?<=[a-z0-9])(?=[A-Z])", "_", name)
    return name.lower().replace("-", "_") if re.search("[A-Z]", name) or "-" in name else name


def antt():
    return sorted(p for p in glob.glob("crates/*/specs/**/*.antt", recursive=True) + glob.glob("crates/*/proofs/**/*.antt", recursive=True))


def generated(line):
    return re.search(r" : tie\.", line)


def defined():
    """The names that our files define or bind, and the fields among them."""
    names, fields = set(), set()
    for path in antt():
        for line in open(path, encoding="utf-8"):
            if generated(line):
                continue
            m = SIGNATURE.match(line)
            if m:
                for name in m.group(1).split():
                    names.add(name)
                    if line.startswith(" "):
                        fields.add(name)
            for m in BINDER.finditer(line):
                names.update(m.group(1).split())
            for m in LAMBDA.finditer(line):
                names.update(m.group(1).split())
            m = re.match(r"^\s+([^\s:(){}.,;]+(?: [^\s:(){}.,;=]+)*) = ", line)
            if m:
                names.add(m.group(1).split()[0])
            for m in re.finditer(r" as ([^\s{},;]+)[,}]", line):
                names.add(m.group(1))
            for m in re.finditer(r"\blet ([^\s:(){}.,;]+) ", line):
                names.add(m.group(1))
    for path in glob.glob("crates/*/src/**/*.rt", recursive=True):
        for line in re.findall(r"^ghost use .*$", open(path, encoding="utf-8").read(), re.M):
            names.update(re.findall(r" as ([^\s{},;]+)[,}]", line))
    return names, fields


def own(path):
    return path.startswith("Rattle.luck") or path.startswith("Rattle.lstr") or path.startswith("Rattle.stored") or re.match(r"Rattle\.(bodies|vectors|starred)\b", path)


def foreign(text):
    """What a file takes from elsewhere, which keeps its spelling."""
    names = set()
    for m in USE.finditer(re.sub(r"\{\s*\n|,\s*\n", lambda k: k.group(0).replace("\n", " "), text)):
        if m.group(2) and (not own(m.group(1)) or ".proofs." in m.group(1) and re.search(r"\.(Tie|Goals|Given|Statement)$", m.group(1))):
            for item in m.group(2).split(","):
                names.update(x.strip() for x in item.split(" as ")[:1])
    return names


def renamed(text, names, fields, kept):
    out, last, aliases = [], 0, {m.group(3) for m in USE.finditer(text) if m.group(3) and own(m.group(1))}
    for m in TOKEN.finditer(text):
        word, start = m.group(0), m.start()
        if word in kept or word not in names:
            continue
        to = snake(word)
        if to == word:
            continue
        if start and text[start - 1] == ".":
            before = re.search(r"([^\s(){},;.\[\]]+)\.$", text[:start][-80:])
            if not (before and (before.group(1)[0].isupper() or before.group(1) in aliases)) and word not in fields:
                continue
        out.append(text[last:start] + to)
        last = m.end()
    return "".join(out) + text[last:]


def choices(text):
    """`if .. then .. else ..` is a word of the library today, so that of luck_text, which is opaque, is `when .. then .. else ..`."""
    out = []
    for line in text.split("\n"):
        cut = re.search(r"(^|\s)--(\s|$)", line)
        code, comment = (line[: cut.start()], line[cut.start() :]) if cut else (line, "")
        code = re.sub(r"(?<![\w'.-])if(?![\w'-])", "when", code)
        out.append((code + comment).replace("if◌then◌else◌", "when◌then◌else◌"))
    return "\n".join(out)


def main():
    write = "--write" in sys.argv
    names, fields = defined()
    falls = collections.defaultdict(set)
    for path in antt() + sorted(glob.glob("crates/*/src/**/*.rt", recursive=True)) + sorted(glob.glob("crates/*/must-fail/*.edit")):
        text = old = open(path, encoding="utf-8").read()
        for word, to in IN_FILE.get(path[7:], {}).items():
            text = re.sub(r"(?<![\w.-])%s(?![\w-])" % word, to, text)
        kept = foreign(text)
        before = set(TOKEN.findall(text))
        to = collections.defaultdict(set)
        for word in before:
            to[snake(word) if word in names and word not in kept else word].add(word)
        for name, words in to.items():
            if len(words) > 1:
                falls[tuple(sorted(words))].add(path)
        if path.endswith(".rt"):
            lines = text.split("\n")
            new = "\n".join(renamed(l, names, fields, kept) if re.search(r"ghost use|requires|ensures|ghost", l) or re.search(r"[≡→≤×λ]", l) or re.match(r"        \(.*[a-z][A-Z]|        [a-zA-Z]+ \(.*[a-z][A-Z]", l) else l for l in lines)
        else:
            new = renamed(text, names, fields, kept)
        if path.endswith(".antt"):
            new = choices(new)
        elif path.endswith(".edit") and ".antt" in text:
            new = "\n".join(l if l.startswith("#") else choices(l) for l in new.split("\n"))
        if write and new != old:
            open(path, "w", encoding="utf-8").write(new)
    for words, paths in sorted(falls.items()):
        print("falls together:", *words, "in", *sorted(p[7:] for p in paths)[:6])


main()
