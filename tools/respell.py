#!/usr/bin/env python3
"""Turns the repository's own names of the logic to the spelling of CONTRACT_STYLE.md, "Names".

    respell.py [--write] [--table FILE] [--hyphens one|none] [--docs] [--also DIR] [--list]

Run it once at the top of the repository, after port.py, with everything committed.

    (no flag)        prints the table of renames and what needs a decision; nothing is changed
    --write          changes the files
    --table FILE     writes the table too, as lines 'old<TAB>new<TAB>kind<TAB>where it is declared'
    --hyphens none   a hyphen of an own name always becomes '_' (default: 'one', below)
    --docs           turns names in backticks in README.md and docs/*.md too, those that port.py turned
                     in code among them (it lists them in port-said/upgrade.txt of the folder for temporary files)
    --also DIR       turns the files DIR/CRATE/F/*.antt too, as if they stood in crates/CRATE/proofs/F
                     (answers by hand that convert.py --hand DIR takes)
    --list           prints every rename (else only counts and decisions)

What it turns: definitions, lemmas, constructors, fields of records and local names of specs/ and
proofs/, the same names in the `ghost use` lines, clauses and ghost items of src/*.rt, in the
`using(..)` and `unfolding(..)` of an attribute, in the 'old:' and 'new:' texts of must-fail edits,
and in backticks in comments. `rowVec` -> `row_vec`, `reads-down` -> `reads_down`,
`atMost-padded` -> `at_most-padded`, `getD-from` -> `get_or-from`.

What it leaves: names of types, facts and modules (upper camel case already), every name that is
imported from a library, names that Rattle makes (goals, steps and `tie.` names in proofs/F/),
and all code: functions, parameters, locals, types, strings, test data.

Hyphens: a lemma keeps one hyphen where it is named by the left side of its equation: what stands
before the hyphen is the outer call of that left side, and what stands behind is a name in it.
A fact keeps its capital, and a hyphen behind it. Every other hyphen becomes '_'.

Names that would fall together: for each file the tool looks whether a new name is already there,
as another own name, a local one, a library's, a reserved word, or, in a clause, a parameter or a
field of the code. A lemma that would get its function's name gets `_lem`, as the style says. The
others are in EXCEPTIONS below, each with its reason; one that is in neither is printed as
DECIDE, is left as it is, and the tool ends with status 1.
"""
import bisect
import collections
import glob
import json
import os
import re
import sys
import tempfile

# old name -> new name, where the rule would make two names one (or a name that is taken)
EXCEPTIONS = {
    # constructors of meaning/proofs/Doors.antt, beside the definitions wrongNumbers and wrongStart
    "wrong-numbers": "numbers_wrong",
    "wrong_start": "start_wrong",
    # a field of classes/specs/Classes.antt, beside a lemma of classes/proofs/Children.antt
    "stepSmall": "steps_small",
}
# file -> old -> new: names that mean this only in that file
IN_FILE = {
    # the paper's campaigns: values, so no capitals
    "crates/meaning/proofs/Cases.antt": {"A": "campaign_a", "B": "campaign_b", "C": "campaign_c", "D": "campaign_d"},
}
# names that the rule does not reach (they end in an arrow, or port.py has turned half of them), last of all and to the letter
FINALLY = {"eqZ→": "eq_z→", "eqState→": "eq_state→", "get_d_map": "get_or_map"}
# what port.py said
SAID = os.path.join(tempfile.gettempdir(), "port-said", "upgrade.txt")
# a part of a name that is the older spelling of a library's word
PARTS = {"getD": "get_or", "toZ": "to_z", "ofZ": "of_z"}
RESERVED = set(
    """abbrev absurd as assumption axiom by cc data elim else end enum export first_of fn for from ghost grind ground hlevel if impl in infix infixl infixr
    let loop match module mutual mut new_type old omega open postulate prefix pub record refl result return rw ruleset search self simp struct syntax then trait tt
    type unfoldable unfolding unsafe use where while with crate super const static move ref dyn async await box""".split()
) - {"refl", "from", "old", "end"}
LOCAL = re.compile(r"[^\s(){}\[\],;.:\"]+")
NAME = r"[^\s(){}\[\],;.:\"=≡→λ]+"
SIG = re.compile(rf"^(\s*)((?:pub |abbrev |unfoldable )*)({NAME}(?: {NAME})*) :(?= |$)(.*)")


def blank_comments(text):
    """Blanks comments, so that offsets stay."""
    return re.sub(r"(?m)(?<![^\s(){}\[\],;.])--(?: .*|$)|^--.*$", lambda it: " " * len(it[0]), text)


def blank_strings(text):
    return re.sub(r'"(?:[^"\\\n]|\\.)*"', lambda it: " " * len(it[0]), text)


def alike(word):
    return re.sub(r"[-_']", "", word).lower()


def snake(part):
    """atMost -> at_most, eqZ -> eq_z, problemA -> problem_a; a part that begins with a capital is a type's."""
    tail = re.search(r"[^\w']*$", part)[0]
    core = part[: len(part) - len(tail)] if tail else part
    if core in PARTS:
        return PARTS[core] + tail
    if not re.match(r"[a-z]", core):
        return part
    core = re.sub(r"(?<=[a-z0-9])([A-Z]+)(?=[A-Z][a-z])", lambda it: "_" + it[1].lower() + "_", core)
    core = re.sub(r"(?<=[A-Za-z0-9_])([A-Z])", lambda it: "_" + it[1].lower(), core)
    return re.sub(r"__+", "_", core).lower() + tail


class Antt:
    """A file of specs/ or proofs/."""

    def __init__(self, path, crates, real=None):
        self.path, self.real = path, real or path
        with open(self.real, encoding="utf-8") as it:
            self.text = it.read()
        self.bare = blank_strings(blank_comments(self.text))
        self.function = bool(re.match(r"crates/\w+/proofs/[^/]+/", path))
        self.library, self.own_modules, self.kept, self.shown = {}, set(), set(), set()
        self.imports = set(re.findall(r"(?m)^\s*(?:pub )?use (Rattle\.\w+\.(?:specs|proofs)(?:\.[A-Z]\w*)*)", self.bare))
        for it in re.finditer(r"(?m)^\s*(?:pub )?use ([^\s{]+?)(?:\.\{([^}]*)\}| as (\S+)|)\s*$", self.bare):
            own = re.match(r"Rattle\.(\w+)\.(?:specs|proofs)\b", it[1])
            own = bool(own) and own[1] in crates
            # (a module with no file is one that Rattle makes, as `Rattle.c.proofs.f.Goals`: its names are Rattle's)
            at = "crates/" + it[1][len("Rattle.") :].replace(".", "/")
            own = own and (os.path.isfile(f"{at}.antt") or os.path.isfile(f"{at}/Lib.antt"))
            if own and it[2] is None:
                self.own_modules.add(it[3] or it[1].split(".")[-1])
            for name in (it[2] or "").split(","):
                words = name.split()
                if words and not own:
                    self.library[words[0]] = it[1]
                    if len(words) == 3:
                        # an alias is a name of one's own
                        self.library.pop(words[0])
                        self.library[words[0]] = it[1]
                elif words and own and words[0][0].isupper() and not re.search(r"[a-z]-|-[a-z]", words[0]):
                    self.own_modules.add(words[-1])
        self.signatures, self.fields, self.constructors = self.read_signatures()
        self.heads()

    def read_signatures(self):
        lines, found, fields, constructors = self.bare.split("\n"), [], set(), set()
        block = []
        for n, line in enumerate(lines):
            if not line.strip():
                continue
            indent = len(line) - len(line.lstrip())
            while block and block[-1][0] >= indent:
                block.pop()
            opens = re.match(r"\s*(?:pub |abbrev |unfoldable )*(record|data)\b.*\bwhere\s*$", line)
            it = SIG.match(line)
            if it and not re.match(r"\s*(let|use|module|record|data|pub record|pub data|abbrev record)\b", line):
                kind = block[-1][1] if block else "definition"
                type_ = [it[4]]
                for more in lines[n + 1 :]:
                    if not more.strip() or len(more) - len(more.lstrip()) <= indent:
                        break
                    type_.append(more.strip())
                for name in it[3].split():
                    found.append((name, " ".join(type_).strip(), kind, indent))
                    (fields if kind == "record" else constructors if kind == "data" else set()).add(name)
                    if kind == "record" and re.match(r"\s*pub ", line):
                        self.shown.add(name)
            if opens:
                block.append((indent, opens[1]))
        return found, fields, constructors

    def heads(self):
        """In proofs/F/: names that Rattle makes, or that only answer a goal, stay."""
        if not self.function:
            return
        signed = {name for name, _, _, _ in self.signatures}
        for name, type_, kind, _ in self.signatures:
            if re.match(r"[a-zμ][\w'-]*\.\S+(?: [\w'-]+)*$", type_) or re.match(r"\S*\.(Need|need|invariant|decreases|Inv)-", type_) or type_ == "statement" or re.search(r"[_-]spec$", name):
                self.kept.add(name)
        for line in self.bare.split("\n"):
            it = re.match(rf"(?:pub |abbrev |unfoldable )*({NAME})(?: .*)? =(?: |$)", line)
            if it and it[1] not in signed:
                self.kept.add(it[1])

    def sees(self, word, fields):
        """Whether a word behind a dot may be a field of one's own here. Rattle makes names that end so: `w.page-is`, `c.loop-x.x-index`."""
        if word in self.fields:
            return True
        if self.function and re.search(r"-(is|index|iterator|end)$", word):
            return bool(fields.get(word, set()) & self.imports)
        return word in fields

    def tokens(self):
        """Yields (start, end, word, what stands before the dot or None)."""
        for it in LOCAL.finditer(self.bare):
            start = it.start()
            before = None
            if start and self.bare[start - 1] == "." and start > 1 and not self.bare[start - 2].isspace():
                left = re.search(r"([^\s(){}\[\],;.:\"]*)\.$", self.bare[max(0, start - 200) : start])
                before = left[1] if left else ""
            yield start, it.end(), it[0], before


def ghost_regions(text):
    """Yields (start, end) of the parts of a .rt file that are the logic's."""
    bare = re.sub(r"//[^\n]*", lambda it: " " * len(it[0]), text)
    bare = re.sub(r"'(?:[^'\\]|\\.)'", lambda it: " " * len(it[0]), bare)
    for it in re.finditer(r"\bghost use\b[^;]*;", bare):
        yield it.span()
    for it in re.finditer(r"\b(?:using|unfolding)\(([^()]*)\)", bare):
        yield it.span()
    for it in re.finditer(r"\b(requires|ensures|ghost|invariant|decreases|also_owns|also_shares|view)\b(?!\s*use\b)([^;{}()=]*)\{", bare):
        depth, at = 0, it.end() - 1
        for at in range(it.end() - 1, len(bare)):
            depth += {"{": 1, "}": -1}.get(bare[at], 0)
            if not depth:
                break
        yield it.end(), at


class Rust:
    def __init__(self, path):
        self.path = path
        with open(path, encoding="utf-8") as it:
            self.text = it.read()
        bare = re.sub(r"//[^\n]*", lambda it: " " * len(it[0]), self.text)
        self.regions = sorted(set(ghost_regions(self.text)))
        self.words = []
        for start, end in self.regions:
            for it in LOCAL.finditer(bare[start:end]):
                self.words.append((start + it.start(), start + it.end(), it[0]))
        code = list(bare)
        for start, end in self.regions:
            code[start:end] = " " * (end - start)
        # names that a clause of this file may mean: parameters and fields
        self.hides = set(re.findall(r"\b([a-z_]\w*)\s*:(?!:)", "".join(code)))
        self.types = set(re.findall(r"\b(?:struct|enum|trait|type|fn|mod|const)\s+(\w+)", "".join(code)))


def split(name):
    return [it for it in re.split(r"(?<=[\w'])-(?=[\w'])", name)]


def left_side(type_):
    """The words of the left side of the equation that a type ends in, outer call first, or []."""
    depth, cut = 0, 0
    for k, it in enumerate(type_):
        depth += {"(": 1, "{": 1, ")": -1, "}": -1}.get(it, 0)
        if it == "→" and not depth:
            cut = k + 1
    end = type_[cut:]
    depth = 0
    for k, it in enumerate(end):
        depth += {"(": 1, "{": 1, ")": -1, "}": -1}.get(it, 0)
        if it == "≡" and not depth:
            return LOCAL.findall(end[:k])
    return []


def new_name(name, type_, hyphens):
    parts = split(name)
    turned = [snake(it) for it in parts]
    if len(parts) == 1:
        return turned[0]
    if hyphens == "one" and type_:
        words = [alike(it) for it in left_side(type_)]
        for k in range(1, len(parts)):
            if words and words[0] == alike("".join(turned[:k])) or words and words[0] == alike("".join(parts[:k])):
                rest = {alike("".join(turned[k:])), alike("".join(parts[k:]))}
                if rest & set(words[1:]):
                    return "_".join(turned[:k]) + "-" + "_".join(turned[k:])
        if parts[0][0].isupper():
            return turned[0] + "-" + "_".join(turned[1:])
    return "_".join(turned)


def is_odd(name):
    return bool(re.match(r"[a-z]", name) and re.search(r"[A-Z]", name) or "′" in name or re.search(r"[\w']-[\w']", name))


def main(args):
    if "-h" in args or "--help" in args:
        print(__doc__, end="")
        return 0
    hyphens = args[args.index("--hyphens") + 1] if "--hyphens" in args else "one"
    table_to = args[args.index("--table") + 1] if "--table" in args else None
    with open("crates.txt", encoding="utf-8") as it:
        crates = {line.split(":")[0].split()[0] for line in it if ":" in line and not line.startswith("#")}
    paths = sorted(it for crate in crates for part in ("specs", "proofs") for it in glob.glob(f"crates/{crate}/{part}/**/*.antt", recursive=True))
    antt = [Antt(it, crates) for it in paths]
    also = args[args.index("--also") + 1].rstrip("/") if "--also" in args else None
    for it in sorted(glob.glob(f"{also}/**/*.antt", recursive=True)) if also else []:
        # DIR/CRATE/F/Answers.antt stands for crates/CRATE/proofs/F/Answers.antt
        crate, _, rest = it[len(also) + 1 :].partition("/")
        antt.append(Antt(f"crates/{crate}/proofs/{rest}", crates, it))
    rust = [Rust(it) for crate in sorted(crates) for it in sorted(glob.glob(f"crates/{crate}/src/**/*.rt", recursive=True))]

    # ---- what is one's own
    own, where, kinds = {}, collections.defaultdict(set), {}
    for file in antt:
        for name, type_, kind, indent in file.signatures:
            if name in file.kept or not is_odd(name):
                continue
            where[name].add(file.path)
            own.setdefault(name, []).append(type_)
            kinds.setdefault(name, "field" if kind == "record" else "constructor" if kind == "data" else "definition" if file.path.split("/")[2] == "specs" else "lemma" if "-" in name else "definition")
    # local names: bound and never declared
    libraries = collections.defaultdict(set)
    for file in antt:
        for name, module in file.library.items():
            libraries[name].add(module)
    for file in antt:
        for it in re.finditer(r"\blet (\S+)(?= [:=])|[({]((?:[^\s(){}\[\],;.:\"]+ )+):|λ ((?:[^\s(){}\[\],;.:\"]+ ?)+)\.| as ([^\s,}]+)(?=[,}])", file.bare):
            for name in " ".join(x for x in it.groups() if x).split():
                if is_odd(name) and name not in own and name not in libraries and name not in file.kept:
                    if file.function and "-" in name:
                        continue
                    own.setdefault(name, []).append("")
                    where[name].add(file.path)
                    kinds.setdefault(name, "local")
    own = {name: types for name, types in own.items() if name not in libraries}
    # fields that other files see, and the modules that declare them
    fields = collections.defaultdict(set)
    for file in antt:
        for name in file.shown:
            fields[name].add("Rattle." + re.sub(r"^crates/|\.antt$", "", file.path).replace("/", "."))

    # ---- the new names
    to = {}
    for name, types in own.items():
        found = {new_name(name, it, hyphens) for it in types}
        # one spelling for one name, also where two files declare it
        to[name] = EXCEPTIONS.get(name) or (found.pop() if len(found) == 1 else new_name(name, "", "none"))
    to = {name: new for name, new in to.items() if new != name}
    # names that are spelled well, and make way
    for file in antt:
        for name, type_, kind, _ in file.signatures:
            if name in EXCEPTIONS and name not in to and name in set(to.values()) and name not in libraries and name not in file.kept:
                to[name] = EXCEPTIONS[name]
                kinds[name] = "field" if kind == "record" else "constructor" if kind == "data" else "lemma"
                where[name].add(file.path)

    # ---- which would fall together
    inside = {}
    for file in antt:
        inside[file.path] = {word for _, _, word, before in file.tokens() if before is None or before in file.own_modules or file.sees(word, fields)}
    for file in rust:
        inside[file.path] = {word for _, _, word in file.words}
    declared_lemma = {name for name in own if kinds[name] == "lemma"}

    def clashes(name, new):
        out = []
        for file in antt + rust:
            words = inside[file.path]
            if name not in words or isinstance(file, Antt) and name in file.kept:
                continue
            if new in words and to.get(new, new) == new:
                how = f"a library's ({file.library[new]})" if isinstance(file, Antt) and new in file.library else "a name that is there"
                out.append((file.path, how, new))
            for other in words:
                if other != name and to.get(other) == new:
                    out.append((file.path, "another name that is turned", other))
            if isinstance(file, Rust) and new in file.hides:
                out.append((file.path, "a parameter or field of the code", new))
            if isinstance(file, Rust):
                out += [(file.path, "but for its case a name of the code", it) for it in file.types if it != new and it.lower() == new.lower()]
        if new in RESERVED:
            out.append(("", "a reserved word", new))
        return out

    # lemmas and constructors of one's own that are spelled well already, by the file that declares them
    settled = collections.defaultdict(set)
    for file in antt:
        for name, type_, kind, _ in file.signatures:
            if not is_odd(name) and name not in libraries and name not in file.kept and file.path.split("/")[2] == "proofs" and not re.search(r"(?:^|→ )Type\b[^→]*$", type_):
                settled[name].add(file.path)
    decide, lem = {}, {}
    for _ in range(4):
        changed = False
        for name in sorted(to):
            for path, how, other in clashes(name, to[name]) if name not in EXCEPTIONS else []:
                # the lemma that is there gets _lem, if it is one, and the definition its name
                if how == "a name that is there" and path in settled.get(other, ()) and kinds[name] != "lemma" and other not in to:
                    fresh = other + "_lem"
                    if not any(fresh in words for words in inside.values()):
                        to[other], kinds[other], lem[other], changed = fresh, "lemma", [(path, "the new spelling of", name)], True
                        where[other] |= settled[other]
        for name in sorted(to):
            if name in EXCEPTIONS or name in decide:
                continue
            found = clashes(name, to[name])
            if not found:
                continue
            fresh = re.sub(r"(?:_lem)?$", "_lem", to[name], count=1)
            if name in declared_lemma and fresh != to[name] and not clashes(name, fresh):
                lem[name], to[name], changed = found, fresh, True
        if not changed:
            break
    for name in sorted(to):
        found = clashes(name, to[name])
        if found:
            decide[name] = found
    report(args, to, kinds, where, decide, lem)
    if table_to:
        with open(table_to, "w", encoding="utf-8") as it:
            for name in sorted(to):
                if name not in decide:
                    it.write(f"{name}\t{to[name]}\t{kinds[name]}\t{' '.join(sorted(where[name]))}\n")
    to = {name: new for name, new in to.items() if name not in decide}
    if "--write" in args:
        write(antt, rust, to, fields, crates, "--docs" in args)
    return 1 if decide else 0


def inside_of(path):
    with open(path, encoding="utf-8") as it:
        return set(LOCAL.findall(blank_comments(it.read())))


def report(args, to, kinds, where, decide, lem):
    if "--list" in args:
        for name in sorted(to):
            print(f"{name} -> {to[name]}   ({kinds[name]}, {', '.join(sorted(where[name]))})")
    for path, names in IN_FILE.items():
        for name, new in names.items():
            if os.path.isfile(path) and name in inside_of(path):
                print(f"in {path} only: {name} -> {new}")
    count = collections.Counter(kinds[name] for name in to)
    print("renames: " + ", ".join(f"{n} {kind}{'s' if n != 1 else ''}" for kind, n in sorted(count.items())) + f"; {sum('-' in new for new in to.values())} keep a hyphen")
    for name in sorted(lem):
        print(f"lem: {name} -> {to[name]}, beside {lem[name][0][2]} in {lem[name][0][0]}")
    for name in sorted(decide):
        seen = sorted(set(decide[name]))
        print(f"DECIDE: {name} -> {to[name]} ({kinds[name]}, {', '.join(sorted(where[name]))}):")
        for path, how, other in seen[:6]:
            print(f"    {other} is {how} in {path}")
        if len(seen) > 6:
            print(f"    .. and in {len(seen) - 6} more")
    print(f"{len(to)} names, {len(lem)} with _lem, {len(decide)} to decide")


def replaced(text, changes):
    for start, end, new in sorted(changes, reverse=True):
        text = text[:start] + new + text[end:]
    return text


def in_backticks(text, to, changes, at=0):
    """A name in backticks, and in an expression there each `wordWord`."""
    for it in re.finditer(r"`([^`\n]+)`", text):
        if it[1] in to:
            changes.append((at + it.start(1), at + it.end(1), to[it[1]]))
        else:
            camels(it[1], to, changes, at + it.start(1))


def camels(text, to, changes, at=0):
    for it in LOCAL.finditer(text):
        if it[0] in to and re.search(r"^[a-z].*[a-z][A-Z]", it[0]):
            changes.append((at + it.start(), at + it.end(), to[it[0]]))


def said_by_port():
    """The names that port.py turned, by its own list: it leaves pages and comments as they were."""
    out = {}
    if os.path.isfile(SAID):
        with open(SAID, encoding="utf-8") as it:
            for line in it:
                found = re.search(r"so these names of yours are in snake case now: (.*?)(?:\. |$)", line)
                for name in found[1].split(", ") if found else []:
                    if is_odd(name):
                        out[name] = "_".join(snake(it) for it in split(name))
    return out


def write(antt, rust, to, fields, crates, docs):
    files = 0
    told = {**said_by_port(), **to}
    for file in antt:
        changes = []
        here = {**to, **IN_FILE.get(file.path, {})}
        for start, end, word, before in file.tokens():
            if word not in here or word in file.kept:
                continue
            if before is not None and not file.sees(word, fields) and not (before in file.own_modules or before[:1].isupper()):
                continue
            changes.append((start, end, here[word]))
        comments = "".join(x if y == " " and x != "\n" else (x if x == "\n" else " ") for x, y in zip(file.text, blank_comments(file.text)))
        in_backticks(comments, {**told, **here}, changes)
        camels(comments.replace("`", " "), {**told, **here}, changes)
        if changes:
            with open(file.real, "w", encoding="utf-8") as it:
                it.write(replaced(file.text, set(changes)))
            files += 1
    for file in rust:
        changes = [(start, end, to[word]) for start, end, word in file.words if word in to]
        for it in re.finditer(r"//[^\n]*", file.text):
            in_backticks(it[0], told, changes, it.start())
            camels(it[0].replace("`", " "), told, changes, it.start())
        if changes:
            with open(file.path, "w", encoding="utf-8") as it:
                it.write(replaced(file.text, set(changes)))
            files += 1
    edits = 0
    for path in sorted(glob.glob("crates/*/must-fail/*.edit")):
        with open(path, encoding="utf-8") as it:
            text = it.read()
        out, at = [], None
        for line in text.split("\n"):
            head = re.match(r"(file: |old: |new: )", line)
            if head and head[1] == "file: ":
                at = line[6:].strip()
            elif head and at:
                full = f"{path.split('/must-fail/')[0]}/{at}"
                here = {**to, **IN_FILE.get(full, {})}
                if at.endswith(".antt") or True:
                    line = head[1] + LOCAL.sub(lambda it: here.get(it[0], it[0]), line[5:])
            out.append(line)
        new = "\n".join(out)
        if new != text:
            edits += 1
            with open(path, "w", encoding="utf-8") as it:
                it.write(new)
    said = 0
    for path in ["README.md", *sorted(glob.glob("docs/**/*.md", recursive=True)), *sorted(glob.glob("crates/*/README.md"))] if docs else []:
        if os.path.isfile(path):
            with open(path, encoding="utf-8") as it:
                text = it.read()
            changes = []
            in_backticks(text, told, changes)
            if changes:
                said += 1
                with open(path, "w", encoding="utf-8") as it:
                    it.write(replaced(text, set(changes)))
    print(f"files changed: {files}; edits: {edits}; pages: {said}")
    for path in [*sorted(glob.glob("crates/**/*.antt", recursive=True)), *sorted(glob.glob("crates/*/src/*.rt")), *sorted(glob.glob("crates/*/must-fail/*.edit"))]:
        with open(path, encoding="utf-8") as it:
            text = new = it.read()
        for old, name in FINALLY.items():
            new = new.replace(old, name)
        if new != text:
            with open(path, "w", encoding="utf-8") as it:
                it.write(new)


if __name__ == "__main__":
    sys.exit(main(sys.argv[1:]))
