#!/usr/bin/env python3
"""Lists the places in src/ that the design pass looks at, by point. Usage: tools/places.py [COMMIT] [-v]

Without a commit the files of the working tree are read. -v prints each place."""
import collections
import glob
import itertools
import re
import subprocess
import sys

LINES = [
    ("1 an enum (those of the shape of Option or Result are told in the page)", r"^(pub(\(crate\))? )?enum "),
    ("1 a flag in a struct", r"^ +(pub(\(crate\))? )?\w+: (bool|\[bool)"),
    ("1 a flag that a change answers", r"fn .*&mut.*-> bool"),
    ("1 a theorem that answers a flag", r"^pub fn \w+\(\) -> bool"),
    ("1 a bare number as an error", r"Result<.*, (u8|u16|u32|usize)>"),
    ("1 a number for a kind or a refusal", r"fn number\(self\) -> u|fn oper(and|ation)_of\("),
    ("1 an answer handed on by hand",
     r"=> return (Err|None|Ok\(None\))|\bNone => None,|Some\((\w+)\) => (Ok\()?Some\(\w+\)|Ok\((\w+)\) => Ok\(\w+\)|Err\(_\) => Ok\(None\)"),
    ("3 a loop over a range", r"for \w+ in .*\.\."),
    ("3 a while or a loop", r"^\s+(while|loop)\b"),
    ("3 a counter raised by hand", r"^\s+[a-z_.]+ \+= 1;"),
    ("3 a loop over items", r"^\s+for \w+ in (?!.*\.\.)|^\s+for \(.*\) in "),
    ("4 a comparison by hand", r"fn (same\w*|compare|ahead|is_marked|alike)\("),
    ("4 a number or text by hand", r"fn (number|print|named|word|split)\(|fn \w+_of\(.*(code|n): u"),
    ("6 a length beside a buffer", r"^ +(pub )?(len|count|used|parts): (u8|u16|usize),"),
]


def sources(commit):
    if commit is None:
        for name in sorted(glob.glob("crates/*/src/**/*.rt", recursive=True)):
            yield name, open(name).read()
        return
    listing = subprocess.run(["git", "ls-tree", "-r", "--name-only", commit], capture_output=True, text=True, check=True)
    for name in listing.stdout.split():
        if re.match(r"crates/\w+/src/.*\.rt$", name):
            shown = subprocess.run(["git", "show", f"{commit}:{name}"], capture_output=True, text=True, check=True)
            yield name, shown.stdout


def functions(text):
    form = r"\bfn (\w+)(?:<[^(]*>)?\((.*?)\)\s*(?:->[^{]*?)?\n?((?:\s*(?:requires|ensures)[^\n]*\n)*)\s*\{"
    for name, parameters, clauses in re.findall(form, text, re.S):
        yield name, parameters, clauses


def shared(files):
    """Facts required by three functions or more of a crate, and parameters that three or more take together."""
    facts, pairs = collections.defaultdict(set), collections.defaultdict(set)
    for name, text in files:
        crate = name.split("/")[1]
        for function, parameters, clauses in functions(text):
            for fact in re.findall(r"requires(?: \w+)? \{ (.*) \}", clauses):
                for part in fact.split(" × "):
                    facts[crate, part.strip("() ")].add(function)
            names = sorted(p.split(":")[0].replace("mut ", "").strip() for p in parameters.split(",") if ":" in p)
            for pair in itertools.combinations([n for n in names if n != "heap"], 2):
                pairs[crate, " and ".join(pair)].add(function)
    return [(k, v) for k, v in facts.items() if len(v) > 2], [(k, v) for k, v in pairs.items() if len(v) > 2]


def main():
    words = [w for w in sys.argv[1:] if w != "-v"]
    files = list(sources(words[0] if words else None))
    for title, pattern in LINES:
        found = [(n, i, line.strip()) for n, t in files for i, line in enumerate(t.splitlines(), 1)
                 if re.search(pattern, line) and not line.lstrip().startswith("//")]
        print(f"{len(found):4} {title}")
        if "-v" in sys.argv:
            for name, at, line in found:
                print(f"       {name}:{at}: {line}")
    for title, found in zip(["5 a fact required by three functions or more", "5 two parameters that three functions or more take"], shared(files)):
        print(f"{len(found):4} {title}")
        if "-v" in sys.argv:
            for (crate, what), who in sorted(found):
                print(f"       {crate}: {what} ({', '.join(sorted(who))})")


main()
