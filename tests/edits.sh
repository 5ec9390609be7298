#!/usr/bin/env bash
# Every must-fail edit was refused at a fact that no longer holds. Where a name or a field is not there, or a proof file no
# longer fits the code's shape, the edit shows nothing. Reads what `rt must-fail` says of each edit (it has from `rt ci` what
# that tried), and since rt passes over a proof file's missing names as long as something else falls too, looks for them
# itself: an edit of a function takes no name away that its proof cites.
cd "$(dirname "$0")/.." || exit 2
log=$(mktemp) || exit 2
trap 'rm -f "$log"' EXIT
bad=0
rt must-fail > "$log" 2>&1 || {
    echo "rt must-fail ended with $?:"
    grep -av ': refused, as it must be' "$log" | tail -n 20
    bad=1
}

for edit in crates/*/must-fail/*.edit; do
    crate=${edit#crates/}
    crate=${crate%%/*}
    said=$(grep -aF -m 1 "must-fail $crate/$(basename "$edit"): " "$log")
    case $said in
        '')
            echo "$edit: not tried"
            bad=1
            ;;
        *'that can be named from here'* | *'is not in scope'* | *'has no field'* | *'has no `'* | *'was not admitted'* | \
            *'this pattern needs a function'* | *'binders, but its type has room'* | *'names what the edit took away'*)
            echo "$edit: shows nothing: $said"
            bad=1
            ;;
        *': refused, as it must be'*': error: '* | *': refused, as it must be: note: '*) ;;
        *)
            echo "$edit: $said"
            bad=1
            ;;
    esac
done

python3 - crates/*/must-fail/*.edit << 'END' || bad=1
import glob
import re
import sys


def functions(text):
    """The functions of a source by name: from `fn` to the brace that stands as far to the right as it."""
    found = {}
    for start in re.finditer(r"(?m)^( *)(?:[\w(\"][^\n{;=]*)?\bfn (\w+)", text):
        end = re.compile(rf"(?m)^{start[1]}\}}").search(text, start.end())
        found[start[2]] = found.get(start[2], "") + text[start.start() : end.end() if end else len(text)]
    return found


def names(function):
    """Its words; a loop has a name of its own in proofs."""
    loops = re.findall(r"\b(?:for|while|loop)\b", function)
    return set(re.findall(r"[^\W\d]\w*", function)) | {f"loop {n}" for n in range(len(loops))}


def cited(file):
    """What a proof file names of the function: the parts of c.vote.ensures, l.votes, goal.returns-in-Err."""
    with open(file, encoding="utf-8") as text:
        paths = re.findall(r"(?<![\w.-])(?:[a-z]|goal)\.([\w.-]+)", text.read())
    return {part for path in paths for part in re.split(r"[.-]", path)}


bad = False
for edit in sys.argv[1:]:
    crate = edit.split("/must-fail/")[0]
    with open(edit, encoding="utf-8") as text:
        lines = text.read().split("\n")
    file, old, before, after = "", "", {}, {}
    for line in lines:
        if line.startswith("file: "):
            file = line[6:].strip()
            with open(f"{crate}/{file}", encoding="utf-8") as text:
                before.setdefault(file, text.read())
            after.setdefault(file, before[file])
        elif line.startswith("old: "):
            old = line[5:]
        elif line.startswith("new:"):
            after[file] = after[file].replace(old, line[5:])
    for file in before:
        module = re.sub(r"^src/|(/mod)?\.rt$", "", file)
        module = "." if module in ("lib", "main") else module
        new = functions(after[file])
        for name, text in functions(before[file]).items():
            proofs = glob.glob(f"{crate}/proofs/{module}/**/{name}/*.antt", recursive=True)
            # a method's proof lies with its type, in whichever module that is
            proofs += glob.glob(f"{crate}/proofs/*/[A-Z]*/{name}/*.antt")
            gone = names(text) - names(new.get(name, ""))
            lost = {part for part in gone for proof in proofs if part.split()[0] in cited(proof)}
            if lost:
                print(f"{edit}: shows nothing: the proof of `{name}` cites {', '.join(lost)}, which the edit takes away")
                bad = True
sys.exit(bad)
END
exit "$bad"
