"""What tests/expressions and tests/texts share: the types of tests/data/types.txt as definitions, the signs of a line, and a run of `validate-all`."""

import json
import os
import re
import subprocess

TOP = os.path.dirname(os.path.dirname(os.path.realpath(__file__)))
DATA = f"{TOP}/tests/data"
BASE = "http://hl7.org/fhir/StructureDefinition/"
SECONDS = 120
SIGNS = {"tab": "\t", "feed": "\n", "return": "\r", "blank": " "}


def lines_of(path):
    """The lines of a file of tests/data."""
    with open(f"{DATA}/{path}", encoding="utf-8") as file:
        return file.read().split("\n")


def sign(found):
    """What one sign stands for."""
    word, _, rest = found[1].partition(" ")
    if word == "byte":
        return bytes.fromhex(rest).decode()
    return rest * int(word) if word.isdigit() else SIGNS[word]


def spelled_out(text):
    """A text with its signs spelled out: `«tab»`, `«feed»`, `«return»`, `«blank»`, `«byte XX ..»`, and `«N TEXT»` for the text N times."""
    return re.sub("«([^»]*)»", sign, text)


# ---- the types


def element(id, bounds, *types):
    """An element of a snapshot."""
    least, _, most = bounds.partition("..")
    made = {"id": id, "path": id, "min": int(least), "max": most}
    if types[0].startswith("#"):
        return {**made, "contentReference": types[0]}
    return {**made, "type": [{"code": it.replace("System.", "http://hl7.org/fhirpath/System.")} for it in types]}


def blocks():
    """Each type as the words of its line, and the words of each line below it."""
    found = []
    for line in lines_of("types.txt"):
        if line.startswith(" "):
            found[-1][1].append(line.split())
        elif line and not line.startswith("//"):
            found.append((line.split(), []))
    return found


def with_inherited(own, all_own):
    """The lines of a type's own elements, each behind what its type lends it where that is BackboneElement."""
    for name, *said in own:
        yield [name, *said]
        if said[1:] == ["BackboneElement"]:
            yield from ([f"{name}.{inherited}", *more] for inherited, *more in all_own["Element"] + all_own["BackboneElement"])


def types():
    """The definitions of the types."""
    all_own, bases = {}, {}
    for (name, kind, *more), own in blocks():
        base = bases[name] = more[-1] if "of" in more else None
        all_own[name] = own
        said, above = list(with_inherited(own, all_own)), base
        while above:
            said, above = all_own[above] + said, bases[above]
        made = {"resourceType": "StructureDefinition", "url": BASE + name, "kind": kind, "abstract": "abstract" in more, "type": name}
        made.update({"derivation": "specialization", **({"baseDefinition": BASE + base} if base else {})})
        root = {"id": name, "path": name, "min": 0, "max": "*"}
        yield {**made, "snapshot": {"element": [root, *(element(f"{name}.{it}", *rest) for it, *rest in said)]}}


def write_package(folder, definitions):
    """Writes the definitions into a folder, as a package."""
    with open(f"{folder}/all.json", "w", encoding="utf-8") as out:
        json.dump({"resourceType": "Bundle", "entry": [{"resource": it} for it in definitions]}, out)


# ---- the program


def judged(program, folder, profile, lines):
    """What `validate-all --json` tells of each line, in their order."""
    text = "".join(f"{line}\n" for line in lines)
    words = [program, "validate-all", folder, profile, "-", "--json"]
    came = subprocess.run(words, input=text, capture_output=True, encoding="utf-8", timeout=SECONDS, check=False)
    told = [json.loads(line) for line in came.stdout.splitlines()]
    if [it["line"] for it in told] != list(range(1, len(lines) + 1)):
        raise SystemExit(f"{' '.join(words)}: {len(lines)} lines have {len(told)} answers: {came.stderr[-1000:]}")
    return told
