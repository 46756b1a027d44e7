"""What `validate-all` tells, as text and as JSON, for tests/bulk."""

import json
import os
import subprocess

SECONDS = 60
# A byte order mark.
MARK = "\ufeff"
WORDS = {"memory": "no memory", "unread": "fault: can't be read"}


class Issue(dict):
    """An issue of an outcome. A row has its words behind it, where there are some, and an outcome hasn't."""

    words = ""


def issue_of(severity, code, said, place=None, words=""):
    issue = Issue({"severity": severity, "code": code, "diagnostics": said, **({"expression": [place]} if place else {})})
    issue.words = words
    return issue


def compact(tree):
    return json.dumps(tree, separators=(",", ":"), ensure_ascii=False)


def outcome(*issues):
    return compact({"resourceType": "OperationOutcome", "issue": list(issues)})


def escaped(text):
    """A text with its control characters as a row has them."""
    return "".join(f"\\u{ord(it):04x}" if it < " " or "\x7f" <= it <= "\x9f" else it for it in text)


class Judgement:
    """How a resource stands with a profile, with issues, each with its line and column; the text of the outcome, where that isn't made of them."""

    def __init__(self, profile, word, issues, printed=None):
        self.profile, self.word, self.issues = profile, word, issues
        self.printed = printed or outcome(*(issue for _, _, issue in issues))

    def as_json(self):
        at = compact([[line, column] for line, column, _ in self.issues])
        return f'{{"profile":{compact(self.profile)},"verdict":"{self.word}","outcome":{escaped(self.printed)},"at":{at}}}'


class Telling:
    """What is told of a line: a word, and the judgements that it rests on. Where a profile is asked for there is one, by that."""

    def __init__(self, file, line, word, issues=(), printed=None, judgements=None):
        self.file, self.line, self.word = file, line, word
        self.issues = list(issues) or ([(line, 1, CONFORMING)] if word == "conforms" else [])
        self.printed, self.judgements = printed, judgements

    def judged(self, of):
        if self.word in ("unread", "memory", "empty"):
            return []
        return self.judgements or [Judgement(of, self.word, self.issues, self.printed)]

    def as_text(self, of):
        word = WORDS.get(self.word, self.word)
        head = f"{escaped(self.file)}:"
        issues = [it for judgement in self.judged(of) for it in judgement.issues if it[2]["severity"] != "information"]
        return f"{head}{self.line}: {word}\n" + "".join(f"{head}{line}:{column}: {issue_text(issue)}\n" for line, column, issue in issues)

    def as_json(self, of):
        word = "fault" if self.word == "unread" else self.word
        outcomes = ",".join(it.as_json() for it in self.judged(of))
        return f'{{"file":{escaped(compact(self.file))},"line":{self.line},"verdict":"{word}","outcomes":[{outcomes}]}}\n'


def issue_text(issue):
    parts = [*issue.get("expression", []), issue["diagnostics"], getattr(issue, "words", "")]
    return ": ".join(escaped(it) for it in parts if it)


def told(file, line, word, *issues):
    """Of a line, with the column of each issue."""
    return Telling(file, line, word, [(line, column, issue) for column, issue in issues])


def given_texts(tellings, of):
    """The texts of the given rules on which it rests that resources conform, once for each place, and for each profile that rests on it there."""
    issues = (issue for telling in tellings for judgement in telling.judged(of) for _, _, issue in judgement.issues)
    return [it["diagnostics"].removeprefix("given ").rpartition(" (")[0] for it in issues if it["diagnostics"].startswith("given ")]


def given_rows(tellings, of):
    """A row for each such text, in the order of the texts' bytes."""
    texts = given_texts(tellings, of)
    return "".join(f"given {escaped(text)}: {texts.count(text)}\n" for text in sorted(set(texts)))


def last(tellings, passed):
    """The last row."""
    words = [it.word for it in tellings]
    faults = words.count("fault") + words.count("unread")
    return (
        f"conforms: {words.count('conforms')}, violates: {words.count('violates')}, open: {words.count('open')}, faults: {faults}, "
        f"no memory: {words.count('memory')}, empty lines: {words.count('empty')}, files passed over: {passed}\n"
    )


def rows(tellings, of, passed, options):
    """All rows that are printed with these options, and those at the end, if there are some."""
    shown = [it for it in tellings if "--only-bad" not in options or it.word != "conforms"]
    if "--json" in options:
        return [it.as_json(of) for it in shown]
    return [it.as_text(of) for it in shown] + [given_rows(tellings, of) + last(tellings, passed)]


CONFORMING = issue_of("information", "informational", "conforms")


def write(path, content):
    os.makedirs(os.path.dirname(os.fsencode(f"./{path}") if isinstance(path, str) else b"./" + path), exist_ok=True)
    with open(path, "wb") as file:
        file.write(content if isinstance(content, bytes) else content.encode())


def answer_of(program, words, how):
    """The status and both outputs of a run, or that it hangs."""
    given = {} if "input" in how else {"stdin": subprocess.DEVNULL}
    streams = {**given, "stdout": subprocess.PIPE, "stderr": subprocess.PIPE, **how}
    try:
        ran = subprocess.run([program, *words], timeout=SECONDS, **streams, check=False)
    except subprocess.TimeoutExpired:
        return f"it had not ended after {SECONDS} seconds"
    out, err = (text.decode(errors="backslashreplace") for text in (ran.stdout or b"", ran.stderr or b""))
    return ran.returncode, out, err
