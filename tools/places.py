"""Counts the places of docs/DESIGN-PASS.md in crates/*/src and crates/*/proofs, and lists them.

usage: python3 tools/places.py [FOLDER]     FOLDER: the top of a checkout, by default this one

It goes by the text alone: it finds what has the shape of a place, and docs/DESIGN-PASS.md says of each what became of it.
"""
import collections
import pathlib
import re
import sys

ITEM = re.compile(r"^(?:#\[[^\]]*\]\n)*(?P<indent>[ ]*)(?:pub )?(?:extern \"C\" )?(?P<kind>fn|enum|struct) (?P<name>\w+)", re.M)


def sources(top):
    for path in sorted(top.glob("crates/*/src/*.rt")):
        text = re.sub(r"//[^\n]*", "", path.read_text())
        yield path.relative_to(top), text


def items(text):
    """The kind, the name, the line, the head and the body of each function, enum and struct."""
    for found in ITEM.finditer(text):
        end = re.compile(r"^%s}$" % found["indent"], re.M).search(text, found.end())
        if not end:
            continue
        whole = text[found.start("kind"):end.end()]
        opened = re.search(r"^%s\{$|\{$" % found["indent"], whole, re.M)
        start = opened.start() if opened else 0
        head, body = whole[:start], whole[start:]
        yield found["kind"], found["name"], text[:found.start("kind")].count("\n") + 1, head, body


def variants(body):
    return re.findall(r"^\s+(\w+)(?:\(([^)]*)\))?(?:\s*=[^,]*)?,", body, re.M)


def own_results(text):
    """Point 1: enums of two cases, one with a value and one without, or one with a refusal or an error's number."""
    for kind, name, line, _, body in items(text):
        if kind != "enum":
            continue
        cases = variants(body)
        data = [fields for _, fields in cases if fields]
        errors = [fields for fields in data if fields in ("Refusal", "i32", "Last")]
        if len(cases) == 2 and (len(data) == 1 or errors):
            yield line, name


def number_codes(text):
    """Point 1: functions that give a number for a refusal, a kind or a flag."""
    for kind, name, line, head, body in items(text):
        if kind == "fn" and re.search(r"-> u(8|16|32|64|size)\b", head) and len(re.findall(r"=> \d+,", body)) >= 2:
            yield line, name


def flags(text):
    """Point 1: a flag that travels with the value that it speaks of."""
    for kind, name, line, head, _ in items(text):
        if kind == "fn" and re.search(r"\b(known|given|rated|streamed): (&mut )?u\d+", head):
            yield line, name


def shape(body):
    body = re.sub(r"\b[A-Za-z_]\w*(::\w+)*", lambda m: m[0] if m[0] in KEPT else "x", body)
    return re.sub(r"-?\b\d\w*", "0", re.sub(r"\s+", " ", body))


KEPT = {"if", "else", "match", "while", "for", "loop", "return", "let", "mut", "in", "as", "break", "Some", "None", "Ok", "Err"}


def twins(top):
    """Point 2: functions and types whose bodies have one shape, of four lines at least."""
    groups = collections.defaultdict(list)
    for path, text in sources(top):
        for kind, name, line, _, body in items(text):
            if body.count("\n") >= 3:
                groups[kind, shape(body)].append("%s:%d %s" % (path, line, name))
    return [group for group in groups.values() if len(group) > 1]


def loops(text):
    """Point 3: loops with `while`, and those of them that count an index by one."""
    for found in re.finditer(r"^( *)while ([^\n]*) \{\n(.*?)^\1\}", text, re.M | re.S):
        counts = re.search(r"\b(\w+) [+-]= 1;", found[3])
        counted = bool(counts) and counts[1] in found[2]
        yield text[:found.start()].count("\n") + 1, ("counts " if counted else "other  ") + found[2]


def by_hand(text):
    """Point 4: printing, equality and conversion written by hand."""
    for kind, name, line, head, body in items(text):
        if kind == "fn" and re.match(r"(put_\w+|put|is_same|is_value|number_of|error_number|number_in|low_byte|byte_over)$", name):
            yield line, name


def parameters(head):
    listed = re.search(r"\((.*?)\)\s*(?:->|requires|ensures|$)", head, re.S)
    named = re.findall(r"(\w+: [^,()]+)", listed[1]) if listed else []
    return [re.sub(r"\s+", " ", name).strip() for name in named]


def together(top):
    """Point 5: a parameter that three or more functions of a crate take, and never without another one; and the clauses
    that three or more functions of a crate ask. Functions that C calls are left out."""
    alone, pairs, clauses = collections.Counter(), collections.Counter(), collections.Counter()
    for path, text in sources(top):
        for kind, _, _, head, _ in items(re.sub(r'pub extern "C" fn', "", text)):
            if kind != "fn":
                continue
            named = parameters(head)
            for first in named:
                alone[path.parts[1], first] += 1
                for second in named:
                    if second != first:
                        pairs[path.parts[1], first, second] += 1
            for clause in re.findall(r"requires(?: \w+)? \{ (.*?) \}$", head, re.M):
                clauses[path.parts[1], clause] += 1
    always = {key: n for key, n in pairs.items() if n > 2 and n == alone[key[0], key[1]]}
    return (["%d %s: %s, never without %s" % (n, *key) for key, n in sorted(always.items())],
            ["%d %s: %s" % (n, *key) for key, n in sorted(clauses.items()) if n > 2])


def buffers(text):
    """Point 6: a buffer with its length or a place in it beside it."""
    for kind, name, line, head, _ in items(text):
        if kind == "fn" and re.search(r"\w+: &(mut )?\[[^\]]*\],\s*(start|end|n|held|used|len): usize", head):
            yield line, name


def switches(text):
    """Point 7: a match whose arms call one function with another constant each."""
    for kind, name, line, _, body in items(text):
        calls = re.findall(r"=> (\w+)\(.*?\b\d+\b.*?\),", body)
        if kind == "fn" and len(calls) > 2 and len(set(calls)) < len(calls):
            yield line, name


def proofs(top):
    """Point 8: the lines of the proof files, and the answers in them."""
    lines = answers = 0
    for path in top.glob("crates/*/proofs/**/*.antt"):
        text = path.read_text()
        lines += text.count("\n")
        answers += len(re.findall(r"^pub \S+ : goal\.", text, re.M)) if path.name == "Answers.antt" else 0
    return lines, answers


def show(title, places):
    print("%s: %d" % (title, len(places)))
    for place in places:
        print("    " + place)


def main():
    top = pathlib.Path(sys.argv[1] if len(sys.argv) > 1 else pathlib.Path(__file__).parent.parent)
    for title, finder in (("1, own enums of the shape of Option or Result", own_results), ("1, numbers for kinds or refusals", number_codes),
                          ("1, a flag with a value beside it", flags), ("3, loops by while", loops), ("4, by hand", by_hand),
                          ("6, a buffer with a length beside it", buffers), ("7, a switch on which step to run", switches)):
        show(title, ["%s:%d %s" % (path, line, name) for path, text in sources(top) for line, name in finder(text)])
    show("2, twins", [", ".join(group) for group in twins(top)])
    pairs, clauses = together(top)
    show("5, parameters that always travel together", pairs)
    show("5, clauses that three or more functions share", clauses)
    print("8, lines of proof and answers: %d, %d" % proofs(top))


if __name__ == "__main__":
    main()
