#!/usr/bin/env python3
"""What standard error has to say of a fault of the metadata or a limit, by the line of the fault and the table docs/faults.tsv.

Usage: tests/sentences.py TEXT SAID
Status 0 where the file SAID is just the sentence of the fault whose line ends the file TEXT, and behind it only what is told besides: who asks
for what isn't there, what a line looks like, and what is wrong with further recipes, each in a line.
"""
import os
import re
import sys

TOP = os.path.dirname(os.path.dirname(os.path.realpath(__file__)))


def rows():
    """The rows of the table: kind, `no file`, `no text` or nothing, names of the texts, sentence."""
    with open(f"{TOP}/docs/faults.tsv", encoding="utf-8") as lines:
        for line in lines.read().splitlines():
            kind, texts, wrong, mend = line.split("\t")
            kind, _, case = kind.partition(", ")
            yield kind, case, texts.split(), f"{wrong}; {mend}"


def readings(names, rest):
    """The texts that a rest of a line may be, one for each name; those of a last name with .. behind it are a list."""
    if not names:
        return [] if rest else [[]]
    if not rest.startswith(" "):
        return []
    if names[0].endswith(".."):
        return [[rest[1:].split(" ")]]
    if len(names) == 1:
        return [[rest[1:]]]
    blanks = [at for at in range(1, len(rest)) if rest[at] == " "]
    if names[-1].endswith(".."):
        # (a name and the recipes that provide it: none of them holds a blank)
        blanks = blanks[:1]
    return [[rest[1:at], *more] for at in blanks for more in readings(names[1:], rest[at:])]


def filled(sentence, names, texts):
    """The sentence with the texts in the places of their names."""
    held = dict(zip(names, (", ".join(it) if isinstance(it, list) else it for it in texts)))
    return re.sub(r"<([^<>]+)>", lambda found: held[found[1]], sentence)


def sentences(text):
    """The sentences that a text asks for, whose last line is the one of a fault: one, or one for each way to read the line. Before it other configurations may
    have been run."""
    line = re.match(r"fault (?:3|10) (.*)\n\Z", text[text.rfind("\nfault ") + 1 :], re.S)
    found = {}
    for kind, case, names, sentence in rows() if line else ():
        for at in re.finditer(rf"(?:\A|: ){kind}(?= |\Z)", line[1]):
            place = line[1][: at.start()]
            for texts in readings(names, line[1][at.end() :]):
                if case == "no file" and place or case == "no text" and texts[0]:
                    continue
                # (of several rows for one reading the first counts)
                found.setdefault((place, kind, str(texts)), f"{place or 'bitbake'}: {filled(sentence, names, texts)}\n")
    return list(found.values())


def further():
    """The forms of the lines that may stand behind a sentence, without their places."""
    yield r"\S+ asks for it in \S+"
    yield r"\S+:\S+ comes after \S+ by this line"
    yield r"\S+ more ask for it"
    yield r"\d+ more faults of recipes"
    yield r"this folder is no project: .*"
    with open(f"{TOP}/crates/recipe_lint/src/bad_line.rt", encoding="utf-8") as lines:
        # (each sentence of a mistake is a text of its own there)
        for text in re.findall(r'(?:^ *|return |=> )"((?:[^"\\]|\\.)+)"', lines.read(), re.M):
            yield re.escape(text.replace('\\"', '"'))
    for _, _, _, sentence in rows():
        yield re.sub(r"<[^<>]+>", ".*", re.escape(sentence.partition("; ")[0]).replace("\\<", "<").replace("\\>", ">"))


FURTHER = re.compile("|".join(f"(?:{it})" for it in further()))


def without_further(said):
    """What standard error says, without the lines that may stand behind its first."""
    first, *rest = said.splitlines(True) or [""]
    return first + "".join(it for it in rest if not FURTHER.fullmatch(it.rstrip("\n").partition(": ")[2]))


def main():
    text, said = (open(it, encoding="utf-8", errors="surrogateescape").read() for it in sys.argv[1:3])
    wanted = sentences(text)
    if without_further(said) in wanted:
        return 0
    print(f"of the line {text}standard error says\n{said}wanted\n{''.join(wanted)}", end="")
    return 1


if __name__ == "__main__":
    sys.exit(main())
