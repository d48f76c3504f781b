#!/usr/bin/env python3
"""Reads the English of the repository and fails if it leaves the field's words.

    scripts/check_words.py [--all]

It prints each finding, or 'check_words: ok', and writes nothing. With --all it prints the words in every comment of the crates
too, which do not fail. It looks for:
- README: a median sentence of more than 18 words, or a sentence of more than 30, outside tables, lists of code and code;
- the documents: a sentence of more than 40 words;
- the documents, and the heads of the crates' files (`//!`, and the first comment of a file of definitions): a word or phrase of the
  list below, for which the field has another;
- the glossary of docs/ARCHITECTURE.md: more than 20 rows;
- any crate: a doc comment that begins with `The same`.
"""
import argparse
import glob
import os
import re
import statistics
import sys

MEDIAN, LONGEST, LONGEST_DOC, GLOSSARY = 18, 30, 40, 20
# a phrase, and what the field says
WORDS = [
    (r"\btak(?:es?|ing) no memory\b", "does not allocate"),
    (r"\b[Ww]ant of memory\b|\bwanting\b", "allocation failure, out of memory"),
    (r"\b(?:told|tells?|telling)\b", "reports, returns, is written, is visible to contracts"),
    (r"\b[Bb]ehind\b", "after"),
    (r"\b(?:[Ss]tands?|stood|standing)\b", "is, is stored, is defined"),
    (r"\bso many\b", "n, the given number of"),
    (r"\b(?:comes?|came) to\b", "evaluates to, is"),
    (r"\bof a grouping\b", "of a grouped query"),
    (r"\bgo(?:es)? down\b", "descending"),
    (r"\b(?:a|the|this|that|its) fronts?\b", "prefix"),
    (r"\b(?:let|lets|letting) go\b", "dropped, freed"),
    (r"\bwrong (?:body|bodies|idea|ideas)\b", "mutant"),
    (r"\b[Ll]aws?\b", "lemma, theorem"),
    (r"\b(?:piles?|settle[sd]?|settling)\b", "aggregation table, consolidate"),
    (r"\b(?:bags?|a lot|lots)\b", "multiset"),
    (r"\bhints?\b", "cache entry"),
    (r"\branks?\b", "sort key"),
    (r"\b(?:dealt|deals?|bins?)\b", "radix partition, bucket"),
    (r"\blanes?\b", "column vector"),
    (r"\b[Ff]urther (?:columns?|values?|cells?|fields?)\b", "extra column"),
    (r"\bdesks?\b", "worker context"),
    (r"\bstrips?\b", "sweep window"),
    (r"\b(?:passed|passes|pass) over\b", "skipped"),
    (r"\b[Ll]ook(?:ed|s)? (?:at|up)\b", "inspected, found"),
    (r"\b(?:[Hh]e|him|his)\b", "it"),
    (r"\blies?\b", "is in"),
]
PATTERNS = [(re.compile(pattern), say) for pattern, say in WORDS]
DOC = re.compile(r"\s*(//!|///|//|--)(?: (.*)|)$")


def documents():
    return ["README.md", *sorted(glob.glob("docs/**/*.md", recursive=True)), *glob.glob("bench/*.md"), *glob.glob("tools/*.md")]


def prose(text):
    """The paragraphs of a page, without code, tables, headings, links' targets and pictures."""
    text = re.sub(r"^```.*?^```", "", text, flags=re.MULTILINE | re.DOTALL)
    text = re.sub(r"<!--.*?-->|!\[.*?\]\(.*?\)", "", text, flags=re.DOTALL)
    text = re.sub(r"\]\([^)]*\)", "]", text)
    for paragraph in re.split(r"\n\s*\n|\n(?=\s*(?:[-*]|\d+\.) )", text):
        if not re.match(r"\s*(?:\||#|    )", paragraph):
            yield " ".join(paragraph.split())


def sentences(paragraph):
    """The sentences of a paragraph; a colon before a list does not end one."""
    plain = re.sub(r"`[^`]*`", "code", paragraph)
    for sentence in re.split(r"(?<=[.!?;])\s+(?=[A-Z`*\[(0-9]|code)", plain):
        count = len(re.findall(r"[\w'^-]+", sentence))
        if count > 1:
            yield count, sentence


def length_findings():
    for name in documents():
        with open(name, encoding="utf-8") as file:
            found = [pair for paragraph in prose(file.read()) for pair in sentences(paragraph)]
        most = LONGEST if name == "README.md" else LONGEST_DOC
        for count, sentence in found:
            if count > most:
                yield f"{name}: a sentence of {count} words: {sentence[:70]}"
        if name == "README.md" and statistics.median(count for count, _ in found) > MEDIAN:
            yield f"{name}: its median sentence has more than {MEDIAN} words"


def word_findings(place, text):
    plain = re.sub(r"`[^`]*`", "", text)
    for pattern, say in PATTERNS:
        match = pattern.search(plain)
        if match:
            yield f"{place}: '{match[0]}' ({say}): {text.strip()[:70]}"


def document_findings():
    for name in documents():
        in_code = False
        with open(name, encoding="utf-8") as file:
            for number, line in enumerate(file, 1):
                if line.startswith("```"):
                    in_code = not in_code
                elif not in_code:
                    yield from word_findings(f"{name}:{number}", line)


def comments(every):
    """The comments of the crates, as (place, marker, text): the heads, or every one."""
    for pattern in ("src/**/*.rt", "specs/**/*.antt"):
        for name in sorted(glob.glob(f"crates/*/{pattern}", recursive=True)):
            head = True
            with open(name, encoding="utf-8") as file:
                for number, line in enumerate(file, 1):
                    match = DOC.match(line)
                    head = head and match is not None
                    if match and (every or match[1] == "//!" or head):
                        yield f"{name}:{number}", match[1], match[2] or ""


def comment_findings(every):
    for place, _, text in comments(every):
        yield from word_findings(place, text)


def same_findings():
    for place, mark, text in comments(True):
        if mark in ("///", "//", "--") and re.match(r"[Tt]he same\b(?! (?:as|number))", text):
            yield f"{place}: says what another comment says: {text[:70]}"


def glossary_findings():
    with open("docs/ARCHITECTURE.md", encoding="utf-8") as file:
        rows = [line for line in file.read().split("## Words")[1].splitlines() if line.startswith("| ")]
    if len(rows) - 1 > GLOSSARY:
        yield f"docs/ARCHITECTURE.md: {len(rows) - 1} words in the glossary, more than {GLOSSARY}"


def main():
    words = argparse.ArgumentParser(description=__doc__, formatter_class=argparse.RawDescriptionHelpFormatter)
    words.add_argument("--all", action="store_true", help="the words of every comment too")
    every = words.parse_args().all
    os.chdir(os.path.join(os.path.dirname(os.path.abspath(__file__)), ".."))
    found = [*length_findings(), *document_findings(), *comment_findings(False), *same_findings(), *glossary_findings()]
    for finding in found:
        print(finding)
    if every:
        for finding in comment_findings(True):
            print(finding)
    if not found:
        print("check_words: ok")
    return 1 if found else 0


if __name__ == "__main__":
    sys.exit(main())
