#!/usr/bin/env python3
"""Holds the pages that were rewritten in plain English to short sentences.

  tools/check_prose.py [--show PAGE]      --show: every sentence of that page, longest first

Counted are the words of each sentence of docs/*.md, README.md, CONTRIBUTING.md and tests/README.md, outside code blocks,
tables and headings. A list item is a text of its own: no sentence goes on from one item to the next. A sentence ends in a
full stop, a question mark or an exclamation mark with a space after it, or where its paragraph or item ends. No sentence
ends in '..', which leaves something out, nor in an abbreviation. A code span is one word, and of a link only its text
counts. Printed are, of each page, the number of sentences, the median and the 90th percentile, and then the ten longest
sentences of all pages. A page of REWRITTEN fails above the figures below. The last line is 'N passed, M failed'.
"""
import argparse
import glob
import os
import re
import statistics
import sys

sys.dont_write_bytecode = True
from repository import HERE

PAGES = ("README.md", "CONTRIBUTING.md", "docs/*.md", "tests/README.md")
# The pages that must keep to the figures; a page is added once it is rewritten.
REWRITTEN = (
    "CONTRIBUTING.md", "README.md", "docs/ARCHITECTURE.md", "docs/CLAIMS.md", "docs/COMMANDS.md", "docs/CONTRACTS.md",
    "docs/DECISIONS.md", "docs/FILES.md", "docs/FORMATS.md", "docs/PERF.md", "docs/PLATFORMS.md", "docs/PROGRAM.md",
    "tests/README.md",
)
# The most words of a sentence: in the median, and of all but the longest tenth.
MOST_IN_THE_MEDIAN, MOST_BELOW_THE_LONGEST_TENTH = 16, 28
LONGEST = 10

ABBREVIATIONS = {"e.g.", "i.e.", "etc.", "cf.", "vs.", "resp."}
ITEM = re.compile(r"\s*(?:-|(\d+)\.)\s+")
CODE_BLOCK = re.compile(r"\s*```")
NO_PROSE = re.compile(r"\s*(?:#|\||<!--|!\[)")


def texts_of(lines):
    """The paragraphs and list items of a page, each on one line.

    A line within a paragraph may begin with a number that ends a sentence: it begins an item only where that is its turn.
    """
    text, is_code, number = [], False, 0
    for line in [*lines, ""]:
        is_fence = bool(CODE_BLOCK.match(line))
        is_outside = is_code or is_fence or not line.strip() or NO_PROSE.match(line)
        item = not is_outside and ITEM.match(line)
        if item and item[1] and text and int(item[1]) not in (1, number + 1):
            item = None
        if text and (is_outside or item):
            yield " ".join(text)
            text = []
        if item:
            number = int(item[1] or 0)
        if not is_outside:
            text.append(line[item.end() if item else 0 :].strip())
        is_code ^= is_fence


def sentences_of(text):
    """The sentences of a paragraph or list item, each as it stands there."""
    sentence = []
    for token in tokens_of(text):
        sentence.append(token)
        bare = token.rstrip("\"'”’)]*_")
        if bare[-1:] in (".", "?", "!") and not bare.endswith("..") and bare.lstrip("(\"'*_") not in ABBREVIATIONS:
            yield sentence
            sentence = []
    if sentence:
        yield sentence


def tokens_of(text):
    """What blanks part, once a link is its text alone; a blank within a code span parts nothing."""
    text = re.sub(r"\[([^\]]*)\]\([^)\s]*\)", r"\1", text)
    return re.findall(r"(?:`[^`]*`|[^\s`]|`(?![^`]*`))+", text)


def words_in(sentence):
    """How many words a sentence has: tokens with a letter or a digit."""
    return sum(bool(re.search(r"\w", token)) for token in sentence)


def page_sentences(page):
    """Each sentence of a page with the number of its words."""
    with open(os.path.join(HERE, page), encoding="utf-8") as text:
        lines = text.read().splitlines()
    return [(words_in(it), " ".join(it)) for text in texts_of(lines) for it in sentences_of(text) if words_in(it)]


def percentile(counts, share):
    """The least count that so large a share of the counts does not exceed."""
    ordered = sorted(counts)
    return ordered[max(0, -(-len(ordered) * share // 100) - 1)]


def figures(counts):
    return (statistics.median(counts), percentile(counts, 90)) if counts else (0, 0)


def show_page(page):
    for words, sentence in sorted(page_sentences(page), reverse=True):
        print(f"{words} {sentence}")


def main():
    parser = argparse.ArgumentParser(description=__doc__, formatter_class=argparse.RawDescriptionHelpFormatter)
    parser.add_argument("--show", metavar="PAGE", help="list the sentences of this page, longest first")
    shown = parser.parse_args().show
    if shown:
        return show_page(os.path.relpath(os.path.abspath(shown), HERE))
    passed, failed, everything = 0, 0, []
    pages = sorted({os.path.relpath(it, HERE) for pattern in PAGES for it in glob.glob(os.path.join(HERE, pattern))})
    for page in pages:
        sentences = page_sentences(page)
        everything += [(words, page, sentence) for words, sentence in sentences]
        median, longer = figures([words for words, _ in sentences])
        told = f"{page}: {len(sentences)} sentences, {median:g} words in the median, 90 % have at most {longer}"
        if page not in REWRITTEN:
            print(told)
            continue
        is_so = median <= MOST_IN_THE_MEDIAN and longer <= MOST_BELOW_THE_LONGEST_TENTH
        passed, failed = passed + is_so, failed + (not is_so)
        print(f"{'ok' if is_so else 'NOT SO'}: {told}; {MOST_IN_THE_MEDIAN} and {MOST_BELOW_THE_LONGEST_TENTH}")
    for page in sorted(set(REWRITTEN) - set(pages)):
        failed += 1
        print(f"NOT SO: {page} is there")
    print(f"The {LONGEST} longest sentences:")
    for words, page, sentence in sorted(everything, reverse=True)[:LONGEST]:
        print(f"{words} {page}: {sentence}")
    print(f"{passed} passed, {failed} failed")
    return 1 if failed else 0


if __name__ == "__main__":
    sys.exit(main())
