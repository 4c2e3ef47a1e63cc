"""readable.py CHECK PAGE...: says what of a page is hard to read, a line each with what was measured, and nothing where all is well.

    limits PAGE      more than 180 lines, a line of more than 110 columns, a table's cell of more than 20 words
    sentences PAGE   a mean of more than 18 words a sentence, with the longest ones; of Markdown, or of a man page
    plain PAGE       each sentence that begins with What, That or an -ing form, and those with three pronouns or more where they are more
                     than one in a hundred; of Markdown, or of a man page
    links PAGE       links and pictures that lead nowhere, within the page's folder tree; of Markdown

Of a page's sentences no code, table, heading or synopsis is counted, and of a link its text alone. A list's item, a paragraph or what
stands behind a man page's tag ends its last sentence.
"""

import pathlib
import re
import sys

MOST_LINES, MOST_COLUMNS, MOST_WORDS_A_CELL, MOST_WORDS_A_SENTENCE = 180, 110, 20, 18
MANY_PRONOUNS, SENTENCES_PER_DENSE = 3, 100

FENCE = re.compile(r"^\s*```")
ITEM = re.compile(r"^\s*(?:[-*]|\d+\.)\s+")
LINK = re.compile(r"!?\[([^\]]*)\]\(([^)\s]*)\)")
PICTURE = re.compile(r'<img [^>]*src="([^"]*)"')


def words(text):
    """The words of a text: what stands between spaces and has a letter or a digit."""
    return [word for word in text.split() if re.search(r"\w", word)]


def unfenced(text):
    """The lines of a page in Markdown with their numbers, without its blocks of code."""
    inside = False
    for number, line in enumerate(text.splitlines(), 1):
        if FENCE.match(line):
            inside = not inside
        elif not inside:
            yield number, line


# ---- Limits -------------------------------------------------------------------------------------------------------------


def cells(line):
    """The cells of a table's row."""
    return [cell.strip() for cell in re.split(r"(?<!\\)\|", line.strip().strip("|"))]


def limits(page):
    """What of a page is above its limits."""
    text = page.read_text(encoding="utf-8")
    lines = text.splitlines()
    if len(lines) > MOST_LINES:
        yield f"{len(lines)} lines, {MOST_LINES} are the most"
    for number, line in enumerate(lines, 1):
        if len(line) > MOST_COLUMNS:
            yield f"line {number}: {len(line)} columns, {MOST_COLUMNS} are the most"
    for number, line in unfenced(text):
        if line.startswith("|"):
            for cell in cells(line):
                if len(words(cell)) > MOST_WORDS_A_CELL:
                    yield f"line {number}: a cell of {len(words(cell))} words, {MOST_WORDS_A_CELL} are the most: {cell}"


# ---- Sentences ----------------------------------------------------------------------------------------------------------


def markdown_blocks(text):
    """The paragraphs and items of a page in Markdown, as plain text."""
    block = []
    for _, line in unfenced(text):
        is_apart = not line.strip() or line.startswith(("#", "|", "<"))
        if is_apart or ITEM.match(line):
            yield " ".join(block)
            block = []
        if not is_apart:
            block.append(ITEM.sub("", line).lstrip("> "))
    yield " ".join(block)


def plain_markdown(block):
    """A paragraph without marks: of a link its text."""
    return re.sub(r"[`*]|<[^>]*>", "", LINK.sub(r"\1", block))


def roff_words(line):
    """The text of a line of a man page: of a macro for fonts its words, which alternate without a space between them."""
    macro = re.match(r"\.(BI|BR|IB|IR|RB|RI|B|I|SM)\s+(.*)", line)
    if macro:
        parts = ["".join(part) for part in re.findall(r'"((?:[^"]|"")*)"|(\S+)', macro[2])]
        line = (" " if len(macro[1]) == 1 else "").join(parts)
    line = re.sub(r"\\f.|\\&|\\\|", "", line)
    return line.replace(r"\-", "-").replace(r"\(lq", '"').replace(r"\(rq", '"').replace(r"\e", "\\")


def man_blocks(text):
    """The paragraphs of a man page, as plain text: no tag, no table, and neither its name nor what it refers to."""
    block, filled, tag, skipped = [], True, False, False
    for line in text.splitlines():
        if line.startswith(".nf") or line.startswith(".fi"):
            filled = line.startswith(".fi")
        elif re.match(r"\.(SH|SS|TP|PP|IP|RS|RE|TH)\b", line):
            yield " ".join(block)
            block, tag = [], line.startswith(".TP")
            if line.startswith(".SH"):
                skipped = line[4:].strip('"') in ("NAME", "SYNOPSIS", "SEE ALSO")
        elif line.startswith(".ta"):
            continue
        elif tag:
            tag = False
        elif filled and not skipped:
            block.append(roff_words(line))
    yield " ".join(block)


def sentences_of(page):
    """The sentences of a page, each as its words."""
    text = page.read_text(encoding="utf-8")
    blocks = map(plain_markdown, markdown_blocks(text)) if page.suffix == ".md" else man_blocks(text)
    for block in blocks:
        for sentence in re.split(r"(?<=[.!?])[\")]*\s+", block):
            if words(sentence):
                yield words(sentence)


def sentences(page):
    """What the sentences of a page are in the mean, where that is too much."""
    found = list(sentences_of(page))
    mean = sum(map(len, found)) / max(len(found), 1)
    if not found:
        yield "no sentences"
    if mean > MOST_WORDS_A_SENTENCE:
        yield f"{mean:.1f} words a sentence in {len(found)}, {MOST_WORDS_A_SENTENCE} are the most; the longest are"
        yield from (f"{len(each)}: {' '.join(each)}" for each in sorted(found, key=len)[-5:])


# ---- Plain sentences ----------------------------------------------------------------------------------------------------

# Words in -ing that are no -ing forms.
NO_FORMS = {"anything", "bring", "during", "everything", "nothing", "something", "string", "thing"}

# Words that always stand for a noun, and words that do where no noun follows.
PRONOUNS = {"it", "its", "ones", "their", "them", "they"}
POINTERS = {"one", "that", "these", "this", "those"}
NUMBERS = re.compile(r"\bone (by one|after another)\b")

PREPOSITIONS = set("after at before behind by for from in like of on over than to under with without".split())
# Words before which `one`, `this` and the like stand alone.
FOLLOWERS = PREPOSITIONS | set(
    "also alone and are aren't as be both but can can't did do does doesn't don't had has have if is isn't may must nor only or so than "
    "that then too until was were when where which while who whose will would".split()
)


def bare(word):
    """A word without the marks around it."""
    return re.sub(r"^\W+|\W+$", "", word).lower()


def is_pronoun(before, word, after):
    """Whether a word stands for a noun. `one`, `this` and the like do where no noun follows, and `that` where no clause does."""
    this, following = bare(word).partition("'")[0], bare(after)
    if this not in POINTERS:
        return this in PRONOUNS
    if re.search(r"[,.;:)]$", word) or not after:
        return True
    if this == "that":
        return not before or following == "of" or (bare(before) in PREPOSITIONS and following in FOLLOWERS)
    if this == "this" and re.search(r"[^s]s$", following):
        return True
    return following in FOLLOWERS and (this, following) != ("one", "of")


def pronouns(sentence):
    """How many pronouns a sentence has."""
    row = ["", *NUMBERS.sub("", " ".join(sentence)).split(), ""]
    return sum(map(is_pronoun, row, row[1:], row[2:]))


def has_odd_beginning(sentence):
    """Whether a sentence begins with a clause or an -ing form, where a plain subject would do."""
    first = bare(sentence[0])
    return first in ("what", "that") or (first.endswith("ing") and first.isalpha() and first not in NO_FORMS)


def plain(page):
    """The sentences of a page that are hard to follow, where there are too many."""
    found = list(sentences_of(page))
    for sentence in filter(has_odd_beginning, found):
        yield f"begins with {sentence[0]}: {' '.join(sentence)}"
    dense = [each for each in found if pronouns(each) >= MANY_PRONOUNS]
    if len(dense) > len(found) // SENTENCES_PER_DENSE:
        yield from (f"{pronouns(each)} pronouns: {' '.join(each)}" for each in dense)


# ---- Links --------------------------------------------------------------------------------------------------------------


def anchors(page):
    """What links to a page's headings end in."""
    headings = (line.lstrip("# ") for _, line in unfenced(page.read_text(encoding="utf-8")) if line.startswith("#"))
    return {re.sub(r"[^\w -]", "", heading.lower()).replace(" ", "-") for heading in headings}


def links(page):
    """The links and pictures of a page that lead nowhere."""
    for number, line in unfenced(page.read_text(encoding="utf-8")):
        for target in [target for _, target in LINK.findall(line)] + PICTURE.findall(line):
            path, _, anchor = target.partition("#")
            if re.match(r"[a-z]+:", path):
                continue
            at = (page.parent / path) if path else page
            if not at.exists():
                yield f"line {number}: there is no {target}"
            elif anchor and anchor not in anchors(at):
                yield f"line {number}: there is no heading {target}"


CHECKS = {"limits": limits, "sentences": sentences, "plain": plain, "links": links}


def main():
    """Says what a check finds on each page."""
    check, *pages = sys.argv[1:]
    found = [f"{page}: {what}" for page in pages for what in CHECKS[check](pathlib.Path(page))]
    print(*found, sep="\n", end="\n" if found else "")
    return bool(found)


if __name__ == "__main__":
    sys.exit(main())
