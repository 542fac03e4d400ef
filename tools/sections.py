"""The texts of the documents that tools show: sections of a page in docs/, by their headings."""

import os
import re

from asking import ROOT

IN_WORDS = "In words: "


def sections(page, pattern):
    """The paragraphs of each section whose heading is of this pattern, by the pattern's first group. Blocks are left
    out, and an item of a list is a paragraph."""
    with open(os.path.join(ROOT, "docs", page), encoding="utf-8") as file:
        parts = re.split(r"^#{2,} (.*)\n", file.read(), flags=re.MULTILINE)
    found = {}
    for heading, text in zip(parts[1::2], parts[2::2]):
        matched = re.fullmatch(pattern, heading)
        if matched:
            text = re.sub(r"^    .*\n", "", text, flags=re.MULTILINE)
            paragraphs = re.split(r"\n\n|\n(?=\d+\. )", text)
            found[matched[1]] = [" ".join(part.split()) for part in paragraphs if part.strip()]
    return found


def rules():
    """For each rule what it does in words, and how docs/RULES.md writes it, paragraph by paragraph."""
    return {name: {"words": paragraphs[0].removeprefix(IN_WORDS), "form": paragraphs[1:]}
            for name, paragraphs in sections("RULES.md", r"([A-Z][A-Z0-9-]+)").items()
            if paragraphs[0].startswith(IN_WORDS)}
