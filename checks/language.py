"""Phrases that stand for plain ones, which `checks/docs` looks for in pages and `checks/reads` in the comments of sources."""
from __future__ import annotations

import re

# Phrases that no page and no comment of a source has, each with what stands in its place.
LANGUAGE = {
    r"\b(?:tell|tells|told|telling)\b": "'prints', 'reports', 'returns', 'records' or 'shows', whichever happens",
    r"\b(?:is|are|was|were|be|being) said\b|\bsays? of\b|\bsaid of\b": "what prints, promises or defines it is the subject",
    r"\bbehind\b": "'after', of order, and 'under' of a lock",
    r"\bbesides\b": "'also', or 'and'",
    r"\bas in\b|\ba fault as\b": "'such as'",
    r"\b[Ff]or who\b|(?:^|[.:;] )Who \w+s\b|\bby who\b|\bto who\b": "'those who'",
    r"\bof another name\b": "'with distinct names'",
    r"\ba (?:line|byte|row|cell|file|event|crate|seat|worker) each\b|\ban? \w+ a (?:line|file|crate|page|row|worker)\b": "'one per line'",
    r"\bbe it\b": "'even if', or 'whether'",
    r"\bwhatever (?:it|they) (?:is|are)\b": "'any'",
}


def phrases_in(text):
    """A line on each phrase that stands in a text: what it is, where, and what is better."""
    for phrase, better in LANGUAGE.items():
        for found in re.finditer(phrase, text):
            yield f"'{found[0]}' in '{text[max(0, found.start() - 30) : found.end() + 20]}': {better}"
