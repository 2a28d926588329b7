"""Checks docs/GLOSSARY.md: each term has a home that is there, stands in the order of the alphabet, has one meaning, and is used
in a page or a source beside the glossary. It prints what it finds, and ends with 1 where it found something."""
import re
from typing import Iterator

from ..paths import tracked_files
from ..repository import Repository

GLOSSARY = "docs/GLOSSARY.md"


def terms(repository: Repository) -> Iterator[tuple[str, str, str]]:
    """The terms with the heading that they stand under and their homes."""
    for heading in ("## Of the field", "## Of this program"):
        yield from ((heading, term, home.strip("`")) for term, _, home in repository.rows(GLOSSARY, heading))


def differences(repository: Repository) -> Iterator[str]:
    texts = tracked_files("*.rt", "*.antt", "*.md")
    text = "\n".join(repository.read(it) for it in texts if it != GLOSSARY).lower()
    before, seen = ("", ""), set[str]()
    for heading, term, home in terms(repository):
        if not repository.has(home):
            yield f"{GLOSSARY}: {term}: its home {home} is not there"
        if (heading, term) < before and heading == before[0]:
            yield f"{GLOSSARY}: {term}: it stands after {before[1]}"
        if term in seen:
            yield f"{GLOSSARY}: {term}: it has two meanings"
        # A term is used without what stands in brackets after it, in singular or plural.
        word = re.escape(re.sub(r" \(.*", "", term).lower()).replace("\\ ", r"\s+")
        if not re.search(rf"(?<!\w){word}(e?s)?(?!\w)", text):
            yield f"{GLOSSARY}: {term}: nothing uses it"
        seen.add(term)
        before = (heading, term)


def summary(repository: Repository) -> str:
    return f"{sum(1 for _ in terms(repository))} terms have one meaning and a home, and are used"
