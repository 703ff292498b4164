"""The pages: what they say of themselves, such as numbers and lists of parts, is so."""
from __future__ import annotations

import pathlib
import re

import pytest
from conftest import TOP


def anchor(heading: str) -> str:
    """How a heading is linked."""
    return re.sub(r"[^\w\- ]", "", heading.lower()).replace(" ", "-")


def test_decisions_have_numbers_of_their_own_and_each_part_is_in_the_index() -> None:
    page = (TOP / "docs" / "internals" / "DECISIONS.md").read_text()
    numbers = [int(number) for number in re.findall(r"^### D(\d+)\. \S.*[^.]$", page, re.M)]
    assert len(numbers) == len(set(numbers)) == page.count("\n### ") and len(numbers) >= 190
    parts = re.findall(r"^## (.*)$", page, re.M)
    assert re.findall(r"^- \[(.*)\]\(#(.*)\)$", page, re.M) == [(part, anchor(part)) for part in parts]


def pages() -> list[pathlib.Path]:
    return [page for form in ("*.md", "docs/*.md", "docs/internals/*.md", "examples/*/README.md") for page in sorted(TOP.glob(form))]


@pytest.mark.parametrize("page", pages(), ids=lambda page: str(page.relative_to(TOP)))
def test_each_link_leads_to_a_file_and_a_heading(page: pathlib.Path) -> None:
    text = re.sub(r"^```.*?^```$", "", page.read_text(), flags=re.M | re.S)
    links = [link for link in re.findall(r"\]\(([^)\s]+)\)", text) if not link.startswith(("http:", "https:"))]
    for link in links:
        name, _, part = link.partition("#")
        target = page.parent / name if name else page
        assert target.exists(), link
        assert not part or part in {anchor(heading) for heading in re.findall(r"^#+ (.*)$", target.read_text(), re.M)}, link


def test_each_page_is_linked_from_the_readme_or_from_a_page_that_is() -> None:
    found, left = set(), [TOP / "README.md"]
    while left:
        page = left.pop()
        if page not in found and page.suffix == ".md" and page.exists():
            found.add(page)
            left += [(page.parent / link).resolve() for link in re.findall(r"\]\(([^)#\s]+\.md)(?:#[^)]*)?\)", page.read_text())]
    assert set(pages()) <= found
