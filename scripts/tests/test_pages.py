"""Each link of a page leads to a file that is there, and to a heading that it has."""
import re
import unittest
from pathlib import Path

from loading import TOP


def pages() -> list[Path]:
    """The repository's pages, without what is built."""
    found = (it for it in TOP.rglob("*.md") if not {"out", "target"} & {*it.relative_to(TOP).parts})
    return sorted(it for it in found if it.is_file())


def text(page: Path) -> str:
    """A page without its blocks of code."""
    return re.sub(r"^```.*?^```$", "", page.read_text(encoding="utf-8"), flags=re.M | re.S)


def headings(page: Path) -> set[str]:
    """What a link may have behind a '#'."""
    found: list[str] = []
    for title in re.findall(r"^#+ (.+)$", text(page), re.M):
        plain = re.sub(r"\[([^\]]*)\]\([^)]*\)", r"\1", title).lower()
        name = re.sub(r"[^\w\- ]", "", plain).strip().replace(" ", "-")
        found.append(f"{name}-{found.count(name)}" if name in found else name)
    return {*found}


class Pages(unittest.TestCase):
    def test_links_lead_somewhere(self) -> None:
        found = pages()
        self.assertIn(TOP / "README.md", found)
        for page in found:
            for link in re.findall(r"\]\(([^)\s]+)\)", text(page)):
                if re.match(r"\w+:", link):
                    continue
                with self.subTest(page.relative_to(TOP), link=link):
                    path, _, heading = link.partition("#")
                    to = (page.parent / path).resolve() if path else page
                    self.assertTrue(to.exists(), "there is no such file")
                    if heading:
                        self.assertIn(heading, headings(to), "the page has no such heading")

    def test_pictures_are_shown(self) -> None:
        shown = "".join(text(it) for it in pages())
        for picture in (TOP / "docs").glob("*.svg"):
            self.assertRegex(shown, rf"!\[[^\]]+\]\([./\w]*\b{picture.name}\)")


if __name__ == "__main__":
    unittest.main()
