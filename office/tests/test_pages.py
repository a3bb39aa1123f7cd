"""The pages in a browser: nothing overflows on A4 and Letter, whatever the names are; they fetch nothing."""

import json
import re
import shutil
import subprocess
from pathlib import Path

import pytest
from conftest import Command
from samples import COMBINING, GOOD_BOOK, LONG, RIGHT_TO_LEFT

from ballot_office.people import pages
from ballot_office.pure.numbers import label

# The widths of what stands between the margins, in pixels of 1/96 inch.
WIDTHS = {"A4": int((210 - 24) / 25.4 * 96), "Letter": int((215.9 - 24) / 25.4 * 96)}
PROBE = r"""<script>
addEventListener("load", () => {
  const found = [];
  const told = (what, element) => found.push(what + ": " + element.tagName + " " + element.textContent.slice(0, 60));
  for (const one of document.body.querySelectorAll("*")) {
    const box = one.getBoundingClientRect();
    if (one.clientWidth && one.scrollWidth > one.clientWidth + 1) told("too wide", one);
    if (box.right > innerWidth + 1 || box.left < -1) told("off the page", one);
    if (one.clientHeight && one.scrollHeight > one.clientHeight + 2) told("too high", one);
  }
  const text = document.createTreeWalker(document.body, NodeFilter.SHOW_TEXT);
  while (text.nextNode()) {
    const range = document.createRange();
    range.selectNodeContents(text.currentNode);
    const holder = text.currentNode.parentElement.closest("td, th, li, p, h1, h2, h3");
    if (!holder) continue;
    if (holder.closest("thead") && !/\s/.test(holder.textContent.trim()) && range.getClientRects().length > 1)
      told("a broken heading", holder);
    const cell = holder.getBoundingClientRect();
    for (const box of range.getClientRects())
      if (box.right > cell.right + 1 || box.left < cell.left - 1) told("over its cell", text.currentNode.parentElement);
  }
  document.documentElement.setAttribute("data-found", JSON.stringify(found));
});
</script>"""


@pytest.fixture
def browser() -> str:
    """Chromium; without it the test is left out."""
    found = shutil.which("chromium")
    if not found:
        pytest.skip("the package chromium is missing")
    return found


def overflows(browser: str, page: Path, width: int) -> list[str]:
    """What overflows on a page of this width."""
    probe = page.with_suffix(".probe.html")
    probe.write_text(page.read_text().replace("</body>", PROBE + "</body>"))
    words = [browser, "--headless", "--no-sandbox", "--disable-gpu", "--hide-scrollbars", "--disable-dev-shm-usage"]
    words += [
        f"--user-data-dir={page.parent / 'profile'}",
        f"--window-size={width},1400",
        "--dump-dom",
        f"file://{probe}",
    ]
    done = subprocess.run(words, capture_output=True, text=True, timeout=180, check=False)
    told = re.search(r'data-found="([^"]*)"', done.stdout)
    assert told, done.stderr[-2000:]
    found = json.loads(told[1].replace("&quot;", '"').replace("&amp;", "&"))
    assert isinstance(found, list)
    return found


def hard_book() -> str:
    """A book of names of 200 characters, without a space, from right to left, and of combining letters."""
    text = GOOD_BOOK.replace("General election", LONG).replace("Town of Ash", RIGHT_TO_LEFT[:200])
    text = text.replace('"Ana García"', f'"{"W" * 200}"').replace('"Green"', f'"{COMBINING[:190].strip()}"')
    text = text.replace('"Bo Lee"', f'"{RIGHT_TO_LEFT[:199].strip()}"').replace(
        '"Mayor"', f'"{COMBINING.strip()[:180]}"'
    )
    return text.replace('name = "North"', f'name = "{"M" * 200}"').replace('"garcia"', f'"{"g" * 32}"')


@pytest.mark.parametrize("paper", WIDTHS)
def test_the_sheet_fits(paper: str, browser: str, office: Command, tmp_path: Path) -> None:
    """The page to sign, with names that are hard to set."""
    (tmp_path / "b.toml").write_text(hard_book())
    assert office("election", "make", "b.toml", "--election", "e.json").status == 0
    made = office("election", "sheet", "b.toml", "--election", "e.json", "--out", "page.html")
    assert made.status == 0, made
    assert overflows(browser, tmp_path / "page.html", WIDTHS[paper]) == []


@pytest.mark.parametrize("paper", WIDTHS)
def test_the_labels_fit(paper: str, browser: str, tmp_path: Path) -> None:
    """Labels of the longest and the shortest numbers."""
    (tmp_path / "labels.html").write_text(pages.labels([2**64 - 1, 1, 10**19, 12345] * 10, LONG))
    assert overflows(browser, tmp_path / "labels.html", WIDTHS[paper]) == []


def test_the_probe_finds_what_overflows(browser: str, tmp_path: Path) -> None:
    """What the other tests look for is found where it is."""
    (tmp_path / "bad.html").write_text(
        "<html><body><p style='white-space: nowrap'>" + "word " * 99 + "</p></body></html>"
    )
    assert overflows(browser, tmp_path / "bad.html", WIDTHS["A4"])


def test_what_the_sheet_says(office: Command, tmp_path: Path) -> None:
    """Each name, number and digest stands on it; texts are escaped; nothing is fetched; one precinct if asked."""
    (tmp_path / "b.toml").write_text(GOOD_BOOK.replace("Bo Lee", "<script>alert(1)</script>"))
    made = office("election", "make", "b.toml", "--election", "e.json", "--salt", "00000000000000ff")
    assert office("election", "sheet", "b.toml", "--election", "e.json", "--out", "p.html").status == 0
    page = (tmp_path / "p.html").read_text()
    assert "<script" not in page and "&lt;script&gt;alert(1)&lt;/script&gt;" in page
    assert not re.search(r"(src|href|url)\s*[=(]|https?://(?!www\.w3\.org)|@import", page)
    for digest in re.findall(r"[0-9a-f]{64}", made.out):
        assert digest in page
    assert len(re.findall(r"[0-9a-f]{64}", made.out)) == 2
    for text in ("00000000000000ff", "Ana García", "Contest 2: <bdi>Library bond", "at least 60%", "(write-in line)"):
        assert text in page, text
    assert "<td>1, 2</td>" in page and "<td>900</td>" in page and 'lang="en"' in page
    assert office("election", "sheet", "b.toml", "--election", "e.json", "--out", "q", "--precinct", "p1").status == 0
    assert office("election", "sheet", "b.toml", "--election", "e.json", "--out", "q", "--precinct", "x").status == 1
    (tmp_path / "e.json").write_text((tmp_path / "e.json").read_text().replace('"allowed": 1', '"allowed": 2', 1))
    wrong = office("election", "sheet", "b.toml", "--election", "e.json", "--out", "r")
    assert wrong.status == 1 and "allowed marks" in wrong.err and not (tmp_path / "r").exists()


def test_a_label_has_the_number_and_its_code() -> None:
    """The code is an SVG of its own, and the digits stand beside it."""
    page = pages.labels([17], "")
    assert page.count("<svg") == 1 and label(17) in page and "<?xml" not in page
