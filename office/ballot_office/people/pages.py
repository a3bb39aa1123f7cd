"""Pages to print: HTML that fetches nothing, with every text escaped."""

import io

import qrcode  # type: ignore[import]
import qrcode.image.svg  # type: ignore[import]
from jinja2 import Environment, PackageLoader, StrictUndefined
from markupsafe import Markup

from ballot_office.pure.book import Book
from ballot_office.pure.election import Election, medium_size
from ballot_office.pure.numbers import label

PAGES = Environment(
    loader=PackageLoader("ballot_office.people", "templates"),
    autoescape=True,
    undefined=StrictUndefined,
    trim_blocks=True,
    lstrip_blocks=True,
)


def sheet(book: Book, election: Election, book_sum: str, election_sum: str, precinct: str) -> str:
    """The page to sign: who is which contest and choice, the styles, digests and salt."""
    precincts = [it for it in book.precincts if precinct in ("", it.id)]
    styles = [(it, book.numbers_on(it)) for it in book.styles]
    return PAGES.get_template("sheet.html").render(
        book=book,
        election=election,
        precincts=precincts,
        styles=styles,
        sums=(("the election's file", election_sum), ("the book", book_sum)),
        medium=f"{medium_size(election):,}",
    )


def labels(numbers: list[int], title: str) -> str:
    """A page of labels: each number as a QR code, and in digits with check digits."""
    coded = [(label(it), code(it)) for it in numbers]
    return PAGES.get_template("labels.html").render(title=title or "Labels", labels=coded)


def code(number: int) -> Markup:
    """The QR code of a number, as an SVG that stands within a page."""
    maker = qrcode.QRCode(version=1, error_correction=qrcode.constants.ERROR_CORRECT_M, border=4)
    maker.add_data(str(number))
    maker.make(fit=False)
    written = io.BytesIO()
    maker.make_image(image_factory=qrcode.image.svg.SvgPathImage).save(written)
    return Markup(written.getvalue().decode().partition("?>\n")[2] or written.getvalue().decode())
