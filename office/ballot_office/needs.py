"""What `ballot-office` uses, with the Debian package that has each and its licence. It imports none of it."""

import importlib.util
from typing import NamedTuple


class Need(NamedTuple):
    """One library: the module that is imported, Debian's package, where it comes from, and its licence in SPDX."""

    module: str
    package: str
    source: str
    licence: str


NEEDS = (
    Need("click", "python3-click", "https://palletsprojects.com/p/click/", "BSD-3-Clause"),
    Need("jinja2", "python3-jinja2", "https://palletsprojects.com/p/jinja/", "BSD-3-Clause"),
    Need("markupsafe", "python3-markupsafe", "https://palletsprojects.com/p/markupsafe/", "BSD-3-Clause"),
    Need("tomli_w", "python3-tomli-w", "https://github.com/hukkin/tomli-w", "MIT"),
    Need(
        "confusable_homoglyphs",
        "python3-confusable-homoglyphs",
        "https://github.com/vhf/confusable_homoglyphs",
        "MIT",
    ),
    Need("qrcode", "python3-qrcode", "https://github.com/lincolnloop/python-qrcode", "BSD-3-Clause"),
)


def missing() -> list[str]:
    """The Debian packages of the libraries that this Python does not find."""
    return [need.package for need in NEEDS if importlib.util.find_spec(need.module) is None]
