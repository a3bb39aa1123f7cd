"""`election check --election FILE` ends with 0 exactly where `init` refuses no election."""

from pathlib import Path

from agreement import compare


def test_check_and_init_agree(program: Path) -> None:
    """Random texts, good and bad, with all examples; `agreement.py` compares 20,000."""
    good, differing = compare(program, 500, 93)
    assert not differing
    assert 50 < good < 450
