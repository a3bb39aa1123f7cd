"""Commands, pages and words."""
