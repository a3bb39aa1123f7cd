"""`ballot-office`: what an office works with beside the proved program `ballot_store`. Nothing proved rests on it.

Three layers, each of which knows only those before it: `pure` (values in, values out: no file, no clock, no chance),
`store` (files, and runs of `ballot_store`), `people` (commands, pages, words).
"""

VERSION = "0.2.0"
