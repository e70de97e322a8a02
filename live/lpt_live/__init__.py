"""lpt-live: transitions of a real kernel, recorded, explained and held against the engine.

Python 3.9's standard library alone, since it runs on machines that are in trouble.  Each word of the program is a
module (or a package) with `add_arguments(parser)` and `run(options) -> int`; `cli` imports it when it is used.
"""
