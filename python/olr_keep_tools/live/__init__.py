"""The strings of paths over editors' tables in a database: what tools/live does.

`service` is the process, which makes one round after the other. In a round, `session` opens a transaction in which all tables can
be read, `read` finds the streets that differ, `map` (or `first`, while there is no map) makes nodes and lines of them, `paths`
finds the lines of the paths, each by a `pathsearch` with lines of a `finder` and perhaps a `streetsearch`, `program` asks the
program for their strings, and `rounds` publishes what differs, or holds it.
`ambiguous` writes which strings may be read in another way, and `draft` reports what other tables would make of the paths.
"""
