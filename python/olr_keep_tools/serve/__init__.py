"""The service of one machine: it owns the program, and takes records from many writers.

`service` puts the parts together: `program` is the process with its log, `exchange` passes jobs to it and replies back, `writer`
is a connection that sends records, `table` and `keeper` maintain what is published, `noted` is by which the table is known again,
`changes` is a connection that reads it, `logfile` looks at a log before it is served, `notify` reports to systemd.
"""
