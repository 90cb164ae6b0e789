#!/usr/bin/env python3
"""Does what the program does, with the library: reads a record per line from standard input, and writes the reply to each
to standard output.

    examples/library.py < records > replies

Exit statuses are those of the program: 0 all accepted, 1 some rejected, 3 a stream failed, 4 out of memory.
"""
import os
import sys

sys.dont_write_bytecode = True
sys.path.append(os.path.join(os.path.dirname(os.path.dirname(os.path.realpath(__file__))), "python"))
from olr_keep import NO_MEMORY, Keep  # noqa: E402


def main() -> int:
    try:
        keep = Keep()
        for record in sys.stdin.buffer:
            sys.stdout.buffer.write(keep.text(record))
        return keep.close()
    except OSError as error:
        print(f"library.py: {error}", file=sys.stderr)
        return 3
    except MemoryError as error:
        print(f"library.py: {error}", file=sys.stderr)
        return NO_MEMORY


sys.exit(main())
