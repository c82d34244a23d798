"""What the program takes at most. The tools divide their work by these limits, and refuse what it would refuse."""

# Of a policy: the bytes of a file, the files that it includes and the folders, how deep includes are, the definitions of
# aliases of a kind, how deep aliases are, and how many members one has when it is written out.
POLICY_BYTES = 16_777_216
POLICY_FILES = 1024
INCLUDE_DEPTH = 128
ALIASES = 4096
ALIAS_DEPTH = 64
ALIAS_WIDTH = 65_536

# Of an audit: the bytes of a file of CSV, the rows of its users and of its hosts, the requests of a file, the senders, the
# requests files of all of them, and the threads that judge.
CSV_BYTES = 268_435_456
ROWS = 100_000
REQUESTS = 1_000_000
SENDERS = 64
SOURCES = 256
WORKERS = 16

# Of a host's name in place of %h: its bytes.
HOSTNAME_BYTES = 255
