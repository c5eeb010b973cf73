"""A script in place of the program, which has its help in short."""
from __future__ import annotations

HELP = """\
Compares (s,S) inventory policies by common random numbers: every policy meets
the very same demands and delivery times.

Usage: crnsim [COMMAND]

Commands:
  run    Writes the report of the scenario on standard input
  leg    Runs a scenario's blocks 0 to N - 1 and writes a checkpoint of it
  words  Writes the words of one block of the random stream
  help   Print this message or the help of the given subcommand(s)

Options:
  -h, --help  Print help

Without a command it runs a scenario, as by `run`.

Example:
  crnsim < examples/two_policies.toml > report.csv

Exit status; where it is not 0 a line on standard error says why:
  0  all is written
  2  these words are refused

Rules of a scenario, of which the first that is broken is told:
   1  it is a TOML document, in UTF-8
   6  each number is within its range, and `key` is four texts of 16 digits
      0-9a-f
  10  `s` is at most `S`
"""
WORDS_HELP = """\
Writes the words of one block of the random stream

Usage: crnsim words <K0> <N>

Arguments:
  <K0>  A word of the key: 16 digits 0-9a-f
  <N>   The number of the block, in decimal

Example, block 0 of the zero key:
  crnsim words 0000000000000000 0000000000000000 \\
      0000000000000000 0000000000000000 0
"""
PROGRAM = f"""
case "$1" in
--help) cat <<'END'
{HELP}END
;;
words) cat <<'END'
{WORDS_HELP}END
;;
*) printf "Writes it.\\n\\nUsage: crnsim %s\\n\\n  '.dots' and \\\\\\\\slashes\\n" "$1" ;;
esac
"""
