"""Cases of the built program: texts that say what it is run on, and what has to come of it.

The folder `cases` has them, a file a command: FILE.cases says what the program is run on, and FILE.expected what has to
come. That comes from the definitions or from outside, and never from the program: whoever adds a case writes both. A
text may be named from any file.

A line that begins with `#` is a heading, which FILE.expected has too. The others are blocks, one behind the other:

- `text NAME` begins a text, which other blocks name.
- `case NAME` begins a run of the program. Its name says what it shows, and its text is the standard input.
- `rows WORDS of NAME` begins a table of runs of these words, each a line. Such a line is `24 | handler  0`, which reads
  the text NAME with this in place of line 24, or `front 10 | done`, which reads its first ten lines and this.

What stands in a block:

- `| gasnet 1` adds that line to its text. In it, as in a row, `\\n` stands for the end of a line, `\\x09` for the byte
  of these two digits, and `\\*8193(a0)` for so many times `a0`. A `\\` at the end says that the line isn't ended.
- `times 3000 0 call 0 0 cell 7` adds that line so many times.
- `use NAME` adds a text.
- `words node 0 20000` says the words of the command; without it there are none.
- `fails read 1` lets the first read of standard input fail; `fails read 2` the one behind the text.
- `takes 8192` lets standard output take so many bytes, and no more.
- `child 9 NAME` is the child of the next rank that `launch` starts: it writes that text and ends with that status. A
  signal ends `child killed NAME`.
- `no child` lets the start of the next rank fail. Where there is a child before it, the job has to be longer than a pipe
  takes at once, so that the child has begun to read it.
- `peer 1` has the port of that rank, and tells what the node sends there. With `waits NAME` it sends the node that
  text, once the node has its own port.
- `hosts 127.0.0.1 255.255.255.255` says the hosts of the nodes. No node can send to the second of these.

FILE.expected says of a run its name and its exit status, as `a drill => 0`. Behind it come the children that were
started and finished, the datagrams that the peer got, and the text that was written, each line behind a `|`, with a
`\\` at the end of one that isn't ended. The times of a node's turns are told as 0. Two things are said in place of a
text: that it is behind its first line what was read, and that it is the front of what another case of the file writes.
"""
from .judging import Judged, judged
from .reading import names
from .running import free_port

__all__ = ["Judged", "free_port", "judged", "names"]
