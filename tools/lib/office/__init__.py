"""The auction office, which participants reach by HTTP: tools/office starts it.

It judges nothing. The desk, a child process, keeps a day's journal on the disk and gives the book's reply to each command; `dam clear`
clears the journal; tools/table reports the outcome of each order; `lib.seal` signs heads and makes receipts. Receipts, replay, clear and
the audit show whether an office was right. Its modules draw nothing, and no module outside of this folder imports them, but tools/office.

It may import: base, journal, lint, pages, process, receipts, results, runs, seal, tables, tool.

| Module | Contents |
|---|---|
| `folder`, `setup` | the files of an office and of its days; making them |
| `tokens` | the participants, and whether a token is one's |
| `desk` | the child process that keeps the journal |
| `ledger` | the entries of a day in memory: numbers, orders, receipts |
| `newest_head` | the newest signed head in a file, with which a start compares the journal |
| `day_writer`, `submissions` | the one writer of a day: batches, the close, the time; the requests that wait for it |
| `refusals` | why a request is refused |
| `programs` | the programs that an office runs |
| `publishing`, `published` | making the files that are published; the parts of them that participants see |
| `requests`, `table_reader` | commands in a request; an uploaded table, read in a process of its own |
| `routes`, `responses` | the routes, and a fault's response; responses of several answers |
| `participant_answers` | a participant's commands are entered, and its own data shown |
| `public_answers`, `fixed_files` | the answers that all may see; the files that don't change |
| `admission` | whether a request is answered |
| `connections`, `budgets` | limits on connections; on requests |
| `monitoring` | the log and the counts |
| `serve`, `operator_commands`, `demo` | the commands of tools/office |

A crash, of the office, the desk or both, at any moment, neither loses an acknowledged command nor enters one twice:

- A participant numbers its commands 1, 2, 3, ... without gaps. Its command K is its K-th entry in the journal: so the journal has the
  numbers, and no second file has to agree with it. A request for a number that is held is compared with the record there: the same record
  gets the same receipt, another one a 409. Only the number after the last one held enters a command. A record that breaks the format is
  refused before it reaches the desk, and takes no number.
- The desk answers after its sync, and an answered command is in every later opening of its file, in order, followed by at most a beginning
  of the records that it was given since. The office signs, and acknowledges, only entries of the ledger, and the ledger has only entries
  that the desk has answered or has shown at its opening. So an acknowledged command is on the disk.
- After a crash, the ledger is the journal that the desk shows. A command that was written and never acknowledged is in it or not. If it is,
  sending it again gets its receipt; if not, sending it again enters it. Commands that wait while the desk is started again go the same way.
- A desk that is started finds its file locked while one of a killed office still ends, and is started again. So two never write.
- A receipt of entry N is under the head of the first N entries. The tree of these, the salts (on the disk before the first entry) and
  Ed25519 give the same bytes each time. So a receipt is the same after a crash, and no head contradicts an earlier one. If a
  desk shows a journal that doesn't begin with the ledger, or at a start one without the entries of the newest signed head in the folder,
  the day stops. So it does if another key signed that head. The head's file isn't synced, and lags by 0.2 s: it shows most losses, and no
  crash of a right disk makes it newer than the journal.
- The close is an entry too: after it there is no other, whatever the clock says. Its time is in the day's terms, and a request to close
  early is a file. So an office that starts after the time closes before it enters anything.
- The files of a closed day are made from its journal, each under a temporary name, synced and then renamed: first the head, then the
  results. An office that starts makes those that are missing, and stops the day if one was changed: the head shows it of the journal and
  the replies, and a file of sums of the others."""
