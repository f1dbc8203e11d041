"""The help of the script `settle`."""

HELP = """\
usage: settle period METER CONTRACTS PRICE
       settle period METER CONTRACTS -- -PRICE
       settle script --operator-key KEY [--lead-minutes N] [--strict] FILE
       settle script --db PATH [--strict] FILE
       settle init --db PATH --operator-key KEY [--lead-minutes N]
       settle migrate --db PATH
       settle load --db PATH --key KEY [--at SECONDS] KIND FILE
       settle run --db PATH --key KEY [--at SECONDS] DATE KIND
       settle report --db PATH --key KEY FORM [DATE KIND]
       settle serve --db PATH --port N [--count N] [--at SECONDS]
       settle --version
       --key-file PATH and --operator-key-file PATH take the key from a file
       with any command: [--explain]

`settle period` settles one period from a file of meter rows, a file of contracts and a price in
pounds per MWh. Try it: settle period examples/meter.csv examples/contracts.csv 50.00000
`settle script` runs the settlement office: each line of FILE loads a file, makes a run, asks for a
report or serves clients over HTTP. docs/guide.md leads through it, docs/formats.md has all forms.
`settle init` makes an office in a database file, PATH, and the commands below it work on that. At a
terminal they and `settle script` show how far they are, where they take more than two seconds.

The first call takes the program of release/, where there is one, built from the sources that are
here. Otherwise, as after each change of the sources, it proves and builds the program. That takes
half an hour or more on four cores, and says on standard error how far it is; a call that was
interrupted goes on where it was. It needs `rt`, the command of the Rattle toolchain. Later calls
only run the program. `settle --prove` proves and builds it here in any case, and `settle --build`
makes sure that it is there; neither runs it.

Exit status of the program: 0 done, 1 refused, 2 wrong words or help. Of this script: 70 the program
could not be built, 71 `rt` isn't on the path, 72 the folder can't be written to, 130 interrupted.
"""
