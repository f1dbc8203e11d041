"""Runs the program beside this process, at a terminal, where it is shown how far it is."""

import os
import select
import signal

from command_words import command_of, database_of
from progress import Progress
from running import TURNED_OFF, environment
from sources import PROGRAM
from telling import INTERRUPTS, say
from terminal import Terminal

SHOWN_EVERY = 0.5  # seconds


class Child:
    """The program, beside this process. An interrupt that comes to this process is passed on to it."""

    def __init__(self, words, end):
        """Starts it. What it writes to the terminal goes into this end of a pipe."""
        self.process, self.came = None, []
        for number in INTERRUPTS:
            if signal.getsignal(number) != signal.SIG_IGN:
                signal.signal(number, self.interrupt)
        streams = [(os.POSIX_SPAWN_DUP2, end, number) for number in (1, 2) if os.isatty(number)]
        how = {"file_actions": streams, "setsigdef": TURNED_OFF}
        self.process = os.posix_spawn(PROGRAM, [PROGRAM, *words], environment(), **how)
        for number in self.came:
            os.kill(self.process, number)

    def interrupt(self, number, _):
        self.came.append(number)
        if self.process is not None:
            os.kill(self.process, number)

    def wait(self):
        """Its exit status once it has ended, or less than 0 the signal that ended it."""
        os.waitid(os.P_PID, self.process, os.WEXITED | os.WNOWAIT)
        process, self.process = self.process, None
        return os.waitstatus_to_exitcode(os.waitpid(process, 0)[1])


def relay(reading, terminal, progress):
    """Passes on what the program writes, until it ends. While nothing comes a line is shown, where there
    is one. (An interrupt that comes right before `select` is seen when its time is over.)"""
    while True:
        if not select.select([reading], [], [], SHOWN_EVERY)[0]:
            terminal.show(progress.line())
        elif data := os.read(reading, 65_536):
            terminal.put(data)
            progress.hear_terminal(data)
        else:
            terminal.clear()
            return


def watch(words, script):
    """Runs the program beside this process. The exit status is the program's, or less than 0 the signal
    that ended it."""
    reading, writing = os.pipe()
    terminal, child = Terminal(), Child(words, writing)
    os.close(writing)
    failed = 0
    try:
        relay(reading, terminal, Progress(child.process, words, script))
    except OSError:
        failed = 1  # the terminal takes nothing
    os.close(reading)
    status = child.wait()
    if -status in INTERRUPTS and database_of(words) is not None:
        tell_interrupt(terminal, command_of(words))
    return status or failed


def tell_interrupt(terminal, command):
    try:
        terminal.begin_line()
    except OSError:
        return  # it is gone
    anew = "where other commands refuse the file by 91, take it away and begin anew"
    kept = "what was answered before is kept, and what wasn't may be asked again"
    say(f"interrupted; {anew if command == 'init' else kept}")


def end_as(status):
    """Gives an exit status. One less than 0 is that of a process which a signal ended: so this one ends."""
    if status < 0:
        if -status != signal.SIGKILL:
            signal.signal(-status, signal.SIG_DFL)
        os.kill(os.getpid(), -status)
    return status
