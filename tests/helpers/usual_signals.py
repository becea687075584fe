"""Gives all that a test starts the signals that a terminal's shell gives, whoever starts the test.

Where a shell ignores SIGINT, as for a command in the background, or SIGHUP, as by `nohup`, so does all that it starts.
What a test means to stop would go on then. Each test calls `begin` before it starts anything. The test itself goes on
ignoring what its caller ignores: it catches these signals and does nothing, and what it starts doesn't inherit that."""
import signal

# What a shell lets the commands ignore that it starts in the background, or that have to outlive it.
IGNORED = (signal.SIGHUP, signal.SIGINT, signal.SIGQUIT)
# Others that a process may inherit as ignored: the status of a child is lost where SIGCHLD is. Python itself ignores
# SIGPIPE, and subprocess resets it in what is started.
OTHERS = (signal.SIGTERM, signal.SIGALRM, signal.SIGUSR1, signal.SIGUSR2, signal.SIGCHLD)


def begin() -> None:
    """What the test starts from here on has the usual signals, and none are blocked."""
    for number in IGNORED:
        if signal.getsignal(number) is signal.SIG_IGN:
            signal.signal(number, lambda *_: None)
    for number in OTHERS:
        signal.signal(number, signal.SIG_DFL)
    signal.pthread_sigmask(signal.SIG_SETMASK, ())


def begin_child() -> None:
    """The same in a process that the test forks and that stays Python: there the signals end it."""
    for number in (*IGNORED, *OTHERS):
        signal.signal(number, signal.SIG_DFL)
