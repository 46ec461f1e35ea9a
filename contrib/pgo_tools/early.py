"""What each script imports first: Ctrl-C ends it without a traceback, also while its modules are read.

`cli.run` handles signals from then on. The module `signal` itself takes time to read, so this uses the one below it.
"""
import _signal  # type: ignore
import sys

if _signal.getsignal(_signal.SIGINT) is _signal.default_int_handler:
    _signal.signal(_signal.SIGINT, _signal.SIG_DFL)


def start(command: str) -> None:
    """Runs a module of `pgo_tools.commands` with the arguments of this process. It never returns."""
    module = __import__(f"pgo_tools.commands.{command}", fromlist=["main"])
    module.main(sys.argv[1:])
