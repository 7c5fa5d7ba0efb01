"""What the scripts of tests/ share: their cases, and what runs them.

A script defines classes of cases of unittest, and ends with

    if __name__ == "__main__":
        cases.main(threads=6)

`tests/apps/games mates` runs one of them, `-k clock` those with this in their
names, and `--list` prints all names. Each ends what it has started, so that it
can run alone. None is tried twice.
"""

import argparse
import asyncio
import concurrent.futures
import contextlib
import faulthandler
import fnmatch
import functools
import importlib
import importlib.machinery
import importlib.util
import os
import pathlib
import select
import shlex
import shutil
import signal
import subprocess
import sys
import tempfile
import time
import unittest
from collections.abc import Callable, Iterable, Iterator
from typing import Any, NoReturn

import wrong

ROOT = pathlib.Path(__file__).resolve().parents[2]
sys.path.insert(1, str(ROOT / "bindings/python"))
sys.dont_write_bytecode = True  # of what the scripts import
# DGT_PROVE=1, as of ./test, has ./dgt and bindings/c/build prove what the cases run on. Without it
# the program is the one that is compiled as plain Rust, and the library is what is there.
IS_PROVED = os.environ.get("DGT_PROVE") == "1"
PROGRAM = str(ROOT / "crates/dgt/out" / ("dgt" if IS_PROVED else "plain/dgt"))
SECONDS = 120  # for what takes one or two: the machine may be busy
MOST_SECONDS = 2700  # without the end of any case
# A process of root that may do what any user may, and no more.
AS_A_USER = ["setpriv", "--bounding-set=-dac_override,-dac_read_search,-fowner,-sys_admin,"
             "-net_bind_service"] if os.geteuid() == 0 else []
LEFT_OUT: list[str] = []  # what this machine lacks
NOTES: list[str] = []  # counts for the last line


def library() -> Any:
    """Builds the library, unless DGT_LIBRARY names one. Returns the package for Python."""
    if "DGT_LIBRARY" not in os.environ:
        subprocess.run([ROOT / "bindings/c/build"], check=True)
    return importlib.import_module("dgt")


def script(path: str) -> Any:
    """A script of tests/ as a module."""
    name = path.rpartition("/")[2]
    loader = importlib.machinery.SourceFileLoader(name, str(ROOT / "tests" / path))
    spec = importlib.util.spec_from_loader(name, loader)
    assert spec
    module = importlib.util.module_from_spec(spec)
    loader.exec_module(module)
    return module


def leave_out(reason: str) -> None:
    """Notes that a part of a case can't be tried here. With DGT_CHECKS=all the case fails."""
    if os.environ.get("DGT_CHECKS") == "all":
        raise wrong.Wrong(f"left out: {reason}")
    LEFT_OUT.append(reason)


def skip(reason: str) -> NoReturn:
    """Ends a case that can't be tried here. With DGT_CHECKS=all it fails."""
    leave_out(reason)
    raise unittest.SkipTest(reason)


def note(text: str) -> None:
    """Adds counts to the last line."""
    NOTES.append(text)


def command(*words: object, seconds: float | None = 600, text: bool = True, status: int = 0,
            **how: Any) -> Any:
    """What a command prints that must not fail, or has to end with a status: a text, or else bytes.
    It includes the errors if there is a status."""
    how = how if "input" in how else {"stdin": subprocess.DEVNULL} | how
    ran = subprocess.run([str(word) for word in words], capture_output=True, check=False,
                         timeout=seconds, text=text, **how)
    if ran.returncode != status:
        raise wrong.Wrong(f"{shlex.join(map(str, words))} ended with {ran.returncode}: "
                          f"{ran.stderr[-4000:]}{ran.stdout[-4000:]}")
    return ran.stdout + ran.stderr if status else ran.stdout


def absent(*names: str) -> list[str]:
    """Those of these programs and modules that aren't installed."""
    return [each for each in names if not shutil.which(each) and not importlib.util.find_spec(each)]


def holds(what: Callable[[], Any], seconds: float = SECONDS) -> bool:
    """Waits until this holds, and says whether it did in time."""
    end = time.monotonic() + seconds
    while not what():
        if time.monotonic() > end:
            return False
        time.sleep(0.02)
    return True


def wait(what: str, held: Callable[[], Any], seconds: float = SECONDS) -> None:
    """Waits until this holds, in time."""
    if not holds(held, seconds):
        raise wrong.Wrong(f"{what}: not within {seconds} s")


def take(descriptor: int, count: int) -> bytes:
    """`count` bytes, or fewer if the rest doesn't come in time."""
    taken, end = b"", time.monotonic() + SECONDS
    while len(taken) < count:
        if not select.select([descriptor], [], [], max(0, end - time.monotonic()))[0]:
            break
        more = os.read(descriptor, count - len(taken))
        if not more:
            break
        taken += more
    return taken


class Case(unittest.TestCase):
    """A case of a script."""

    maxDiff = None

    @functools.cached_property
    def folder(self) -> pathlib.Path:
        """A temporary folder."""
        return pathlib.Path(self.enterContext(tempfile.TemporaryDirectory()))

    def needs(self, *names: str) -> None:
        """Skips the case if one of these programs and modules isn't installed."""
        if lacking := absent(*names):
            skip(f"{self._testMethodName.removeprefix('test_')} (no {', '.join(lacking)})")

    def needs_proof(self) -> None:
        """Skips a case about what is proved, unless DGT_PROVE=1 asks for the proofs."""
        if not IS_PROVED:
            skip(f"{self._testMethodName.removeprefix('test_')} (without DGT_PROVE=1)")

    def start(self, *words: Any, **how: Any) -> subprocess.Popen[Any]:
        """Starts a program, which is ended with the case."""
        ran = subprocess.Popen([*map(str, words)], **how)
        self.addCleanup(end, ran)
        return ran


def build_program() -> None:
    """Has the launcher build PROGRAM, if that is needed. Skips the case without rt."""
    words = [str(ROOT / "dgt"), "--prove" if IS_PROVED else "--plain", "--version"]
    if not shutil.which("rt") and subprocess.run(words, capture_output=True).returncode:
        skip("the program (no rt)")
    command(*words, seconds=None)


class ProgramCase(Case):
    """A case of the program."""

    @classmethod
    def setUpClass(cls) -> None:
        build_program()


class AsyncCase(Case, unittest.IsolatedAsyncioTestCase):
    """A case whose methods may be coroutines."""

    async def asyncSetUp(self) -> None:
        asyncio.get_running_loop().set_debug(False)  # which is slow, and reports each wait


def end(ran: subprocess.Popen[Any]) -> None:
    """Ends a program, and closes its pipes."""
    ran.kill()
    with contextlib.suppress(OSError), ran:
        pass


def generate(of: type[Case], name: str, method: Callable[..., Any], *words: Any) -> None:
    """Adds a case to a class: this method with these words after its `self`."""
    setattr(of, f"test_{name}", lambda self: method(self, *words))


def name(case: unittest.TestCase) -> str:
    """The name of a case: that of its class and its own."""
    return case.id().rpartition(".")[0].rpartition(".")[2] + "." + own_name(case)


def own_name(case: unittest.TestCase) -> str:
    """The name of a case without its class."""
    return case.id().rpartition(".")[2].removeprefix("test_")


def collected(module: Any) -> list[unittest.TestCase]:
    """The cases of a module, in the order of their definition."""
    classes = [each for each in vars(module).values()
               if isinstance(each, type) and issubclass(each, unittest.TestCase)]
    return [of(method) for of in classes for method in dict.fromkeys(
        method for each in reversed(of.__mro__) for method in vars(each)
        if method.startswith("test"))]


def chosen(found: list[unittest.TestCase], names: list[str],
           patterns: list[str]) -> list[unittest.TestCase]:
    """The cases with these names, of these classes or with such names; all without any."""
    for word in names:
        if not any(is_named(case, word) for case in found):
            sys.exit(f"{sys.argv[0]}: no case has the name {word} (--list prints all names)")
    return [case for case in found
            if (not names or any(is_named(case, word) for word in names))
            and (not patterns or any(fnmatch.fnmatch(name(case), each if "*" in each
                                                     else f"*{each}*") for each in patterns))]


def is_named(case: unittest.TestCase, word: str) -> bool:
    """Whether a word is the name of a case, or of its class."""
    return word.replace("test_", "") in (name(case), own_name(case), type(case).__name__)


class Result(unittest.TestResult):
    """What one case gives."""

    def __init__(self, case: unittest.TestCase) -> None:
        super().__init__()
        self.case, self.began, self.seconds = case, time.monotonic(), 0.0

    def tell(self) -> str:
        """What failed, with tracebacks."""
        wrongs = [text for _, text in self.failures + self.errors]
        if self.skipped and os.environ.get("DGT_CHECKS") == "all":
            wrongs += [reason for _, reason in self.skipped]
        return "".join(f"FAILED: {name(self.case)} ({self.seconds:.0f} s)\n{text.rstrip()}\n\n"
                       for text in wrongs)


def run(case: unittest.TestCase) -> Result:
    result = Result(case)
    case.run(result)
    result.seconds = time.monotonic() - result.began
    return result


def run_all(cases: list[unittest.TestCase], threads: int) -> Iterator[Result]:
    """Runs cases, several at once, and gives the result of each when it ends."""
    if threads == 1:
        yield from map(run, cases)
        return
    pool = concurrent.futures.ThreadPoolExecutor(threads)
    try:
        for each in concurrent.futures.as_completed([pool.submit(run, case) for case in cases]):
            yield each.result()
    finally:
        pool.shutdown(cancel_futures=True)


def set_up(classes: Iterable[type[unittest.TestCase]]) -> Iterator[Result]:
    """Sets the classes up that can be. Gives a result of each that can't."""
    for of in classes:
        result = Result(of())
        try:
            of.setUpClass()
        except unittest.SkipTest as skipped:
            result.addSkip(result.case, str(skipped))
            yield result
        except Exception:
            result.addError(result.case, sys.exc_info())
            yield result


def read_words(threads: int) -> argparse.Namespace:
    """The words of the command line."""
    parser = argparse.ArgumentParser(
        description=sys.modules["__main__"].__doc__, allow_abbrev=False,
        formatter_class=argparse.RawDescriptionHelpFormatter)
    parser.add_argument("case", nargs="*", help="a case or a class of cases; all without any")
    parser.add_argument("-k", dest="patterns", action="append", default=[], metavar="PATTERN",
                        help="only cases that have this in their names, or match it (with *)")
    parser.add_argument("-j", dest="threads", type=int, default=threads, metavar="COUNT",
                        help=f"how many cases run at once, {threads} by default")
    parser.add_argument("-v", dest="verbose", action="store_true", help="prints each result")
    parser.add_argument("--list", action="store_true", help="prints the names of the cases")
    return parser.parse_args()


def told(title: str, count: int) -> str:
    """The last line of a script."""
    parts = [f"{count} case{'s' if count != 1 else ''}", *NOTES]
    if LEFT_OUT:
        parts.append(f"left out: {'; '.join(dict.fromkeys(LEFT_OUT))}")
    return f"{title}: {', '.join(parts)}"


def main(threads: int = 1) -> None:
    """Runs the cases of the script in this number of threads, and ends it."""
    words = read_words(threads)
    for number in (signal.SIGINT, signal.SIGHUP):
        if signal.getsignal(number) is signal.SIG_IGN:  # as of a shell, which programs would be
            signal.signal(number, signal.SIG_DFL if number != signal.SIGINT
                          else signal.default_int_handler)
    left = chosen(collected(sys.modules["__main__"]), words.case, words.patterns)
    if not left:
        sys.exit(f"{sys.argv[0]}: no case is chosen (--list prints all names)")
    if words.list:
        print("\n".join(map(name, left)))
        return
    title = str(pathlib.Path(sys.argv[0]).resolve().relative_to(ROOT))
    sys.exit(try_all(title, left, words))


def try_all(title: str, left: list[unittest.TestCase], words: argparse.Namespace) -> int:
    """Runs these cases, and prints what fails and the last line. Returns the exit status."""
    classes = list(dict.fromkeys(type(case) for case in left))
    failed = count = 0
    try:
        unready = list(set_up(classes))
        left = [case for case in left if type(case) not in [type(each.case) for each in unready]]
        for results in (unready, run_all(left, words.threads)):
            for each in results:
                faulthandler.dump_traceback_later(MOST_SECONDS, exit=True)
                wrongs, skipped = each.tell(), each.skipped
                failed, count = failed + bool(wrongs), count + bool(wrongs or not skipped)
                LEFT_OUT.extend(reason for _, reason in skipped if reason not in LEFT_OUT)
                if words.verbose:
                    state = "FAILED" if wrongs else "left out" if skipped else "passed"
                    print(f"{each.seconds:6.2f} s  {name(each.case)}: {state}", flush=True)
                print(wrongs, end="", file=sys.stderr, flush=True)
    finally:
        for of in classes:
            of.tearDownClass()
            of.doClassCleanups()
    if failed:
        print(f"{title}: {failed} of {count} cases failed", file=sys.stderr)
    else:
        print(told(title, count))
    return bool(failed)
