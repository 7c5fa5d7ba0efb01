"""The harnesses of bindings/c/fuzz/, and their runs without libFuzzer."""

import os
import pathlib
import re
import subprocess

from wrong import Wrong

ROOT = pathlib.Path(__file__).resolve().parents[2]
FUZZ = ROOT / "bindings/c/fuzz"
NAMES = sorted(path.stem.removeprefix("fuzz_") for path in FUZZ.glob("fuzz_*.c"))
SHARED = ["input", *sorted(path.stem for path in FUZZ.glob("model_*.c"))]
LATE = 120  # seconds that a machine that is busy with other things may add to a run
SLOWER = 30  # how many times a busy machine needs the seconds of the processor


def number(name: str, default: int) -> int:
    """A setting of the environment, from 1 on."""
    text = os.environ.get(name, str(default))
    if not re.fullmatch("[1-9][0-9]{0,8}", text):
        raise Wrong(f"{name} must be a number from 1 on, not {text}")
    return int(text)


def sources(name: str) -> list[pathlib.Path]:
    """What a harness is compiled of that runs by chance."""
    return [FUZZ / f"{source}.c" for source in (f"fuzz_{name}", *SHARED, "by_chance")]


def run(name: str, *command: object, seconds: int) -> int:
    """Runs a harness by chance, by this command, for these seconds of the processor. Returns how
    many inputs it has tried."""
    words = [*command, seconds, number("DGT_FUZZ_SEED", 1), name, FUZZ / "corpus.txt"]
    ran = subprocess.run([str(word) for word in words], capture_output=True, text=True,
                         timeout=SLOWER * seconds + LATE, check=False)
    if ran.returncode:
        raise Wrong(f"{name} ended with {ran.returncode}: {ran.stderr}")
    return int(ran.stdout)
