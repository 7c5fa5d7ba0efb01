"""Compiles the crate for plain Rust, bindings/rust/dgt, and programs that use it, without cargo."""

import pathlib
import shutil

import cases

RUST = cases.ROOT / "bindings/rust"
generate = cases.script("../bindings/rust/generate")


def rustc(folder: pathlib.Path, *words: object) -> None:
    """Compiles something with the crates of a folder."""
    flags = ["--edition", "2024", "--cap-lints", "allow", "-L", folder, "--extern", "arrayvec"]
    cases.command("rustc", *flags, *words)


def make_crate(folder: pathlib.Path) -> None:
    """Compiles the crate into a folder, without its dependencies."""
    shutil.copytree(RUST / "dgt/src", folder / "src")
    generate.write(generate.generate(cases.ROOT / "crates", generate.MODULES),
                   folder / "src/generated")
    flags = ["-O", "--crate-type", "rlib", "--out-dir", folder]
    cases.command("rustc", "--edition", "2024", *flags, "--crate-name", "arrayvec",
                  RUST / "arrayvec.rs")
    rustc(folder, *flags, "--crate-name", "dgt", "--cfg", 'feature="std"', folder / "src/lib.rs")


def make_program(folder: pathlib.Path, source: pathlib.Path, *flags: object) -> pathlib.Path:
    """Compiles a program that uses the crate of a folder, beside its source."""
    program = source.with_suffix("")
    rustc(folder, *flags, "--extern", "dgt", "-o", program, source)
    return program
