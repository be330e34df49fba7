#!/usr/bin/env python3
"""Lists what took longest in the last checks from nothing: modules of proofs, and of each function its parts (Lts, Goals, Proof, Tie ..).

    bench/profile.py            of each crate that has kept files
    bench/profile.py CRATE ..   of these

A check keeps a file of each module when it is done with it (`out/incremental`), so that at one job the times between them are what each took:
remove a crate's out/incremental, run `rt check --jobs 1` in its folder, alone on the machine, and then this. After a check over kept work the
times say nothing, since declarations are kept one by one.
"""
import pathlib
import sys

TOP = pathlib.Path(__file__).resolve().parent.parent / "crates"
MOST = 60


def spans(crate):
    """The seconds that each module took, with the crate's name and its own."""
    kept = sorted((file.stat().st_mtime, file.stem) for file in (TOP / crate / "out" / "incremental").glob("*/*.oantt"))
    for (begun, _), (done, module) in zip(kept, kept[1:]):
        yield done - begun, crate, module.removeprefix(f"Rattle-{crate}-")


def main():
    crates = sys.argv[1:] or sorted(folder.name for folder in TOP.iterdir())
    rows = sorted((row for crate in crates for row in spans(crate)), reverse=True)
    for seconds, crate, module in rows[:MOST]:
        print(f"{seconds:7.1f} s  {crate}  {module}")
    print(f"{sum(row[0] for row in rows):7.1f} s  in all, {len(rows)} modules")


if __name__ == "__main__":
    main()
