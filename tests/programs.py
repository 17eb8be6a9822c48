"""How the tests and the benchmark build and run the programs."""
import pathlib
import subprocess

ROOT = pathlib.Path(__file__).resolve().parent.parent
SECOND = ROOT / "target/second/release/second"
TRIAL = ROOT / "crates/trial/out/trial"  # `rt ci` leaves it there, and `rt run` in crates/trial


def build_second():
    subprocess.run(
        ["cargo", "build", "--release", "--quiet", "--offline", "--manifest-path", str(ROOT / "second/Cargo.toml"), "--target-dir", str(ROOT / "target/second")],
        check=True,
    )


def runs(program):
    """the command that runs an x86-64 program on this processor"""
    return [str(ROOT / "bench/run"), str(program)]


def answers(command, script):
    """what a program prints for a script, line by line"""
    return subprocess.run(command, input=script, stdout=subprocess.PIPE, check=True).stdout.decode().split("\n")


def difference(ours, theirs):
    """the first line in which the trial program's and the second program's differ, with both; None if there is none"""
    for line in range(max(len(ours), len(theirs))):
        one = ours[line] if line < len(ours) else "(nothing)"
        other = theirs[line] if line < len(theirs) else "(nothing)"
        if one != other:
            return f"line {line + 1}:\n  trial:  {one}\n  second: {other}"
    return None
