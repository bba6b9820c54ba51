"""What the checks share: where the built program stands, and a run of it."""
import argparse
import pathlib
import subprocess
import sys

ROOT = pathlib.Path(__file__).resolve().parent.parent
PROGRAM = ROOT / "crates/sb_cli/out/sb_cli"
SECONDS = 120


def parser(about):
    made = argparse.ArgumentParser(description=about)
    made.add_argument("--program", type=pathlib.Path, default=PROGRAM, help="run this in place of crates/sb_cli/out/sb_cli")
    return made


def path_of(program):
    """The program's whole path; says what is missing where it isn't there."""
    if not program.is_file():
        sys.exit(f"{pathlib.Path(sys.argv[0]).name}: {program} is missing: ./sb builds it, and so does rt ci")
    return str(program.resolve())


def run(program, words, given):
    """The status, the output and the standard error of the program on these words and this input."""
    ran = subprocess.run([program, *words], input=given, capture_output=True, timeout=SECONDS)
    return ran.returncode, ran.stdout, ran.stderr


def copy_of_the_crates(folder):
    """Copies what git tracks into a folder."""
    files = subprocess.run(["git", "-C", ROOT, "ls-files", "-z"], check=True, stdout=subprocess.PIPE).stdout
    packed = subprocess.run(["tar", "-C", ROOT, "--null", "-T", "-", "-cf", "-"], input=files, check=True, stdout=subprocess.PIPE).stdout
    subprocess.run(["tar", "-C", folder, "-xf", "-"], input=packed, check=True)


def proved(folder, name, text, uses, words=()):
    """Has rt prove and build a program of its own over the crates, in a copy of these in a folder, and gives its path."""
    copy_of_the_crates(folder)
    crate = folder / "crates" / name
    (crate / "src").mkdir(parents=True)
    (crate / "src/main.rt").write_text(text)
    with open(folder / "crates.txt", "a") as crates:
        crates.write(f"{name}: {uses}\n")
    # rt run also runs it, on no input
    ran = subprocess.run(["rt", "run", "--", *words], cwd=crate, stdin=subprocess.DEVNULL, stdout=subprocess.PIPE, stderr=subprocess.STDOUT)
    if ran.returncode:
        sys.exit(f"{pathlib.Path(sys.argv[0]).name}: {name} was not built: {ran.stdout[-3000:].decode(errors='replace')}")
    return crate / "out" / name
