"""What the measurements share: instructions, memory and times of a command on a file, tables in Markdown, and the network of
`bench/make_bundle gen 7`, by which networks are measured."""
import json
import os
import pathlib
import platform
import re
import shutil
import subprocess
import sys
import time

sys.dont_write_bytecode = True
sys.path.append(str(pathlib.Path(__file__).resolve().parent.parent / "tools"))
import built

TIME = "/usr/bin/time"
DONE, REFUSED, WRITE_FAILED, REJECTED = 0, 3, 5, 8
NUMBER = "7"
MIB = 1 << 20
# a profile leaves out what has a smaller share
LEAST = 0.005


def stop(text):
    sys.exit(f"{pathlib.Path(sys.argv[0]).name}: {text}")


def need(*commands):
    """Ends the measurement where one of these programs is missing."""
    lacking = [command for command in commands if not shutil.which(command)]
    if lacking:
        stop(f"missing: {', '.join(lacking)}")


def parser(about):
    """Which program is measured, and whether it is timed too."""
    made = built.parser(about)
    made.add_argument("--times", type=int, default=0, metavar="N", help="time each command so often too, and print the best; wants a quiet machine")
    return made


def ended(command, source, status=DONE, output="/dev/null"):
    """Runs a command on a file, and gives its standard error; ends the measurement where the status isn't this one."""
    with open(source, "rb") as given, open(output, "wb") as taken:
        ran = subprocess.run(command, stdin=given, stdout=taken, stderr=subprocess.PIPE)
    errors = ran.stderr.decode(errors="replace")
    if ran.returncode != status:
        stop(f"{command} on {source}: status {ran.returncode}, not {status}; {errors[-300:]}")
    return errors


def instructions(command, source, status=DONE, output="/dev/null", kept="/dev/null"):
    said = ended(["valgrind", "--tool=callgrind", f"--callgrind-out-file={kept}", *command], source, status, output)
    return int(re.search(r"Collected : (\d+)", said)[1])


def resident(command, source, status=DONE):
    """The most bytes that were resident. (GNU time starts the program from a small process; a child of Python would count Python's own.)"""
    return int(ended([TIME, "--quiet", "-f", "%M", *command], source, status).split()[-1]) * 1024


def times(command, source, runs):
    """The best wall and processor seconds of so many runs; the latter are those of all threads."""
    found = [timed(command, source) for _ in range(runs)]
    return tuple(map(min, zip(*found)))


def timed(command, source):
    start = time.perf_counter()
    files = [(os.POSIX_SPAWN_OPEN, 0, str(source), os.O_RDONLY, 0), (os.POSIX_SPAWN_OPEN, 1, "/dev/null", os.O_WRONLY, 0)]
    _, status, used = os.wait4(os.posix_spawnp(str(command[0]), list(map(str, command)), os.environ, file_actions=files), 0)
    spent = time.perf_counter() - start, used.ru_utime + used.ru_stime
    if status:
        stop(f"{command} on {source}: {os.waitstatus_to_exitcode(status)}")
    return spent


def machine():
    found = re.search(r"model name\s*: (.*)", pathlib.Path("/proc/cpuinfo").read_text())
    system = f"{os.cpu_count()} processors, {platform.system()} {platform.release()}, load {os.getloadavg()[0]:.1f}"
    return f"{found[1] if found else platform.machine()}, {system}"


def print_row(*cells):
    print("|", " | ".join(map(str, cells)), "|", flush=True)


def print_head(*cells):
    print_row(*cells)
    print("|---" * len(cells) + "|")


def print_profile(command, source, folder):
    """How the instructions of a command are shared among the functions that the program still names."""
    kept = folder / "callgrind.out"
    total = instructions(command, source, kept=kept)
    told = subprocess.run(["callgrind_annotate", "--threshold=100", "--auto=no", kept], check=True, stdout=subprocess.PIPE, text=True).stdout
    print(f"{total:,} instructions\n")
    print_head("Function", "Instructions", "Share")
    for count, function in re.findall(r"^ *([\d,]+) \( *[\d.]+%\)  [^:\n]*:(.*?)(?: \[.*\])?$", told, re.M):
        share = int(count.replace(",", "")) / total
        if share >= LEAST:
            print_row(f"`{function}`", count, f"{share:.1%}")


def met(fine):
    return "met" if fine else "NOT met"


def network(part=1):
    """The bundle with that part of each host's transactions."""
    return subprocess.run([built.ROOT / "bench/make_bundle", "gen", NUMBER, str(part)], check=True, stdout=subprocess.PIPE).stdout


def without_a_route(data):
    """The bundle without a route that its hosts need, which is refused when all else of it was loaded."""
    bundle = json.loads(data)
    bundle["routers"][-1]["routes"].popitem()
    return json.dumps(bundle, separators=(",", ":")).encode()


def stages(command, bundle, refused):
    """The instructions of starting and loading, of building, running and settling, and of printing."""
    whole = instructions(command, bundle)
    loaded = instructions(command, refused, REFUSED)
    # a full disk ends the program at the first piece that it writes
    ran = instructions(command, bundle, WRITE_FAILED, "/dev/full")
    return loaded, ran - loaded, whole - ran
