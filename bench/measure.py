"""What the measurements share: the program, and the least of several times of each command."""
import os
import subprocess
import time

RUNS = 50
MOST_SECONDS = 30
GOAL = 2.3
TOP = os.path.dirname(os.path.dirname(os.path.abspath(__file__)))


def program(crate):
    """The path of the proved program of a crate where the gate has left it, else of one that is built without its proofs."""
    built = subprocess.run([f"{TOP}/tools/program", "--built", crate], stdout=subprocess.PIPE, text=True)
    if built.returncode:
        built = subprocess.run([f"{TOP}/tools/quick-build", crate], stdout=subprocess.PIPE, text=True)
    if built.returncode:
        raise SystemExit("the program isn't built")
    path = built.stdout.strip()
    print(f"{crate} is {'built without its proofs' if '/out/quick/' in path else 'the proved program'}", flush=True)
    return path


def seconds(words, room, status=0):
    """How long a command takes, which must end with this status."""
    start = time.perf_counter()
    ran = subprocess.run(words, cwd=room, stdin=subprocess.DEVNULL, stdout=subprocess.PIPE, timeout=MOST_SECONDS)
    taken = time.perf_counter() - start
    if ran.returncode != status:
        raise SystemExit(f"{' '.join(words)} ended with status {ran.returncode}")
    return taken


def least_times(commands, room):
    """The least time of each command. They are run in turn, RUNS times, and no round begins after MOST_SECONDS."""
    least = dict.fromkeys(commands, float("inf"))
    start = time.perf_counter()
    for _ in range(RUNS):
        if time.perf_counter() - start > MOST_SECONDS:
            break
        for name, words in commands.items():
            least[name] = min(least[name], seconds(words, room))
    return least


def milliseconds(taken):
    return f"{taken * 1000:7.1f} ms"


def print_ratio(full, half):
    ratio = full / half
    print(f"full to half {ratio:7.2f}      goal: at most {GOAL}: {'met' if ratio <= GOAL else 'NOT MET'}")


def end(main):
    """Runs a measurement. Whatever it finds, and also where it can't be made, the program ends with status 0."""
    try:
        main()
    except (OSError, subprocess.SubprocessError, SystemExit) as why:
        print(f"nothing was measured: {why}")
