"""Runs the program on many inputs, for checks that read this file in. With the word `first` such a check runs only its first cases."""
import concurrent.futures
import itertools
import os
import subprocess
import sys

TOP = os.path.dirname(os.path.dirname(os.path.dirname(os.path.abspath(__file__))))


def fault_of(program, case):
    """What is wrong with the program's output for a case, or None. A case is the words, the input, the status, the output (with status 1
    that on standard error), and whether that is the whole output or its end."""
    words, text, status, wanted, is_whole = case
    ran = subprocess.run([program, *words], input=text.encode(), capture_output=True, check=False)
    said, silent = (ran.stderr, ran.stdout) if status == 1 else (ran.stdout, ran.stderr)
    found = said.decode(errors="replace")
    if not is_whole and not wanted:
        return f"compares with nothing: {' '.join(words)}: {text[:300]}"
    if ran.returncode == status and not silent and (found == wanted if is_whole else found.endswith(wanted)):
        return None
    return f"differs: {' '.join(words)}, status {ran.returncode}: {text[:300]}\n{ran.stderr.decode(errors='replace')[:200]}"


def run_all(cases):
    """Runs all cases, as many side by side as there are processors. Prints the first faults and 'N passed, M failed', and returns the
    exit status."""
    program = subprocess.run([f"{TOP}/tools/build/program"], capture_output=True, text=True, check=True).stdout.strip()
    passed, faults, rest = 0, [], itertools.islice(cases, 20 if sys.argv[1:] == ["first"] else None)
    with concurrent.futures.ThreadPoolExecutor(os.cpu_count()) as pool:
        # A part at a time, since all cases together are large.
        while part := list(itertools.islice(rest, 500)):
            found = [fault for fault in pool.map(lambda case: fault_of(program, case), part) if fault]
            faults += found
            passed += len(part) - len(found)
    if passed + len(faults) == 0:
        faults.append("no case was run")
    print("".join(f"{it}\n" for it in faults[:20]), end="")
    print(f"{passed} passed, {len(faults)} failed")
    return 1 if faults else 0
