"""The port's ledger beside the script's, on cases made by chance, and how often each verdict, kind of entry and mark came up in them.

python3 compare.py PROGRAM SEED COUNT   PROGRAM is driver.rs, compiled with the port
"""

import collections
import random
import subprocess
import sys

import ledger
import traces

NOTHING = (0, 0, 0, 0, 0, 0, 0)


def numbers(held):
    """The parts 4 to 10 of what is told of a setting; the last is none."""
    return NOTHING if held is None else (1, *map(int, held), 0)


def asked(state):
    """What is told of each setting that PROGRAM asks, in its order: of a channel that is not held, and of what is no setting, nothing."""
    told = [numbers(held) for held in ledger.settings(state).values()]
    for row in range(3):
        told.insert(12 + 17 * row + 16, NOTHING)
    return told + [NOTHING]


def replayed(case):
    """The numbers that PROGRAM must answer to a case, the verdict, and the state that is left."""
    room, text = case
    state = ledger.State()
    verdict, line = ledger.replay(text, state, room // 4)
    told = [(verdict, line, state.lines, state.listed), *asked(state), *state.entries]
    return [number for part in told for number in part], verdict, state


def place(script, port):
    """Where two lists of numbers differ first."""
    return next((at for at, pair in enumerate(zip(script, port)) if pair[0] != pair[1]), min(len(script), len(port)))


def mark(parents):
    if len(parents) == 1:
        return "first"
    return "unchanged" if ledger.held(parents)[-1] else "changed"


def main(words):
    if len(words) != 3 or not (words[1] + words[2]).isdecimal():
        sys.exit(__doc__)
    rng = random.Random(int(words[1]))
    cases = [traces.case(rng) for _ in range(int(words[2]))]
    given = "".join(f"{room} {text.hex()}\n" for room, text in cases)
    said = subprocess.run([words[0]], input=given, stdout=subprocess.PIPE, text=True, check=True).stdout.splitlines()
    if len(said) != len(cases):
        sys.exit(f"{len(cases)} cases, and {len(said)} answers")
    seen = collections.Counter()
    differ = 0
    for case, answer in zip(cases, said):
        expected, verdict, state = replayed(case)
        seen.update([f"verdict {verdict}"])
        seen.update(f"kind {kind}" for kind, *_ in state.entries)
        seen.update(mark(parents) for parents in state.parents.values() if parents)
        answer = [int(number) for number in answer.split()]
        if answer != expected:
            differ += 1
            at = place(expected, answer)
            if differ <= 5:
                print(f"differs from number {at} on, the script {expected[at:at + 8]}, the port {answer[at:at + 8]}: {case}")
    print(f"{len(cases) - differ} cases agree, {differ} differ: " + ", ".join(f"{what} {seen[what]}" for what in sorted(seen)))
    sys.exit(differ > 0)


if __name__ == "__main__":
    main(sys.argv[1:])
