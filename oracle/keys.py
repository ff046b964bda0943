#!/usr/bin/env python3
# Holds naga's matching of keys and overrides against the rules: all modules of one or two overrides over a few ids and names, and those of
# three that have a name such as 007, with all settings of one to three keys in every order. The stand-in for naga's map keeps the order of
# the file. Prints each class of difference with its number and four of the shortest cases: the overrides, the keys, both answers.
import itertools, os, subprocess, tempfile

SPECS = [(7, None), (0, None), (None, "7"), (None, "007"), (None, "+7"), (None, "w"), (7, "w"), (65535, None)]
KEYS = ["7", "007", "+7", "w", "0", "00", "65535", "65536"]
HARNESS = os.path.join(os.path.dirname(os.path.abspath(__file__)), "target/release/naga-oracle")


def case(number, overrides, keys):
    lines = [f"case {number}", "pile keep", "g 18 4 99 0 0 / 1 2 /"]
    for id, name in overrides:
        lines.append(f"o {'-' if id is None else id} {'-' if name is None else chr(39) + name} 1 4 0")
    lines += [f"k '{key} ={i + 1}" for i, key in enumerate(keys)]
    return "\n".join(lines + ["end"])


def modules_and_keys():
    for n in (1, 2, 3):
        for overrides in itertools.product(SPECS, repeat=n):
            if n == 3 and not any(o[1] in ("007", "+7") for o in overrides):
                continue
            for m in (1, 2) if n == 3 else (1, 2, 3):
                for keys in itertools.permutations(KEYS, m):
                    yield overrides, keys


def answers(command, path):
    out = subprocess.run([HARNESS, command, path], capture_output=True, text=True, check=True).stdout
    return out.split("end\n")[:-1]


def settled(answer):
    return [line for line in answer.splitlines() if line.startswith("settle")][0]


def taken(key, overrides):
    return any(str(id) == key if id is not None else name == key for id, name in overrides)


def difference(overrides, keys, naga, rules):
    both = naga.startswith("settle refused 6"), rules.startswith("settle refused 6")
    if both == (True, True):
        named = "takes" if taken(keys[int(naga.split()[-1])], overrides) else "does not take"
        return f"both refuse, and naga names a later key, which an override {named}"
    if both == (False, True):
        return "naga accepts, the rules refuse"
    if both == (True, False):
        return "naga refuses, the rules accept"
    return "both accept, and the tables differ"


def main():
    tried = list(modules_and_keys())
    with tempfile.NamedTemporaryFile("w", suffix=".cases") as f:
        f.write("\n".join(case(i, *t) for i, t in enumerate(tried)) + "\n")
        f.flush()
        naga, rules = answers("run", f.name), answers("model", f.name)
    classes = {}
    for (overrides, keys), n, r in zip(tried, naga, rules):
        if n != r:
            shown = (len(overrides) + len(keys), overrides, keys, settled(n), settled(r))
            classes.setdefault(difference(overrides, keys, settled(n), settled(r)), []).append(shown)
    print(len(tried), "cases")
    for name, cases in sorted(classes.items()):
        print(len(cases), name)
        for shown in sorted(cases, key=lambda c: c[0])[:4]:
            print("    ", shown[1:])


main()
