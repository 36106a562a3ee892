"""Answers the examples by the Python module, and compares with their answers. Ends with 1 where one differs."""

import json
import pathlib
import sys

import hencredenza

EXAMPLES = pathlib.Path(__file__).resolve().parents[1]
STATUSES = {"bad json": 3, "bad request at node 2": 4}


def is_as_it_should(path):
    """Whether a request's answer, or its refusal with the right status, is what NAME.answer says."""
    request = json.loads(path.read_text())
    wanted = path.with_suffix(".answer").read_text().rstrip("\n")
    try:
        return hencredenza.answer(request) == json.loads(wanted)
    except hencredenza.HencredenzaError as refusal:
        return str(refusal) == wanted and refusal.status == STATUSES[wanted]


def is_imported(path):
    """Whether the request's formula alone is imported and exported as the answer to the request says."""
    request = json.loads(path.read_text())
    wanted = json.loads(path.with_suffix(".answer").read_text())
    made = hencredenza.import_formula(request["formula"], request.get("rule") == "every-scalar")
    return made == {key: wanted[key] for key in ("exported", "imported")}


def main():
    results = []
    for path in sorted(EXAMPLES.glob("*.answer")):
        path = path.with_suffix(".json")
        tests = [is_as_it_should]
        if path.with_suffix(".answer").read_text().startswith("{"):
            tests.append(is_imported)
        for test in tests:
            results.append(test(path))
            if not results[-1]:
                print(f"{path.stem}, {test.__name__}: not as it should be")
    print(f"{sum(results)} passed, {len(results) - sum(results)} failed")
    return 0 if results and all(results) else 1


if __name__ == "__main__":
    sys.exit(main())
