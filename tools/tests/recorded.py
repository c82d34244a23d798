"""The forms of review.json, of one machine and of a fleet."""

import json
import os
from typing import Any

from support import TOOLS

DATA = os.path.join(TOOLS, "kulavemia", "data")


def faults_of(record: Any, form: str = "review") -> list[str]:
    """Returns what is wrong with a record by a schema of the repository."""
    import jsonschema

    with open(os.path.join(DATA, f"{form}.schema.json"), encoding="utf-8") as file:
        schema = json.load(file)
    jsonschema.Draft202012Validator.check_schema(schema)
    return [f"{error.json_path}: {error.message}" for error in jsonschema.Draft202012Validator(schema).iter_errors(record)]
