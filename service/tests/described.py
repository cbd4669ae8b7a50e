"""Calls that are generated from a description by OpenAPI, and answers held against it."""
import datetime
import json
from collections.abc import Mapping
from dataclasses import dataclass
from pathlib import Path
from typing import Any

import jsonschema  # type: ignore[import]
import yaml  # type: ignore[import]
from hypothesis import strategies

DOCS = Path(__file__).resolve().parents[2] / 'docs'
Values = strategies.SearchStrategy[dict[str, str]]
DAYS = strategies.dates(datetime.date(2024, 12, 1), datetime.date(2027, 1, 31))
FEW = strategies.integers(0, 12)
"""Numbers of which some are there."""
SOME = 3
"""Parameters of a call, at most, besides those that it needs."""


@dataclass(frozen=True)
class Operation:
    """One method of one path, as it is described."""

    path: str
    method: str
    of: dict[str, Any]

    @property
    def name(self) -> str:
        return str(self.of['operationId'])


class Description:
    """A file of docs/ that describes routes."""

    def __init__(self, name: str) -> None:
        self.whole: dict[str, Any] = yaml.safe_load((DOCS / name).read_text(encoding='utf-8'))
        self.operations = [Operation(path, method, of) for path, item in self.whole['paths'].items()
                           for method, of in item.items()]

    def resolved(self, value: dict[str, Any]) -> dict[str, Any]:
        """What a reference leads to, with what stands beside it."""
        while '$ref' in value:
            beside = {name: one for name, one in value.items() if name != '$ref'}
            found: Any = self.whole
            for name in value['$ref'].removeprefix('#/').split('/'):
                found = found[name]
            value = {**found, **beside}
        return value

    def parameters(self, operation: Operation, place: str) -> dict[str, dict[str, Any]]:
        """The parameters of an operation that stand in the query or in the path."""
        found = [self.resolved(one) for one in operation.of.get('parameters', ())]
        return {one['name']: one for one in found if one['in'] == place}

    # ------------------------------------------------------------ calls

    def value(self, name: str, schema: dict[str, Any], known: Mapping[str, list[str]]) -> Any:
        """Texts that a parameter may be: such as are there, and others of its schema."""
        schema, there = self.resolved(schema), known.get(name, [])
        if 'enum' in schema:
            return strategies.sampled_from(schema['enum'])
        if schema.get('type') == 'integer':
            low, high = int(schema.get('minimum', 0)), int(schema['maximum'])
            few = FEW.map(lambda number: max(low, number))
            numbers = (strategies.integers(low, high) | few).map(str)
            return numbers | strategies.sampled_from(there) if there else numbers
        if schema.get('format') == 'date':
            return DAYS.map(str)
        if 'pattern' in schema:
            return strategies.from_regex(schema['pattern'], fullmatch=True)
        texts = strategies.text(strategies.characters(blacklist_categories=['Cs']), max_size=8)
        return strategies.sampled_from(there) | texts if there else texts

    def queries(self, operation: Operation, known: Mapping[str, list[str]]) -> Values:
        """Queries of an operation: those parameters that it needs, and some of the others."""
        given = self.parameters(operation, 'query')
        values = {name: self.value(name, one['schema'], known) for name, one in given.items()}
        needed = [name for name, one in given.items() if one.get('required')]
        others = [name for name in given if name not in needed]
        some = (strategies.lists(strategies.sampled_from(others), max_size=SOME, unique=True)
                if others else strategies.just([]))
        return some.flatmap(lambda names: strategies.fixed_dictionaries(
            {name: values[name] for name in (*needed, *names)}))

    def paths(self, operation: Operation, known: Mapping[str, list[str]]) -> Any:
        """Targets of an operation, their parts filled in."""
        given = self.parameters(operation, 'path')
        parts = strategies.fixed_dictionaries(
            {name: self.value(name, one['schema'], known) for name, one in given.items()})
        return parts.map(lambda values: operation.path.format(**values))

    # ------------------------------------------------------------ answers

    def fault(self, operation: Operation, status: int, kind: str, body: bytes) -> str | None:
        """What of an answer is not as it is described; None where all is."""
        told = operation.of['responses'].get(str(status))
        if told is None:
            return f'{status} is not described'
        content = self.resolved(told).get('content', {})
        if kind not in content and kind.split(';')[0] not in content:
            return f'{status}: {kind} is not described'
        schema = content.get(kind, content.get(kind.split(';')[0]))['schema']
        is_binary = kind.startswith(('application/vnd.', 'application/zip'))
        value = (json.loads(body) if kind.startswith('application/json')
                 else body.decode(errors='replace' if is_binary else 'strict'))
        whole = {'components': self.whole['components'], **schema}
        found = next(jsonschema.Draft202012Validator(whole).iter_errors(value), None)
        return found and f'{status}: {"/".join(map(str, found.absolute_path))}: {found.message}'
