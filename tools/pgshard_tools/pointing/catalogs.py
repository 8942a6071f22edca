"""Finds where the tables and the publications of a catalog are created."""

from pgshard_tools.judging.catalog_tokens import Table, placed_tokens, stored, table_of


def made_in(text: str) -> tuple[list[tuple[int, Table]], dict[str, int], list[str]]:
    """Returns the tables and the publications of a catalog that pgshard reads, with the places of their names in
    characters, and the names of its subscriptions."""
    tables, publications, subscriptions = [], {}, []
    for statement in placed_statements(text):
        words = [token for _, token in statement]
        match [word.upper() for word in words[:2]]:
            case ["CREATE", "TABLE"]:
                tables.append((statement[2][0], table_of(words[2:])))
            case ["CREATE", "PUBLICATION"]:
                publications[stored(words[2])] = statement[2][0]
            case ["CREATE", "SUBSCRIPTION"]:
                subscriptions.append(stored(words[2]))
    return tables, publications, subscriptions


def placed_statements(text: str) -> list[list[tuple[int, str]]]:
    """Returns the statements of a catalog, as lists of tokens with their places."""
    found: list[list[tuple[int, str]]] = []
    statement: list[tuple[int, str]] = []
    for at, token in placed_tokens(text):
        if token == ";":
            found.append(statement)
            statement = []
        else:
            statement.append((at, token))
    return [statement for statement in found if statement]
