"""The text of a catalog as `show` prints it."""

from .catalogs import OPERATIONS, Catalog, Column, Filter, Publication, Subscription, Table, Value
from .values import written

# The precedence of the parts of a filter: OR is the lowest, then AND, NOT and the IS tests; comparisons and constants
# are the highest.
OR, AND, NOT, TEST, OPERAND = range(5)
TRUTHS = {True: "TRUE", False: "FALSE", None: "UNKNOWN"}

# The heads of filters that can have a NOT inside.
TESTS = ("null", "in", "between", "distinct", "is")

Entry = tuple[int, Filter | None]


def text_of(catalog: Catalog) -> str:
    """Returns the statements, one per line."""
    return "".join(f"{it};\n" for it in statements(catalog))


def statements(catalog: Catalog) -> list[str]:
    """Returns the statements of a catalog."""
    found: list[str] = []
    made = {"public"}
    for table in catalog.tables:
        if table.schema not in made:
            found.append(f"CREATE SCHEMA {quoted(table.schema)}")
            made.add(table.schema)
        found += of_table(table)
    found += [of_publication(catalog, it) for it in catalog.publications]
    return found + [of_subscription(catalog, it) for it in catalog.subscriptions]


def quoted(name: str) -> str:
    """Returns a name in double quotes."""
    return '"' + name.replace('"', '""') + '"'


def listed(names: list[str]) -> str:
    """Returns names in parentheses."""
    return f"({', '.join(quoted(name) for name in names)})"


# ---- tables


def full_name(table: Table) -> str:
    """Returns the name with its schema."""
    return f"{quoted(table.schema)}.{quoted(table.name)}"


def of_table(table: Table) -> list[str]:
    """Returns the statements for a table, its indexes and its identity."""
    name = full_name(table)
    columns = [of_column(column, number in table.key) for number, column in enumerate(table.columns)]
    key = f"PRIMARY KEY {columns_of(table, table.key)}"
    indexes = [
        f"CREATE UNIQUE INDEX {quoted(it.name)} ON {name} {columns_of(table, it.columns)}" for it in table.indexes]
    identity = f"ALTER TABLE {name} REPLICA IDENTITY {identity_of(table)}"
    return [f"CREATE TABLE {name} ({', '.join([*columns, key])})", *indexes, identity]


def of_column(column: Column, is_key: bool) -> str:
    """Returns a column. Key columns are NOT NULL."""
    return f"{quoted(column.name)} {column.kind}{' NOT NULL' if column.not_null or is_key else ''}"


def columns_of(table: Table, numbers: tuple[int, ...]) -> str:
    """Returns a list of columns."""
    return listed([table.columns[number].name for number in numbers])


def identity_of(table: Table) -> str:
    """Returns a replica identity."""
    if isinstance(table.identity, str):
        return table.identity
    return f"USING INDEX {quoted(table.indexes[table.identity].name)}"


# ---- publications


def carried(catalog: Catalog, publication: Publication) -> list[Entry]:
    """Returns the tables that a publication carries: first those that it names, and then those that it carries
    whole."""
    whole: list[Entry] = [
        (number, None) for number, table in enumerate(catalog.tables)
        if publication.all_tables or table.schema in publication.schemas]
    return [*publication.entries, *whole]


def comes_twice(entries: list[Entry]) -> bool:
    """Returns whether some table occurs twice."""
    return len({number for number, _ in entries}) < len(entries)


def schemas_of(catalog: Catalog, entries: list[Entry]) -> list[str]:
    """Returns the schemas of the tables, without duplicates."""
    return list(dict.fromkeys(catalog.tables[number].schema for number, _ in entries))


def objects_of(catalog: Catalog, entries: list[Entry]) -> list[str]:
    """Returns the tables of a publication by name. If one occurs twice, the longest tail of the list that consists of
    all tables of some schemas is given by these schemas."""
    named = len(entries)
    if comes_twice(entries):
        named = next(at for at in range(len(entries)) if are_schemas(catalog, entries[at:]))
    schemas = schemas_of(catalog, entries[named:])
    return [
        *(of_entry(catalog.tables[number], condition) for number, condition in entries[:named]),
        *(f"TABLES IN SCHEMA {quoted(schema)}" for schema in schemas)]


def are_schemas(catalog: Catalog, entries: list[Entry]) -> bool:
    """Returns whether these are all tables of some schemas, whole and in the order of the tables."""
    schemas = schemas_of(catalog, entries)
    every: list[Entry] = [(number, None) for number, table in enumerate(catalog.tables) if table.schema in schemas]
    return entries == every


def of_entry(table: Table, condition: Filter | None) -> str:
    """Returns a table with its filter."""
    where = "" if condition is None else f" WHERE ({of_filter(table, condition)})"
    return f"TABLE {full_name(table)}{where}"


def of_publication(catalog: Catalog, publication: Publication) -> str:
    """Returns a publication."""
    objects = objects_of(catalog, carried(catalog, publication))
    scope = f" FOR {', '.join(objects)}" if objects else ""
    publishes = ", ".join(it for it in OPERATIONS if it in publication.operations)
    return f"CREATE PUBLICATION {quoted(publication.name)}{scope} WITH (publish = '{publishes}')"


def of_subscription(catalog: Catalog, subscription: Subscription) -> str:
    """Returns a subscription."""
    taken = ", ".join(quoted(catalog.publications[number].name) for number in subscription.publications)
    return f"CREATE SUBSCRIPTION {quoted(subscription.name)} CONNECTION '' PUBLICATION {taken}"


# ---- filters


def of_filter(table: Table, it: Filter, level: int = OR) -> str:
    """Returns a filter for a place that needs at least this precedence."""
    own, text = unclosed(table, it)
    return f"({text})" if own < level else text


def unclosed(table: Table, it: Filter) -> tuple[int, str]:
    """Returns a filter without parentheses, and its precedence."""
    match it:
        case ("or", left, right):
            return OR, f"{of_filter(table, left, OR)} OR {of_filter(table, right, AND)}"
        case ("and", left, right):
            return AND, f"{of_filter(table, left, AND)} AND {of_filter(table, right, NOT)}"
        case ("not", inner) if inner[0] in TESTS:
            return tested(table, inner, " NOT")
        case ("not", inner):
            return NOT, f"NOT {of_filter(table, inner, NOT)}"
        case ("const", value):
            return OPERAND, TRUTHS[value]
        case ("cmp", column, divisor, operator, literal):
            return OPERAND, f"{term(table, column, divisor)} {operator} {of_literal(literal)}"
    return tested(table, it, "")


def tested(table: Table, it: Filter, negation: str) -> tuple[int, str]:
    """Returns a test that can have a NOT inside."""
    match it:
        case ("is", truth, inner):
            return TEST, f"{of_filter(table, inner, OPERAND)} IS{negation} {TRUTHS[truth]}"
        case ("null", column):
            return TEST, f"{term(table, column, 0)} IS{negation} NULL"
        case ("distinct", column, divisor, literal):
            return TEST, f"{term(table, column, divisor)} IS{negation} DISTINCT FROM {of_literal(literal)}"
        case ("between", column, divisor, low, high):
            return OPERAND, f"{term(table, column, divisor)}{negation} BETWEEN {low} AND {high}"
    _, column, divisor, literals = it
    return OPERAND, f"{term(table, column, divisor)}{negation} IN ({', '.join(of_literal(one) for one in literals)})"


def term(table: Table, column: int, divisor: int) -> str:
    """Returns a column or its remainder."""
    name = quoted(table.columns[column].name)
    return f"{name} % {divisor}" if divisor else name


def of_literal(value: Value) -> str:
    """Returns a constant."""
    return written(value)
