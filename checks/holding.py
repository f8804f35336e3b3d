"""What a SQLite file holds, as SQLite's own library finds it: by it a check tells whether a file was left as it was."""
import contextlib
import pathlib
import shutil
import sqlite3
import tempfile

NONE = b"0"


def is_generation(row):
    return tuple(row[:2]) == (0, b"")


def rows_of(connection, table):
    return sorted((tuple(row) for row in connection.execute(f'SELECT * FROM "{table}"')), key=repr)


def held_by(connection):
    """The schema and the rows of each table. An opening writes the generation again, which without a row is 0: so it stands apart."""
    schema = connection.execute("SELECT type, name, sql FROM sqlite_schema ORDER BY name").fetchall()
    tables = {name: rows_of(connection, name) for kind, name, _ in schema if kind == "table"}
    generation = next((row[2] for row in tables.get("cell", []) if is_generation(row)), NONE)
    if "cell" in tables:
        tables["cell"] = [row for row in tables["cell"] if not is_generation(row)]
    return schema, tables, generation


def held(path):
    """What the file and its log hold; its bytes where it is no database, and nothing where there is no file. They stay as they are."""
    path = pathlib.Path(path)
    if not path.is_file():
        return None
    with tempfile.TemporaryDirectory() as folder:
        copy = pathlib.Path(folder, "copy.db")
        shutil.copyfile(path, copy)
        if pathlib.Path(f"{path}-wal").is_file():
            shutil.copyfile(f"{path}-wal", f"{copy}-wal")
        try:
            with contextlib.closing(sqlite3.connect(copy)) as connection:
                return held_by(connection)
        except sqlite3.DatabaseError:
            return path.read_bytes()


def without_cells(held_before, held_now):
    """Whether the table was made where there was none, and all else is as it was."""
    if not isinstance(held_before, tuple) or not isinstance(held_now, tuple):
        return False
    (schema, tables, _), (schema_now, tables_now, generation) = held_before, held_now
    made = [entry for entry in schema_now if entry[1] not in ("cell", "sqlite_autoindex_cell_1")]
    others = {name: rows for name, rows in tables_now.items() if name != "cell"}
    return "cell" not in tables and made == schema and others == tables and tables_now["cell"] == [] and generation == NONE
