"""What a test asks of a file."""

from elephant import FileStat, Store


def file_stat(store: Store, path: str) -> FileStat:
    row = store.stat(path)
    assert isinstance(row, FileStat)
    return row
