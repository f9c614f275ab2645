"""How files of each type begin and are named."""
DEX, ZIP = b"dex\n", b"PK"
# How an archive begins: with an entry, with its end where it has none, or as the first of several parts.
ARCHIVES_BEGIN = b"PK\3\4", b"PK\5\6", b"PK\7\x08"
ARCHIVES_END = ".apk", ".jar", ".zip", ".aar", ".aab", ".apks"  # their names


def is_archive_name(name: str) -> bool:
    return name.lower().endswith(ARCHIVES_END)


def is_dex_name(name: str) -> bool:
    return name.lower().endswith(".dex")
