"""What is recorded of a file: the hex digest of its contents, and of its times where they count."""
import dataclasses

from .digests import delimiter, digest_text, framed_option
from .errors import Refused
from .files import call_files, read_pieces
from .texts import first_value
from .times import is_instant, local_date, local_second

TIME_MACRO = b"__TIME__"
DATE_MACRO = b"__DATE__"
TIMESTAMP_MACRO = b"__TIMESTAMP__"


@dataclasses.dataclass
class Config:
    """The options of the mode, off and on as `PreprocessorCacheModeConfig::default` has them."""

    use_preprocessor_cache_mode: bool = False
    file_stat_matches: bool = False
    use_ctime_for_stat: bool = True
    ignore_time_macros: bool = False
    skip_system_headers: bool = False
    hash_working_directory: bool = True


def activated():
    """`activated`: the default options with the mode switched on."""
    return Config(use_preprocessor_cache_mode=True)


@dataclasses.dataclass
class Setting:
    """`Setting`: how files are judged: the options, the call time, the zone and the variables."""

    moment: int
    zone: int
    variables: list
    config: Config


def has(text, word):
    """`has`: the word is a contiguous part of the text."""
    return word in text


def found_macros(stream):
    """`Follows`: which of `__TIME__`, `__DATE__` and `__TIMESTAMP__` a stream has, in this order."""
    return has(stream, TIME_MACRO), has(stream, DATE_MACRO), has(stream, TIMESTAMP_MACRO)


def date_bytes(date):
    """`date_bytes`: the year, the month and the day, 4 bytes each, the lowest first."""
    year, month, day = date
    return (
        year.to_bytes(4, "little", signed=True)
        + month.to_bytes(4, "little")
        + day.to_bytes(4, "little")
    )


def source_date_epoch(variables):
    """`source_date_epoch`: the value of the first variable `SOURCE_DATE_EPOCH`, or None."""
    return first_value(variables, b"SOURCE_DATE_EPOCH")


def date_part(with_date, moment, zone, variables):
    """`date_part`: the bytes for a text with a date; None where the call time is no instant."""
    if not with_date:
        return b""
    if not is_instant(moment):
        return None
    shown = framed_option(source_date_epoch(variables))
    return delimiter(b"date") + date_bytes(local_date(moment, zone)) + shown


def timestamp_part(with_timestamp, modified, zone):
    """`timestamp_part`: the bytes for a text with a timestamp; None where its time is missing or no instant."""
    if not with_timestamp:
        return b""
    if modified is None or not is_instant(modified):
        return None
    second = local_second(modified, zone)
    return delimiter(b"timestamp") + second.to_bytes(8, "little", signed=True)


def time_part(with_date, with_timestamp, modified, moment, zone, variables):
    """`time_part`: the date part and the stamp part, or None where one of them is None."""
    date = date_part(with_date, moment, zone, variables)
    stamp = timestamp_part(with_timestamp, modified, zone)
    if date is None or stamp is None:
        return None
    return date + stamp


def recorded(contents, modified, setting):
    """`recorded`: the recorded digest of contents and a time of modification, or None."""
    digest = digest_text(contents)
    if setting.config.ignore_time_macros:
        return digest
    with_time, with_date, with_timestamp = found_macros(contents)
    if with_time:
        return None
    if not with_date and not with_timestamp:
        return digest
    part = time_part(
        with_date, with_timestamp, modified, setting.moment, setting.zone, setting.variables
    )
    if part is None:
        return None
    return digest + digest_text(part)


def recorded_digest(files, path, setting):
    """`recorded` of the regular file at a path; the error `Io` where it can't be read."""
    try:
        metadata = call_files(files.metadata, path)
    except Refused as error:
        raise Refused("Io", error) from None
    return digest_with_metadata(files, path, metadata, setting)


def digest_with_metadata(files, path, metadata, setting):
    """The same, where the metadata of what is at the path are known."""
    try:
        contents = read_pieces(files, path)
    except Refused as error:
        raise Refused("Io", error) from None
    return recorded(contents, metadata.modified, setting)
