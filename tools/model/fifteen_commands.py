"""Commands of which most are refused, each with its answer."""

from input_parts import (
    CLOSE,
    OPERATOR_HELLO,
    PRINTS,
    PUBLISH,
    add,
    audio,
    open_song,
    operator_record,
    station_hello,
    station_record,
    withdraw,
)

WORDS = "replay --songs 2 --positions 512 --versions 2"


def fifteen():
    """Commands of which most are refused, each with its answer under the options of WORDS."""
    ramp = range(256)
    return [
        (add(1, ramp), "ok"),
        (add(1, ramp), "refused duplicate"),
        (add(2, range(255)), "refused short"),
        (withdraw(9), "refused unknown"),
        (add(2, range(257)), "refused positions-full"),
        (add(2, ramp), "ok"),
        (add(3, ramp), "refused songs-full"),
        (CLOSE, "refused no-song-open"),
        (open_song(3, 1, 1), "ok"),
        (open_song(4, 1, 1), "refused song-open"),
        (audio(b""), "ok"),
        (CLOSE, "refused short"),
        (PUBLISH, "published 1"),
        (PUBLISH, "published 2"),
        (PUBLISH, "refused versions-full"),
    ]


def input_of_them():
    """These commands, and a station that sends its hello alone."""
    return operator_record(OPERATOR_HELLO + b"".join(sent for sent, _ in fifteen())) + station_record(
        0, station_hello(PRINTS)
    )
