"""Digital silence inside recordings: how much of it suffices to be found where a station is silent, and what helps."""

from plays import catalogue, report, sent, words_of
from recordings import BOTH, RATE, RAW, ffmpeg, silence
from tables import table

SECONDS = (0.3, 0.6, 0.9, 1.0, 1.1, 1.2, 1.3, 1.4, 1.6, 2.0, 3.35)
FLIPS = (0, 4, 10)
SOUND = 10  # seconds of sound before the silence, and behind it
STATION = 6  # seconds for which a station is silent
HISS = f"anoisesrc=sample_rate={RATE}:amplitude=0.0001"
TRIM = "silenceremove=stop_periods=-1:stop_duration=0.2:stop_threshold=-70dB:detection=peak"


def with_silence(recording, seconds):
    return recording.part(20 * RATE, SOUND * RATE) + silence(seconds) + recording.part(40 * RATE, SOUND * RATE)


def hissing(sound, seed):
    """With faint noise, as docs/FINDING.md tells."""
    graph = f"{HISS}:seed={seed},{BOTH}[n];[0][n]amix=inputs=2:duration=first:normalize=0"
    return ffmpeg([*RAW, "-i", "-", "-filter_complex", graph, *RAW, "-"], sound)


def trimmed(sound):
    """Without the silence that lasts, as docs/FINDING.md tells."""
    return ffmpeg([*RAW, "-i", "-", "-af", TRIM, *RAW, "-"], sound)


def matched(trial, words, station):
    """How many recordings some line of a station names, by the flips, and the least errors."""
    records = catalogue(words) + sent(0, station)
    out = []
    for flips in FLIPS:
        items = [item for line in report(trial.program, records, 1, flips, 64) for item in line.items]
        least = min((errors for _, _, errors in items), default=None)
        out.append((len({number for number, _, _ in items}), least))
    return out


def row(trial, name, sounds, station):
    words = trial.each(lambda sound: words_of(trial.program, sound), sounds)
    found = matched(trial, words, station)
    leasts = [least for _, least in found if least is not None]
    return [name, *(f"{many} of {len(sounds)}" for many, _ in found), str(min(leasts)) if leasts else "none"]


def rows(trial):
    """A row for each length of the silence, and one for each remedy."""
    quiet = silence(STATION)
    out = []
    for seconds in SECONDS:
        out.append(row(trial, f"{seconds:g} s", [with_silence(each, seconds) for each in trial.known], quiet))
    long = [with_silence(each, 3.35) for each in trial.known]
    out.append(row(trial, "3.35 s, taken out of the recording", trial.each(trimmed, long), quiet))
    noisy = trial.each(lambda n: hissing(long[n], n + 1), range(len(long)))
    out.append(row(trial, "3.35 s, the recording with faint noise", noisy, quiet))
    out.append(row(trial, "3.35 s, the station with faint noise", long, hissing(quiet, 99)))
    out.append(row(trial, "3.35 s, both with faint noise", noisy, hissing(quiet, 99)))
    head = ["digital silence in each recording", *(f"{flips} flips" for flips in FLIPS), "least errors"]
    return table(head, out)
