"""Lines of `lsr step`, moves of `lsr play`, and journals, where requests for memory are refused."""

import functools
import itertools
import pathlib
import re
import tempfile

from refused.runs import (
    ENDED, KEPT, MEMORY, MOST_SECONDS, REFUSAL, REFUSED, SAME, Ask, Case, Wanted,
    ask_lsr, is_starved, jobs_of, judge_plain, new_name, plain_case, read_lines, run, section, start, want, write_lines,
)

# So many replies `show recent` prints.
MOST_RECENT = 32
RECENT = "show recent"
SHOWS = ["paths", "resvs", "table", "labels", "links", "tunnels", "bypasses", "summary"]
# Refusals that leave no entry in a journal.
NO_ENTRY = {b"%d" % number for number in (*range(1, 10), 13, 14, 40, 41, 42, 43)}
# What `lsr check` prints of a file that there was no memory to check.
UNCHECKED = b"entry 0: Memory\n"


def answers_of(room, words, lines):
    """What `lsr step --live` answers to each of the lines."""
    ask = Ask((room.lsr, "step", "--live", *words), lines=write_lines(room, lines))
    with tempfile.TemporaryFile() as out:
        process, reports = start(room, ask, "", {}, stdout=out)
        with reports:
            records = [record.split() for record in reports]
        process.wait(MOST_SECONDS)
        out.seek(0)
        printed = out.read()
    ends = [int(record[1]) for record in records if record[0] == b"line"] + [len(printed)]
    return [printed[first:last] for first, last in itertools.pairwise(ends)]


def config_words(room, name):
    """The words that name a case's configuration, where it has one of its own."""
    file = f"{name}.toml"
    return ["--config", file] if (room.folder / file).exists() else []


def is_shown(line):
    """Whether a line asks what is known."""
    return line.startswith("show ")


def shows_of(room, words, lines):
    """The lines that show all that a router knows somewhere among these lines: each LSP, too, that has a path then."""
    asked = [it for line in lines for it in (line, "show paths")]
    text = b"".join(answers_of(room, words, asked)).decode()
    keys = sorted(set(re.findall(r"^path (\S+/\S+ \S+/\S+) ", text, re.MULTILINE)))
    return [f"show {what}" for what in SHOWS] + [f"show {what} {key}" for key in keys for what in ("path", "resv")]


def reply_of(line, answer):
    """The reply to a line, as `show recent` has it: none where something was shown, or a frame went on or was delivered."""
    first = answer.splitlines(keepends=True)[:1]
    return [] if is_shown(line) or answer.startswith((b"frame", b"deliver")) else first


def recent_text(lines, answers, refused):
    """What `show recent` prints after these lines, where one of them was refused before it was given again."""
    replies = []
    for place, (line, answer) in enumerate(zip(lines, answers)):
        replies += [REFUSAL] * (place == refused) + reply_of(line, answer)
    return b"".join(replies[-MOST_RECENT:])


def refused_text(lines, answers, known, refused):
    """What is printed where a line is refused for want of memory; what the router knew before is shown then, and the line given again."""
    after = [
        recent_text(lines[:place], answers[:place], refused) if lines[place] == RECENT else answers[place]
        for place in range(refused, len(lines))
    ]
    return b"".join([*answers[:refused], REFUSAL, known, *after])


def starts_of(answers):
    """All that is printed between lines."""
    return set(itertools.accumulate(answers, initial=b""))


def judge_lines(whole, refused, starts, one):
    """Of a run over lines: what is printed in all, where a line was refused, and between lines."""
    if one.status == 0 and not one.err and one.out in (refused | {whole}):
        return SAME if one.out == whole else REFUSED
    return ENDED if is_starved(one) and one.out in starts else None


def step_jobs(room, name):
    """A case of `lsr step --live`. All that is known is shown before each line and at the end."""
    words, lines = config_words(room, name), read_lines(room, f"{name}.step")
    shows = shows_of(room, words, lines)
    asked = [it for line in lines for it in (*shows, line)] + [*shows, RECENT]
    all_answers = answers_of(room, words, asked)
    size = len(shows) + 1
    known = [b"".join(all_answers[first : first + len(shows)]) for first in range(0, size * len(lines), size)]
    given = [*lines, *shows, RECENT]
    answers = all_answers[len(shows) : size * len(lines) : size] + all_answers[size * len(lines) :]
    printed = b"".join(answer for line, answer in zip(lines, answers) if line != RECENT)
    want(name, section(room, name), printed.decode().splitlines())
    whole = b"".join(answers)
    refused = {refused_text(given, answers, known[place], place) for place in range(len(lines)) if not is_shown(lines[place])}
    ask = Ask((room.lsr, "step", "--live", *words), lines=write_lines(room, given), again=write_lines(room, shows))
    judge = functools.partial(judge_lines, whole, refused, starts_of(answers))
    return jobs_of(room, Case(name, ask, MEMORY, Wanted(0, whole), judge))


def world_text(room, lines):
    """What `lsr play --lab` prints of these lines."""
    return ask_lsr(room, "play", "--lab", write_lines(room, lines)).out


def without_names(text, routers):
    """The lines that a world prints, without the names of its routers."""
    return [re.sub(rf"^({'|'.join(routers)}) ", "", line) for line in text.decode().splitlines()]


def refused_moves(room, given, moves, starts):
    """What is printed where one of the moves is refused: all else is as if it weren't there."""
    texts = set()
    for place in moves:
        start_of = starts[place]
        rest = world_text(room, given[:place] + given[place + 1 :])[len(start_of) :]
        texts.add(start_of + REFUSAL + rest)
    return texts


def world_jobs(room, name):
    """A world of `lsr play --lab`, whose moves are made twice. All that its routers know is shown at the end."""
    lines = read_lines(room, f"{name}.moves")
    heads = [line for line in lines if line.startswith(("router ", "wire "))]
    moves = lines[len(heads) :]
    routers = [line.split()[1] for line in heads if line.startswith("router ")]
    want(name, section(room, name), without_names(world_text(room, lines), routers))
    shows = [f"show {router} {what}" for router in routers for what in SHOWS]
    given = heads + [move for move in moves for _ in range(2)] + shows
    starts = {place: world_text(room, given[:place]) for place in range(len(heads), len(given) + 1)}
    places = range(len(heads), len(heads) + 2 * len(moves))
    refused = refused_moves(room, given, places, starts)
    whole = starts[len(given)]
    ask = Ask((room.lsr, "play", "--lab", write_lines(room, given)))
    judge = functools.partial(judge_lines, whole, refused, set(starts.values()))
    return jobs_of(room, Case(name, ask, MEMORY, Wanted(0, whole), judge))


def entries_of(answers):
    """How many entries a journal has of lines that were answered so."""
    words = [answer.split()[:2] for answer in answers]
    return sum(it[0] in (b"done", b"error") or (it[0] == b"refused" and it[1] not in NO_ENTRY) for it in words)


def journal_of(room, words, lines, answers):
    """The journal of a run over these lines. It has the entries of the answers, and `lsr check` says that it is a run."""
    wanted = run(room, Ask((room.lsr, "step", "--journal", KEPT, *words), write_lines(room, lines)))
    want("step --journal", (0, b"".join(answers)), (wanted.status, wanted.out))
    name = pathlib.Path(new_name(room))
    name.write_bytes(wanted.kept)
    entries = b"run of %d entries\n" % entries_of(answers)
    want("check", Wanted(0, entries), ask_lsr(room, "check", str(name)))
    return wanted.kept


def judge_recorded(whole, refused, begun, starts, one):
    """Of a recorded run: pairs of what is printed and its journal, in all, and where a line is refused; the journals of its beginnings, and
    what is printed between lines."""
    pair = (one.out, one.kept)
    if one.status == 0 and not one.err and pair in (refused | {whole}):
        return SAME if pair == whole else REFUSED
    return ENDED if is_starved(one) and one.out in starts and one.kept in begun | {b""} else None


def recorded_jobs(room, name):
    """A case of `lsr step --journal`, which shows nothing."""
    words = config_words(room, name)
    lines = [line for line in read_lines(room, f"{name}.step") if not is_shown(line)]
    answers = answers_of(room, words, lines)
    whole = (b"".join(answers), journal_of(room, words, lines, answers))
    refused = set()
    for place in range(len(lines)):
        left = lines[:place] + lines[place + 1 :]
        left_answers = answers_of(room, words, left)
        printed = b"".join([*left_answers[:place], REFUSAL, *left_answers[place:]])
        refused.add((printed, journal_of(room, words, left, left_answers)))
    begun = {journal_of(room, words, lines[:count], answers[:count]) for count in range(len(lines) + 1)}
    ask = Ask((room.lsr, "step", "--journal", KEPT, *words), write_lines(room, lines))
    judge = functools.partial(judge_recorded, whole, refused, begun, starts_of(answers))
    return jobs_of(room, Case(f"{name}, recorded", ask, MEMORY, Wanted(0, whole[0], b"", whole[1]), judge))


def judge_check(wanted, one):
    """Of `lsr check`, which may say of a file that there was no memory to check it."""
    checked = wanted.out.splitlines(keepends=True)
    starts = [text + UNCHECKED for text in starts_of(checked)]
    return ENDED if one.status == 1 and one.out in starts else judge_plain(wanted, one)


def read_jobs(room, name):
    """`lsr check` and `lsr show-journal` of a case's journal; and `lsr check` of it twice, which is a gap."""
    words = config_words(room, name)
    lines = [line for line in read_lines(room, f"{name}.step") if not is_shown(line)]
    file = new_name(room)
    ask_lsr(room, "step", "--journal", file, *words, given=write_lines(room, lines))
    checks = [plain_case(room, "check", *files, judge=judge_check) for files in ([file], [file, file])]
    return jobs_of(room, *checks, plain_case(room, "show-journal", file))
