"""Tests whose scripts are made by code."""

import collections
import resource
import subprocess
import time

import clients
from program import NO_TOTALS, PROGRAM, SECONDS, Wrong, audit, expect, expect_end, expect_refused, records_of, replies_of, run_to_full_disk, shown, sound_text
from program import text_of, totals_of
from rows import is_put_back, last_dump, quoted, rows_left
from scripts import Chance, accounts, any_script, head, long_readers, made, many_keys, many_versions, own_tables, puts, readers_in_parts
from scripts import rounds_beside_a_reader

MOST_BYTES = 16_777_216
MOST_AUDIT_BYTES = 1_073_741_824
MOST_RECORDS = 1_048_576


def has(totals, **wanted):
    """Checks some totals."""
    expect("the totals", wanted, {name: totals[name] for name in wanted})


def length_is_limited():
    """A script of as many bytes as it may have, and of one more."""
    expect_refused("replay", b"1" * MOST_BYTES, b"script record 1: Word")
    why = expect_end("replay", b"1" * (MOST_BYTES + 1), 6, b"script longer than 16777216 bytes\n")
    wanted = b"the input goes on after 16777216 bytes; divide it, or send it to hybridgc live, where its length has no limit\n"
    expect("the reason", wanted, why)


def end_of_audit(count):
    """Returns how an audit of so many bytes `1` ends that are made while it reads: its exit status, and what it says."""
    process = subprocess.Popen([PROGRAM, "audit"], stdin=subprocess.PIPE, stdout=subprocess.PIPE, stderr=subprocess.PIPE)
    piece = b"1" * (1 << 20)
    try:
        for _ in range(count >> 20):
            process.stdin.write(piece)
        process.stdin.write(piece[: count % len(piece)])
    except BrokenPipeError:
        pass
    text, said = process.communicate(timeout=SECONDS)
    expect("standard output", b"", text)
    return f"{process.returncode} {shown(said)}"


def audits_are_limited():
    """An input of as many bytes as an audit may have, whose script is too long, and of one more."""
    why = "script longer than 16777216 bytes/the script is what comes before the line ====, and may have 16777216 bytes/"
    expect("the exit status and standard error", f"6 {why}", end_of_audit(MOST_AUDIT_BYTES))
    why = "input longer than 1073741824 bytes/script and output together may have 1073741824 bytes; divide the script, and audit each output/"
    expect("the exit status and standard error", f"9 {why}", end_of_audit(MOST_AUDIT_BYTES + 1))


def records_are_limited():
    """As many records as a script may have, each of which is answered, and one more."""
    script = b"1,begin\n1,commit\n" * (MOST_RECORDS // 2)
    wanted = b"".join(b"1,%d,begun,0\n1,%d,ended\n" % (place, place + 1) for place in range(1, MOST_RECORDS, 2))
    expect("the text", wanted + NO_TOTALS, text_of("replay", script))
    why = expect_refused("replay", script + b"1,begin\n", b"script record 1048577: Count")
    expect("the reason", b"line 1048577 (1,begin): a script has at most 1048576 records, and this is one more\n", why)


def memory_runs_out():
    """A script of many rows, where the program may have 40 MB of addresses."""
    script = b"table,t,1\n" + b"".join(b"1,put,t,%d,1\n" % key for key in range(900_000))
    limit = lambda: resource.setrlimit(resource.RLIMIT_AS, (40 << 20, 40 << 20))
    done = subprocess.run([PROGRAM, "replay"], input=script, capture_output=True, preexec_fn=limit, timeout=SECONDS)
    wanted = "out of memory/take a smaller script, or hold fewer versions: shorter transactions and cursors, and more --rounds in a run/"
    expect("the exit status and standard error", f"7 {wanted}", f"{done.returncode} {shown(done.stderr)}")
    expect("standard output", b"", done.stdout)


def a_text_cannot_be_written(words):
    """Standard output takes no byte."""
    status, said = run_to_full_disk(words, b"")
    wanted = "5 write fault/standard output: No space left on device (os error 28)/"
    expect("the exit status and standard error", wanted, f"{status} {shown(said)}")


def twenty_accounts_are_left():
    """Each account keeps one row, whoever is refused: a put of session 1 is refused only for a transfer that commits."""
    records = records_of(sound_text("run", accounts()))
    expect("the replies", 22 + 4 * 10 * 6 + 13 + 3 * 8, len(list(replies_of(records))))
    has(totals_of(records), left=20, undone=0)


def long_readers_stay(words):
    """What a reader reads stays the same, whatever the collectors take: otherwise the text is unsound. Each record keeps one row."""
    has(totals_of(records_of(sound_text(words, long_readers()))), left=52)


def a_round_leaves_two_versions_a_key():
    """A round leaves the newest version of each key and the reader's. The rest of them goes at the end."""
    records = records_of(sound_text("replay", rounds_beside_a_reader()))
    removed = [int(record[6]) for record, _ in replies_of(records) if record[2] == b"swept" and len(record) > 6]
    expect("the versions that the rounds remove", [0] + [100] * 99, removed)
    has(totals_of(records), made=10_100, interval=9_900, table=100, left=100)


def a_bucket_takes_70000_keys():
    """More than a number of 16 bits can count, in the bucket, in its table's list and as lines that an audit judges. The last is read."""
    records = records_of(sound_text("replay --buckets 1", many_keys(70_000)))
    expect("the last key", b"row,7", b",".join(records[70_002][-2:]))
    has(totals_of(records), made=70_000, left=70_000)


def a_key_keeps_70000_versions():
    """The reader sees the first of them at the end. The rest of them go when it has ended."""
    records = records_of(sound_text("replay", many_versions(70_000)))
    expect("the row", b"row,0", b",".join(records[70_001][-2:]))
    has(totals_of(records), made=70_000, table=69_999, left=1)


def each_session_declares_its_own_table(words):
    """Each table keeps one row. In a replay the table collector moves session 1 to its own table, and so takes what the other tables
    have under their newest rows."""
    has(totals_of(records_of(sound_text(words, own_tables()))), made=190, left=64)


def eight_workers_commit_beside_the_collectors():
    """Nobody is refused, and groups have the numbers from 1 on."""
    records = records_of(sound_text("run --rounds 20", puts(1, lambda time, i: i)))
    numbers = [int(record[-1]) for record, _ in replies_of(records) if record[-2] == b"committed"]
    expect("the commits", 400, len(numbers))
    expect("the numbers of the groups", list(range(1, len(set(numbers)) + 1)), sorted(set(numbers)))
    has(totals_of(records), made=400, left=400)


def four_sessions_begin_and_end_beside_the_collectors():
    """Nobody writes, so each report has the mark and the horizon 0, and each session that holds a snapshot holds 0."""
    script = b"table,t,1\n" + b"1,begin\n2,begin\n3,begin\n4,begin\n1,rollback\n2,rollback\n3,rollback\n4,rollback\n" * 100
    text = sound_text("run --rounds 50", script)
    replies = list(replies_of(records_of(text)))
    expect("the replies", 800 + 150, len(replies))
    reports = [(record[4:], held) for record, held in replies if record[2] == b"swept"]
    expect("the marks, the horizons and what is removed", {(b"0", b"0", b"0")}, {tuple(report) for report, _ in reports})
    expect("the snapshots", set(), {entry[4] for _, held in reports for entry in held} - {b"0"})
    expect("the totals", NO_TOTALS, text[-len(NO_TOTALS) :])


def texts_of_every_length():
    """Texts of 0 to 64 bytes are read back as they were put, and no longer one is taken."""
    texts = [(b"0123456789" * 7)[:length] for length in range(65)]
    script = head(2) + b"".join(b"1,put,t,%d,%d,%s\n" % (length, length, quoted(text)) for length, text in enumerate(texts))
    rows = [[b"%d" % length, b"%d" % length, text] for length, text in enumerate(texts)]
    expect("the rows", rows, rows_left(script))
    for length in (65, 66):
        script = head(2) + b"1,put,t,1,1," + quoted((b"0123456789" * 7)[:length]) + b"\n"
        expect_refused("replay", script, b"script record %d: Value" % script.count(b"\n"))


def rounds_remove_more_than_half():
    """Each of 400 keys is put 40 times, so 15,600 versions are old in the end. No gate holds anybody: the rounds have to come when
    sessions have written something that they can remove. The table collector's total also counts what is removed at the end, after the
    last round, so its rounds are counted by their reports."""
    records = records_of(sound_text("run --rounds 20", puts(40, lambda time, i: i)))
    totals = totals_of(records)
    has(totals, made=16_000, left=400)
    by_table = [int(record[6]) for record, _ in replies_of(records) if record[2:4] == [b"swept", b"table"]]
    removed = totals["group"] + totals["interval"] + sum(by_table)
    if removed <= 7_800:
        raise Wrong(f"the versions that the rounds remove\n    wanted: more than 7800\n    found:  {removed}")


def each_session_is_counted():
    """64 sessions put ten keys each, and the last of 100 rounds waits for nearly all of the records. If a session is not counted, a
    collector waits for records that never come, until it gives up after a tenth of a second. The fastest of five runs is compared."""
    script = b"table,t,1\n" + b"".join(b"%d,put,t,%d,7\n" % (session, 100 * session + i) for i in range(10) for session in range(1, 65))
    took = []
    for _ in range(5):
        start = time.monotonic()
        text_of("run --rounds 100", script)
        took.append(time.monotonic() - start)
    if min(took) >= 0.1:
        raise Wrong(f"the seconds that the fastest of five runs takes\n    wanted: less than 0.1\n    found:  {min(took):.3f}")


def cursors_stay_beside_the_collectors(words):
    """What a cursor returns is what its snapshot shows, whatever is put and removed meanwhile: otherwise the text is unsound. Each of
    80 keys keeps one row."""
    has(totals_of(records_of(sound_text(words, readers_in_parts()))), left=80)


def a_made_script_is_sound(seed):
    """The replay of a seed's script is sound, and has the totals that `load` prints for the seed."""
    text = sound_text("replay", made(seed))
    expect("the totals of load", text_of(f"load {seed}", b""), b"".join(text.splitlines(True)[-6:]))


def with_one_more(lines, place, index):
    """Returns a text in which one field of one record is one more, or None where that field is no number. How many versions a round of
    the table collector removed is not such a field: only the total bounds it."""
    fields = lines[place].split(b",")
    is_free = fields[2:4] == [b"swept", b"table"] and index == 6
    if is_free or index >= len(fields) or not fields[index].isdigit():
        return None
    fields[index] = b"%d" % (int(fields[index]) + 1)
    return b"".join(line + b"\n" for line in [*lines[:place], b",".join(fields), *lines[place + 1 :]])


def edited_texts_are_unsound():
    """One number of the text of a seed's script is changed, thirty times at places by chance."""
    script = made(3)
    lines = text_of("replay", script).splitlines()
    draw = Chance(11).below
    edits = 0
    for _ in range(400):
        place, index = draw(len(lines)), draw(8)
        text = with_one_more(lines, place, index)
        if text and edits < 30:
            edits += 1
            if not audit(script, text).startswith("unsound,"):
                raise Wrong(f"field {index} of record {place + 1} is one more\n    wanted: unsound\n    found:  sound")
    expect("the edits", 30, edits)


def commits_up_to(script, run, at):
    """Returns the script of the puts that are in a snapshot, by the numbers that were printed for them. The puts of one group are of
    different keys."""
    records = script.splitlines(True)
    puts_of = collections.defaultdict(list)
    for record, _ in replies_of(records_of(run)):
        if record[-2] == b"committed":
            puts_of[int(record[-1])].append(records[int(record[1]) - 1])
    return records[0] + b"".join(b"".join(puts_of[number]) for number in range(at + 1))


def eight_writers_are_dumped():
    """What the sessions had committed at a snapshot is in its dump, and nothing else."""
    script = puts(4, lambda time, i: f"1{time}{i}")
    parts = text_of("dump --rounds 50", script).split(b"snapshot,")
    expect("the parts of a dump", 3, len(parts))
    run, *dumps = parts
    for dump in dumps:
        at, dump = dump.split(b"\n", 1)
        expect(f"the dump at {int(at)}", last_dump(commits_up_to(script, run, int(at))), dump)
        is_put_back(dump)


def a_dump_shows_whole_transactions():
    """Eight sessions put two keys of their own in each transaction, whose sum is 200. So it is in a dump, if it has them."""
    script = b"table,t,1\n" + b"".join(
        b"%d,begin\n%d,put,t,%d,%d\n%d,put,t,%d,%d\n%d,commit\n"
        % (session, session, 2 * session, 100 - count, session, 2 * session + 1, 100 + count, session)
        for count in range(50)
        for session in range(1, 9)
    )
    parts = text_of("dump --rounds 20", script).split(b"snapshot,")
    expect("the parts of a dump", 3, len(parts))
    for dump in parts[1:]:
        sums = collections.Counter()
        for record in records_of(dump)[2:]:
            sums[int(record[3]) // 2] += int(record[4])
        expect("the sums", {pair: 200 for pair in sums}, dict(sums))
    expect("the pairs in the last dump", 8, len(sums))


def what_is_left_is_left_again(version, script):
    """What a script by chance leaves is left again by the script that is written of it."""
    rows = rows_left(script)
    again = head(version)
    for key, number, value in rows:
        again += b"1,put,t,%s,%s,%s\n" % (key, number, quoted(value) if version == 2 else value)
    expect(f"the rows that {script!r} leaves", rows, rows_left(again))


def scripts_by_chance():
    """Yields a thousand scripts of both versions."""
    draw = Chance(5).below
    for count in range(1000):
        version = 1 + count % 2
        yield f"what_is_left_is_left_again {count}", what_is_left_is_left_again, (version, any_script(version, draw))


TESTS = (
    (length_is_limited,),
    (audits_are_limited,),
    (records_are_limited,),
    (memory_runs_out,),
    (a_text_cannot_be_written, "replay", "live"),
    (twenty_accounts_are_left,),
    (long_readers_stay, "run --rounds 50", "run --rounds 50 --sweepers 4"),
    (a_round_leaves_two_versions_a_key,),
    (a_bucket_takes_70000_keys,),
    (a_key_keeps_70000_versions,),
    (each_session_declares_its_own_table, "replay --long 1", "run --long 1"),
    (eight_workers_commit_beside_the_collectors,),
    (four_sessions_begin_and_end_beside_the_collectors,),
    (texts_of_every_length,),
    (cursors_stay_beside_the_collectors, "replay --long 1", "run --long 1 --rounds 50", "run --rounds 50 --sweepers 4"),
    (a_made_script_is_sound, *range(10), 2**32, 2**64 - 1),
    (edited_texts_are_unsound,),
    (eight_writers_are_dumped,),
    (a_dump_shows_whole_transactions,),
)


def tests():
    """Yields each test: its name, its function, and what that is given."""
    for test, *cases in (*TESTS, *clients.TESTS):
        for case in cases or [None]:
            given = () if case is None else (case,)
            yield " ".join([test.__name__, *map(str, given)]), test, given
    yield from scripts_by_chance()


def tests_alone():
    """Yields the tests that depend on how much else is at work, which are made one after the other when the others are over."""
    for count in range(1, 4):
        yield f"rounds_remove_more_than_half {count}", rounds_remove_more_than_half, ()
    yield "each_session_is_counted", each_session_is_counted, ()
