"""What a fuzzer compares of indexes and queries: what the commands say of them with plain readers, and with each other."""
import json
import random
from collections.abc import Iterable, Sequence
from typing import Optional

from choices import mostly, some
from page_reader import Pages, Row, parameters, read_page, read_pages, without
from plain import keys, lines, queries
from plain.lines import Line
from random_archives import archive
from random_changes import CHANGES, LINE_CHANGES, mutated
from random_indexes import few_values, index, line, ordered
from random_queries import query
from trial import OF_INDEX, Done, Trial

QUERY_LIMIT = 65_536


def try_indexes(trial: Trial) -> None:
    """One to four indexes after a few changes: checked, merged and asked."""
    choice = trial.choice
    texts = [changed_index(choice) for _ in range(choice.choice((1, 1, 2, 3, 4)))]
    names = trial.write(texts, "cdxj")
    faults = [lines.first_fault(text) for text in texts]
    for text, fault in zip(texts, faults):
        trial.tally["indexes"] += 1
        trial.tally["lines"] += text.count(b"\n")
        trial.tally[f"index: {fault[1] if fault else 'in order'}"] += 1
    expect_checks(trial, names, texts, faults)
    expect_merge(trial, names, texts, faults)
    good = good_lines(texts)
    for changes in ((), choice.choice((CHANGES, LINE_CHANGES))):
        expect_answer(trial, names, texts, mutated(choice, query(choice, good).encode(), changes))


def changed_index(choice: random.Random) -> bytes:
    if choice.random() < 0.003:
        values = few_values(choice)
        return mutated(choice, ordered(line(choice, values) for _ in range(4000)))
    changes = choice.choice(((), (), (), LINE_CHANGES, CHANGES))
    text = mutated(choice, index(choice), changes)
    return text + index(choice, 4) if choice.random() < 0.05 else text


def good_lines(texts: Iterable[bytes]) -> list[Line]:
    return [lines.read_line(body) for text in texts for _, body in lines.cut(text) if lines.is_line(body)]


def expect_checks(trial: Trial, names: Sequence[str], texts: Sequence[bytes], faults: Sequence[Optional[lines.Fault]]) -> None:
    good = [f"{name} {len(list(lines.cut(text)))}\n" for name, text, fault in zip(names, texts, faults) if not fault]
    bad = [f"warcdx: {name}: {fault[1]} {fault[0]}\n" for name, fault in zip(names, faults) if fault]
    trial.expect(int(bool(bad)), "".join(good).encode(), "".join(bad).encode(), "check", *names)


def expect_merge(trial: Trial, names: Sequence[str], texts: Sequence[bytes], faults: Sequence[Optional[lines.Fault]]) -> None:
    if not any(faults):
        collection = lines.collected(lines.read_lines(texts))
        trial.expect(0, joined(each.body for each in collection), b"", "merge", *names)
        return
    done = trial.run("merge", *names)
    said = [f"warcdx: {name}: {fault[1]} {fault[0]}\n".encode() for name, fault in zip(names, faults) if fault]
    trial.check(done.status == 1 and done.error in said, f"merge {names}: {done}")
    expect_rising(trial, names, texts, done.output)


def joined(bodies: Iterable[bytes]) -> bytes:
    return b"".join(body + b"\n" for body in bodies)


def expect_rising(trial: Trial, names: Sequence[str], texts: Iterable[bytes], output: bytes) -> None:
    """Lines of the indexes that rise by place, the last whole or in part."""
    bodies = {body for text in texts for _, body in lines.cut(text)}
    *whole, last = output.split(b"\n")
    is_whole = bodies.issuperset(whole) and any(body.startswith(last) for body in (b"", *bodies))
    trial.check(is_whole, f"{names}: {output!r} isn't of the indexes")
    places = [lines.place(body) for body in whole]
    trial.check(all(one < next_one for one, next_one in zip(places, places[1:])), f"{names}: {output!r} doesn't rise")


# ---- answers


def expect_answer(trial: Trial, names: Sequence[str], texts: Sequence[bytes], asked: bytes) -> None:
    """An answer is that of the plain reader over indexes. Over others it is a page of their lines, or breaks off at a line at fault."""
    if not is_word(asked):
        return
    done = trial.run("query", asked, *names)
    trial.expect(0, reply(done, names), b"", "serve", *names, lines=asked + b"\n")
    is_refused = done.error.startswith(b"warcdx: query: ")
    trial.tally[f"query: {'refused' if is_refused else 'at fault' if done.error else 'answered'}"] += 1
    if not any(map(lines.first_fault, texts)):
        expect_plain_answer(trial, texts, asked.decode(), done)
    if is_refused:
        trial.expect(*done, "pages", "3", asked, *names)
        trial.check(not done.output and done.status == 1, f"{asked!r}: {done}")
    elif done.error:
        expect_broken_off(trial, names, texts, asked, done)
    else:
        expect_form(trial, names, texts, asked, done)


def expect_plain_answer(trial: Trial, texts: Iterable[bytes], asked: str, done: Done) -> None:
    wanted = plain_answer(asked, lines.read_lines(texts))
    if wanted is None:
        trial.tally["queries of which the plain reader doesn't know the key"] += 1
    else:
        trial.tally["queries compared with the plain answer"] += 1
        trial.check(done == wanted, f"query {asked}\nwanted {wanted}\nfound  {done}")


def plain_answer(asked: str, all_lines: list[Line]) -> Optional[Done]:
    """How `query` ends. Nothing where the plain reader doesn't know the key of the address."""
    try:
        return Done(0, queries.answer(queries.read_query(asked), all_lines), b"")
    except queries.Refused as refusal:
        return Done(1, b"", f"warcdx: query: {refusal}\n".encode())
    except keys.Unknown:
        return None


def is_word(asked: bytes) -> bool:
    """Whether a query can be a word of a command, and a line of `serve`."""
    try:
        asked.decode()
    except UnicodeDecodeError:
        return False
    return len(asked) < 2 * QUERY_LIMIT and not asked.startswith(b"-") and not {0, 10, 13} & set(asked)


def reply(done: Done, names: Sequence[str]) -> bytes:
    """What `serve` replies where `query` ends so."""
    found = OF_INDEX.fullmatch(done.error)
    if found:
        return done.output + b"\nfault %b %d %b\n.\n" % (found[2], names.index(found[1].decode()), found[3])
    return done.error.replace(b"warcdx: query:", b"refused") + done.output + b".\n"


def expect_broken_off(trial: Trial, names: Sequence[str], texts: Sequence[bytes], asked: bytes, done: Done) -> None:
    """The line on standard error names a line at fault, and what was written is the start of a page."""
    found = OF_INDEX.fullmatch(done.error)
    trial.check(found and done.status == 1, f"{asked!r}: {done}")
    if found:
        text = texts[names.index(found[1].decode())]
        trial.check(lines.is_fault(text, int(found[3]), found[2].decode()), f"{asked!r}: {done}, where nothing is at fault")
    output = parameters(asked).get("output")
    if output == "cdxj":
        expect_rising(trial, names, texts, done.output)
    elif output == "json":
        trial.check(not is_json(done.output), f"{asked!r}: {done} is closed")


def expect_form(trial: Trial, names: Sequence[str], texts: Sequence[bytes], asked: bytes, done: Done) -> None:
    """A page has rows of the fields, no more than its limit, and a resume key only if it is to be shown."""
    said = parameters(asked)
    rows, key = read_page(said, done.output)
    fields = said.get("fl", ",".join(queries.USUAL_FIELDS)).split(",")
    trial.check(len(rows) <= int(said.get("limit", "1000000")), f"{asked!r}: too many rows")
    trial.check(not key or said.get("showResumeKey") == "true", f"{asked!r}: a key is shown")
    if said.get("output") == "cdxj":
        expect_rising(trial, names, texts, b"".join(body + b"\n" for body in rows if isinstance(body, bytes)))
    else:
        trial.check(all(len(row) == len(fields) for row in rows), f"{asked!r}: rows of other fields")
    if not any(map(lines.first_fault, texts)):
        expect_pages(trial, names, asked)


def is_json(text: bytes) -> bool:
    try:
        json.loads(text)
    except ValueError:
        return False
    return True


# ---- pages


def expect_pages(trial: Trial, names: Sequence[str], asked: bytes) -> None:
    """Over indexes, the pages of `pages`, and those of `query` from key to key, are together the page without a limit."""
    said = parameters(asked)
    kept = without(asked, "limit", "showResumeKey")
    whole, _ = read_page(said, trial.run("query", kept, *names).output)
    size = max(1, len(whole) // trial.choice.randint(1, 5))
    pages = read_pages(said, trial.run("pages", f"{trial.choice.randint(1, 3)},{size}", asked, *names).output)
    trial.check(rows_of(pages) == whole, f"pages of {asked!r} aren't its page without a limit")
    walked = walk(trial, names, kept, size)
    trial.check(rows_of(walked) == whole, f"a walk of {asked!r} isn't its page without a limit")
    trial.tally["pages"] += len(pages) + len(walked)


def rows_of(pages: Pages) -> list[Row]:
    return [row for rows, _ in pages for row in rows]


def walk(trial: Trial, names: Sequence[str], kept: bytes, size: int) -> Pages:
    """The pages of `query`, each with the resume key that the page before it has printed."""
    said = parameters(kept)
    asked = kept + b"&showResumeKey=true&limit=%d" % size
    walked: Pages = []
    while True:
        page = read_page(said, trial.run("query", asked, *names).output)
        trial.check(page[0] or not walked, f"{asked!r}: an empty page")
        trial.check(page[1] is None or not walked or page[1] != walked[-1][1], f"{asked!r}: the same key again")
        walked.append(page)
        if page[1] is None:
            return walked
        asked = without(asked, "resumeKey") + b"&resumeKey=" + page[1]


# ---- parts of an index


def try_parts(trial: Trial) -> None:
    """An index in parts, of which some lines repeat: merged and asked, they are the index."""
    choice = trial.choice
    bodies = bodies_of_captures(trial) if choice.random() < 0.3 else bodies_of_lines(choice)
    parts = cut_up(choice, bodies) if choice.random() < 0.5 else dealt_out(choice, bodies)
    names = trial.write(parts, "cdxj")
    trial.tally["parts"] += len(parts)
    trial.tally["lines in parts"] += sum(part.count(b"\n") for part in parts)
    trial.expect(0, joined(bodies), b"", "merge", *names)
    trial.expect(0, joined(bodies), b"", "query", "key=&matchType=prefix&output=cdxj", *names)
    expect_pages(trial, names, b"key=&matchType=prefix&output=" + choice.choice((b"text", b"json", b"cdxj")))


def bodies_of_captures(trial: Trial) -> list[bytes]:
    trial.write([archive(trial.choice, 20)], "warc")
    return trial.run("index", "a.warc").output.splitlines()


def bodies_of_lines(choice: random.Random) -> list[bytes]:
    values = few_values(choice)
    made = (line(choice, values) for _ in range(mostly(choice, 0.99, choice.randint(0, 50), 3000)))
    return [each.body for each in lines.collected(lines.read_line(body) for body in made if lines.is_line(body))]


def cut_up(choice: random.Random, bodies: Sequence[bytes]) -> list[bytes]:
    """Consecutive lines, and often the last of a part again in the next."""
    ends = sorted(choice.randint(0, len(bodies)) for _ in range(choice.randint(0, 4)))
    return [joined(bodies[max(0, start - choice.randrange(2)) : end]) for start, end in zip((0, *ends), (*ends, len(bodies)))]


def dealt_out(choice: random.Random, bodies: Iterable[bytes]) -> list[bytes]:
    parts: list[list[bytes]] = [[] for _ in range(choice.randint(1, 5))]
    for body in bodies:
        for part in some(choice, parts, 1, choice.choice((1, 1, 2))):
            part.append(body)
    return [joined(part) for part in parts]


# ---- lines of queries


def try_queries(trial: Trial) -> None:
    """Lines of queries after a few changes: `serve` replies to each as `query` answers it."""
    choice = trial.choice
    texts = [index(choice, 8) for _ in range(choice.choice((1, 1, 2)))]
    names = trial.write(texts, "cdxj")
    good = good_lines(texts)
    asked = choice.choice((b"\n", b"\r\n")).join(changed_query(choice, good) for _ in range(6))
    split = [each.removesuffix(b"\r") for each in asked.removesuffix(b"\n").split(b"\n")] if asked else []
    replies = [reply_to(trial, names, texts, each) for each in split]
    trial.expect(0, b"".join(replies), b"", "serve", *names, lines=asked)
    trial.tally["query lines"] += len(split)


def changed_query(choice: random.Random, good: Sequence[Line]) -> bytes:
    if choice.random() < 0.002:
        return query(choice, good).encode() + b"&is=urlkey:" + b"a" * choice.randint(QUERY_LIMIT - 200, QUERY_LIMIT + 200)
    return mutated(choice, query(choice, good).encode())


def reply_to(trial: Trial, names: Sequence[str], texts: Sequence[bytes], asked: bytes) -> bytes:
    if len(asked) > QUERY_LIMIT:
        return b"refused QueryTooLong\n.\n"
    try:
        text = asked.decode()
    except UnicodeDecodeError:
        return b"refused NotText\n.\n"
    if not is_word(asked):
        return trial.run("serve", *names, lines=asked + b"\r\n").output
    done = trial.run("query", asked, *names)
    if not any(map(lines.first_fault, texts)):
        expect_plain_answer(trial, texts, text, done)
    return reply(done, names)
