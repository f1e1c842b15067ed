"""The server: verdicts on bodies, which come in any pieces."""
import gzip
import io
import json
import os
import random
import socket
import tempfile
import threading
import unittest
from contextlib import suppress
from itertools import islice
from unittest import mock

import cityseq
from cityseq.sources.packed import LAST, Gzip, Packing, pack

from . import support
from .serving import EXAMPLES, MISSING, Served, Within, rest_of
from .support import HEADER, asked, command, feature

if not MISSING:
    from cityseq.serve.answers import BodyFault
    from cityseq.serve.bodies import Fed, Unpacking


@unittest.skipIf(MISSING, MISSING)
class Counts(unittest.TestCase):
    def test_what_is_only_counted_is_not_described(self):
        """To describe 200,000 lines takes more than a minute."""
        fed = Fed(asked("check", keep_going=True), Unpacking(None, 1 << 20), 0, True)
        with mock.patch("cityseq.engine.reports.excerpt_of", side_effect=AssertionError):
            for task in [*fed.cut([HEADER + b"{}\n" * 300 + b"[\n"]), *fed.end()]:
                fed.take(task())
        self.assertEqual((dict(fed.codes), fed.result().refused), ({10: 300, 4: 1}, 301))


@unittest.skipIf(MISSING, MISSING)
class Verdicts(Served):
    def wanted(self, path, *words):
        output, _, _ = command("check", "--json", *words, str(path))
        lines = [json.loads(line) for line in output.splitlines()]
        return [{**line, "file": "-"} if "file" in line else line for line in lines]

    def test_check_answers_as_the_command_does(self):
        for name in ("sample", "town", "broken", "delivery"):
            path = EXAMPLES / f"{name}.city.jsonl"
            text = path.read_bytes()
            for query, words in (
                ("", ()),
                ("?keep_going", ("--keep-going",)),
                ("?tree=true&depth=20", ("--tree", "--depth", "20")),
                ("?extensions=true", ("--extensions",)),
                ("?keep_going=true&summary=true", ("--keep-going", "--summary")),
            ):
                answer = self.server.ask(f"/check{query}", "POST", text)
                self.assertEqual(answer.status, 200, answer.body)
                self.assertEqual(answer.lines(), self.wanted(path, *words), (name, query))

    def test_whole_files(self):
        """By their media type. One that cannot be split is invalid, with the reason."""
        header, *lines = (EXAMPLES / "town.city.jsonl").read_bytes().splitlines()
        first, head = json.loads(lines[0]), json.loads(header)
        whole = {**head, "CityObjects": first["CityObjects"], "vertices": first["vertices"]}
        text, kind = json.dumps(whole, indent=1).encode(), {"Content-Type": "application/city+json"}
        for body in (text, gzip.compress(text)):
            (told,) = self.server.ask("/check", "POST", body, **kind).lines()
            self.assertEqual((told["verdict"], told["lines"], told["features"]), ("valid", 2, 1))
        (told,) = self.server.ask("/check", "POST", text[:-9], **kind).lines()
        self.assertEqual((told["verdict"], told["fault_file"]), ("invalid", "-"))
        self.assertIn("it is cut short", told["fault"])
        bad = text.replace(b'"vertices": [', b'"vertices": ["x",')
        (told,) = self.server.ask("/check", "POST", bad, **kind).lines()
        self.assertIn("vertices/0: a vertex is three whole numbers", told["fault"])
        answer = self.server.ask("/check", "POST", text)  # a stream, by its type
        self.assertEqual(answer.lines()[-1]["verdict"], "invalid")
        self.assertEqual(self.server.ask("/check", "POST", b"", **kind).lines()[0]["status"], 1)

    def test_a_whole_file_that_is_too_long(self):
        with Within(whole=1_024) as server:
            kind = {"Content-Type": "application/city+json"}
            for body in (b" " * 1_025, gzip.compress(b" " * 9_999)):
                self.assertEqual(server.ask("/check", "POST", body, **kind).status, 413)
            self.assertEqual(server.ask("/check", "POST", b" " * 1_024, **kind).status, 200)
            self.assertEqual(server.ask("/check", "POST", b" " * 1_025).status, 200)

    def test_plain_packed_and_in_chunks(self):
        text = (EXAMPLES / "delivery.city.jsonl").read_bytes()
        wanted = self.wanted(EXAMPLES / "delivery.city.jsonl")
        packed, halves = gzip.compress(text), gzip.compress(text[:99]) + gzip.compress(text[99:])
        for body, headers in (
            (text, {}),
            (packed, {}),
            (packed, {"Content-Encoding": "gzip"}),
            (halves, {}),
            (iter([text[:9], text[9:500], text[500:]]), {"Transfer-Encoding": "chunked"}),
            (iter([packed[:1], packed[1:]]), {"Transfer-Encoding": "chunked"}),
        ):
            told = self.server.ask("/check", "POST", body, **headers).lines()
            size = told[-1].pop("size")
            self.assertEqual(
                told[-1], {name: value for name, value in wanted[-1].items() if name != "size"}
            )
            self.assertIn(size, (len(text), len(packed), len(halves)))

    def test_reports_are_bounded(self):
        text = HEADER + b"{}\n" * 3_000
        told = self.server.ask("/check?keep_going=true&max_reports=7", "POST", text).lines()
        self.assertEqual((len(told), told[-1]["refused"]), (8, 3_000))

    def test_counts_of_reasons_are_of_all_reports(self):
        """Also where only some of them are answered."""
        lines = [b"{}\n", b"[\n", feature("a", last=9)] * 900 + [b"{}\n"] * 500
        told = self.server.ask(
            "/check?keep_going&summary&max_reports=7", "POST", HEADER + b"".join(lines)
        ).lines()
        self.assertEqual([each["kind"] for each in told], ["report"] * 7 + ["result", "reasons"])
        self.assertEqual(told[7]["refused"], 3_200)
        self.assertEqual(
            {each["code"]: each["lines"] for each in told[8]["reasons"]},
            {4: 900, 10: 1_400, 25: 900},
        )
        told = self.server.ask(
            "/check?keep_going&summary", "POST", HEADER + b"".join(lines)
        ).lines()
        self.assertEqual([each["kind"] for each in told], ["result", "reasons"])

    def test_streams_by_chance_in_pieces_by_chance(self):
        for seed in range(250):
            text, chance = support.stream_by_chance(seed), random.Random(-seed)
            options = dict(
                keep_going=chance.random() < 0.6, line_limit=chance.choice((400, 600, 1 << 20))
            )
            result = io.BytesIO()
            try:
                wanted = cityseq.filter(io.BytesIO(text), result, jobs=1, **options)
            except cityseq.InvalidStream as fault:
                wanted = fault.result
            body = gzip.compress(text) if seed % 3 == 0 else text
            with mock.patch("cityseq.serve.bodies.SMALL", chance.choice((1, 300, 1 << 19))):
                fed = Fed(asked("filter", **options), Unpacking(None, 1 << 30), 1_000, False)
                kept = b""
                while body:
                    pieces = [body[:size] for size in [chance.randrange(1, 900)]]
                    body = body[len(pieces[0]) :]
                    coming = fed.cut(pieces)
                    while tasks := list(islice(coming, chance.randrange(1, 4))):
                        # parts that are judged late, and none of them in order
                        answers = [task() for task in reversed(tasks)][::-1]
                        kept += b"".join(bytes(fed.take(answer)) for answer in answers)
                kept += b"".join(bytes(fed.take(task())) for task in fed.end())
            told = fed.result()
            self.assertEqual(kept, result.getvalue(), seed)
            self.assertEqual(
                (told.status, told.lines, told.features, told.refused),
                (wanted.status, wanted.lines, wanted.features, wanted.refused),
                seed,
            )
            self.assertEqual(
                [(each.line, each.byte, each.code) for each in fed.reports],
                [(each.line, each.byte, each.code) for each in wanted.reports],
                seed,
            )

    def test_no_more_is_unpacked_than_is_judged(self):
        packed = gzip.compress(HEADER + (b" " * 999 + b"\n") * 300_000)
        fed = Fed(asked("check"), Unpacking(None, 1 << 40), 10, False)
        coming = fed.cut([packed])
        self.assertLess(len(packed), 1 << 20)
        count = 0
        while tasks := list(islice(coming, 2)):
            answers = [task() for task in tasks]
            self.assertLessEqual(len(answers), 2)
            self.assertLess(sum(answer.size for answer in answers), 4 << 20)
            count += len(answers)
            for answer in answers:
                fed.take(answer)
        for task in fed.end():
            fed.take(task())
        self.assertGreater(count, 100)
        self.assertEqual(fed.result().lines, 300_001)

    def test_a_packed_byte_is_copied_few_times(self):
        """A member copies what follows its end, and a piece may have very many short members."""
        given = []

        class Counted(Gzip):
            @staticmethod
            def more(member, packed, most):
                given.append(len(packed))
                return Gzip.more(member, packed, most)

        text = os.urandom(1 << 18)
        for packed, most in (
            (gzip.compress(b"") * 20_000, 32),
            (gzip.compress(text) + bytes(1 << 18), 4),
        ):
            given.clear()
            with mock.patch("cityseq.serve.bodies.Gzip", Counted):
                unpacking = Unpacking(True, 1 << 30)
            found = b"".join(
                piece
                for begin in range(0, len(packed), 1 << 17)
                for piece in unpacking.feed(packed[begin : begin + (1 << 17)])
            )
            self.assertEqual((found, unpacking.end()), (b"" if most == 32 else text, b""))
            self.assertLess(sum(given), most * len(packed))

    def test_members_in_pieces_by_chance(self):
        chance = random.Random(16)
        for _ in range(60):
            texts = [
                chance.randbytes(chance.choice((0, 1, 9, 700, 5_000)))
                for _ in range(chance.randrange(1, 9))
            ]
            packed = b"".join(
                gzip.compress(each) + bytes(chance.choice((0, 0, 3, 900))) for each in texts
            )
            unpacking, found = Unpacking(None, 1 << 30), b""
            while packed:
                size = chance.choice((1, 2, 30, 600, 9_000))
                found += b"".join(unpacking.feed(packed[:size]))
                packed = packed[size:]
            self.assertEqual(found + unpacking.end(), b"".join(texts))

    def test_an_archive_of_blocks_without_its_last_block_is_cut_short(self):
        """As for the command. Its empty last block shows that nothing was cut off."""
        text, chance = HEADER + feature("a") + feature("b"), random.Random(5)
        blocks = [pack(each, Packing.GZIP) for each in (HEADER, feature("a"), feature("b"))]
        for step in (1, 7, 18, 19, 1 << 20, None):
            for end, is_whole in ((b"", False), (LAST, True), (gzip.compress(b""), True)):
                body, unpacking, found = b"".join(blocks) + end, Unpacking(None, 1 << 30), b""
                while body:
                    length = step or chance.randint(1, 40)
                    found += b"".join(unpacking.feed(body[:length]))
                    body = body[length:]
                self.assertEqual(found, text)
                with suppress() if is_whole else self.assertRaisesRegex(BodyFault, "cut short"):
                    unpacking.end()
        for path in ("/check", "/filter"):
            answer = self.server.ask(path, "POST", b"".join(blocks[:2]))
            self.assertEqual((answer.status, b"cut short" in answer.body), (400, True))
            whole = self.server.ask(path, "POST", b"".join([*blocks, LAST]))
            self.assertEqual(whole.status, 200)

    def test_filter_writes_what_the_command_writes(self):
        for name, query, words in (
            ("town", "type=Road", ("--type", "Road")),
            ("sample", "lod=2.2&exclude", ("--lod", "2.2", "--exclude")),
            ("town", "bbox=1001,2001,1005,2005", ("--bbox", "1001,2001,1005,2005")),
        ):
            text = (self.folder / f"{name}.city.jsonl").read_bytes()
            answer = self.server.ask(f"/filter?{query}", "POST", text)
            self.assertEqual(
                (answer.status, answer.headers["Content-Type"]), (200, "application/city+json-seq")
            )
            self.assertEqual(answer.body, self.filtered(name, *words))

    def test_the_verdict_is_the_last_line(self):
        text = (EXAMPLES / "delivery.city.jsonl").read_bytes()
        answer = self.server.ask("/filter?keep_going=true&verdict=last", "POST", text)
        self.assertEqual(answer.headers["Content-Type"], "application/x-ndjson")
        *_, last = answer.lines()
        self.assertEqual((last["kind"], last["verdict"]), ("result", "invalid"))
        kept = b"".join(
            line for line in answer.body.splitlines(True) if not line.startswith(b'{"kind"')
        )
        output, _, _ = command("filter", "--keep-going", str(EXAMPLES / "delivery.city.jsonl"))
        self.assertEqual(kept, output)

    def test_the_verdict_is_a_line_of_its_own(self):
        """Also if the last line of the stream has no LF."""
        for text in (HEADER[:-1], HEADER + feature("a")[:-1], HEADER + feature("a")):
            answer = self.server.ask("/filter?verdict=last", "POST", text)
            self.assertEqual(answer.body.splitlines()[:-1], text.splitlines())
            self.assertEqual(
                (answer.lines()[-1]["kind"], answer.lines()[-1]["verdict"]), ("result", "valid")
            )
            self.assertEqual(self.server.ask("/filter", "POST", text).body, text)

    def test_an_invalid_stream_is_broken_off(self):
        text = HEADER + feature("b") * 40_000 + b"{}\n" + feature("b") * 4_000
        head = (
            b"POST /filter HTTP/1.1\r\nHost: localhost\r\nConnection: close\r\nContent-Length: %d\r\n\r\n"
            % len(text)
        )
        with self.server.socket() as connection:
            threading.Thread(target=self.sent, args=(connection, head + text)).start()
            answer = rest_of(connection)
        self.assertTrue(answer.startswith(b"HTTP/1.1 200"))
        self.assertNotRegex(answer, rb"\r\n0\r\n")

    @staticmethod
    def sent(connection, text):
        with suppress(OSError):
            connection.sendall(text)

    def test_an_invalid_stream_that_is_short_is_answered(self):
        answer = self.server.ask("/filter", "POST", HEADER + feature("b") + b"{}\n")
        self.assertEqual(answer.status, 422)
        report, result = answer.lines()
        self.assertEqual((report["line"], result["verdict"], result["ended_at"]), (3, "invalid", 3))

    def test_an_invalid_header_is_answered(self):
        answer = self.server.ask("/filter", "POST", b"[]\n")
        self.assertEqual((answer.status, answer.lines()[-1]["verdict"]), (422, "invalid"))

    def test_a_client_that_waits_to_go_on(self):
        with socket.create_connection((self.server.host, self.server.port), 30) as connection:
            connection.sendall(
                b"POST /check HTTP/1.1\r\nHost: localhost\r\nExpect: 100-continue\r\nConnection: close\r\n"
                b"Content-Length: %d\r\n\r\n" % len(HEADER)
            )
            self.assertTrue(connection.recv(100).startswith(b"HTTP/1.1 100 "))
            connection.sendall(HEADER)
            self.assertIn(b'"verdict": "valid"', b"".join(iter(lambda: connection.recv(4096), b"")))

    def test_bodies_leave_no_file(self):
        before = set(os.listdir(tempfile.gettempdir()))
        self.server.ask("/check", "POST", HEADER + feature("b") * 50_000)
        self.assertFalse(
            {name for name in set(os.listdir(tempfile.gettempdir())) - before if "cityseq" in name}
        )
