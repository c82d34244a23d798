"""Logs of each form."""

import bz2
import datetime
import gzip
import json
import lzma
import os
import string
import unittest
import unittest.mock
import zlib
from collections.abc import Callable
from typing import Any

from support import DATA, Case
from kulavemia.logs import Found, Log, Options
from kulavemia.messages import FORGED, Event, Skipped

WORD = "x" * 1500
SHORT_WORDS = " ".join(first + second for first in string.ascii_lowercase for second in string.ascii_lowercase)
ALICE = "Nov 20 10:01:02 web1 sudo[1]: alice : "
COMMAND = "TTY=pts/0 ; PWD=/ ; USER=root ; COMMAND="


class Logs(Case):
    def found(self, path: str, **options: Any) -> list[Found]:
        options.setdefault("year", 2026)
        return list(Log(path, Options(**options)))

    def events(self, path: str, **options: Any) -> list[Event]:
        return [found.event for found in self.found(path, **options) if isinstance(found.event, Event)]

    def commands(self, path: str, **options: Any) -> list[str]:
        return [f"{event.request.command} {event.request.arguments}".strip() for event in self.events(path, **options)]

    def test_lines_of_syslog(self) -> None:
        found = self.found(os.path.join(DATA, "auth.log"))
        self.assertEqual([entry.line for entry in found], [1, 2, 3, 4, 5, 6, 7, 8, *range(10, 22)])
        times = {entry.line: entry.time for entry in found}
        self.assertEqual(times[2], "2026-11-20T10:01:02")
        self.assertEqual(times[5], "2026-11-20T10:03:00.123456+01:00")
        self.assertEqual(times[6], "2026-11-20T10:03:30Z")
        said = {entry.line: entry.event.reason for entry in found if isinstance(entry.event, Skipped)}
        self.assertEqual(said[1], "not of sudo")
        self.assertTrue(said[3].startswith("no request: pam_unix"))
        self.assertEqual(said[18], "continues a command that does not stand before it")
        self.assertEqual(said[19], "no line of a log that is known")
        self.assertEqual(said[20], "an empty line")

    def test_a_continued_command_beside_another_user(self) -> None:
        commands = self.commands(os.path.join(DATA, "auth.log"))
        self.assertIn("/usr/bin/psql -c select 'a ; b', \"x,y\" --long tail of the arguments ; of COMMAND=x", commands)

    def test_a_word_cut_at_the_limit_is_put_together(self) -> None:
        # The limit, less what stands before the text, less the user's name.
        piece = "x" * (100 - 23 - len("alice"))
        text = f"{ALICE}{COMMAND}/bin/echo\n{ALICE}(command continued) {piece}\n{ALICE}(command continued) y z\n"
        path = self.write("log", text)
        self.assertEqual(self.commands(path, syslog_lengths=[100]), [f"/bin/echo {piece}y z"])
        self.assertEqual(self.commands(path), [f"/bin/echo {piece} y z"])

    def test_messages_that_sudo_broke_are_put_together_for_either_default_length(self) -> None:
        # What sudo 1.9.13p3 and rsyslog wrote, by default and with syslog_maxlen=980.
        wanted = [WORD, f"before {WORD} after", SHORT_WORDS, f"one {WORD} two {WORD} three", f"{WORD} {WORD}"]
        wanted.append(f"ä{WORD}")
        for name in ("broken-960.log", "broken-980.log"):
            self.assertEqual(self.commands(os.path.join(DATA, name)), [f"/bin/true {text}" for text in wanted], name)
        of_another_length = self.commands(os.path.join(DATA, "broken-960.log"), syslog_lengths=[980])
        self.assertNotEqual(of_another_length[0], f"/bin/true {WORD}")
        self.assertEqual(of_another_length[2], f"/bin/true {SHORT_WORDS}")

    def test_the_own_file_says_what_the_json_says(self) -> None:
        own = [event.request for event in self.events(os.path.join(DATA, "sudo.log"))]
        other = [event.request for event in self.events(os.path.join(DATA, "eventlog.json"))]
        self.assertEqual(len(own), 14)
        hostile = next(at for at, request in enumerate(own) if request.command == "/bin/evil")
        self.assertEqual(own[:hostile] + own[hostile + 1 :], other[:hostile] + other[hostile + 1 :])

    def test_the_journal(self) -> None:
        found = self.found(os.path.join(DATA, "journal.json"))
        events = [entry.event for entry in found if isinstance(entry.event, Event)]
        self.assertEqual([event.request.user for event in events], ["alice", "bob", "carol"])
        self.assertEqual(events[1].request.arguments, "\udcff")
        self.assertEqual(events[2].request.arguments, "-u \ufffd")
        self.assertEqual(found[0].time, "2025-11-20T10:01:02Z")
        said = [entry.event.reason for entry in found if isinstance(entry.event, Skipped)]
        self.assertEqual(said, ["not of sudo", "no message", "no JSON", "JSON that does not end"])

    def test_entries_of_the_journal_that_another_program_wrote_are_forged(self) -> None:
        # What sudo, logger, systemd-cat, and other programs of an ordinary user left in a journal.
        found = self.found(os.path.join(DATA, "journal-forged.json"))
        self.assertEqual(
            [entry.event.request.command for entry in found if isinstance(entry.event, Event)],
            ["/usr/bin/id", "/bin/echo", "/usr/bin/true"],
        )
        self.assertEqual(
            [entry.event.reason for entry in found if isinstance(entry.event, Skipped) and entry.event.kind == FORGED],
            [
                "forged: the journal names no program",
                "forged: written by /usr/bin/logger",
                "forged: the journal names no program",
                "forged: the journal names no program",
                "forged: output of sudo, not its log",
                "forged: written by /usr/bin/python3.11",
                "forged: written by /opt/sudo/bin/sudo",
            ],
        )

    def test_the_path_of_sudo_in_the_journal_can_be_named(self) -> None:
        path = os.path.join(DATA, "journal-forged.json")
        self.assertEqual(self.commands(path, sudo_paths=["/opt/sudo/bin/sudo"]), ["/bin/forged-by-name"])
        self.assertEqual(len(self.commands(path, sudo_paths=["/usr/bin/sudo", "/usr/bin/logger"])), 4)

    def test_the_name_of_a_process_proves_nothing(self) -> None:
        entry = {"_COMM": "sudo", "_HOSTNAME": "web1", "_EXE": "/opt/sudo/bin/sudo", "_UID": "0"}
        identifiers: list[dict[str, Any]] = [{}, {"SYSLOG_IDENTIFIER": "sudo"}, {"SYSLOG_IDENTIFIER": ["sudo", "sudo"]}]
        for identifier in identifiers:
            for message in (f"alice : {COMMAND}/bin/id", "alice : (command continued) x", "@cee:{}", None):
                path = self.write("journal", json.dumps({**entry, **identifier, "MESSAGE": message}) + "\n")
                self.assertEqual(self.events(path), [])

    def test_events_over_several_lines(self) -> None:
        found = self.found(os.path.join(DATA, "server.json"))
        self.assertEqual([entry.line for entry in found], [1, 3, 8, 11])
        self.assertEqual(self.events(os.path.join(DATA, "server.json"))[1].request.arguments, "restart my } unit")
        skipped = [Skipped("an event of the kind exit"), Skipped("no command: no command")]
        self.assertEqual([entry.event for entry in found[2:]], skipped)

    def test_the_year_is_the_last_that_fits(self) -> None:
        path = self.write(
            "log", f"Dec 31 23:59:59{ALICE[15:]}{COMMAND}/bin/a\nJan  2 00:00:00{ALICE[15:]}{COMMAND}/bin/b\n"
        )
        os.utime(path, (1767312000, 1767312000))
        self.assertEqual([entry.time[:10] for entry in self.found(path, year=None)], ["2025-12-31", "2026-01-02"])

    def test_days_ahead_of_the_clock_and_leap_days(self) -> None:
        ended = datetime.datetime(2026, 11, 25, 21).timestamp()
        for day, date in (("Nov 26", "2026-11-26"), ("Nov 27", "2025-11-27"), ("Feb 29", "2024-02-29")):
            path = self.write("log", f"{day} 08:00:00{ALICE[15:]}{COMMAND}/bin/a\n")
            os.utime(path, (ended, ended))
            self.assertEqual([entry.time[:10] for entry in self.found(path, year=None)], [date])

    def test_damaged_archives_are_named(self) -> None:
        text = "".join(f"{ALICE}{COMMAND}/bin/a {number}\n" for number in range(2000)).encode()
        packs: list[Callable[[bytes], bytes]] = [gzip.compress, bz2.compress, lzma.compress]
        for pack in packs:
            data = bytearray(pack(text))
            data[len(data) // 2 : len(data) // 2 + 20] = bytes(20)
            path = self.write("damaged", bytes(data))
            with self.assertRaises(OSError) as raised:
                self.commands(path)
            self.assertEqual(raised.exception.filename, path)

    def test_a_log_through_a_pipe(self) -> None:
        for data in (f"{ALICE}{COMMAND}/bin/a\n".encode(), gzip.compress(f"{ALICE}{COMMAND}/bin/a\n".encode())):
            reader, writer = os.pipe()
            os.write(writer, data)
            os.close(writer)
            self.assertEqual(self.commands(f"/dev/fd/{reader}"), ["/bin/a"])
            os.close(reader)

    def test_xz_streams_behind_each_other(self) -> None:
        one, two = (lzma.compress(f"{ALICE}{COMMAND}/bin/{name}\n".encode()) for name in "ab")
        for data in (one + two, one + bytes(8) + two + bytes(4)):
            for chunk in (1, 7, 1 << 16):
                with unittest.mock.patch("kulavemia.packed._CHUNK", chunk):
                    self.assertEqual(self.commands(self.write("log.xz", data)), ["/bin/a", "/bin/b"])

    def test_an_xz_stream_that_asks_for_much_memory(self) -> None:
        data = bytearray(lzma.compress(b"x"))
        # The header of the first block, whose last byte before zeros is the size of its dictionary, and its sum.
        size = 4 * (data[12] + 1)
        self.assertEqual(data[14:16], b"\x21\x01")
        data[16] = 40
        data[8 + size : 12 + size] = zlib.crc32(data[12 : 8 + size]).to_bytes(4, "little")
        with self.assertRaisesRegex(OSError, "Memory usage limit exceeded"):
            self.commands(self.write("log.xz", bytes(data)))

    def test_compressed_logs_and_those_that_are_cut(self) -> None:
        whole = gzip.compress(f"{ALICE}{COMMAND}/bin/a\n".encode() * 3000)
        self.assertEqual(len(self.commands(self.write("log.gz", whole))), 3000)
        with self.assertRaisesRegex(OSError, "cut.gz|end-of-stream|marker"):
            self.commands(self.write("cut.gz", whole[: len(whole) // 2]))

    def test_bytes_that_are_no_text(self) -> None:
        path = self.write("log", ALICE.encode() + COMMAND.encode() + b"/bin/ls caf\xe9 \xff\x00\r\n")
        self.assertEqual(self.commands(path), ["/bin/ls caf\udce9 \udcff\0"])

    def test_a_line_that_is_too_long(self) -> None:
        path = self.write("log", "x" * (1 << 23) + f"\n{ALICE}{COMMAND}/bin/a\n")
        self.assertEqual([entry.event for entry in self.found(path)][0], Skipped("the line is too long"))
        self.assertEqual(self.commands(path), ["/bin/a"])

    def test_a_damaged_line_takes_no_other_with_it(self) -> None:
        with open(os.path.join(DATA, "journal.json"), encoding="utf-8") as file:
            text = file.read()
        whole = self.commands(os.path.join(DATA, "journal.json"))
        self.assertEqual(self.commands(self.write("cut.json", text[:60] + "\n" + text)), whole)
        self.assertEqual(self.commands(self.write("log", f"[ 0.000 {{\n{ALICE}{COMMAND}/bin/a\n")), ["/bin/a"])

    def test_lines_that_are_made_to_be_slow(self) -> None:
        nested = '{"a":' * 450 + '"\\u0041"' + "}" * 450
        for text in ("{" + '\\"' * 100_000, nested, f"{ALICE[:27]}@cee:{nested}"):
            self.assertEqual(self.commands(self.write("log", f"{text}\n{ALICE}{COMMAND}/bin/a\n")), ["/bin/a"])
        own = "Nov 20 10:01:02 : alice : HOST=web1 ; " + COMMAND + "/bin/a b\n"
        self.assertEqual(len(self.commands(self.write("own", own + "    c\n" * 100_000))[0]), 8 + 2 * 100_000)
        further = f"{ALICE}(command continued) b\n"
        self.assertEqual(
            len(self.commands(self.write("log", f"{ALICE}{COMMAND}/bin/a\n" + further * 20_000))[0]), 6 + 2 * 20_000
        )

    def test_hostile_json(self) -> None:
        for text in (
            "{" * 100000,
            "[" * 100000,
            '{"accept":5}',
            '{"accept":{"command":5}}',
            "{}",
            "[]",
            '{"a":NaN',
            '{"sudo":[1,{}]}',
            '{\n"a"',
        ):
            found = self.found(self.write("log", text + "\n"))
            self.assertTrue(found, text[:20])
            self.assertTrue(all(isinstance(entry.event, Skipped) for entry in found), text[:20])


if __name__ == "__main__":
    unittest.main()
