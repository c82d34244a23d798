"""What sudo writes of a command."""

import json
import unittest

import support  # noqa: F401
from kulavemia.messages import (
    ACCEPTED,
    EDITORS,
    FAILED,
    REFUSED,
    Event,
    Pairs,
    Skipped,
    arguments_of,
    event_of,
    event_of_json,
    json_events,
    may_be_edit,
    outcome_of,
    with_editor,
)
from kulavemia.requests import Request

LINE = "TTY=pts/0 ; PWD=/ ; USER=root ; COMMAND=/usr/bin/id"


def event(text: str, quoting: str = "auto") -> Event:
    found = event_of("alice", "web1", text, quoting)
    assert isinstance(found, Event), found
    return found


class Messages(unittest.TestCase):
    def test_fields(self) -> None:
        found = event("TTY=pts/0 ; PWD=/ ; USER=postgres ; GROUP=dba ; ENV=A=b ; COMMAND=/usr/bin/psql -l")
        self.assertEqual(found.request, Request("alice", "web1", "postgres", "dba", "/usr/bin/psql", "-l"))
        self.assertEqual((found.outcome, found.reason, found.note), (ACCEPTED, "", "environment set"))

    def test_a_host_in_either_form(self) -> None:
        for text in ("HOST=db1 : " + LINE, "HOST=db1 ; " + LINE):
            self.assertEqual(event(text).request.host, "db1")
        found = event("HOST=db1 : command not allowed ; " + LINE)
        self.assertEqual((found.request.host, found.reason), ("db1", "command not allowed"))
        self.assertEqual(event("command not allowed ; HOST=db1 ; " + LINE).request.host, "db1")

    def test_outcomes(self) -> None:
        said = {
            "": ACCEPTED,
            "command not allowed": REFUSED,
            "user NOT in sudoers": REFUSED,
            "user NOT authorized on host": REFUSED,
            "3 incorrect password attempts": FAILED,
            "a password is required": FAILED,
            "command not found": FAILED,
        }
        self.assertEqual({reason: outcome_of(reason) for reason in said}, said)

    def test_semicolons_in_arguments_and_folders(self) -> None:
        self.assertEqual(event(LINE + " ; USER=x").request.arguments, "; USER=x")
        found = event("TTY=pts/0 ; PWD=/a ; b ; USER=root ; COMMAND=/usr/bin/id")
        self.assertEqual(found.request, Request("alice", "web1", "root", "", "/usr/bin/id", ""))

    def test_a_folder_that_looks_like_a_command_is_noted(self) -> None:
        found = event("PWD=/d ; USER=x ; COMMAND=/bin/evil ; USER=root ; COMMAND=/usr/bin/id")
        self.assertEqual(found.note, "COMMAND= stands twice")

    def test_a_folder_that_looks_like_a_target_is_noted(self) -> None:
        found = event("PWD=/d ; USER=x ; USER=root ; COMMAND=/usr/bin/id")
        self.assertEqual(found.note, "USER= stands twice")
        found = event("PWD=/d" + " ; USER=x" * 200_000 + " ; COMMAND=/usr/bin/id")
        self.assertEqual(found.note, "USER= stands twice")

    def test_no_command(self) -> None:
        self.assertEqual(
            event_of("alice", "web1", "problem with defaults entries ; TTY=pts/0 ; PWD=/ ;"),
            Skipped("no command: problem with defaults entries"),
        )
        self.assertEqual(event_of("alice", "web1", "  "), Skipped("an empty message"))

    def test_arguments_as_sudo_writes_them(self) -> None:
        written = r"%s 'a b' it\'s c\\d 'x  y' tab#011here esc#033[31m 'q\'u o' 'b\\ s'  end"
        read = "%s a b it's c\\d x  y tab\there esc\x1b[31m q'u o b\\ s  end"
        self.assertEqual(arguments_of(written), (read, "quotes read, octal read"))
        self.assertEqual(arguments_of(r"'\'a b\'' $HOME " + '"dq"'), ("'a b' $HOME " + '"dq"', "quotes read"))

    def test_arguments_of_older_versions(self) -> None:
        text = "-c select 'a ; b', \"x,y\""
        self.assertEqual(arguments_of(text), (text, ""))
        self.assertEqual(arguments_of(text, "sudo"), (text, "quotes not well formed"))
        self.assertEqual(arguments_of("echo 'a b' #011", "literal"), ("echo 'a b' #011", ""))

    def test_octal(self) -> None:
        self.assertEqual(arguments_of("a#07b a#0177b a#040b")[0], "a\x07b a\x7fb a b")
        for colour in ("#000000", "#ffeedd"):
            self.assertEqual(arguments_of(colour), (colour, ""))

    def test_long_arguments_are_read_quickly(self) -> None:
        self.assertEqual(arguments_of("'" * 20000 + " " + "\\" * 20001)[1], "")

    def test_editors(self) -> None:
        found = with_editor(event("USER=root ; COMMAND=/usr/bin/vim -- /etc/motd '/a b'"), EDITORS)
        self.assertEqual(found.request[4:], ("sudoedit", "/etc/motd /a b"))
        self.assertIn("logged as /usr/bin/vim --", found.note)
        kept = event("USER=root ; COMMAND=/usr/bin/true -- /etc/motd")
        self.assertEqual(with_editor(kept, EDITORS), kept)

    def test_any_command_with_files_may_be_an_editor(self) -> None:
        texts = {"-- /etc/motd": "/etc/motd", "-x -- /a -- /b": "/a -- /b", "--": None, "-- ": None, "x--": None}
        for text, files in texts.items():
            found = may_be_edit(event(f"USER=root ; COMMAND=/usr/bin/true {text}"))
            self.assertEqual(found and found.request[4:], files and ("sudoedit", files), text)
        for text in ("command not allowed ; USER=root ; COMMAND=/bin/true -- /a", "USER=root ; COMMAND=sudoedit -- /a"):
            self.assertIsNone(may_be_edit(event(text)))

    def test_an_editor_in_json_has_the_environment_of_its_user(self) -> None:
        argv = '["/bin/true","-x","--","/etc/motd"]'
        for environment, command in (
            ('["EDITOR=/bin/true -x"]', "sudoedit"),
            ('["SUDO_COMMAND=/bin/true -x -- /etc/motd"]', "/bin/true"),
            ("[]", "/bin/true"),
        ):
            text = f'{{"accept":{{"submituser":"a","command":"/bin/true","runargv":{argv},"runenv":{environment}}}}}'
            ((kind, body),) = json_events(json.loads(text, object_pairs_hook=Pairs))
            _, found = event_of_json(kind, body, "web1")
            assert isinstance(found, Event)
            arguments = "/etc/motd" if command == "sudoedit" else "-x -- /etc/motd"
            self.assertEqual(found.request[4:], (command, arguments))


if __name__ == "__main__":
    unittest.main()
