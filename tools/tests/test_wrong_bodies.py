"""Runs of `dev/wrong-bodies`, with a stub in the place of `rt`; and the wrong bodies themselves, as far as text shows."""

import glob
import os
import re
import unittest

from support import TOOLS, Case
from wrong.functions import functions_in, take_out
from wrong.trials import Checked

CRATES = os.path.join(os.path.dirname(TOOLS), "crates")
FOLDERS = ("must-fail", "must-fail-further")
NAME = re.compile(r"[0-9]{2}(\.\w+){2,3}\.edit")
# A function with its visibility, what stands before its body, and its body, by the indentation of both.
FUNCTION = re.compile(
    r"^( *)(pub )?(?:pub\([a-z]+\) )?fn (\w+)((?:(?!\n\1\{\}).)*?)(?:\n\1| )\{\n(.*?)^\1\}", re.MULTILINE | re.DOTALL
)
CALL = re.compile(r"\b(\w+)(?:::<[^>]*>)?\(")
EXPORTED = re.compile(r"^pub use ([\w:]+)(?:::)?(\{[^}]*\})?;", re.MULTILINE)
# Functions of which no wrong body can be written (docs/DECISIONS.md, "Tests"), two laws, and the program itself, which has no
# contract.
WITHOUT = {
    ("sudo_base", "Seq::new"),
    ("sudo_policy", "Checked::policy"),
    ("sudo_match", "Directory::has_no_fault"),
    ("review_texts", "Masked::new"),
    ("sudo_policy", "lists_are_written"),
    ("audit_commands", "run_program"),
}
# Parts of functions of `review_program`: `review_commands` exports them for it alone.
FOR_ONE_CRATE = ("end_noted", "hinted", "noted_pair", "opened_files", "push_asked", "push_asker", "refused", "scope_of")
WITHOUT.update(("review_commands", name) for name in FOR_ONE_CRATE)
# The stub refuses a body with the word WRONG, one with SLY only in a check of the whole crate, and cannot read one with BROKEN.
RT = '''#!/usr/bin/python3
"""A stub of rt: a command, and the module of its checks."""

import os
import re
import sys
from types import SimpleNamespace

REFUSED = "refused"
WORDS = re.compile(r"^fn (\\w+).*?\\{\\n(.*?)^\\}", re.MULTILINE | re.DOTALL)


def note(text):
    with open(__file__ + ".calls", "a", encoding="utf-8") as it:
        it.write(text + "\\n")


class Crate:
    def __init__(self, root, line):
        self.name, self.libraries = line.split(":")[0], line.split(":")[1].split()
        self.folder, self.root = f"{root}/crates/{self.name}", root
        self.rlib = f"{self.folder}/out/rlib/{self.name}.rlib"

    def below(self):
        return [it for it in rtlib.crates_below(self.root) if it.name in self.libraries]

    def is_built(self):
        return os.path.exists(self.rlib)


def crates_below(root):
    with open(f"{root}/crates.txt", encoding="utf-8") as it:
        return [Crate(root, line) for line in it.read().splitlines()]


rtlib = SimpleNamespace(PARTS=("src", "proofs"), guarded=lambda: [], crates_below=crates_below)


def read_edit(path, folder):
    with open(path, encoding="utf-8") as it:
        file, old, new = (line.split(": ", 1)[1] for line in it.read().splitlines())
    with open(f"{folder}/{file}", encoding="utf-8") as it:
        text = it.read()
    return ({file: text.replace(old, new)}, None) if text.count(old) == 1 else (None, "it is not there")


def must_fail(crate, path, flags):
    name = os.path.basename(path)
    note(f"whole {crate.name} {name}")
    text = "".join((read_edit(path, crate.folder)[0] or {"": "BROKEN"}).values())
    for word, kind, said in (("BROKEN", "bad", "BAD EDIT"), ("WRONG", REFUSED, "refused"), ("SLY", REFUSED, "refused")):
        if word in text:
            return kind, f"must-fail {crate.name}/{name}: {said}"
    return "missed", f"must-fail {crate.name}/{name}: NOT REFUSED: the crate is still proved with this edit"


def checked(crate, texts, flags, kept):
    with open(f"{crate.folder}/src/one.rt", encoding="utf-8") as it:
        text = it.read()
    names = [word for at, word in enumerate(flags) if flags[at - 1] == "--only"]
    note(f"checked {crate.name} {' '.join(names)}: {' '.join(sorted(set(re.findall('[A-Z]{3,}', text))))}")
    lines = []
    for found in WORDS.finditer(text):
        if "BROKEN" in text:
            return SimpleNamespace(returncode=1, stdout="src/one.rt:1:1: error[E1]: it is broken")
        at, name = text.count("\\n", 0, found.start()) + 1, f"fn {crate.name}::one::{found[1]}"
        is_out = os.path.exists(f"{crate.folder}/proofs/one/{found[1]}/Proof.antt")
        assert is_out == ("unreachable!()" in found[2]) == (f"one::{found[1]}" not in names)
        if "WRONG" in found[2] or "SPOILT" in text:
            lines += [f"note: src/one.rt:{at}:1: it is not proved that it returns (`returns`)", f"{name}: not proved"]
        else:
            lines.append(f"{name}: depends on a hole in `x`")
    if "KILLED" in text and not os.path.exists(__file__ + ".killed"):
        open(__file__ + ".killed", "w").close()
        return SimpleNamespace(returncode=-9, stdout="")
    return SimpleNamespace(returncode=1, stdout="\\n".join([*lines, "only=1 holes=1"]))


if __name__ == "__main__":
    library = os.path.basename(os.getcwd())
    note(f"{' '.join(sys.argv[1:])} {library}")
    if library != "unbuilt":
        os.makedirs(f"out/rlib/{library}.rlib")
    sys.exit(library == "unbuilt")
'''
SOURCE = """// Functions of a crate.
fn f(n: u8) -> u8
    ensures { result ≡ n }
{
    let first = n;
    first
}

/// Returns what `f` does.
fn g(n: u8) -> u8 {
    let second = f(n);
    second
}

fn h(n: u8) -> u8 {
    let third = n;
    third
}
"""
PROOF = """use Rattle.one.proofs.one.h.Statement.{statement}

pub h_spec : {M : Type 1} → statement M
h_spec = ?
"""


def edit(old: str, new: str) -> str:
    """Returns the text of a wrong body."""
    return f"file: src/one.rt\nold: {old}\nnew: {new}\n"


IN_F, IN_G = edit("let first = n", "let first = WRONG(n)"), edit("let second = f(n)", "let second = WRONG(f(n))")
IN_H = edit("let third = n", "let third = WRONG(n)")


def trouble(edit: str) -> str | None:
    """Returns why a wrong body cannot be put into its crate's text, or `None`."""
    crate = os.path.dirname(os.path.dirname(edit))
    texts: dict[str, str] = {}
    path = old = ""
    with open(edit, encoding="utf-8") as it:
        lines = it.read().splitlines()
    for line in lines:
        head, _, text = line.partition(":")
        text = text.removeprefix(" ")
        if head == "file":
            path = os.path.join(crate, text)
            if path not in texts:
                with open(path, encoding="utf-8") as it:
                    texts[path] = it.read()
        elif head == "old":
            old = text
        elif head == "new":
            if (found := texts[path].count(old)) != 1:
                return f"{old!r} is there {found} times"
            if old == text:
                return "it changes nothing"
            texts[path] = texts[path].replace(old, text)
    return None if texts else "it names no file"


class WrongBodies(Case):
    def setUp(self) -> None:
        super().setUp()
        os.chmod(self.write("rt", RT), 0o755)
        self.write("crates.txt", "base:\none: base\ntwo: base\n")
        self.write("crates/base/out/rlib/base.rlib/format", "")
        for crate in ("base", "one", "two"):
            self.write(f"crates/{crate}/src/one.rt", SOURCE)
        self.write("crates/one/must-fail/01.one.f.always_tried.edit", IN_F)

    def trials(self, further: dict[str, str], *words: str, status: int) -> list[str]:
        """Runs the command over crates with further wrong bodies, given by path. Returns the lines that it prints."""
        for path, text in further.items():
            self.write(f"crates/{path}", text)
        given = ("--repository", self.folder, "--rt", self.path("rt"), *words)
        out, err = self.run_dev("wrong-bodies", *given, status=status)
        self.assertEqual(err, "")
        return out.splitlines()

    def calls(self) -> list[str]:
        """Returns what was asked of the stub, in order of the text."""
        calls = sorted(self.rows("rt.calls"))
        os.unlink(self.path("rt.calls"))
        return calls

    def test_all_are_refused_together(self) -> None:
        further = {"one/must-fail-further/02.one.f.x.edit": IN_F, "one/must-fail-further/03.one.h.x.edit": IN_H}
        further["two/must-fail-further/01.one.g.x.edit"] = IN_G
        said = "refused, as it must be: note: src/one.rt:{}:1: it is not proved that it returns (`returns`)"
        self.assertEqual(
            sorted(self.trials(further, status=0)),
            [
                "3 refused, 0 not",
                f"must-fail one/02.one.f.x.edit: {said.format(2)}",
                f"must-fail one/03.one.h.x.edit: {said.format(14)}",
                f"must-fail two/01.one.g.x.edit: {said.format(9)}",
                "tried by checks of whole crates: 0",
            ],
        )
        together = ["checked one one::f one::h: ", "checked one one::f one::h: WRONG"]
        self.assertEqual(self.calls(), [*together, "checked two one::g: ", "checked two one::g: WRONG"])

    def test_the_folder_that_make_test_tries(self) -> None:
        out = self.trials({"two/must-fail-further/01.one.g.x.edit": IN_G}, "--folder", "must-fail", "--jobs", "2", status=0)
        self.assertEqual(out[-1], "1 refused, 0 not")
        self.assertEqual(self.calls(), ["checked one one::f: ", "checked one one::f: WRONG"])

    def test_functions_that_call_each_other_are_apart(self) -> None:
        further = {"one/must-fail-further/02.one.f.x.edit": IN_F, "one/must-fail-further/03.one.g.x.edit": IN_G}
        self.assertEqual(self.trials(further, status=0)[-2:], ["tried by checks of whole crates: 0", "2 refused, 0 not"])
        both = "checked one one::f one::g: "
        self.assertEqual(self.calls(), [both, "checked one one::f: WRONG", "checked one one::g: WRONG"])

    def test_those_that_a_whole_check_tries(self) -> None:
        further = {
            "one/must-fail-further/02.one.f.sly.edit": IN_F.replace("WRONG", "SLY"),
            "one/must-fail-further/03.one.h.same.edit": IN_H.replace("WRONG", "id"),
            "one/must-fail-further/04.one.no_function.edit": edit("// Functions of a crate.", "// WRONG"),
            "one/must-fail-further/05.one.g.not_there.edit": edit("let fourth = n", "n"),
            "one/must-fail-further/06.one.g.contract.edit": edit("result ≡ n", "WRONG"),
        }
        out = self.trials(further, status=1)
        self.assertIn("must-fail one/03.one.h.same.edit: NOT REFUSED: the crate is still proved with this edit", out)
        self.assertIn("must-fail one/05.one.g.not_there.edit: BAD EDIT", out)
        self.assertEqual(out[-2:], ["tried by checks of whole crates: 5", "3 refused, 2 not"])
        together = ["checked one one::f one::h: ", "checked one one::f one::h: SLY"]
        whole = [f"whole one {os.path.basename(path)}" for path in further]
        self.assertEqual(self.calls(), [*together, *whole])

    def test_one_that_cannot_be_compiled(self) -> None:
        further = {"one/must-fail-further/02.one.f.x.edit": IN_F.replace("WRONG", "BROKEN")}
        further["one/must-fail-further/03.one.h.x.edit"] = IN_H
        out = self.trials(further, status=1)
        self.assertEqual(out[:2], ["must-fail one/02.one.f.x.edit: BAD EDIT", "must-fail one/03.one.h.x.edit: refused"])
        self.assertEqual(out[-1], "1 refused, 1 not")

    def test_a_check_that_is_killed_is_made_again(self) -> None:
        self.write("crates/one/src/one.rt", SOURCE.replace("// Functions", "// KILLED"))
        self.assertEqual(self.trials({}, "--folder", "must-fail", status=0)[-2], "tried by checks of whole crates: 0")
        self.assertEqual(len(self.calls()), 3)

    def test_a_function_that_is_not_proved_as_it_stands(self) -> None:
        self.write("crates/one/src/one.rt", SOURCE.replace("// Functions", "// SPOILT"))
        self.assertEqual(self.trials({}, "--folder", "must-fail", status=0)[-2], "tried by checks of whole crates: 1")

    def test_what_is_taken_out(self) -> None:
        for file in ("Answers.antt", "Invariants.antt"):
            self.write(f"crates/one/proofs/one/h/{file}", "")
        take_out(self.path("crates/one"), "one", {"one::f"})
        left = SOURCE.replace("let third = n;\n    third", "unreachable!()")
        self.assertEqual(self.read("crates/one/src/one.rt"), left.replace("let second = f(n);\n    second", "unreachable!()"))
        self.assertEqual(os.listdir(self.path("crates/one/proofs/one/h")), ["Proof.antt"])
        self.assertEqual(self.read("crates/one/proofs/one/h/Proof.antt"), PROOF)
        self.assertEqual(sorted(os.listdir(self.path("crates/one/proofs/one"))), ["g", "h"])

    def test_names_of_functions(self) -> None:
        for head, name in (
            ("impl<'a, F: Into<B<u8>>> One<'a, F>", "a::b::One::f"),
            ("impl From<u8> for One", None),
            ("impl<T: Into<u8>> Two for One<T>", "a::b::OneTwo::f"),
            ("impl<T> One<T>\nwhere\n    T: Copy,\n", None),
            ("pub trait One", None),
        ):
            with self.subTest(head):
                text = f"{head} {{\n    fn law() {{}}\n\n    fn none();\n\n    fn f() {{\n        g()\n    }}\n}}\n"
                self.assertEqual([it.name for it in functions_in(text, "src/a/b.rt", {})], [name])
        head = "impl One {\n    fn f()\n        ensures { {\n          x\n        } }\n    {\n"
        text = head + "        if a {\n        }\n    }\n}\n"
        (only,) = functions_in(text, "src/a.rt", {"One": ["home"]})
        self.assertEqual((only.name, text[only.body : only.end]), ("home::One::f", "        if a {\n        }\n    }"))
        cycle = "#[cycle(c)]\n// Why.\nfn f() {\n    f()\n}\n\nfn g() {\n    f()\n}\n"
        self.assertEqual([(it.name, it.stays) for it in functions_in(cycle, "src/lib.rt", {})], [("f", True), ("g", False)])

    def test_errors_in_proofs(self) -> None:
        places = {"one::f": ("src/one.rt", range(9))}
        for folder, goal, is_refused in (
            ("one/f", "returns", True),
            ("one/+f", "loop-end", True),
            ("one/+ring", "f-loop-end", True),
            ("one/+ring", "f_two-loop-end", False),
            ("one/g", "returns", False),
            ("f", "returns", False),
        ):
            with self.subTest(folder=folder, goal=goal):
                line = f"./proofs/{folder}/Answers.antt:3:1: error: `{goal}`: the types differ"
                said = [line, "fn c::one::f: not proved; it stands on a proof"]
                self.assertEqual(Checked(said, places).refusal("c", "one::f"), line if is_refused else None)
        said = ["./proofs/one/f/Answers.antt:3:1: error: `returns`: the record has no field `x`", "fn c::one::f: not proved"]
        self.assertIsNone(Checked(said, places).refusal("c", "one::f"))
        said = ["note: src/one.rt:3:1: it is not proved that it returns", "fn c::one::f: could not tell"]
        self.assertIsNone(Checked(said, places).refusal("c", "one::f"))

    def test_one_that_is_named(self) -> None:
        for folder in FOLDERS:
            named = f"one/{folder}/04.one.h.is_named.edit"
            path = self.path("crates", named)
            with self.subTest(folder):
                out = self.trials({named: IN_H, "one/must-fail-further/02.one.f.x.edit": IN_F}, path, status=0)
                self.assertEqual(out[-1], "1 refused, 0 not")
                self.assertEqual(self.calls(), ["checked one one::h: ", "checked one one::h: WRONG"])
            os.unlink(path)

    def test_libraries(self) -> None:
        os.unlink(self.path("crates/base/out/rlib/base.rlib/format"))
        os.removedirs(self.path("crates/base/out/rlib/base.rlib"))
        given = ("wrong-bodies", "--repository", self.folder, "--rt", self.path("rt"), "--folder", "must-fail")
        err = self.run_dev(*given, "--libraries", self.folder, status=5)[1]
        self.assertEqual(err, f"wrong-bodies: {self.path('crates/base/out/rlib/base.rlib')}: no such library\n")
        self.assertEqual(self.run_dev(*given)[0].splitlines()[-1], "1 refused, 0 not")
        self.assertIn("lib base", self.calls())
        self.run_dev(*given, "--libraries", self.folder)
        self.assertEqual(self.calls(), ["checked one one::f: ", "checked one one::f: WRONG"])
        self.write("crates.txt", "unbuilt:\none: unbuilt\n")
        self.write("crates/unbuilt/src/one.rt", SOURCE)
        err = self.run_dev(*given, status=5)[1]
        self.assertEqual(err, f"wrong-bodies: {self.path('rt')} lib did not build unbuilt\n")

    def test_words(self) -> None:
        err = self.run_dev("wrong-bodies", "sudo_audit", status=2)[1]
        self.assertIn("there is no folder crates/sudo_audit/must-fail-further", err)
        for path in ("gone.edit", self.write("crates/one/src/01.one.f.edit", "")):
            self.assertIn(f"{path}: not a file crates/CRATE/must-fail/", self.run_dev("wrong-bodies", path, status=2)[1])
        self.assertIn("expected a number from 1 on", self.run_dev("wrong-bodies", "--jobs", "0", status=2)[1])
        err = self.run_dev("wrong-bodies", "sudo_text", "--rt", self.path("none"), status=5)[1]
        self.assertEqual(err, f"wrong-bodies: {self.path('none')}: no such command\n")
        path = self.write("crates/one/must-fail-further/README", "")
        err = self.run_dev("wrong-bodies", "one", "--repository", self.folder, status=2)[1]
        self.assertEqual(err, f"wrong-bodies: {path}: not a file must-fail-further/*.edit\n")


def crates_with_contracts() -> list[str]:
    """Returns the crates of the program, without those of tests alone."""
    names = sorted(os.listdir(CRATES))
    return [it for it in names if os.path.isdir(os.path.join(CRATES, it, "must-fail")) and not it.endswith("_trials")]


class Functions:
    """The functions of a crate: their bodies by their names, and those that other crates see."""

    def __init__(self, crate: str) -> None:
        self.bodies: dict[str, str] = {}
        self.exported: list[str] = []
        with open(os.path.join(CRATES, crate, "src", "lib.rt"), encoding="utf-8") as it:
            words = {word for found in EXPORTED.findall(it.read()) for word in re.findall(r"\w+", "".join(found))}
        for path in sorted(glob.glob(os.path.join(CRATES, crate, "src", "**", "*.rt"), recursive=True)):
            with open(path, encoding="utf-8") as it:
                self._read(it.read(), words)

    def _read(self, text: str, words: set[str]) -> None:
        """Takes the functions of a file, given the words that the crate exports."""
        for match in FUNCTION.finditer(text):
            _, public, name, _, body = match.groups()
            self.bodies[name] = self.bodies.get(name, "") + body
            owner = re.findall(r"^impl(?:<[^>]*>)? (\w+)", text[: match.start()], re.MULTILINE) if match[1] else []
            whole = f"{owner[-1]}::{name}" if owner else name
            if public and (owner[-1] if owner else name) in words and re.search(r"\w", body):
                self.exported.append(whole)

    def called_by(self, name: str) -> set[str]:
        """Returns the names of a function and of those that it calls, by however many steps."""
        seen, waiting = set(), [name]
        while waiting:
            if (now := waiting.pop()) not in seen:
                seen.add(now)
                waiting.extend(it for it in CALL.findall(self.bodies[now]) if it in self.bodies)
        return seen


class Texts(unittest.TestCase):
    def test_each_exported_function_is_turned(self) -> None:
        for crate in crates_with_contracts():
            edits = os.listdir(os.path.join(CRATES, crate, FOLDERS[0]))
            turned = {edit.split(".")[-3] for edit in edits}
            functions = Functions(crate)
            for whole in functions.exported:
                with self.subTest(crate=crate, function=whole):
                    if (crate, whole) not in WITHOUT:
                        self.assertTrue(functions.called_by(whole.rpartition("::")[2]) & turned)

    def test_each_can_be_put_into_its_crate(self) -> None:
        for folder in FOLDERS:
            for edit in sorted(glob.glob(os.path.join(CRATES, "*", folder, "*"))):
                with self.subTest(os.path.relpath(edit, CRATES)):
                    self.assertRegex(os.path.basename(edit), NAME)
                    self.assertIsNone(trouble(edit))

    def test_each_has_a_number_of_its_own(self) -> None:
        for crate in os.listdir(CRATES):
            names = [os.path.basename(it) for folder in FOLDERS for it in glob.glob(os.path.join(CRATES, crate, folder, "*"))]
            numbers = sorted(name.split(".")[0] for name in names)
            self.assertEqual(numbers, sorted(set(numbers)), crate)


if __name__ == "__main__":
    unittest.main()
