"""The page's answer to who can become root: its cells, its sentences, and what a reader sees who chooses one."""

import unittest
from collections.abc import Iterable, Sequence

from browsing import Browser, clipped
from rooted import HOSTS, USERS, example_page, full_page, grant, large_page, noted_page, on_all, page_of, roots_of, way
from support import Case, needs_driver, needs_jinja, needs_poppler
from kulavemia import effects, sentences
from kulavemia.command import Fault
from kulavemia.grants import Grants, names_of
from kulavemia.page import Page
from kulavemia.page import write as write_page
from kulavemia.review import Caution
from kulavemia.roots import Roots


class Names(unittest.TestCase):
    def test_lists_are_read_as_a_policy_has_them(self) -> None:
        self.assertEqual(names_of(""), [])
        for text, names in (
            ("alice, bob", ["alice", "bob"]),
            (r"domain\ user, do\,main, a\"b, \%x", ["domain user", "do,main", 'a"b', "%x"]),
            (r'"WEB", "ALL", a\x0ab, é', ["WEB", "ALL", "a\nb", "é"]),
        ):
            self.assertEqual(names_of(text), names)
        with self.assertRaisesRegex(Fault, "no list of names"):
            names_of('a"b')

    def test_the_grants_of_a_user_on_a_host(self) -> None:
        rows = [grant("ann, bob", "/a"), grant("ALL", "/b", hosts="h2"), grant("", "/c"), grant("bob", "/d")]
        grants = Grants(rows, USERS, HOSTS)
        self.assertEqual([grants.of(1, 0), grants.of(1, 1), grants.of(2, 1), grants.of(0, 0)], [(0,), (0, 1), (0, 1, 3), ()])
        with self.assertRaisesRegex(Fault, "has the name zoe, and the directory has not"):
            Grants([grant("zoe", "/a")], USERS, HOSTS)


class Cells(unittest.TestCase):
    def marks(self, rows: Iterable[Sequence[str]], grants: Iterable[Sequence[str]] = (), is_doubtful: bool = False) -> str:
        """Returns the marks of the users on the first host."""
        roots = roots_of(rows, grants, is_doubtful)
        answers = roots.answers()
        return " ".join(answers[row[0]].mark for row in roots.rows)

    def test_marks(self) -> None:
        rows = [
            *on_all("root", "root", "none"),
            *on_all("ann", "all", "none"),
            *on_all("bob", "all"),
            *on_all("cid", "all-but", "other"),
            *on_all("dora", "listed"),
        ]
        self.assertEqual(self.marks(rows), "R A! A B L ·")
        # Nobody but root is sure where sudo may decide otherwise.
        self.assertEqual(self.marks(rows, is_doubtful=True), "R ?A! ?A ?B ?L ?")

    def test_passwords_are_those_of_the_table_of_roots(self) -> None:
        rows = [*on_all("ann", "all", "?"), *on_all("bob", "all"), *on_all("cid", "all-but", "?"), *on_all("dora", "listed")]
        # The row of a step to the target says of all its commands whether one asks for no password.
        free = [grant("bob, cid, dora", "/a", "NOPASSWD")]
        self.assertEqual(self.marks(rows, free), "· A? A B? L ·")
        # A row of a chain says nothing of a lesser one, as that by the step to the target.
        rows = [*on_all("ann", "all"), *on_all("bob", "all", via="ann"), *on_all("cid", "all-but", via="ann")]
        rows += on_all("dora", "listed", "other", via="ann")
        self.assertEqual(self.marks(rows, free), "· A A? B? L ·")
        self.assertEqual(self.marks(rows, [grant("bob, cid, dora", "/a", "NOPASSWD", "!")]), "· A A B L ·")
        self.assertEqual(self.marks(rows, [grant("bob, cid, dora", "/a", "NOPASSWD", hosts="h2")]), "· A A B L ·")

    def test_a_lesser_chain_through_another_user(self) -> None:
        rows = [*on_all("ann", "all"), *on_all("bob", "all"), *on_all("cid", "listed", "?"), *on_all("dora", "listed")]
        for runas, marks in (
            ("(cid)", "· A? A? L? L ·"),
            ("(ALL)", "· A? A? L? L ·"),
            ("(: adm)", "· A? A? L? L ·"),
            ("(dora)", "· A A L? L ·"),
            ("(eve)", "· A A L? L ·"),
        ):
            free = [grant("ann", "/a", "NOPASSWD", runas=runas), grant("bob", "/a", "NOPASSWD", runas="(ann)")]
            self.assertEqual(self.marks(rows, free), marks, runas)

    def test_each_target_counts(self) -> None:
        rows = [*on_all("ann", "all"), *on_all("ann", "listed", "?", target="toor")]
        self.assertEqual(self.marks(rows), "· A? · · · ·")

    def test_what_depends_is_marked_and_not_sure(self) -> None:
        rows = [
            *on_all("root", "root", "none"),
            *on_all("ann", "all", "none", depends="time"),
            *on_all("bob", "all", depends="digest"),
            *on_all("cid", "all-but", "?", depends="chroot"),
            *on_all("dora", "listed", depends="digest time"),
        ]
        self.assertEqual(self.marks(rows), "R ?A! ?A ?B? ?L ·")
        answers = {answer.mark: answer for answer in roots_of(rows).answers()}
        self.assertEqual(answers["?L"].meaning, "perhaps listed commands as root; it depends on a digest and the time")
        self.assertEqual((answers["?L"].depends, answers["?L"].is_doubtful), (("digest", "time"), False))
        self.assertEqual(answers["·"].meaning, "no way to root")
        # A caution makes no cell less sure twice, and each says why.
        self.assertEqual(self.marks(rows, is_doubtful=True), "R ?A! ?A ?B? ?L ?")
        (doubtful,) = [answer for answer in roots_of(rows, (), True).answers() if answer.mark == "?A!"]
        self.assertTrue(doubtful.meaning.endswith("; it depends on the time; sudo may decide otherwise"))

    def test_the_best_level_is_sure_if_one_of_its_ways_is(self) -> None:
        for level, password, depends, mark in (
            ("all", "own", "", "A"),
            ("listed", "own", "", "?A"),
            ("all", "none", "digest", "?A!"),
            ("listed", "?", "digest", "?A?"),
        ):
            rows = [*on_all("ann", "all", depends="time"), *on_all("ann", level, password, target="toor", depends=depends)]
            self.assertEqual(self.marks(rows).split()[1], mark, f"{level} {password} {depends}")
        rows = [*on_all("ann", "all"), *on_all("ann", "listed", target="toor", depends="time")]
        self.assertEqual(self.marks(rows).split()[1], "A")

    def test_a_step_that_depends_may_need_no_password(self) -> None:
        # At its most the step asks for one; as it may be otherwise, its commands may need none.
        free = [grant("ann", "/a", "NOPASSWD", depends="digest"), grant("bob", "/a", "NOPASSWD")]
        rows = [*on_all("ann", "all", depends="time"), *on_all("bob", "all")]
        self.assertEqual(self.marks(rows, free), "· ?A? A · · ·")

    def test_what_is_depended_on_and_not_known(self) -> None:
        (answer,) = [answer for answer in roots_of(on_all("ann", "all", depends="<b>x y")).answers() if answer.depends]
        self.assertEqual((answer.mark, answer.depends), ("?A", ("other",)))
        self.assertTrue(answer.meaning.endswith("it depends on something unknown to these tools"))

    def test_the_best_of_several_targets(self) -> None:
        rows = [*on_all("ann", "listed"), *on_all("ann", "all", "none", target="toor")]
        self.assertEqual(self.marks(rows), "· A! · · · ·")

    def test_what_does_not_fit_is_refused(self) -> None:
        for rows, said in (
            ([way("zoe", "h1", "all")], "has zoe on h1, and the directory has not"),
            ([way("ann", "h1", "some")], "has the level some"),
        ):
            with self.assertRaisesRegex(Fault, said):
                roots_of(rows).answers()
        roots = Roots(USERS, HOSTS, Grants([], USERS, HOSTS), False)
        with self.assertRaisesRegex(Fault, "the rows of h1 in the table of roots do not stand together"):
            roots.take_all([way("ann", host, "all") for host in ("h1", "h2", "h1")])

    def test_groups_and_data(self) -> None:
        roots = roots_of([way("ann", "h2", "all"), way("bob", "h2", "all"), *on_all("cid", "listed")])
        groups = [(group.users, list(group.row)) for group in roots.groups()]
        self.assertEqual(groups, [(["ann", "bob"], [0, 2]), (["cid"], [1, 1]), (["root", "dora", "eve"], [0, 0])])


class Sentences(unittest.TestCase):
    def said(self, rows: Iterable[Sequence[str]], is_doubtful: bool = False) -> list[str]:
        """Returns what is said of who can become root."""
        return list(sentences.of_roots(roots_of(rows, (), is_doubtful)))

    def test_who_can_become_root(self) -> None:
        rows = [
            *on_all("root", "root", "none"),
            *on_all("ann", "all", "none"),
            *on_all("bob", "all", via="ann"),
            way("cid", "h1", "all"),
            *on_all("dora", "listed"),
        ]
        wanted = [
            "One user is root by the ID 0: root.",
            "Two users can run any command as root on both hosts, one of them without a password: ann and bob.",
            "One further user can run any command as root on one or more of the 2 hosts: cid.",
            "One user can run listed commands as root on one or more of the 2 hosts: dora. Whether one of these gives more, a"
            " reader has to judge.",
            "Of these, one gets there through another user or group: bob.",
            "The other known user has no way to root by sudo on either host, whatever command is asked for: that is proved.",
        ]
        self.assertEqual(self.said(rows), wanted)
        self.assertTrue(self.said(rows, is_doubtful=True)[-1].endswith("; but sudo may decide otherwise."))

    def test_what_depends_is_said_so(self) -> None:
        every, one = "can run any command as root on both hosts", "can perhaps run listed commands as root on one or more of the"
        partly = [way("bob", "h1", "all"), way("bob", "h2", "all", depends="time")]
        for rows, said in (
            (on_all("ann", "all", depends="digest"), ["One user can perhaps run any command as root on both hosts: ann."]),
            (
                [*on_all("ann", "all", depends="digest"), *on_all("bob", "all"), *on_all("cid", "all")],
                [f"Three users {every}, one of them perhaps: ann, bob and cid."],
            ),
            (
                [*on_all("ann", "all", "none", depends="digest"), *partly],
                [f"Two users {every}, one of them without a password, one of them perhaps, one of them perhaps on some of the"
                 " hosts: ann and bob."],
            ),
            (partly, ["One user can run any command as root on both hosts, on some of them perhaps: bob."]),
            (
                # Of bob one host is sure, and of cid none.
                [way("bob", "h1", "all"), way("cid", "h1", "all", depends="chroot"), way("cid", "h2", "listed")],
                ["Two users can run any command as root on one or more of the 2 hosts, one of them perhaps: cid and bob."],
            ),
            (
                [way("ann", "h1", "listed", depends="time")],
                [f"One user {one} 2 hosts: ann. Whether one of these gives more, a reader has to judge."],
            ),
        ):
            self.assertEqual(self.said(rows)[:1], said)

    def test_on_what_it_depends_is_said(self) -> None:
        partly = [way("bob", "h1", "all"), way("bob", "h2", "all", depends="time")]
        rows = [*on_all("ann", "all", depends="digest time"), *partly]
        wanted = [
            "For one of these it depends on a digest, which is not judged, on one or more of the hosts: ann.",
            "For two of these it depends on the time, which is not judged, on one or more of the hosts: ann and bob.",
            "The other four known users have no way to root by sudo on either host, whatever command is asked for and whether"
            " what rules depend on is met or not: that is proved.",
        ]
        self.assertEqual(self.said(rows)[1:], wanted)
        self.assertEqual(list(sentences.of_noted(())), [])
        (said,) = sentences.of_noted(("digest", "chroot"), 2)
        self.assertIn("What rules of two hosts depend on is not judged (a digest and another root folder): ", said)

    def test_who_needs_no_password_on_some_hosts(self) -> None:
        partly = [way("bob", "h1", "all", "none"), way("bob", "h2", "all")]
        start, end = "users can run any command as root on both hosts", "on some of the hosts: "
        for rows, said in (
            ([*on_all("ann", "all"), *partly], f"Two {start}, one of them without a password {end}bob and ann."),
            (
                [*on_all("ann", "all", "none"), *partly, *on_all("cid", "all")],
                f"Three {start}, one of them without a password, and one without one {end}ann, bob and cid.",
            ),
        ):
            self.assertEqual(self.said(rows)[0], said)

    def test_changes(self) -> None:
        start = "Against the policy before, of the requests of the logs and the probes "
        for counts, said in (
            ({"gained": 1, "gained and lost": 1, "lost": 0}, "two gain something and none loses something."),
            ({"gained": 1, "lost": 13}, "one gains something and 13 lose something."),
        ):
            self.assertEqual(list(sentences.of_changes(counts)), [start + said])
        self.assertIn("no request", next(sentences.of_changes({"gained": 0, "lost": 0, "other": 3})))
        (said,) = sentences.of_changes({"gained": 2, "lost": 1}, 2)
        self.assertIn("one loses something, two of them perhaps, by rules that depend on what is not judged.", said)
        none, may = sentences.of_changes({"gained": 0, "lost": 0, "may": 2})
        self.assertTrue(none.endswith(" none is known to gain or lose anything."))
        self.assertIn("For two of the requests of the logs and the probes the answers depend on what is not judged", may)

    def test_numbers_and_lists(self) -> None:
        self.assertEqual(sentences.counted(1, "host"), "one host")
        self.assertEqual(sentences.counted(1234, "host"), "1,234 hosts")
        self.assertEqual(sentences.listed(["a", "b", "c"]), "a, b and c")
        self.assertEqual(sentences.listed(list("abcdefghijk")), "a, b, c, d, e, f, g, h and 3 more")


class Effects(unittest.TestCase):
    def effect(self, kind: str, line: str = "", text: str = "") -> str:
        """Returns which answers a caution is about."""
        return effects.effect_of(Caution("p:1", kind, text, line)).answers

    def test_each_class_of_the_program_is_known(self) -> None:
        from test_review import CLASSES

        known = {*effects._CLASSES, "defaults"}
        self.assertEqual(known, set(CLASSES))

    def test_each_parameter_of_the_program_is_known(self) -> None:
        for name in ("authenticate", "targetpw", "rootpw", "runaspw", "exempt_group"):
            self.assertEqual(self.effect("defaults", text=f"{name}: decides"), effects.PASSWORD)
        for name in ("runas_default", "fqdn", "case_insensitive_user", "group_plugin", "one of tomorrow"):
            self.assertEqual(self.effect("defaults", text=f"{name}: decides"), effects.WHO)
        for name in ("noexec", "root_sudo", "requiretty", "runas_check_shell", "intercept", "runas_allow_unknown_id"):
            self.assertEqual(self.effect("defaults", text=f"{name}: decides"), effects.OTHER)
        for name in ("setenv", "runchroot", "fast_glob", "sudoers_locale"):
            self.assertEqual(self.effect("defaults", text=f"{name}: decides"), effects.COMMANDS)

    def test_each_class_that_may_change_a_cell_says_so(self) -> None:
        # By the rows of docs/PROFILE.md: these lines have another rule, or name others, for sudo.
        changing = "return blank-after-backslash join torn-mark include-escape include-indent comment empty-group escape case"
        for name in f"{changing} quoted-host quoted-escape network reserved arguments one-of-tomorrow".split():
            self.assertEqual(self.effect(name, "alice ALL = /bin/ls"), effects.WHO, name)
        # The rows of who can become root say themselves what depends on what is noted.
        meanings = set()
        for kind in ("digest", "time", "chroot", "one of tomorrow"):
            self.assertEqual(self.effect("depends", "alice ALL = /bin/ls", f"{kind}: asked"), effects.NOTED)
            meanings.add(effects.effect_of(Caution("p:1", "depends", f"{kind}: asked")).meaning)
        self.assertEqual(len(meanings), 4)
        for name in ("linked", "sudoedit", "setenv"):
            self.assertEqual(self.effect(name, "alice ALL = /bin/ls"), effects.COMMANDS, name)
        self.assertEqual(self.effect("unknown-parameter", "alice ALL = /bin/ls"), effects.OTHER)
        for name in ("setenv", "runchroot"):
            meaning = effects.effect_of(Caution("p:1", "defaults", f"{name}: decides")).meaning
            self.assertIn("a listed command may be worth any command", meaning)

    def test_groups_to_run_with(self) -> None:
        for line, answers in (
            ("alice ALL = (:operator) /bin/id", effects.OTHER),
            ("%adm ALL = (root) /bin/ls, (:operator) /bin/id", effects.OTHER),
            ("alice ALL = (root : %adm) ALL", effects.WHO),
            ('alice ALL = (root : adm, "%#4") ALL', effects.WHO),
            (r"alice ALL = (root : \x25adm) ALL", effects.WHO),
            ("alice ALL = /bin/ls, \\", effects.OTHER),
            ("alice ALL = (root : \\", effects.WHO),
            ("", effects.WHO),
        ):
            self.assertEqual(self.effect("group-form", line), answers, line)

    def test_brackets(self) -> None:
        for line, answers in (
            ("alice ALL = /usr/bin/passwd [^-]*", effects.COMMANDS),
            ("alice ALL = NOPASSWD: /opt/x [^a], /opt/b c=d", effects.COMMANDS),
            ("Cmnd_Alias X = /opt/x [^a]", effects.COMMANDS),
            ("alice web[^1] = ALL", effects.WHO),
            (r"ali\=ce 10.0.0.0/8, web[^1] = ALL", effects.WHO),
            ("alice ALL = X : web[^1] = Y", effects.WHO),
            ("Host_Alias X = web[^1]", effects.WHO),
            ("", effects.WHO),
        ):
            self.assertEqual(self.effect("caret", line), answers, line)


# Returns the elements that are wider than their boxes: what a reader would have to scroll to, or does not see at all.
OVERFLOWS = """
    const wide = [];
    for (const element of document.querySelectorAll('body, body *')) {
      const style = getComputedStyle(element);
      if (style.display === 'inline' || element.closest('[hidden]') || !element.getClientRects().length) continue;
      if (element.scrollWidth > element.clientWidth + 1 && element.clientWidth) wide.push(element.tagName + '#' + element.id);
      if (element.getBoundingClientRect().right > document.documentElement.clientWidth + 1) wide.push('right ' + element.tagName);
    }
    return wide;
"""
# Returns the names of users and hosts that stand in more than one line.
BROKEN = "return [...document.querySelectorAll('.name')].filter((name) => name.getClientRects().length > 1).length"
# Returns the texts with less contrast to their ground than WCAG 2 wants (4.5 to 1), by the colours that the browser computes.
FAINT = """
    const channel = (value) => (value <= 10.31 ? value / 255 / 12.92 : ((value / 255 + 0.055) / 1.055) ** 2.4);
    const parts = (colour) => colour.match(/[0-9.]+/g).map(Number);
    const light = (colour) => {
      const [r, g, b] = parts(colour).map(channel);
      return 0.2126 * r + 0.7152 * g + 0.0722 * b;
    };
    const ground = (element) => {
      for (let at = element; at; at = at.parentElement) {
        const colour = getComputedStyle(at).backgroundColor;
        const [, , , alpha] = parts(colour);
        if (alpha === undefined || alpha === 1) return colour;
      }
      return getComputedStyle(document.documentElement).colorScheme.includes('dark') ? 'rgb(0,0,0)' : 'rgb(255,255,255)';
    };
    const faint = new Set();
    let count = 0;
    for (const element of document.querySelectorAll('body *')) {
      const own = [...element.childNodes].some((node) => node.nodeType === 3 && node.textContent.trim());
      if (!own || !element.getClientRects().length || element.disabled) continue;
      count += 1;
      const [a, b] = [light(getComputedStyle(element).color), light(ground(element))].sort();
      const contrast = (Math.max(a, b) + 0.05) / (Math.min(a, b) + 0.05);
      if (contrast < 4.5) faint.add(`${element.tagName}.${element.className} ${contrast.toFixed(2)}`);
    }
    return [count, ...faint];
"""


# Returns what the commands of an answer depend on.
DEPENDS = """
    return [...document.querySelectorAll('#answers td[data-label="Depends on"]')].map((cell) => cell.textContent);
"""


@needs_jinja
@needs_driver
class InABrowser(Case):
    """What a reader sees, in a browser without a window."""

    def open(self, browser: Browser, page: Page) -> Browser:
        """Writes a page, and opens it."""
        path = self.path("page.html")
        write_page(page, path)
        browser.open(path)
        return browser

    def shown(self, browser: Browser) -> str:
        """Returns the rows of the map."""
        script = "return [...document.querySelectorAll('#heat tbody tr')].map((row) => row.textContent).join('|')"
        return str(browser.run(script))

    def choose(self, browser: Browser, selector: str) -> None:
        """Clicks a cell in the middle of the window."""
        cell = browser.element(selector)
        browser.run("arguments[0].scrollIntoView({block: 'center'})", cell)
        cell.click()

    def test_a_cell_that_is_chosen_shows_its_answer_in_view(self) -> None:
        for width, height in ((390, 800), (1280, 900), (1920, 1000)):
            with self.subTest(width), Browser(width, height) as browser:
                self.open(browser, example_page())
                self.assertEqual(self.shown(browser), "rootR|annA!|bobA|cidB|doraL")
                self.choose(browser, "#heat td.listed button")
                self.assertTrue(browser.is_in_view("#answers h3") and browser.is_in_view("#heat td.chosen"))
                shown = browser.text("#answers")
                for part in ("dora on h1, h2", "Listed commands as root.", "/opt/only <b>", "not /opt/never", "sudoers:47"):
                    self.assertIn(part, shown)

    def test_what_depends_is_shown_in_each_place(self) -> None:
        for width, height in ((390, 800), (1280, 900)):
            with self.subTest(width), Browser(width, height) as browser:
                self.open(browser, noted_page())
                self.assertEqual(self.shown(browser), "rootRR|ann?A!?A!|bobA?A|cid?B?B|dora?L??L?")
                label = browser.run("return document.querySelector('#heat td.all-free button').getAttribute('aria-label')")
                self.assertIn("perhaps any command as root, without a password; it depends on a digest and the time", label)
                self.choose(browser, "#heat td.listed button")
                shown = browser.text("#answers")
                for part in ("Perhaps listed commands as root", "it depends on the time.", "the most that may be so"):
                    self.assertIn(part, shown)
                self.assertIn("decides, where what its rule depends on is met:", shown)
                self.assertEqual(browser.run(DEPENDS), ["", "the time"])
                self.assertIn("perhaps, and at most that, since it depends on what is not judged", browser.text(".legend"))
                self.open(browser, noted_page())
                self.choose(browser, "#heat td.all:last-child button")
                self.assertIn("through ann", browser.text("#answers"))
                self.assertIn("This depends on a digest, the time and another root folder", browser.text("#answers"))
                self.open(browser, noted_page())
                self.choose(browser, "#heat td.all button")
                self.assertNotIn("depends", browser.text("#answers"))
                browser.element("#answer-search").send_keys("another root")
                browser.wait("return document.querySelectorAll('#heat tbody tr').length === 2")

    def test_the_last_of_many_rows_shows_its_answer_in_view(self) -> None:
        users = [f"u{number}" for number in range(60)]
        roots = Roots(users, HOSTS, Grants([], users, HOSTS), False)
        rows = [way(user, host, "all", place=f"p:{at}") for host in HOSTS for at, user in enumerate(users)]
        roots.take_all(rows)
        for width, height in ((390, 800), (1280, 900)):
            with self.subTest(width), Browser(width, height) as browser:
                self.open(browser, page_of(roots))
                self.choose(browser, "#heat tbody tr:last-child td button")
                self.assertTrue(browser.is_in_view("#answers h3") and browser.is_in_view("#heat td.chosen"))
                self.assertIn("u39 on h1, h2", browser.text("#answers"))

    def test_keys_choose_cells(self) -> None:
        with Browser(1280) as browser:
            self.open(browser, example_page())
            browser.run("document.querySelector('#heat td button').focus()")
            browser.press("ArrowDown", "ArrowDown", "Enter")
            self.assertIn("bob on h1, h2", browser.text("#answers"))
            self.assertIn("through ann", browser.text("#answers"))
            self.assertTrue(browser.is_in_view("#answers h3"))
            browser.press("ArrowUp", "Enter")
            self.assertIn("Any command as root, without a password.", browser.text("#answers"))

    def test_what_a_reader_does_with_the_map(self) -> None:
        with Browser(1280) as browser:
            self.open(browser, example_page())
            browser.element("#fold").click()
            self.assertEqual(self.shown(browser), "rootRR|annA!A!|bobAA|cidBB|doraLL")
            browser.element("#reaching").click()
            self.assertTrue(self.shown(browser).endswith("|eve··"))
            browser.element("#heat tbody tr:last-child td button").click()
            self.assertIn("No chain of runs of sudo, of any length", browser.text("#answers"))
            self.assertIn("users in 6 rows, 2 hosts in 2 columns", browser.text("#map-found"))
            browser.element("#user-search").send_keys("dor")
            browser.wait("return document.querySelectorAll('#heat tbody tr').length === 1")
            self.assertEqual(self.shown(browser), "doraLL")
            self.assertIn("1 user in 1 row", browser.text("#map-found"))

    def test_nothing_is_wider_than_the_window(self) -> None:
        for width in (390, 600, 1100, 1101, 1280, 1920):
            with self.subTest(width), Browser(width) as browser:
                self.open(browser, noted_page())
                self.choose(browser, "#heat td.listed button")
                self.assertEqual((browser.run(OVERFLOWS), browser.run(BROKEN)), ([], 0))
                self.open(browser, full_page())
                browser.run("for (const details of document.querySelectorAll('details')) details.open = true")
                self.choose(browser, "#heat td.all-but button")
                self.assertEqual(browser.run("return innerWidth"), width)
                self.assertEqual((browser.run(OVERFLOWS), browser.run(BROKEN)), ([], 0))
                self.open(browser, large_page(300, 60, "W" * 40))
                self.choose(browser, "#heat td button")
                self.assertEqual((browser.run(OVERFLOWS), browser.run(BROKEN)), ([], 0))

    def test_every_text_stands_out_from_its_ground(self) -> None:
        for scheme in ("light", "dark"):
            with self.subTest(scheme), Browser(1280, scheme=scheme) as browser:
                self.open(browser, full_page())
                browser.run("for (const details of document.querySelectorAll('details')) details.open = true")
                browser.element("#reaching").click()
                browser.element("#heat td.listed button").click()
                count, *faint = browser.run(FAINT)
                self.assertGreater(count, 50)
                self.assertEqual(faint, [])
                is_white = browser.run("return getComputedStyle(document.body).backgroundColor === 'rgb(255, 255, 255)'")
                self.assertEqual(is_white, scheme == "light")

    def test_nothing_is_asked_of_the_network(self) -> None:
        with Browser(1280) as browser:
            self.open(browser, example_page())
            browser.element("#heat td button").click()
            self.assertEqual(browser.requested(), [f"file://{self.path('page.html')}"])

    @needs_poppler
    def test_print(self) -> None:
        with Browser(1280) as browser:
            self.open(browser, example_page())
            self.assertLessEqual(len(browser.printed(self.path("page.pdf"))), 4)
            self.assertEqual(clipped(self.path("page.pdf")), [])
            self.open(browser, noted_page())
            noted = "\n".join(browser.printed(self.path("page.pdf")))
            self.assertEqual(clipped(self.path("page.pdf")), [])
            # Where the lines of a cell end depends on how long the paths beside it are.
            for part in ("?A!", "perhaps any", "if met:", "Depends on"):
                self.assertIn(part, noted)
            self.open(browser, full_page())
            browser.run("for (const details of document.querySelectorAll('details')) details.open = true")
            text = "\n".join(browser.printed(self.path("page.pdf")))
            self.assertEqual(clipped(self.path("page.pdf")), [])
        for part in ("In short", "dora", "/opt/only <b>", "not /opt/never", "Signature", "FULLTIMERS ALL = NOPASSWD: ALL"):
            self.assertIn(part, text)

    def test_a_large_page_opens(self) -> None:
        with Browser(1280) as browser:
            self.open(browser, large_page(5000, 1000))
            self.assertIn("700 users in", browser.text("#map-found"))
            # After how many milliseconds the page stood; docs/PERFORMANCE.md has a figure.
            self.assertRegex(str(browser.run("return document.documentElement.dataset.ready")), "^[0-9]+$")


if __name__ == "__main__":
    unittest.main()
