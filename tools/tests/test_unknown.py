"""Hosts of logs that the hosts file does not have."""

import unittest

import support  # noqa: F401
from kulavemia.unknown import domain_of, warning


class Unknown(unittest.TestCase):
    def test_the_one_domain(self) -> None:
        self.assertEqual(domain_of(["web1.example.org", "WEB2.Example.org"]), "example.org")
        self.assertEqual(domain_of(["web1.example.org", "web2.example.com"]), "")
        self.assertEqual(domain_of(["web1.example.org", "web2"]), "")
        self.assertEqual(domain_of(["a.b.example.org", "c.example.org"]), "")
        self.assertEqual(domain_of(["web1", "web2"]), "")
        self.assertEqual(domain_of([]), "")

    def test_hosts_that_are_there_whatever_their_case(self) -> None:
        self.assertEqual(warning({"WEB1.example.org": 3}, ["web1.Example.org"]), "")
        self.assertEqual(warning({}, []), "")

    def test_what_helps(self) -> None:
        hosts = ["web1.example.org", "db1.example.com"]
        self.assertIn("; name their domain by --domain, or name them by --host-map", warning({"web1": 1}, hosts))
        self.assertIn("; name them by --host-map, or add them to hosts.csv", warning({"x.y": 1}, hosts))
        self.assertIn("say --domain example.org", warning({"web1": 1}, hosts[:1]))

    def test_many_hosts(self) -> None:
        text = warning({f"h{number}": 2 for number in range(5)}, ["h0"])
        self.assertTrue(text.startswith("8 requests are not judged"))
        self.assertIn(": h1, h2, h3 and 1 more; ", text)


if __name__ == "__main__":
    unittest.main()
