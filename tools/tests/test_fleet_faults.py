"""Fleets with workers, and what may go wrong with them: in the end one machine's report, or a refusal by name."""

import os
import re
import subprocess
import time
import unittest
from collections.abc import Sequence
from unittest import mock

from fleet_case import PATIENCE, POLICY, FleetCase
from support import needs_dask


@needs_dask
class Workers(FleetCase):
    def test_four_workers_give_the_report_of_one_machine(self) -> None:
        self.hosts(6)
        self.host("bad", POLICY + "# stub refuse\n")
        self.host("many", senders=["a", "b", "c"])
        out, err = self.fleet("--workers", "4", "--senders", "2", status=1)
        self.assertEqual(out, "27 rows of 8 shards; 1 refused, 0 failed\n")
        self.assertIn("fleet: 9 of 9 shards judged", err)
        self.want_as_one_machine(without=["bad"])
        self.assertIn("fleet: 0 of 9 shards judged", self.fleet("--senders", "2", status=1)[1])

    def test_a_worker_that_is_killed(self) -> None:
        self.hosts(8)
        self.host("killer", POLICY + f"# stub kill {self.path('killed')}\n")
        self.fleet("--workers", "4")
        self.assertTrue(os.path.exists(self.path("killed")))
        self.want_as_one_machine()

    def test_a_shard_that_kills_each_worker(self) -> None:
        self.hosts(4)
        self.host("killer", POLICY + "# stub die\n")
        self.fleet("--workers", "4", "--retries", "1", status=1)
        self.assertIn("killer,1,failed,0,each worker that had it died", self.rows("out", "status.csv"))
        self.want_as_one_machine(without=["killer"])
        self.host("killer")
        self.fleet("--part", "1/1")
        self.fleet("--join")
        self.want_as_one_machine()

    def test_a_shard_that_takes_too_long_or_finds_no_memory(self) -> None:
        self.hosts(4)
        self.host("slow", POLICY + "# stub sleep 600\n")
        self.host("hungry", POLICY + "# stub memory\n")
        self.fleet("--workers", "4", "--limit", "10", status=1)
        self.assertEqual(
            self.rows("out", "status.csv")[5:],
            ["hungry,1,failed,0,sudo_audit: out of memory", "slow,1,failed,0,took more than 10 s"],
        )
        self.want_as_one_machine(without=["hungry", "slow"])
        self.host("hungry")
        self.host("slow")
        self.assertIn("fleet: 2 shards of 6 hosts", self.fleet("--part", "1/1")[1])
        self.fleet("--join")
        self.want_as_one_machine()

    def test_a_folder_that_changes_under_the_run(self) -> None:
        self.hosts_with_one_that_waits(12)
        running = self.start("--workers", "4")
        self.wait_until(lambda: os.path.exists(self.path("out", "shards", "host00.1.shard")))
        self.host("host00", POLICY + "jen ALL = ALL\n", senders=["host00", "more"])
        self.write("go", "")
        out, _ = running.communicate()
        self.assertEqual(running.returncode, 3, out)
        self.assertIn("fleet: host00/1: its inputs, or the program, changed after its audit", out)
        self.assertFalse(os.path.exists(self.path("out", "report.csv")))
        self.assertIn("fleet: 1 shards of 12 hosts", self.fleet("--part", "1/1")[1])
        self.fleet("--join")
        self.want_as_one_machine()

    def test_a_run_that_is_cut_off(self) -> None:
        self.hosts_with_one_that_waits(12)
        running = self.start("--workers", "4")
        self.wait_until(lambda: self.results() > 2)
        running.kill()
        running.communicate()
        self.write("go", "")
        self.assertFalse(os.path.exists(self.path("out", "report.csv")))
        stood = self.results()
        self.assertIn(f"fleet: {12 - stood} shards of 12 hosts", self.fleet("--part", "1/1")[1])
        self.fleet("--join")
        self.want_as_one_machine()


@needs_dask
class Schedulers(FleetCase):
    """A scheduler of its own, with workers that are started by hand."""

    def scheduler(self, full: bool = False, workers: int = 4, words: Sequence[str] = ()) -> None:
        """Starts a scheduler and some workers; the disk of the first takes no large file if it is full."""
        place = ("--host", "127.0.0.1", "--port", "0", "--dashboard-address", "127.0.0.1:0")
        self.running = self.process("dask-scheduler", *place, "--scheduler-file", "at.json", *words)
        self.wait_until(lambda: self.address_in("at.json") != "")
        self.address = self.address_in("at.json")
        for number in range(workers):
            self.worker(number, "ulimit -f 8; " if full and number == 0 else "")
        self.wait_until(lambda: all(os.path.isdir(self.path(f"w{number}")) for number in range(workers)))

    def address_in(self, name: str) -> str:
        """Returns the scheduler's address, empty until the file is there and has it."""
        found = re.search(r'"address": "([^"]*)"', self.read(name)) if os.path.exists(self.path(name)) else None
        return found[1] if found else ""

    def worker(self, number: int, limit: str = "") -> None:
        """Starts a worker, below a limit of the shell."""
        words = f"--no-nanny --nthreads 1 --no-dashboard --local-directory w{number}"
        self.process("bash", "-c", f"{limit}exec dask-worker {self.address} {words}")

    def test_a_disk_that_is_full(self) -> None:
        self.hosts(24)
        self.write("fleet/users.csv", "user,uid,groups\nroot,0,root:0\n" + "# a long file\n" * 1000)
        self.scheduler(full=True)
        self.fleet("--scheduler", self.address)
        self.want_as_one_machine()

    def test_a_worker_that_comes_after_one_whose_disk_is_full(self) -> None:
        self.hosts(6)
        self.write("fleet/users.csv", "user,uid,groups\nroot,0,root:0\n" + "# a long file\n" * 1000)
        self.scheduler(full=True, workers=1)
        running = self.start("--scheduler", self.address, "--retries", "30")
        time.sleep(1)
        self.worker(1)
        out, _ = running.communicate(timeout=3 * PATIENCE)
        self.assertEqual(running.returncode, 0, out)
        self.want_as_one_machine()

    def test_a_scheduler_that_goes_away(self) -> None:
        self.hosts_with_one_that_waits(12)
        self.scheduler()
        running = self.start("--scheduler", self.address)
        self.wait_until(lambda: self.results() > 2)
        self.running.kill()
        out, _ = running.communicate(timeout=60)
        self.write("go", "")
        self.assertEqual(running.returncode, 4, out)
        first, last = out.splitlines()
        self.assertRegex(first, r"^fleet: the scheduler's page: http://")
        self.assertEqual(last, "fleet: the scheduler has gone; what is done stands, and the same command goes on")
        self.fleet("--part", "1/1")
        self.fleet("--join")
        self.want_as_one_machine()

    def test_a_scheduler_that_is_not_there(self) -> None:
        self.hosts(1)
        err = self.fleet("--scheduler", "nonsense://127.0.0.1:1", status=4)[1]
        self.assertIn("fleet: nonsense://127.0.0.1:1: ", err)
        err = self.fleet("--scheduler", "nonsense://head:1", "--without-tls", status=4)[1]
        self.assertIn("fleet: nonsense://head:1: ", err)

    def test_a_scheduler_with_certificates(self) -> None:
        self.hosts(3)
        err = self.fleet("--scheduler", "tls://127.0.0.1:1", status=4)[1]
        self.assertEqual(err, "fleet: tls://127.0.0.1:1: Dask's configuration names no certificates for TLS\n")
        self.make_certificates()
        self.scheduler(words=("--protocol", "tls"))
        self.assertTrue(self.address.startswith("tls://"))
        self.fleet("--scheduler", self.address)
        self.want_as_one_machine()

    def make_certificates(self) -> None:
        """Has Dask make certificates for the run, and names them in the environment as its configuration."""
        script = "from distributed import Security as s; m = s.temporary(); print(m.tls_ca_file, '|', m.tls_client_key)"
        done = subprocess.run(["/usr/bin/python3", "-c", script], stdout=subprocess.PIPE, text=True, check=True)
        certificate, key = done.stdout.split(" | ")
        place = "DASK_DISTRIBUTED__COMM__TLS__"
        named = {"CA_FILE": self.write("ca.pem", certificate)}
        for role in ("SCHEDULER", "WORKER", "CLIENT"):
            named |= {f"{role}__CERT": named["CA_FILE"], f"{role}__KEY": self.write("key.pem", key)}
        self.enterContext(mock.patch.dict(os.environ, {place + name: path for name, path in named.items()}))


if __name__ == "__main__":
    unittest.main()
