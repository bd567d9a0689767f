"""The office: tokens, limits and what is refused."""

import argparse
import asyncio
import contextlib
import datetime
import hashlib
import io
import json
import logging
import os
import re
import ssl
import stat
import threading
import unittest
import warnings
from unittest import mock

from office_support import DAY, FUTURE, NAMES, Disk, Office, patch_of_opening
from support import TOOLS

from lib.tool import exits

try:
    from cryptography import x509
    from cryptography.hazmat.primitives import hashes, serialization
    from cryptography.hazmat.primitives.asymmetric import ec
    from multidict import CIMultiDict
    from lib.office import budgets, connections, folder, monitoring, programs, refusals, requests, routes, serve as serving, setup, tokens
    from lib.office import table_reader as reader
except ImportError:  # without python3-aiohttp and the like, whose tests are skipped
    pass

NO_TOKENS = ("", " ", "None", "GAS", "GAS.", "-" * 64, "0" * 64, hashlib.sha256(b"").hexdigest(), "\udc80")  # that nobody drew


def make_certificate(room):
    """A certificate of localhost and its key, in files of a folder."""
    name, key = x509.Name([x509.NameAttribute(x509.NameOID.COMMON_NAME, "localhost")]), ec.generate_private_key(ec.SECP256R1())
    now = datetime.datetime.now(datetime.timezone.utc)
    made = x509.CertificateBuilder().subject_name(name).issuer_name(name).public_key(key.public_key()).serial_number(1)
    made = made.not_valid_before(now - datetime.timedelta(1)).not_valid_after(now + datetime.timedelta(1))
    made = made.add_extension(x509.SubjectAlternativeName([x509.DNSName("localhost")]), critical=False).sign(key, hashes.SHA256())
    form = serialization.Encoding.PEM
    (room / "cert.pem").write_bytes(made.public_bytes(form))
    private = key.private_bytes(form, serialization.PrivateFormat.PKCS8, serialization.NoEncryption())
    (room / "key.pem").write_bytes(private)
    return room / "cert.pem", room / "key.pem"


def version_of_handshake(office, client):
    """The version of TLS on which two contexts agree, without a network."""
    sent, received = ssl.MemoryBIO(), ssl.MemoryBIO()
    ends = [client.wrap_bio(received, sent, server_hostname="localhost"), office.wrap_bio(sent, received, server_side=True)]
    for end in 3 * ends:
        with contextlib.suppress(ssl.SSLWantReadError):
            end.do_handshake()
    return ends[0].version()


class Tokens(Office):
    def test_tokens_are_random_hashed_and_one_participants(self):
        self.write_office()
        register = tokens.Register(self.office.path_of(folder.PARTICIPANTS))
        made = {who: register.write_and_return_new_token(who) for who in NAMES}
        text = self.office.path_of(folder.PARTICIPANTS).read_text()
        for who, token in made.items():
            self.assertGreaterEqual(len(token.partition(".")[2]), 43)
            self.assertNotIn(token.partition(".")[2], text)
            self.assertEqual([other for other in NAMES if register.read_and_see_if_token_of(other, token)], [who])
        # each of the 43 characters is drawn, of which the last has four bits alone
        drawn = [tokens.draw_token("GAS").partition(".")[2] for _ in range(64)]
        self.assertGreater(min(len(set(values)) for values in zip(*drawn)), 8)
        for wrong in (*NO_TOKENS, made["GAS"][:-1], made["GAS"] + "x"):
            self.assertFalse(register.read_and_see_if_token_of("GAS", wrong))
        self.assertFalse(register.read_and_see_if_token_of("NOBODY", made["GAS"]))
        served = tokens.Register(self.office.path_of(folder.PARTICIPANTS))
        self.assertTrue(served.read_and_see_if_token_of("GAS", made["GAS"]))
        register.write_revoked("GAS")
        self.assertFalse(served.read_and_see_if_token_of("GAS", made["GAS"]))
        self.assertTrue(served.read_and_see_if_token_of("A", made["A"]))
        for who in ("GAS", "NOBODY", ""):
            for wrong in (*NO_TOKENS, made["GAS"], made["A"]):
                self.assertFalse(served.read_and_see_if_token_of(who, wrong), (who, wrong))
        new = register.write_and_return_new_token("GAS")
        self.assertTrue(served.read_and_see_if_token_of("GAS", new) and not served.read_and_see_if_token_of("GAS", made["GAS"]))

    def test_a_comparison_takes_the_same_time_for_every_token_and_name(self):
        """It is the library's, of texts of one length; only a name with a digest heeds it."""
        self.write_office()
        register = tokens.Register(self.office.path_of(folder.PARTICIPANTS))
        made = {who: register.write_and_return_new_token(who) for who in NAMES}
        register.write_revoked("A")
        for is_equal in (False, True):
            for who in (*NAMES, "NOBODY"):
                for token in (made["GAS"], "", "x" * 1_000):
                    with mock.patch.object(tokens.hmac, "compare_digest", return_value=is_equal) as compare:
                        self.assertEqual(register.read_and_see_if_token_of(who, token), is_equal and who in ("GAS", "LONGNAME"), (who, token))
                    ((one, other),) = (call.args for call in compare.call_args_list)
                    self.assertEqual((len(one), len(other)), (64, 64))
                    self.assertIn(hashlib.sha256(token.encode()).hexdigest(), (one, other))

    def test_no_request_without_a_token_is_of_a_revoked_or_an_unknown_name(self):
        self.write_office()
        office = serving.Office.read_or_stop(self.office, programs.Programs("dam", "dam-desk"), monitoring.Log(io.StringIO()))
        admission = routes.Web.read(office).admission
        made = office.register.write_and_return_new_token("GAS")
        office.register.write_revoked("A")
        for who, header, is_right in (
            ("GAS", f"Bearer {made}", True),
            *(
                (who, header, False)
                for who in ("A", "GAS", "NOBODY")
                for header in (None, "", "Bearer", "Bearer ", "Bearer  ", "bearer\t", f"Bearer {who}", f"Bearer {who}.", "Bearer None", made)
            ),
        ):
            asked = argparse.Namespace(headers=CIMultiDict([] if header is None else [("Authorization", header)]), match_info={"who": who})
            with self.subTest(who=who, header=header):
                self.assertEqual(admission.read_and_see_authorization(asked), is_right)
                if not is_right:
                    with self.assertRaises(refusals.Refused):
                        admission.refuse_stranger_to_demo(asked)

    def test_a_new_token_counts_also_within_the_resolution_of_the_file_s_time(self):
        self.write_office()
        path = self.office.path_of(folder.PARTICIPANTS)
        register, served = tokens.Register(path), tokens.Register(path)
        old = register.write_and_return_new_token("GAS")
        self.assertTrue(served.read_and_see_if_token_of("GAS", old))
        before = path.stat()
        new = register.write_and_return_new_token("GAS")
        os.utime(path, ns=(before.st_atime_ns, before.st_mtime_ns))
        self.assertEqual(path.stat().st_size, before.st_size)
        self.assertEqual([served.read_and_see_if_token_of("GAS", token) for token in (old, new)], [False, True])

    def test_no_change_of_the_tokens_is_lost(self):
        """Several processes change them at the same time: here threads, each with the file for itself."""
        self.write_office()
        path = self.office.path_of(folder.PARTICIPANTS)
        names = [[thread + number for number in "VWXYZ"] for thread in "ABCDEFGH"]
        made = {}

        def change(own):
            register = tokens.Register(path)
            made.update(register.write_and_return_new_tokens(own[1:]))
            made[own[0]] = register.write_and_return_new_token(own[0])
            register.write_revoked(own[1])

        threads = [threading.Thread(target=change, args=(own,)) for own in names]
        for thread in threads:
            thread.start()
        for thread in threads:
            thread.join()
        register = tokens.Register(path)
        for own in names:
            self.assertEqual([register.read_and_see_if_token_of(who, made[who]) for who in own], [True, False, True, True, True])
        self.assertEqual(register.write_and_return_new_tokens(names[0]), {})

    def test_each_connection_may_be_sent_a_file(self):
        """Slow downloads leave files for the close."""
        needed = 2 * connections.MOST_CONNECTIONS + 100
        with mock.patch.multiple(serving.resource, getrlimit=lambda _: (1_024, 1 << 20), setrlimit=mock.DEFAULT) as made:
            serving.set_limit_of_open_files()
        soft, hard = made["setrlimit"].call_args.args[1]
        self.assertTrue(needed <= soft <= hard)
        unit = (TOOLS.parent / "examples" / "operating" / "dam-office.service").read_text()
        self.assertLessEqual(needed, int(re.search("^LimitNOFILE=([0-9]+)$", unit, re.MULTILINE)[1]))
        self.assertIn("\nStartLimitIntervalSec=0\n", unit, "systemd doesn't give up: the close comes also after many failed starts")

    def test_files_are_the_owners_alone(self):
        self.write_office()
        for path in [self.office.path, *self.office.path.rglob("*")]:
            self.assertEqual(stat.S_IMODE(path.stat().st_mode) & 0o077, 0, path)
        with self.office.holding():
            tokens.Register(self.office.path_of(folder.PARTICIPANTS)).write_and_return_new_tokens(NAMES)
        day = self.office.list_folders_by_day()[DAY]
        for name in folder.DAY_FILES:
            day.path_of(name).touch()
        named = [*map(self.office.path_of, folder.OFFICE_FILES), *map(day.path_of, folder.DAY_FILES)]
        self.assertEqual(sorted(named), sorted(path for path in self.office.path.rglob("*") if path.is_file()), "all files that it has")
        public = [self.office.path_of(folder.PUBLIC), *map(day.path_of, folder.PUBLISHED_FILES)]
        for is_published in (False, True):
            if is_published:
                day.path_of(folder.OPEN_JOURNAL).touch(0o644)
            self.refuse_shared(day)
            for path in named:
                may_read = path in public[: None if is_published else 1]
                for mode in (0o644, 0o640, 0o604, 0o622, 0o620, 0o602, 0o611):
                    path.chmod(mode)
                    with self.subTest(path=path, mode=oct(mode)):
                        if may_read and mode & 0o022 == 0:
                            self.refuse_shared(day)
                            continue
                        with self.assertRaises(exits.Stop) as caught:
                            self.refuse_shared(day)
                        self.assertEqual(str(caught.exception), f"{path} can be read or changed by others: chmod 600")
                path.chmod(0o600)

    def refuse_shared(self, day):
        self.office.refuse_if_no_office()
        day.refuse_if_shared()

    async def test_a_day_whose_files_others_may_read_is_named_and_the_others_are_served(self):
        self.write_office()
        later = "2026-11-30"
        setup.make_day_or_stop(self.office, folder.Terms(later, 24, FUTURE, "UTC", dict.fromkeys(NAMES, 10)))
        office = serving.Office.read_or_stop(self.office, programs.Programs("dam", "dam-desk"), monitoring.Log(io.StringIO()))
        salts = self.office.list_folders_by_day()[later].path_of(folder.SALTS)
        with patch_of_opening(Disk()):
            salts.chmod(0o640)
            self.assertEqual(office.take_up_days_and_return_faults(), {later: f"{salts} can be read or changed by others: chmod 600"})
            self.assertEqual(list(office.writers), [DAY])
            salts.chmod(0o600)
            self.assertEqual(office.take_up_days_and_return_faults(), {})
            self.assertEqual(list(office.writers), [DAY, later])
            await office.stop_days()

    def test_a_client_with_an_old_version_of_tls_is_refused(self):
        """Also where the system's OpenSSL takes it."""
        cert, key = make_certificate(self.office.path.parent)
        office = serving.read_tls_context_or_stop((str(cert), str(key)))
        self.assertEqual(office.minimum_version, ssl.TLSVersion.TLSv1_2)
        office.set_ciphers("ALL:@SECLEVEL=0")
        client = ssl.create_default_context(cafile=cert)
        client.set_ciphers("ALL:@SECLEVEL=0")
        with warnings.catch_warnings():
            warnings.simplefilter("ignore", DeprecationWarning)
            client.minimum_version = ssl.TLSVersion.TLSv1
            for version in (ssl.TLSVersion.TLSv1, ssl.TLSVersion.TLSv1_1):
                client.maximum_version = version
                with self.assertRaises(ssl.SSLError):
                    version_of_handshake(office, client)
            client.maximum_version = ssl.TLSVersion.TLSv1_2
            self.assertEqual(version_of_handshake(office, client), "TLSv1.2")

    def test_defects_in_a_library_are_logged_once_a_minute(self):
        stream, now = io.StringIO(), [0.0]
        told = monitoring.Defects(monitoring.Log(stream), lambda: now[0])
        for seconds in range(120):
            now[0] = float(seconds)
            for kind in (OSError, ValueError):
                told.emit(logging.LogRecord("aiohttp", logging.ERROR, "", 0, "a stranger's words", (), (kind, kind(), None)))
        lines = [(made["event"], made["kind"]) for made in map(json.loads, stream.getvalue().splitlines())]
        self.assertEqual(lines, [("defect", "OSError"), ("defect", "ValueError")] * 2)
        self.assertNotIn("stranger", stream.getvalue())

    def test_a_network_of_ipv6_has_one_limit(self):
        addresses = "192.0.2.1", "192.0.2.2", "::1", "2001:db8::1", "2001:db8::ffff:1:2:3", "2001:db8:0:1::1", "fe80::1%eth0"
        sources = list(map(budgets.address_or_network, addresses))
        self.assertEqual(len(set(sources)), 6)
        self.assertEqual(sources[3], sources[4])

    async def test_the_length_of_the_records_of_a_table_counts(self):
        self.write_office()
        office = serving.Office.read_or_stop(self.office, programs.Programs("dam", "dam-desk"), monitoring.Log(io.StringIO()))
        office.writers[DAY] = self.day_writer_of()
        office.writers[DAY].is_known.set()
        made = routes.Web.read(office)
        made.budgets.reads = budgets.Buckets(0.001, budgets.MOST_READS, lambda: 0.0)
        headers = {"Authorization": f"Bearer {office.register.write_and_return_new_token('GAS')}", "Content-Length": "1"}

        async def read(*_):
            return requests.ReadTable(["x" * 2_000_000], [])

        content = argparse.Namespace(is_eof=lambda: True)
        asked = argparse.Namespace(headers=CIMultiDict(headers), match_info={"who": "GAS", "day": DAY}, content=content)
        asked.transport, asked.read = content, mock.AsyncMock(return_value=b"x")
        with mock.patch.object(reader, "capture_table", read):
            answer = await made.own.answer_table(asked)
        self.assertEqual(json.loads(answer.text)["notes"], [])
        self.assertLess(made.budgets.reads.calls_left("GAS"), budgets.MOST_READS - budgets.READS_OF_TABLE - 150)

    async def test_limits_of_strangers_are_those_of_their_network(self):
        self.write_office()
        office = serving.Office.read_or_stop(self.office, programs.Programs("dam", "dam-desk"), monitoring.Log(io.StringIO()))
        made = routes.Web.read(office)
        protocol = argparse.Namespace(is_deaf=False)

        def asked(number, who):
            headers = {"Authorization": "Bearer GAS.wrong"}
            return argparse.Namespace(remote=f"2001:db8::{number:x}", headers=CIMultiDict(headers), match_info=who, protocol=protocol)

        found = []
        for number in range(budgets.MOST_GUESSES + 5):
            with self.assertRaises(refusals.Refused) as caught:
                made.admission.require_authorized_participant(asked(number, {"who": "GAS"}))
            found.append(caught.exception.fault)
        self.assertEqual((found[0], found[-1]), (refusals.RequestFault.TOKEN, refusals.RequestFault.TOO_FAST))
        made.budgets.looks = budgets.Buckets(0.001, 3, lambda: 0.0)
        for number in range(3):
            made.budgets.charge_look_or_refuse(asked(number, {}))
        with self.assertRaises(refusals.Refused):
            made.budgets.charge_look_or_refuse(asked(4, {}))

    async def test_an_expectation_passes_no_limit(self):
        """Also at a path or a method that the office doesn't know. It isn't repeated; a client that waits before its body is answered."""
        self.write_office()
        office = serving.Office.read_or_stop(self.office, programs.Programs("dam", "dam-desk"), monitoring.Log(io.StringIO()))
        made = routes.Web.read(office)
        made.budgets.looks = budgets.Buckets(0.001, 4, lambda: 0.0)
        runner = connections.Runner(made.new_application(), office.counts)
        await runner.setup()
        server = await asyncio.get_running_loop().create_server(runner.server, "127.0.0.1", 0)
        waits = "100-Continue"
        for method, path, odd, *statuses in (
            ("GET", "/nothing", "zz", 404),
            ("DELETE", "/days", "zz", 405),
            ("GET", "/days", "zz", 200),
            ("GET", "/days", waits, 100, 200),
            ("GET", "/nothing", "zz", 429),
        ):
            reader, writer = await asyncio.open_connection(*server.sockets[0].getsockname())
            writer.write(f"{method} {path} HTTP/1.1\r\nHost: x\r\nConnection: close\r\nExpect: {odd}\r\n\r\n".encode())
            answer = await reader.read()
            writer.close()
            with self.subTest(method=method, path=path, odd=odd):
                self.assertEqual(list(map(int, re.findall(rb"HTTP/1.1 (\d+) ", answer))), statuses)
                self.assertNotIn(b"zz", answer)
        server.close()
        await runner.cleanup()
        counted = {line for line in office.counts.prometheus_text([]).splitlines() if "requests_total{" in line}
        self.assertEqual(len(counted), 4)
        for method, status, count in (("GET", 404, 1), ("other", 405, 1), ("GET", 200, 2), ("GET", 429, 1)):
            self.assertIn(f'dam_office_requests_total{{method="{method}",status="{status}"}} {count}', counted)

    def test_guesses_are_slowed_down_and_others_are_not(self):
        now = [0.0]
        buckets = budgets.Buckets(1, 3, lambda: now[0])
        self.assertEqual([buckets.charge_or_return_seconds("a") > 0 for _ in range(5)], [False, False, False, True, True])
        self.assertEqual(buckets.charge_or_return_seconds("b"), 0)
        now[0] = 1.0
        self.assertEqual([buckets.charge_or_return_seconds("a") > 0 for _ in range(2)], [False, True])
        self.assertEqual(buckets.charge_or_return_seconds("c", 1_000), 0)
        self.assertGreater(buckets.charge_or_return_seconds("c"), 900)
        buckets.charge("c", 1_000)
        self.assertGreater(buckets.charge_or_return_seconds("c"), 1_900, "what is charged is owed, also in debt")
        with mock.patch.object(budgets, "MOST_BUCKETS", 5):
            for number in range(100):
                now[0] += 10_000
                buckets.charge_or_return_seconds(number)
            self.assertLessEqual(len(buckets.held), 6)
            buckets.charge_or_return_seconds("d", 2)
            for number in range(100):
                buckets.charge_or_return_seconds(number)
        self.assertEqual(buckets.calls_left("d"), 1, "many names don't fill a bucket again")


if __name__ == "__main__":
    unittest.main()
