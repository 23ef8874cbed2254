"""The unit of systemd, and nginx with TLS and access in front of the gateway."""
import base64
import os
import pathlib
import re
import shutil
import signal
import socket
import ssl
import subprocess
import unittest

from .support import ALL_IN_ORDER, COMMAND, LINE, PROGRAM, ROOT, SAMPLE, WAIT, Case, Server, lines

SERVICE = ROOT / "gateway/service"
NGINX = shutil.which("nginx", path=os.environ["PATH"] + ":/usr/sbin")


class Unit(Case):
    def setUp(self) -> None:
        super().setUp()
        self.text = (SERVICE / "warcdx-gateway.service").read_text()

    def test_systemd_accepts_the_unit(self) -> None:
        if shutil.which("systemd-analyze") is None:
            self.skipTest("systemd-analyze is missing (Debian's package systemd)")
        unit = self.put(
            self.text.replace("/usr/bin/warcdx-gateway", str(COMMAND)).replace("Documentation=man:warcdx-gateway(1)\n", ""),
            "warcdx-gateway.service",
        )
        done = subprocess.run(("systemd-analyze", "verify", "--man=no", unit), stdout=subprocess.PIPE, stderr=subprocess.STDOUT, text=True)
        self.assertEqual([], [line for line in done.stdout.splitlines() if "warcdx-gateway.service" in line])

    def test_the_line_of_the_unit_reports_when_it_answers(self) -> None:
        """As systemd starts it, with a socket for its state. It is reloaded as systemd does it."""
        self.put(SAMPLE)
        settings = self.put(f'port = 0\nprogram = "{PROGRAM}"\nworkers = 2\n[collections.main]\nindexes = ["index"]\n', "gateway.toml")
        (line,) = (each for each in self.text.splitlines() if each.startswith("ExecStart="))
        self.assertEqual("ExecStart=/usr/bin/warcdx-gateway /etc/warcdx/gateway.toml", line)
        self.assertIn("\nExecReload=/bin/kill -HUP $MAINPID\n", self.text)
        with socket.socket(socket.AF_UNIX, socket.SOCK_DGRAM) as states:
            states.bind(str(self.folder / "notify"))
            states.settimeout(WAIT)
            process = subprocess.Popen(
                (COMMAND, settings), env={**os.environ, "NOTIFY_SOCKET": str(self.folder / "notify")}, stdout=subprocess.PIPE, text=True
            )
            server = Server(process, self.folder / "said")
            self.addCleanup(server.end)
            self.assertIn(b"READY=1", states.recv(100))
            self.assertEqual(200, server.ask("/health").status)
            process.send_signal(signal.SIGHUP)
            self.assertEqual(200, server.ask("/health").status)
            self.assertEqual(0, server.end())
            self.assertEqual(b"STOPPING=1", states.recv(100))

    def test_the_access_log(self) -> None:
        self.put(SAMPLE)
        server = self.start(head=f'access_log = "{self.folder}/access"\nworkers = 2\n')
        server.ask("/cdx?url=example.com/a")
        server.ask("/nosuch")
        log = self.folder / "access"
        self.wait_for(lambda: log.read_text().count("\n") == 2, "there are not two lines")
        first, second = log.read_text().splitlines()
        self.assertIn('"GET /cdx?url=example.com/a HTTP/1.1" 200 ', first)
        self.assertIn('"GET /nosuch HTTP/1.1" 404 ', second)


@unittest.skipIf(
    NGINX is None or shutil.which("openssl") is None, "nginx or openssl is missing (Debian's packages nginx-light and openssl)"
)
class Nginx(Case):
    def setUp(self) -> None:
        super().setUp()
        self.index = self.put(SAMPLE.rpartition("org,example")[0] + lines(20_000).replace("com,example)/", "com,example,z)/"))
        head = 'hosts = ["cdx.example.org"]\norigins = ["https://example.net"]\n'
        self.server = self.start(head=head, program=self.program(ALL_IN_ORDER))
        self.port = self.hold_port()
        self.make_keys()
        text = (SERVICE / "nginx.conf").read_text()
        for old, new in (
            ("127.0.0.1:8080", "%s:%d" % self.server.address),
            ("listen 443 ssl", f"listen 127.0.0.1:{self.port} ssl"),
            ("/etc/ssl/certs/cdx.example.org.pem", f'"{self.folder}/cert.pem"'),
            ("/etc/ssl/private/cdx.example.org.key", f'"{self.folder}/key.pem"'),
            ("/etc/nginx/warcdx.users", f'"{self.folder}/users"'),
        ):
            self.assertIn(old, text)
            text = text.replace(old, new)
        folders = "".join(f'{name}_temp_path "{self.folder}/{name}";\n' for name in ("client_body", "proxy", "fastcgi", "uwsgi", "scgi"))
        main = self.put(
            f'daemon off;\nmaster_process off;\nworker_processes 1;\npid "{self.folder}/pid";\nerror_log "{self.folder}/errors";\n'
            f"events {{}}\nhttp {{\naccess_log off;\n{folders}{text}}}\n",
            "nginx.conf",
        )
        process = subprocess.Popen((str(NGINX), "-p", self.folder, "-c", main), stderr=subprocess.PIPE)
        self.addCleanup(self.end, process)
        self.wait_for(lambda: self.curl("/health", "--user", "reader:word")[0] == 200, "nginx doesn't answer")

    @staticmethod
    def end(process: "subprocess.Popen[bytes]") -> None:
        process.terminate()
        process.wait(WAIT)
        assert process.stderr is not None
        process.stderr.close()

    def make_keys(self) -> None:
        subprocess.run(
            (
                "openssl",
                "req",
                "-x509",
                "-newkey",
                "rsa:2048",
                "-nodes",
                "-days",
                "2",
                "-subj",
                "/CN=cdx.example.org",
                "-keyout",
                self.folder / "key.pem",
                "-out",
                self.folder / "cert.pem",
            ),
            stderr=subprocess.DEVNULL,
            check=True,
        )
        done = subprocess.run(("openssl", "passwd", "-apr1", "word"), stdout=subprocess.PIPE, check=True)
        self.put("reader:" + done.stdout.decode(), "users")

    def curl(self, target: str, *words: str) -> tuple[int, bytes]:
        command = self.command(target, "--write-out", "\n%{http_code}", *words)
        text, _, status = subprocess.run(command, stdout=subprocess.PIPE).stdout.rpartition(b"\n")
        return int(status), text

    def command(self, target: str, *words: str) -> tuple[str, ...]:
        return (
            "curl",
            "--silent",
            "--globoff",
            "--cacert",
            str(self.folder / "cert.pem"),
            "--resolve",
            f"cdx.example.org:{self.port}:127.0.0.1",
            *words,
            f"https://cdx.example.org:{self.port}{target}",
        )

    def test_tls_and_access(self) -> None:
        reader = ("--user", "reader:word")
        self.assertEqual(401, self.curl("/cdx?url=example.com/a")[0])
        self.assertEqual((200, b"User-agent: *\nDisallow: /\n"), self.curl("/robots.txt"))
        self.assertEqual(401, self.curl("/cdx?url=example.com/a", "--user", "reader:other")[0])
        self.assertEqual((200, b"300\n"), self.curl("/cdx?url=example.com/a&fl=length", *reader))
        self.assertEqual((200, self.page("url=z.example.com/*")), self.curl("/main/cdx?url=z.example.com/*", *reader))
        self.assertEqual((200, self.page("url=z.example.com/*")), self.curl("/main/cdx?url=z.example.com/*", "--compressed", *reader))
        self.assertEqual(
            (200, self.page("url=z.example.com/*")), self.curl("/main/cdx?url=z.example.com/*&gzip=false", "--compressed", *reader)
        )
        preflight = ("--request", "OPTIONS", "--header", "Origin: https://example.net")
        self.assertEqual(204, self.curl("/cdx", *preflight)[0])
        self.assertEqual(204, self.curl("/main/index?url=a", *preflight)[0])
        for path in ("/metrics", "/metrics/", "//metrics", "/metrics%2f", "/x/../metrics"):
            self.assertEqual(404, self.curl(path, "--path-as-is", *reader)[0], path)
        self.assertEqual(400, self.curl("/cdx?url=a&x=1", *reader)[0])
        self.assertEqual(200, self.curl("/cdx?url=" + "a" * 60_000, *reader)[0])

    def test_answers_are_compressed_for_clients_that_say_so(self) -> None:
        target, reader = "/cdx?url=z.example.com/*", ("--user", "reader:word", "--include")
        for words, is_compressed in ((("--header", "Accept-Encoding: gzip"), True), (("--header", "Accept-Encoding: identity"), False)):
            text = self.curl(target, *reader, *words)[1].partition(b"\r\n\r\n")[0].decode()
            self.assertEqual(is_compressed, "Content-Encoding: gzip" in text, text)
            self.assertIn("Vary: Accept-Encoding", text)
        text = self.curl(f"{target}&gzip=false", *reader, "--header", "Accept-Encoding: gzip")[1]
        self.assertNotIn(b"Content-Encoding", text.partition(b"\r\n\r\n")[0])

    def test_urls_in_paths_are_passed_on_as_they_are(self) -> None:
        url = "http://example.com//a%2Fb/../c?d=%20e&gzip=false"
        words = ("--user", "reader:word", "--include", "--path-as-is")
        status, text = self.curl(f"/web/2016/{url}", *words)
        self.assertEqual(302, status)
        location = f"Location: https://cdx.example.org:{self.port}/web/2016id_/{url}\r\n"
        self.assertIn(location, text.decode())

    def test_a_broken_answer_is_seen(self) -> None:
        middle = LINE % ("com,example)/0", "20160101000000", "a", "-", "-", "-", 1, 0, "a.warc")
        os.replace(self.put(lines(30_000) + middle + lines(30_000).replace("com,", "dom,"), "new"), self.index)
        # Each worker sees the index a moment later. 18 is CURLE_PARTIAL_FILE.
        self.wait_for(lambda: self.broken() == 18, "no answer is seen to be broken")

    def broken(self) -> int:
        """Returns the exit status of curl for all captures."""
        words = ("--user", "reader:word", "--http1.1", "--output", os.devnull)
        command = self.command("/cdx?key=&matchType=prefix", *words)
        return subprocess.run(command, stdout=subprocess.DEVNULL).returncode

    def test_slow_clients_keep_no_worker(self) -> None:
        """Neither those that send nothing, nor those that take nothing."""
        count, silent = 12, list[socket.socket]()  # of 20 connections of an address
        context = ssl.create_default_context(cafile=str(self.folder / "cert.pem"))
        word = base64.b64encode(b"reader:word").decode()
        request = "GET /cdx?url=z.example.com/* HTTP/1.1\r\nHost: cdx.example.org\r\n" f"Authorization: Basic {word}\r\n\r\n"
        for number in range(count):
            plain = socket.create_connection(("127.0.0.1", self.port), timeout=WAIT)
            client = context.wrap_socket(plain, server_hostname="cdx.example.org")
            client.sendall(request.encode() if number % 2 else b"GET /cdx?url=")
            silent.append(client)
        for _ in range(20):
            found = self.curl("/cdx?url=example.com/a&fl=length", "--user", "reader:word")
            self.assertEqual((200, b"300\n"), found)
        self.wait_for(lambda: not connections(self.server.address[1]), "a worker is kept")
        self.assertGreaterEqual(connections(self.port), count // 2)  # those that take nothing
        for client in silent:
            client.close()


@unittest.skipIf(NGINX is None, "nginx is missing (Debian's package nginx-light)")
class Contained(Case):
    """nginx with the files of the container, behind a server that has TLS."""

    def setUp(self) -> None:
        super().setUp()
        self.port, container = self.hold_port(), ROOT / "gateway/container"
        self.listener = self.enterContext(socket.create_server(("127.0.0.1", 0)))  # in the place of the gateway
        self.listener.settimeout(WAIT)
        (words,) = re.findall(r"RUN sed -i (.*?) /etc/nginx/", (container / "Containerfile").read_text(), re.DOTALL)
        site = subprocess.run(f"sed {words} {SERVICE}/nginx.conf", shell=True, stdout=subprocess.PIPE, text=True, check=True).stdout
        for old, new in (
            ("server 127.0.0.1:8081;", f"server 127.0.0.1:{self.listener.getsockname()[1]};"),
            ("listen 8080;", f"listen 127.0.0.1:{self.port};"),
        ):
            self.assertIn(old, site)
            site = site.replace(old, new)
        self.put(site, "site.conf")
        folders = "".join(f'{name}_temp_path "{self.folder}/{name}";\n' for name in ("client_body", "proxy", "fastcgi", "uwsgi", "scgi"))
        main = (container / "nginx-main.conf").read_text()
        main = main.replace("/run/nginx/nginx.pid", f'"{self.folder}/pid"').replace(
            "/etc/nginx/conf.d/*.conf", f'"{self.folder}/site.conf"'
        )
        main = main.replace("access_log off;", f"access_log off;\n{folders}")
        process = subprocess.Popen(
            (str(NGINX), "-p", self.folder, "-c", self.put(main, "nginx.conf"), "-e", "stderr"), stderr=subprocess.PIPE
        )
        self.addCleanup(Nginx.end, process)
        self.wait_for(lambda: listens(self.port), "nginx doesn't answer")

    def passed_on(self, fields: str) -> str:
        """Returns the head of a request as the gateway gets it."""
        with socket.create_connection(("127.0.0.1", self.port), timeout=WAIT) as client:
            client.sendall(f"GET /cdx HTTP/1.1\r\nHost: localhost\r\n{fields}\r\n".encode())
            gateway, _ = self.listener.accept()
            with gateway:
                return gateway.recv(1 << 16).decode()

    def test_the_server_in_front_says_who_asks_and_by_which_scheme(self) -> None:
        for fields, address, scheme in (
            ("X-Forwarded-For: 198.51.100.7\r\nX-Forwarded-Proto: https\r\n", "198.51.100.7", "https"),
            ("X-Forwarded-For: 203.0.113.9, 198.51.100.7\r\nX-Forwarded-Proto: gopher\r\n", "198.51.100.7", "http"),
            ("", "127.0.0.1", "http"),
        ):
            found = self.passed_on(fields)
            self.assertIn(f"X-Forwarded-For: {address}\r\nX-Forwarded-Proto: {scheme}\r\n", found)


def listens(port: int) -> bool:
    """Returns whether a server listens at a port of this machine."""
    with socket.socket() as client:
        return client.connect_ex(("127.0.0.1", port)) == 0


def connections(port: int) -> int:
    """Returns how many connections are established at a port of this machine."""
    found = [line.split() for line in pathlib.Path("/proc/net/tcp").read_text().splitlines()[1:]]
    return sum(each[1].endswith(f":{port:04X}") and each[3] == "01" for each in found)


if __name__ == "__main__":
    unittest.main()
