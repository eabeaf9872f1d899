"""uxn-test --shard on several machines: GNU parallel over SSH, with hosts that are this machine."""
import os
import shutil
import socket
import subprocess
import time
import unittest

from support import EXTRAS, ToolTest, needs

ECHO = ";on-read #10 DEO2 BRK @on-read #17 DEI #04 EQU ?{ #12 DEI #18 DEO } BRK"
SERVER = shutil.which("sshd") or "/usr/sbin/sshd"
SETTINGS = """Port {port}
ListenAddress 127.0.0.1
HostKey {folder}/host
AuthorizedKeysFile {folder}/user.pub
PidFile none
StrictModes no
UsePAM no
"""


@needs("parallel", "ssh", "ssh-keygen")
@unittest.skipUnless(os.access(SERVER, os.X_OK) and os.path.isdir("/run"), "there is no sshd")
class Hosts(ToolTest):
    def setUp(self) -> None:
        super().setUp()
        if b"GNU parallel" not in self.call("parallel", "--version").stdout:
            self.skipTest("parallel is not GNU's")
        for name in ("host", "user"):
            self.succeed("ssh-keygen", "-q", "-t", "ed25519", "-N", "", "-f", self.path(name))
        self.port = self.start_server()
        self.write("game.tal", ECHO)
        for number in range(6):
            self.write(f"tests/t{number}.script", f'input "{number}\n')
            self.write(f"tests/t{number}.out", str(number))

    def start_server(self) -> int:
        """Starts a server with keys of its own, which ends with the test; its port."""
        if os.getuid() == 0:
            os.makedirs("/run/sshd", exist_ok=True)
        with socket.socket() as free:
            free.bind(("127.0.0.1", 0))
            port = int(free.getsockname()[1])
        self.write("sshd_config", SETTINGS.format(port=port, folder=self.folder))
        server = subprocess.Popen([SERVER, "-D", "-e", "-f", self.path("sshd_config")], stderr=subprocess.DEVNULL)
        self.addCleanup(server.wait)
        self.addCleanup(server.kill)
        for _ in range(100):
            with socket.socket() as client:
                if client.connect_ex(("127.0.0.1", port)) == 0:
                    return port
            time.sleep(0.05)
        self.skipTest("sshd did not start")

    def on_hosts(self) -> subprocess.CompletedProcess[bytes]:
        options = "-o StrictHostKeyChecking=no -o UserKnownHostsFile=/dev/null -o LogLevel=ERROR"
        ssh = f"ssh -p {self.port} -i {self.path('user')} {options}"
        tool = os.path.join(EXTRAS, "bin", "uxn-test")
        command = f"cd {self.folder} && UXN={self.program} PYTHONDONTWRITEBYTECODE=1 {tool} --shard {{}}/3"
        hosts = f"{ssh} 127.0.0.1,{ssh} localhost"
        return self.call("parallel", "--will-cite", "--sshlogin", hosts, command, ":::", "1", "2", "3")

    def test_each_shard_runs_on_a_host(self) -> None:
        done = self.on_hosts()
        self.assertEqual(done.stdout.decode().count("2 passed, 0 failed"), 3, done.stderr.decode())
        self.assertEqual(done.returncode, 0)
        self.write("tests/t3.out", "wrong")
        done = self.on_hosts()
        self.assertIn("FAILED tests/t3", done.stdout.decode())
        self.assertEqual(done.returncode, 1)
