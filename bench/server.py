"""A PostgreSQL server for the bench alone."""
import glob
import os
import pwd
import shutil
import subprocess
import time

from processes import PATIENCE, Process, check, last_line_of, run_whole


class Server:
    """A throwaway PostgreSQL cluster, reached by a socket in its folder alone."""

    def __init__(self, programs, folder):
        self.programs, self.folder = programs, os.path.join(folder, "server")
        self.data = os.path.join(self.folder, "data")
        # The server refuses to run as root.
        self.user = "postgres" if os.geteuid() == 0 else pwd.getpwuid(os.geteuid()).pw_name
        self.drop = []
        if os.geteuid() == 0:
            self.drop = ["setpriv", f"--reuid={self.user}", f"--regid={self.user}", "--init-groups"]
        os.mkdir(self.folder)
        if self.drop:
            os.chmod(folder, 0o711)
            shutil.chown(self.folder, self.user, self.user)
        self.call("initdb", "-D", self.data, "-E", "UTF8", "--locale=C", "-A", "trust")

    def call(self, program, *words):
        whole = [*self.drop, os.path.join(self.programs, program), *words]
        with open(os.path.join(self.folder, "said"), "wb") as said:
            ran = subprocess.run(whole, stdin=subprocess.DEVNULL, stdout=said, stderr=said, cwd=self.folder, check=False)
        check(ran.returncode == 0, f"{program} ended with status {ran.returncode}; its last line: {last_line_of(said.name)}")

    def start(self):
        """Starts it. The answer is the seconds until it takes commands."""
        options = f"-c listen_addresses='' -c unix_socket_directories='{self.folder}' -c fsync=on"
        began = time.monotonic()
        self.call("pg_ctl", "-D", self.data, "-o", options, "-l", os.path.join(self.folder, "log"), "-W", "start")
        while not self.is_ready():
            check(time.monotonic() - began < PATIENCE, "the server doesn't start")
            time.sleep(0.002)
        return time.monotonic() - began

    def is_ready(self):
        # (pg_ctl looks here too, ten times a second)
        try:
            with open(os.path.join(self.data, "postmaster.pid"), "rb") as it:
                said = it.read().split(b"\n")
        except OSError:
            return False
        return len(said) > 7 and said[7].strip() == b"ready"

    def stop(self):
        if os.path.exists(os.path.join(self.data, "postmaster.pid")):
            self.call("pg_ctl", "-D", self.data, "-m", "immediate", "-w", "stop")

    def words(self, script, *options):
        words = [os.path.join(self.programs, "psql"), "-X", "-A", "-v", "VERBOSITY=sqlstate", *options]
        return [*words, "-h", self.folder, "-U", self.user, "-d", "postgres", "-f", script]

    def psql(self, script):
        return Process(self.words(script, "-t"), os.path.join(self.folder, "printed"))

    def run(self, script, lines):
        return run_whole(self.psql(script), lines)


def find_server():
    """The folder of a server's programs, if there is one."""
    found = [shutil.which("postgres"), *sorted(glob.glob("/usr/lib/postgresql/*/bin/postgres"), reverse=True)]
    for it in filter(None, found):
        folder = os.path.dirname(os.path.realpath(it))
        if all(os.path.exists(os.path.join(folder, name)) for name in ("initdb", "pg_ctl", "psql")):
            return folder
    return None
