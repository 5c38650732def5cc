"""PostgreSQL: a server of our own in a temporary folder, on a socket there, stopped at the end."""

import glob
import os
import re
import shutil
import subprocess
import tempfile

import queries
from rivals import Program, Result, schema

# Nothing is kept, so nothing need reach the disk; rows in memory; jit off, since compiling takes longer than these queries.
SETTINGS = "-c listen_addresses='' -c fsync=off -c jit=off -c work_mem=512MB -c shared_buffers=256MB -c temp_file_limit=4GB"


class PostgreSQL(Program):
    name = "PostgreSQL"

    def __init__(self):
        self.programs = os.path.dirname(sorted(glob.glob("/usr/lib/postgresql/*/bin/initdb"))[-1])
        self.folder = tempfile.mkdtemp()
        self.as_user = []
        if os.geteuid() == 0:  # the server refuses to run as root; Debian's package brings a user for it
            shutil.chown(self.folder, "postgres")
            self.as_user = ["runuser", "-u", "postgres", "--"]
        self.call("initdb", "-D", self.folder + "/data", "-U", "bench", "-A", "trust", "-N", "-E", "UTF8", "--locale=C")
        self.call("pg_ctl", "-D", self.folder + "/data", "-w", "-l", self.folder + "/log", "-o", f"-k {self.folder} {SETTINGS}", "start")

    def call(self, program, *arguments):
        command = [*self.as_user, f"{self.programs}/{program}", *arguments]
        subprocess.run(command, check=True, stdout=subprocess.DEVNULL, cwd=self.folder)

    def close(self):
        self.call("pg_ctl", "-D", self.folder + "/data", "-w", "-m", "immediate", "stop")
        shutil.rmtree(self.folder)

    def expresses(self, case):
        return case.query is not None

    def run(self, case, folder, limit):
        script = f"""\\set QUIET on
            BEGIN; {schema(case.graph)} COMMIT; SET statement_timeout = '{limit}s';
            \\timing on
            {case.query(queries.PostgreSQL())};
            \\timing off
            DROP TABLE step, mark, property;"""
        command = ["psql", "-X", "-A", "-t", "-h", self.folder, "-U", "bench", "-d", "postgres"]
        run = subprocess.run(command, input=script, capture_output=True, text=True)
        answers = re.search(r"(?m)^(\d+)$", run.stdout)
        seconds = float(re.search(r"Time: ([\d.]+) ms", run.stdout).group(1)) / 1000
        if answers:
            return Result(seconds, int(answers.group(1)))
        if "statement timeout" in run.stderr or "temporary file size" in run.stderr:
            return Result(seconds, over=True)
        raise SystemExit(run.stderr)
