"""A server of PostgreSQL of its own for a check."""
import contextlib
import glob
import os
import shutil
import subprocess
import sys
import time

try:
    import psycopg2
except ImportError:
    psycopg2 = None

from .ports import free_port

BINS = sorted(glob.glob("/usr/lib/postgresql/*/bin"), key=lambda it: int(it.split("/")[4]))
HAS_DATABASE = bool(BINS and psycopg2)
HAS_POSTGIS = HAS_DATABASE and bool(glob.glob("/usr/share/postgresql/*/extension/postgis.control"))
LIMIT = 300  # seconds in which it starts and answers, which takes a moment unless the machine is busy


def needs_postgis(lacking=()):
    """Ends a check where there are no databases with PostGIS, or these packages are lacking."""
    lacking = [*lacking, *(() if HAS_POSTGIS else ("postgresql", "postgis", "python3-psycopg2"))]
    if lacking:
        print(f"skipped: {os.path.basename(sys.argv[0])}: not installed: {', '.join(lacking)}")
        sys.exit(77)


class Server:
    """A server on a socket in a folder of its own, which lets in everybody, as the superuser `postgres` too; or, with Debian's settings,
    by their user's name on the socket, and by passwords on a port of this machine. There the check itself is let in as the superuser."""

    def __init__(self, folder, is_debian=False):
        self.folder, self.port = folder, free_port() if is_debian else 5432
        self.user = ["setpriv", "--reuid", "postgres", "--regid", "postgres", "--clear-groups"] if os.getuid() == 0 else []
        self.name = "postgres" if self.user or not is_debian else None
        if not os.path.exists(folder):
            os.makedirs(folder)
            os.chmod(os.path.dirname(folder), 0o755)
        if self.user:
            shutil.chown(folder, "postgres")
        settings = ["--auth-local=peer", "--auth-host=scram-sha-256"] if is_debian else ["-A", "trust", "-U", "postgres"]
        self.call("initdb", *settings, "-D", "data", "--no-sync")
        if is_debian and self.name:
            put_first(f"{folder}/data/pg_hba.conf", f"local all {self.name} peer map=check\n")
            put_first(f"{folder}/data/pg_ident.conf", f"check root {self.name}\ncheck {self.name} {self.name}\n")
        self.start(*([f"listen_addresses=127.0.0.1 -c port={self.port}"] if is_debian else []))

    def call(self, command, *arguments):
        """Runs one of the server's commands."""
        with open(f"{self.folder}/log", "ab") as log:
            whole = [*self.user, f"{BINS[-1]}/{command}", *arguments]
            subprocess.run(whole, cwd=self.folder, stdout=log, stderr=log, check=False)

    def start(self, *settings):
        """Starts it, with these settings."""
        options = " -c ".join([f"-k {self.folder}", "listen_addresses=", "fsync=off", *settings])
        self.call("pg_ctl", "-D", "data", "-w", "-t", f"{LIMIT}", "-o", options, "-l", "server.log", "start")

    def restart(self, *settings):
        """Ends its sessions, and starts it with these settings."""
        self.call("pg_ctl", "-D", "data", "-w", "-t", f"{LIMIT}", "-m", "fast", "stop")
        self.start(*settings)

    def stop(self):
        """Stops it at once, as a loss of power does."""
        self.call("pg_ctl", "-D", "data", "-t", f"{LIMIT}", "-m", "immediate", "stop")

    @property
    def address(self):
        """The URL of its first database."""
        return f"postgresql://postgres@/postgres?host={self.folder}"

    def url(self, database):
        """The connection string of a database."""
        return f"host={self.folder} port={self.port} dbname={database}" + (f" user={self.name}" if self.name else "")

    def connect(self, database):
        """A session in which each statement is committed."""
        for _ in range(10 * LIMIT):
            try:
                connection = psycopg2.connect(self.url(database))
                connection.autocommit = True
                return connection
            except psycopg2.OperationalError:
                time.sleep(0.1)
        sys.exit(f"{os.path.basename(sys.argv[0])}: the server does not answer")

    def psql(self, database, *arguments):
        """Runs psql."""
        environment = {**os.environ, "PGOPTIONS": "-c client_min_messages=warning"}
        command = [f"{BINS[-1]}/psql", "-AtXq", "-v", "ON_ERROR_STOP=1", *arguments, self.url(database)]
        subprocess.run(command, check=True, env=environment, stdout=subprocess.DEVNULL)

    def rows(self, query="select name, answer from published"):
        """The rows of a query of its first database, as lines."""
        with contextlib.closing(self.connect("postgres")) as connection, connection.cursor() as cursor:
            cursor.execute(query)
            return [",".join(map(str, row)) for row in cursor]


def put_first(name, text):
    """Puts lines before those of a file."""
    with open(name, encoding="utf-8") as file:
        text += file.read()
    with open(name, "w", encoding="utf-8") as file:
        file.write(text)
