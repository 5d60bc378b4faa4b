"""Clients of Debian, by which the tests see what a user is shown.

    python3 debian_clients.py MODULE PORT STATEMENT

runs a statement by a module of Python, and prints the number and the text of its error.
"""

import functools
import importlib
import re
import shutil
import subprocess
import sys

PYTHON = "/usr/bin/python3"
MODULES = ("MySQLdb", "pymysql")
PROGRAM = "mariadb"


def has(module):
    words = [PYTHON, "-c", f"import {module}"]
    return subprocess.run(words, capture_output=True, check=False).returncode == 0


@functools.cache
def installed():
    """The names of those that are there."""
    modules = [name for name in MODULES if shutil.which(PYTHON) and has(name)]
    return modules + [name for name in [PROGRAM] if shutil.which(name)]


def error_of(client, port, statement):
    """Number and text of the error that this client shows."""
    if client == PROGRAM:
        words = [PROGRAM, "--no-defaults", "--skip-ssl", "--protocol=tcp", "--host=127.0.0.1"]
        words += [f"--port={port}", "--user=user", f"--execute={statement}"]
    else:
        words = [PYTHON, "-B", __file__, client, str(port), statement]
    ran = subprocess.run(words, capture_output=True, text=True, timeout=20, check=False)
    shown = re.search(r"ERROR (\d+) [^:]*: (.*)", ran.stdout + ran.stderr)
    return int(shown[1]), shown[2]


def main(name, port, statement):
    module = importlib.import_module(name)
    try:
        connection = module.connect(host="127.0.0.1", port=int(port), user="user")
        connection.cursor().execute(statement)
    except module.Error as error:
        print("ERROR %d of %s: %s" % (error.args[0], name, error.args[1]))


if __name__ == "__main__":
    main(*sys.argv[1:])
