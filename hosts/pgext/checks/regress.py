"""The tests of pg_regress."""
import re
import subprocess
from pathlib import Path

from checks.cluster import Cluster, KrlServer, run
from checks.processes import Failed

TESTS = ["cache", "writes", "inheritance", "definitions", "rights", "hostile", "suspend"]


def regress(installation, cluster, *tests):
    """Runs these tests of pg_regress."""
    makefile = Path(run(installation.given.pg_config, "--pgxs"))
    program = makefile.parent.parent / "test/regress/pg_regress"
    words = [f"--inputdir={installation.source}", f"--outputdir={installation.folder}", "--dbname=regression", *tests]
    words += [f"--bindir={installation.inside('bindir')}", f"--host={cluster.folder}", f"--port={cluster.port}"]
    how = {"stdin": subprocess.DEVNULL, "stdout": subprocess.PIPE, "stderr": subprocess.STDOUT, "text": True}
    ran = subprocess.run([program, "--user=postgres", *words], cwd=cluster.folder, errors="replace", **how)
    if ran.returncode != 0:
        names = re.findall(r"(?m)^test (\w+) +\.\.\. FAILED|^not ok \d+ +- (\w+)", ran.stdout)
        differences = installation.folder / "regression.diffs"
        shown = differences.read_text(errors="replace") if differences.exists() else ran.stdout
        raise Failed(f"these fail: {' '.join(''.join(name) for name in names)}\n{shown}")


def check(installation):
    """Runs them, and one after krl's server has another store."""
    krl = KrlServer(installation, lease="3s")
    cluster = Cluster(installation, "regress", 5432, f"krl.servers = '{krl.address}'", "krl.lease = 3s",
                      "krl.workers = 2")
    regress(installation, cluster, *TESTS)
    cluster.stop("fast")
    krl.end()
    krl.drop_store()
    krl.start()
    cluster.start()
    regress(installation, cluster, "--use-existing", "other_store")
