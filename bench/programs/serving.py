"""What bench/clients and bench/serve share: Debian's packages, and a service on a free port."""
import importlib.util
import os
import shutil
import subprocess
import sys

TOP = os.path.dirname(os.path.dirname(os.path.dirname(os.path.abspath(__file__))))
PROGRAM = os.path.join(TOP, "crates", "stow", "out", "stow")
TENANTS = os.path.join(TOP, "bench", "tenants.toml")


def is_there(what):
    return shutil.which(what) if not what.startswith("python:") else importlib.util.find_spec(what[7:])


def need(wanted):
    """Installs the packages of what isn't there, or names what is missing and ends with status 1."""
    missing = {package for what, package in wanted.items() if not is_there(what)}
    if missing and os.geteuid() == 0 and shutil.which("apt-get"):
        subprocess.run(["apt-get", "update", "-q"], stdout=subprocess.DEVNULL, stderr=subprocess.DEVNULL)
        subprocess.run(["apt-get", "install", "-y", "-q", "--no-install-recommends", *sorted(missing)],
                       stdout=subprocess.DEVNULL, stderr=subprocess.DEVNULL)
        importlib.invalidate_caches()
    missing = [f"{what} (Debian's package {package})" for what, package in wanted.items() if not is_there(what)]
    if not os.path.exists(PROGRAM):
        missing.append("the built program: ./run builds it")
    if missing:
        sys.exit("missing: " + ", ".join(missing))


def start(workers, *words):
    """A service of this machine's own on a free port: the process and the port."""
    listen = ["--listen", "127.0.0.1:0", "--workers", str(workers)]
    process = subprocess.Popen([PROGRAM, "serve", "--tenants", TENANTS, *listen, *words],
                               stdout=subprocess.PIPE, text=True)
    told = process.stdout.readline()
    if not told.startswith("listening "):
        sys.exit(f"stow serve tells {told!r}, status {process.wait()}")
    return process, int(told.rsplit(":", 1)[1])


def stop(process):
    process.kill()
    process.wait()
