"""What the machine has to have, what is compiled of it, and the network that all runs in."""
import glob
import os
import shutil
import subprocess
import sys

ROOT = os.path.dirname(os.path.dirname(os.path.dirname(os.path.abspath(__file__))))
HERE = os.path.join(ROOT, "host", "browsers.d")
OUT = os.path.join(ROOT, "host", "out", "browsers")
GO_PATH = "/usr/share/gocode"

# Where the programs under test have their sockets. Browsers leave the addresses 127.* out when they gather candidates.
ADDRESS = "10.99.0.1"

# A file or a command of each Debian package.
WITNESSES = {
    "chromium": "chromium",
    "firefox-esr": "firefox-esr",
    "golang-go": "go",
    "golang-github-pion-webrtc.v3-dev": f"{GO_PATH}/src/github.com/pion/webrtc/peerconnection.go",
    "python3-aiortc": "/usr/lib/python3/dist-packages/aiortc/__init__.py",
    "libssl-dev": "/usr/include/openssl/ssl.h",
    "iproute2": "ip",
    "util-linux": "unshare",
}


def stop(why):
    print(f"host/browsers: {why}", file=sys.stderr)
    sys.exit(1)


def missing_packages(packages):
    def is_there(witness):
        return os.path.exists(witness) or shutil.which(witness, path=os.environ.get("PATH", "") + ":/usr/sbin:/sbin")

    return [package for package in packages if not is_there(WITNESSES[package])]


def version_of(package):
    """The upstream version of a Debian package, for people."""
    told = subprocess.run(
        ["dpkg-query", "--show", "--showformat", "${Version}", package], capture_output=True, text=True, check=False
    )
    return told.stdout.split(":")[-1].split("-")[0] if told.returncode == 0 else "of unknown version"


def enter_network(arguments):
    """Begins anew in a network with the loopback interface alone: nothing goes out, and all ports are free. The
    interface has a second address, and a route to it as if it led further, by which browsers find that address."""
    commands = (
        f"ip link set lo up && ip address add {ADDRESS}/24 dev lo && ip route add default via {ADDRESS} dev lo"
        ' && exec "$0" "$@"'
    )
    users = [] if os.geteuid() == 0 else ["--user", "--map-root-user"]
    program = ["sh", "-c", commands, *arguments]
    os.environ["PATH"] = os.environ.get("PATH", "") + ":/usr/sbin:/sbin"
    os.execvp("unshare", ["unshare", "--net", *users, "--", *program])


def archive():
    """The static library with channels that is tested."""
    named = os.environ.get("SCTP_CHANNELS_ARCHIVE", os.path.join(ROOT, "out", "libsctp_channels.a"))
    if not os.path.exists(named):
        stop(f"there is no {named}: './library channels' makes it, or SCTP_CHANNELS_ARCHIVE names another")
    return named


def run(command, **more):
    if not shutil.which(command[0]):
        stop(f"no {command[0]}: install it (CC may name another C compiler)")
    if subprocess.run(command, check=False, **more).returncode != 0:
        stop(f"this failed: {' '.join(command)}")


def compile_program():
    """examples/webrtc.c over the archive."""
    program = os.path.join(OUT, "webrtc")
    source = os.path.join(ROOT, "examples", "webrtc.c")
    warnings = ["-g", "-O2", "-Wall", "-Wextra", "-I" + os.path.join(ROOT, "include")]
    run([os.environ.get("CC", "cc"), *warnings, "-o", program, source, archive(), "-lssl", "-lcrypto"])
    return program


def compile_pion():
    """The peer in Go, of the libraries of Debian's packages alone."""
    program = os.path.join(OUT, "pion_peer")
    sources = sorted(glob.glob(os.path.join(HERE, "pion", "*.go")))
    environment = {**os.environ, "GO111MODULE": "off", "GOPATH": GO_PATH}
    run(["go", "build", "-o", program, *sources], env=environment)
    return program
