"""What is released: packages and what is in them, in a Debian of their own too; the unit for systemd; the image, and pods of it.

They are made of what out/PROVED has. Where it lacks a program they are made in a copy of this tree, in which the programs of the suite
stand in: PROVED says there that nothing proved them. What can't be seen for want of a program is skipped, and one test fails, which says
what lacks; packages of Debian that are wanted: lintian, mmdebstrap, gcc, pkg-config, iproute2, systemd, buildah, podman, netavark,
aardvark-dns, iptables, runc and curl.
"""
import functools
import hashlib
import json
import os
import re
import shutil
import subprocess
import time
from collections.abc import Callable, Iterable, Iterator
from pathlib import Path

import pytest
from running import FREE, TOP, Bench, command, free_ports, ran, until

pytestmark = pytest.mark.release

PLACES = {"rgw": "bin", "rgwd": "libexec/rgw", "rgca": "libexec/rgw"}
COMMANDS = ("rgw-check", "rgw-load", "rgw-relay")
# Programs without which something isn't seen.
WANTED = ("dpkg-deb", "lintian", "cc", "pkg-config", "mmdebstrap", "ip", "unshare", "nsenter", "systemd-analyze", "buildah", "podman",
          "runc", "/usr/lib/podman/netavark", "/usr/lib/podman/aardvark-dns", "iptables", "curl")
# What each package for Debian has below /usr, among others: the library for C, pages of the manual, documents.
HAS = {
    "rgw": ["lib/librgw.a", "lib/librgw.so.1", "lib/librgw.so", "include/rgw.h", "lib/pkgconfig/rgw.pc",
            "../lib/systemd/system/rgwd.service", "lib/sysusers.d/rgw.conf",
            *(f"share/man/{it}.gz" for it in ("man1/rgw.1", "man1/rgca.1", "man8/rgwd.8")),
            *(f"share/doc/rgw/{it}.md" for it in ("OPERATING", "PROTOCOL", "SCRIPTS", "TESTING_AGENTS", "LIBRARY", "GLOSSARY")),
            "share/doc/rgw/examples/firmware/main.c"],
    "python3-rgw-bench": [*(f"bin/{it}" for it in COMMANDS), *(f"share/man/man1/{it}.1.gz" for it in COMMANDS),
                          "lib/python3/dist-packages/rgw_bench/checks/answers.check", "share/doc/python3-rgw-bench/TESTING_AGENTS.md"],
}
# How many gateways there are as pods, and how many lines each has.
PODS, LINES = 10, 2
# Starts systemd in the root $1, in namespaces and a control group of its own.
BOOT = """set -e
mount --make-rprivate /
mount --bind "$1" "$1"
for it in proc:proc sysfs:sys tmpfs:run tmpfs:tmp; do
    mount -t "${it%:*}" "${it%:*}" "$1/${it#*:}"
done
if [ -e /sys/fs/cgroup/cgroup.controllers ]; then
    mount -t cgroup2 cgroup2 "$1/sys/fs/cgroup"
else
    mount -t tmpfs tmpfs "$1/sys/fs/cgroup"
    mkdir "$1/sys/fs/cgroup/systemd"
    mount -t cgroup -o none,name=systemd cgroup "$1/sys/fs/cgroup/systemd"
fi
ip link set lo up
exec env -i container=other PATH=/usr/sbin:/usr/bin:/sbin:/bin chroot "$1" /lib/systemd/systemd
"""
# So long packages may be packed, or installed, in s.
LONGEST = 1800
# What systemd says of a unit at most, of 10.0: how much of the system it reaches.
EXPOSURE = 2.0
RGWD = "/usr/local/sbin/rgwd"
BARE = {"PATH": "/usr/sbin:/usr/bin:/sbin:/bin", "DEBIAN_FRONTEND": "noninteractive", "LC_ALL": "C"}


def lacking(programs: Iterable[str]) -> list[str]:
    """Those of these programs that aren't there."""
    return [it for it in programs if not (shutil.which(it) or os.access(it, os.X_OK))]


def needs(*programs: str) -> None:
    """Skips what wants one of these programs, which are of WANTED, where it isn't there."""
    assert set(programs) <= set(WANTED)
    for it in lacking(programs):
        pytest.skip(f"there is no {it}")


def test_no_program_lacks() -> None:
    """All can be seen: where others are skipped for want of a program, this fails."""
    assert not lacking(WANTED)


def ended(*words: object, **how: object) -> str:
    """What a program prints that ends with status 0."""
    status, out, said = ran([str(it) for it in words], **how)  # type: ignore[arg-type]
    assert status == 0, f"{words}: status {status}\n{out[-2000:]}{said[-2000:]}"
    return out


@pytest.fixture(scope="session")
def tree(tmp_path_factory: pytest.TempPathFactory) -> Path:
    """A work tree whose programs its out/PROVED has."""
    if all(ran([f"{TOP}/tools/proved", "--names", it])[0] == 0 for it in PLACES) and ran([f"{TOP}/tools/library", "--check"])[0] == 0:
        return TOP
    copy = tmp_path_factory.mktemp("copy") / "tree"
    shutil.copytree(TOP, copy, symlinks=True, ignore=shutil.ignore_patterns("out"))
    library = Path(ended(f"{TOP}/tools/unproved", "library").strip())
    (copy / "out").mkdir()
    for file in (library, library.with_name("librgw.a")):
        shutil.copy(file, copy / "out")
    for name in PLACES:
        (copy / f"crates/{name}/out").mkdir()
        shutil.copyfile(command(name)[0], copy / f"crates/{name}/out/{name}")
        (copy / f"crates/{name}/out/{name}").chmod(0o755)
    ended(copy / "tools/proved", "--write", "nothing: these programs stand in for proved ones, for a test")
    return copy


@pytest.fixture(scope="session")
def packages(tree: Path, tmp_path_factory: pytest.TempPathFactory) -> dict[str, Path]:
    """The packages by their names; `archive` is the archive."""
    needs("dpkg-deb")
    made = [Path(it) for it in ended(tree / "package", tmp_path_factory.mktemp("packages"), seconds=LONGEST).splitlines()]
    return {it.name.partition("_")[0] if it.suffix == ".deb" else "archive": it for it in made}


@pytest.fixture(scope="session")
def unpacked(packages: dict[str, Path], tmp_path_factory: pytest.TempPathFactory) -> dict[str, Path]:
    """What is in each of them, below their prefix."""
    room = tmp_path_factory.mktemp("unpacked")
    for name in HAS:
        ended("dpkg-deb", "-x", packages[name], room / name)
    ended("tar", "-C", room, "-xzf", packages["archive"])
    return {**{name: room / name / "usr" for name in HAS}, "archive": next(room.glob("rgw-*-x86_64-linux"))}


# Packages


def test_two_runs_make_the_same_bytes(tree: Path, packages: dict[str, Path], tmp_path: Path) -> None:
    time.sleep(1.1)
    again = [Path(it) for it in ended(tree / "package", tmp_path / "again", seconds=LONGEST).splitlines()]
    assert [it.name for it in again] == [it.name for it in packages.values()] and len(again) == 3
    assert [it.read_bytes() for it in again] == [it.read_bytes() for it in packages.values()]


@pytest.mark.parametrize("name", ["rgw", "archive"])
def test_proved_has_the_sums_of_the_programs(unpacked: dict[str, Path], name: str) -> None:
    proved = (unpacked[name] / "share/doc/rgw/PROVED").read_text()
    assert re.search(r"(?m)^commit [0-9a-f]{40}", proved) and re.search(r"(?m)^rt version \S", proved)
    for program, place in PLACES.items():
        assert f"\nsha256 {hashlib.sha256((unpacked[name] / place / program).read_bytes()).hexdigest()} {program}\n" in proved


@pytest.mark.parametrize("name", HAS)
def test_has(unpacked: dict[str, Path], name: str) -> None:
    assert not [it for it in HAS[name] if not (unpacked[name] / it).exists()]


def test_configuration_is_a_conffile(packages: dict[str, Path]) -> None:
    assert ended("dpkg-deb", "-I", packages["rgw"], "conffiles") == "/etc/rgw/gateway.toml\n"


@pytest.mark.parametrize("name", HAS)
def test_lintian(packages: dict[str, Path], name: str) -> None:
    needs("lintian")
    assert "E: " not in ended("lintian", "--fail-on", "error", "--allow-root", packages[name])


# The archive


@pytest.fixture
def installed(unpacked: dict[str, Path], tmp_path: Path) -> Path:
    """What the archive's install puts below /opt/rgw: what it says, and nothing else."""
    said = ended(unpacked["archive"] / "install", "/opt/rgw", env={**BARE, "DESTDIR": str(tmp_path)}).splitlines()
    assert sorted(said) == sorted(str(it) for it in tmp_path.rglob("*") if it.is_file())
    return tmp_path / "opt/rgw"


def test_archive_installs(installed: Path) -> None:
    """The gateway runs, its unit starts it there, and the commands in Python find their package."""
    assert ended(installed / "sbin/rgwd", "--version").startswith("rgwd ")
    unit = (installed / "share/doc/rgw/examples/rgwd.service").read_text()
    assert "ExecStart=/opt/rgw/sbin/rgwd " in unit and "/usr/local/sbin" not in unit
    for name in COMMANDS:
        assert "usage: " in ended(installed / "bin" / name, "--help", env={**BARE, "PYTHONDONTWRITEBYTECODE": "1"})


@pytest.mark.parametrize("library", ["-lrgw", "-l:librgw.a"])
def test_firmware_is_built_with_the_library_that_is_installed(installed: Path, tmp_path: Path, library: str) -> None:
    """pkg-config finds it, shared or not; the program says its use."""
    needs("cc", "pkg-config")
    places = {**os.environ, "PKG_CONFIG_PATH": f"{installed}/lib/pkgconfig", "PKG_CONFIG_SYSROOT_DIR": str(tmp_path)}
    flags = ended("pkg-config", "--cflags", "--libs", "rgw", env=places).replace("-lrgw", library).split()
    ended("cc", "-std=c99", installed / "share/doc/rgw/examples/firmware/main.c", *flags, "-o", tmp_path / "firmware")
    status, _, said = ran([f"{tmp_path}/firmware"], env={"LD_LIBRARY_PATH": f"{installed}/lib"})
    assert status == 2 and said.startswith("usage: ")


def test_archive_installs_no_other_program(unpacked: dict[str, Path], tmp_path: Path) -> None:
    shutil.copytree(unpacked["archive"], tmp_path / "changed")
    with open(tmp_path / "changed/libexec/rgw/rgca", "ab") as file:
        file.write(b"\0")
    status, out, said = ran([f"{tmp_path}/changed/install", "/opt/rgw"], env={**BARE, "DESTDIR": f"{tmp_path}/none"})
    assert (status, out) == (1, "") and "libexec/rgw/rgca isn't the one" in said and not (tmp_path / "none").exists()


# The packages in a Debian of their own


@pytest.fixture(scope="session")
def debian(packages: dict[str, Path], tmp_path_factory: pytest.TempPathFactory) -> Path:
    """A Debian with its base, systemd, and what the bench depends on; the packages stand in its root, and aren't installed."""
    needs("mmdebstrap", "ip", "unshare", "nsenter")
    assert os.geteuid() == 0, "root alone makes a Debian"
    root = tmp_path_factory.mktemp("debian") / "root"
    # (the service's user has to get there)
    for folder in root.parents[:3]:
        folder.chmod(0o755)
    wanted = "--include=systemd-sysv,python3-pytest,python3-pytest-xdist"
    words = ["mmdebstrap", "--quiet", "--variant=minbase", "--dpkgopt=force-unsafe-io", wanted, "bookworm", str(root)]
    status, _, said = ran(words, LONGEST)
    if status != 0:
        pytest.skip(f"no Debian can be made: {said.strip().splitlines()[-1:]}")
    for name in HAS:
        shutil.copy(packages[name], root / f"{name}.deb")
    # (else nothing is kept in a journal)
    ended("chroot", root, "systemd-machine-id-setup")
    return root


def there(root: Path, *words: object) -> str:
    """What a program in that Debian prints, which ends with status 0."""
    return ended("chroot", root, *words, env=BARE)


def purged_by(run: Callable[..., str], name: str) -> str:
    """Purges a package in a Debian where this runs a program: what is left that has a name of it."""
    run("dpkg", "--purge", name)
    return run("find", "/", "-xdev", "-name", "*rgw*", "-not", "-name", "*.deb", "-not", "-path", "/proc/*")


def purged(root: Path, name: str) -> str:
    """The same in a Debian that isn't booted."""
    return purged_by(functools.partial(there, root), name)


class Service:
    """rgwd of the package in that Debian, as its service's user, on a network of its own."""

    def __init__(self, root: Path, log: Path):
        words = ["unshare", "--net", "sh", "-c", 'ip link set lo up && exec "$@"', "sh", "chroot", "--userspec=rgw:rgw", str(root),
                 "/usr/sbin/rgwd", "/etc/rgw/gateway.toml", "--log"]
        self.root, self.log = root, log
        with open(log, "w") as said:
            self.process = subprocess.Popen(words, stdin=subprocess.DEVNULL, stdout=said, stderr=said)

    def there(self, *words: object) -> str:
        """What a program in that Debian and on that network prints, which ends with status 0."""
        return ended("nsenter", f"--target={self.process.pid}", "--net", "chroot", self.root, *words, env=BARE)

    def ends(self) -> bool:
        """Whether it ends in order, within 5 s."""
        is_over = until(lambda: self.process.poll() is not None, 5)
        return is_over and self.process.returncode == 0 and "\ndatagrams in " in self.log.read_text()


@pytest.fixture
def service(debian: Path, tmp_path: Path) -> Iterator[Service]:
    """The package is installed and the gateway serves; then it is ended, and the package purged."""
    there(debian, "dpkg", "-i", "/rgw.deb")
    made = Service(debian, tmp_path / "rgwd.log")
    try:
        assert until(lambda: re.search("(?m)^listen ", made.log.read_text())), made.log.read_text()
        yield made
    finally:
        made.process.kill()
        made.process.wait()
        there(debian, "dpkg", "--purge", "rgw")


def test_package_serves(service: Service) -> None:
    """It has a user of its own, needs nothing of rt, answers its telephones, and `stop` ends it."""
    assert there(service.root, "getent", "passwd", "rgw").startswith("rgw:")
    assert not [it for it in ("rt", "rattle") if shutil.which(it, path=f"{service.root}/usr/bin:{service.root}/bin")]
    assert service.there("/usr/sbin/rgwd", "--tell", "127.0.0.1:2428", "show", "1") == "line 1 on signals - connections - lost 0\n"
    assert service.there("/usr/sbin/rgwd", "--tell", "127.0.0.1:2428", "stop") == "done\n" and service.ends()


def test_configuration_that_was_changed_stays_until_it_is_purged(debian: Path) -> None:
    there(debian, "dpkg", "-i", "/rgw.deb")
    config = debian / "etc/rgw/gateway.toml"
    text = config.read_text().replace('"rgw.example.net"', '"mine.example.net"')
    config.write_text(text)
    there(debian, "dpkg", "-i", "/rgw.deb")
    assert config.read_text() == text
    (debian / "var/log/rgw").mkdir(exist_ok=True)
    there(debian, "dpkg", "--remove", "rgw")
    assert config.exists() and not (debian / "usr/sbin/rgwd").exists()
    assert purged(debian, "rgw") == ""


@pytest.fixture
def bench_there(debian: Path) -> Iterator[Callable[..., str]]:
    """Runs a program in a Debian in which the bench is installed, and rgw isn't; once it is purged nothing of it is left."""
    run = functools.partial(there, debian)
    run("dpkg", "-i", "/python3-rgw-bench.deb")
    yield run
    left = purged_by(run, "python3-rgw-bench")
    assert left == "" and not (debian / "usr/lib/python3/dist-packages/rgw_bench").exists()


def test_bench_in_a_debian(bench_there: Callable[..., str], bench: Bench) -> None:
    """The package works without that of rgw: its commands, and pytest, side by side too."""
    own, = free_ports(1)
    gateway = bench.start([*command("rgwd"), bench.config(own), *FREE])
    address, phones = (f"127.0.0.1:{port}" for _, port in gateway.addresses[:2])
    words = ["--domain", "rgw.example.net", "--line", "aaln/1", "--more-lines", "aaln/2", "--own", f"127.0.0.1:{own}", "--phones", phones]
    for name in COMMANDS:
        assert "usage: " in bench_there(name, "--help")
    assert ", 0 fail" in bench_there("rgw-check", address, *words)
    pytest_words = ["-p", "no:cacheprovider", "--pyargs", "rgw_bench.checks", "--gateway", address, *words, "-n", "2", "-k", "repeat"]
    assert " passed" in bench_there("python3", "-m", "pytest", *pytest_words)


# The unit


@pytest.fixture
def unit(tree: Path, tmp_path: Path) -> Path:
    """The unit, for a machine on which neither the program nor the page of the manual is installed."""
    needs("systemd-analyze")
    text = (tree / "examples/rgwd.service").read_text().replace("Documentation=man:rgwd(8)\n", "")
    path = tmp_path / "rgwd.service"
    path.write_text(text.replace(RGWD, str(tree / "crates/rgwd/out/rgwd")))
    return path


def test_systemd_takes_the_unit(unit: Path) -> None:
    assert ran(["systemd-analyze", "verify", str(unit)]) == (0, "", "")


def test_unit_reaches_little_of_the_system(unit: Path) -> None:
    told = ended("systemd-analyze", "security", "--offline=true", "--no-pager", unit)
    found = re.search(r"exposure level for rgwd\.service: ([\d.]+) ", told)
    assert found and float(found[1]) <= EXPOSURE, told


def test_unit_ends_by_sigterm_alone() -> None:
    """A fault of the configuration isn't tried again, there is a folder for captures, and no command but SIGTERM ends the service."""
    rows = (TOP / "examples/rgwd.service").read_text().splitlines()
    assert {"RestartPreventExitStatus=2", "LogsDirectory=rgw", "Restart=on-failure"} <= set(rows)
    assert not [it for it in rows if it.startswith(("ExecStop", "KillSignal", "KillMode"))]


class System:
    """systemd, as the first process of that Debian."""

    def __init__(self, root: Path):
        above = Path("/sys/fs/cgroup")
        above /= "" if (above / "cgroup.controllers").exists() else "systemd"
        self.group = above / f"rgw-release-{os.getpid()}"
        self.group.mkdir()
        spaces = "--pid --fork --kill-child --mount --net --uts --ipc --cgroup".split()

        def enter() -> None:
            (self.group / "cgroup.procs").write_text(str(os.getpid()))

        self.process = subprocess.Popen(["unshare", *spaces, "sh", "-c", BOOT, "sh", str(root)], stdin=subprocess.DEVNULL,
                                        stdout=subprocess.DEVNULL, stderr=subprocess.DEVNULL, preexec_fn=enter)
        self.inside: list[str] = []

    def boots(self) -> bool:
        """Whether it has booted."""
        first = Path(f"/proc/{self.process.pid}/task/{self.process.pid}/children").read_text().strip()
        self.inside = ["nsenter", f"--target={first}", *"--mount --pid --net --uts --ipc --cgroup --root --wd".split()]
        return ran([*self.inside, "systemctl", "is-system-running"])[1].strip() in ("running", "degraded")

    def __call__(self, *words: object) -> str:
        """What a program prints there, which ends with status 0."""
        return ended(*self.inside, *words, env=BARE)

    def told(self, *properties: str) -> dict[str, str]:
        """Properties of the service, as systemd shows them."""
        rows = self("systemctl", "show", "rgwd", f"--property={','.join(properties)}").splitlines()
        return dict(row.split("=", 1) for row in rows)

    def close(self) -> None:
        self.process.kill()
        self.process.wait()
        groups = [*self.group.rglob("*/"), self.group]
        until(lambda: all(not it.exists() or ran(["rmdir", str(it)])[0] == 0 for it in sorted(groups, reverse=True)), 5)


@pytest.fixture
def system(debian: Path) -> Iterator[System]:
    """systemd, under which the package is installed; then it is purged while the service runs, and nothing of it is left."""
    made = System(debian)
    try:
        if not until(made.boots, 60):
            pytest.skip("systemd can't be started here in namespaces of its own")
        made("dpkg", "-i", "/rgw.deb")
        yield made
        made("systemctl", "start", "rgwd")
        assert purged_by(made, "rgw") == ""
    finally:
        made.close()


@pytest.mark.parametrize("stopped", [["systemctl", "stop", "rgwd"], ["systemctl", "kill", "--signal=TERM", "rgwd"]])
def test_service_of_systemd(system: System, stopped: list[str]) -> None:
    """It isn't started by the installation, runs as its user, and SIGTERM ends it with its counts; so it isn't started again."""
    assert system.told("ActiveState") == {"ActiveState": "inactive"}
    system("systemctl", "start", "rgwd")
    assert system.told("ActiveState", "User") == {"ActiveState": "active", "User": "rgw"}
    asked = [*system.inside, "rgwd", "--tell", "127.0.0.1:2428", "show", "1"]
    assert until(lambda: ran(asked)[1] == "line 1 on signals - connections - lost 0\n")
    system(*stopped)
    assert until(lambda: system.told("ActiveState") == {"ActiveState": "inactive"})
    ended_so = {"Result": "success", "ExecMainStatus": "0", "NRestarts": "0"}
    assert system.told(*ended_so) == ended_so
    assert ": datagrams in " in system("journalctl", "--unit=rgwd", "--no-pager")


# The image


class Podman:
    """podman with images and containers in a folder of its own, and on a network of its own: no bridge and no firewall's rule stays."""

    def __init__(self, room: Path):
        self.room, self.network = room, f"rgw-release-{os.getpid()}"
        ended("ip", "netns", "add", self.network)
        self.inside = ["nsenter", f"--net=/run/netns/{self.network}"]
        ended(*self.inside, "ip", "link", "set", "lo", "up")
        # Else podman looks at health by timers of systemd, and in a pod by a shell, and starts anew what doesn't answer so.
        self.env = {**os.environ, "CONTAINERS_CONF": f"{room}/containers.conf", "BUILDAH_ISOLATION": "chroot", "DISABLE_HC_SYSTEMD": "true"}
        (room / "containers.conf").write_text(
            '[containers]\ndefault_ulimits = []\n[engine]\nruntime = "runc"\ncgroup_manager = "cgroupfs"\nevents_logger = "file"\n'
            f'tmp_dir = "{room}/engine"\nvolume_path = "{room}/volumes"\n[network]\nnetwork_config_dir = "{room}/networks"\n'
        )
        (room / "storage.conf").write_text(f'[storage]\ndriver = "vfs"\ngraphroot = "{room}/graph"\nrunroot = "{room}/run"\n')
        self.env["CONTAINERS_STORAGE_CONF"] = f"{room}/storage.conf"

    def run(self, *words: object) -> tuple[int | None, str, str]:
        """The status of podman, what it prints and says."""
        return ran([*self.inside, "podman", *map(str, words)], env=self.env)

    def __call__(self, *words: object) -> str:
        """What podman prints, which ends with status 0."""
        return ended(*self.inside, "podman", *words, env=self.env)

    def tell(self, container: str, line: str) -> str:
        """What the program in a container answers to a line; nothing where it doesn't."""
        return self.run("exec", container, RGWD, "--tell", "127.0.0.1:2428", line)[1]

    def logs(self, container: str) -> str:
        """What it printed and said."""
        return "".join(self.run("logs", container)[1:])

    def asked(self, url: str) -> str:
        """The status of what is asked for from the pods' network."""
        words = ["curl", "--silent", "--output", "/dev/null", "--max-time", "3", "--write-out", "%{http_code}", url]
        return ran([*self.inside, *words])[1]

    def close(self) -> None:
        """Nothing of it stays mounted, nor runs."""
        for words in (["pod", "rm", "--all"], ["rm", "--all"]):
            self.run(*words, "--force", "--time", 0)
        self.run("network", "prune", "--force")
        for mount in re.findall(rf"(?m)^\S+ ({re.escape(str(self.room))}\S*) ", Path("/proc/mounts").read_text())[::-1]:
            ran(["umount", "--lazy", mount])
        ran(["ip", "netns", "delete", self.network])


@pytest.fixture(scope="session")
def podman(tree: Path, tmp_path_factory: pytest.TempPathFactory) -> Iterator[Podman]:
    """podman, which has loaded the image."""
    needs("buildah", "podman", "runc", "ip", "nsenter")
    assert os.geteuid() == 0, "root alone makes an image"
    made = Podman(tmp_path_factory.mktemp("podman"))
    try:
        archive = made.room / "fleet.tar"
        programs = [tree / f"crates/{it}/out/{it}" for it in ("rgwd", "rgca")]
        ended(tree / "examples/fleet/image", *programs, archive, env=made.env)
        made("load", "--quiet", "--input", archive)
        yield made
    finally:
        made.close()


@pytest.fixture
def container(podman: Podman) -> Iterator[str]:
    """A container in which the gateway answers."""
    podman("run", "--detach", "--name", "one", "--network", "none", "localhost/rgw-fleet")
    assert until(lambda: podman.tell("one", "show 1").startswith("line 1 on ")), podman.logs("one")
    yield "one"
    podman("rm", "--force", "--time", 0, "one")


def test_image_starts_the_gateway_first(podman: Podman, container: str) -> None:
    """No init, no shell: the gateway is the first process, its user is 65534, and it is healthy."""
    told = json.loads(podman("inspect", container))[0]
    assert (told["Path"], told["Config"]["User"]) == (RGWD, "65534:65534")
    assert "rgwd" in podman("top", container, "pid,args").splitlines()[1]
    podman("healthcheck", "run", container)


def test_sigterm_ends_the_first_process_of_the_image(podman: Podman, container: str) -> None:
    """With its counts, and status 0."""
    began = time.monotonic()
    podman("stop", "--time", 10, container)
    assert time.monotonic() - began < 5
    assert podman("inspect", "--format", "{{.State.ExitCode}}", container) == "0\n"
    assert "\ndatagrams in " in podman.logs(container)


def test_stop_ends_the_image(podman: Podman, container: str) -> None:
    podman.tell(container, "stop")
    assert podman("wait", container) == "0\n" and "\ndatagrams in " in podman.logs(container)


# Pods


@pytest.fixture(scope="module")
def pods(podman: Podman, tree: Path) -> Iterator[str]:
    """A call agent and gateways, which podman plays as pods: their YAML."""
    needs("/usr/lib/podman/netavark", "/usr/lib/podman/aardvark-dns", "iptables", "curl")
    text = ended(tree / "examples/fleet/fleet", "pods", PODS, "--lines", LINES, "--spread", 1000)
    path = podman.room / "pods.yaml"
    path.write_text(text)
    # The first lines say how it is played.
    network, play = [line.split("podman ", 1)[1].split() for line in text.splitlines()[:2]]
    status, _, said = podman.run(*network)
    if status != 0:
        pytest.skip(f"no network can be had: {said.strip()}")
    podman(*play[:-1], path)
    yield text
    podman("kube", "down", path)
    assert podman("pod", "ps", "--quiet") + podman("ps", "--all", "--quiet") == ""
    podman("network", "rm", network[-1])


def test_pods_announce_themselves(podman: Podman, pods: str) -> None:
    wanted = [f"announce *@gw{number}.example.net restart\n" for number in range(1, PODS + 1)]
    assert until(lambda: all(it in podman.logs("agent-rgca") for it in wanted), 30), podman.logs("agent-rgca")


def test_pods_are_probed(podman: Podman, pods: str) -> None:
    """What a cluster asks of each gateway, by its pod's address, is 200; and there, but for its counts, nothing else is told."""
    probes = set(re.findall(r"Probe:\n +httpGet:\n +path: (\S+)\n +port: (\d+)\n", pods))
    sites = [f"http://{host}" for host in re.findall(r'"--http-host", "([\d.]+)"', pods)]
    assert len(sites) == PODS and {path for path, _ in probes} == {"/healthz", "/readyz"}
    for path, port in probes:
        assert until(lambda: all(podman.asked(f"{site}:{port}{path}") == "200" for site in sites), 20), path
        assert podman.asked(f"{sites[0]}:{port}/state") == "421"


def test_pods_call_each_other(podman: Podman, pods: str) -> None:
    """A call from line 1 of gateway 3 to line 2 of gateway 8."""
    one, other = "gw3-rgwd", "gw8-rgwd"

    def shows(container: str, line: int, form: str) -> bool:
        return until(lambda: re.search(form, podman.tell(container, f"show {line}")), 20)

    assert podman.tell(one, "phone 1 off") == "done\n" and shows(one, 1, r"signals L/dl:")
    for key in "000802":
        podman.tell(one, f"phone 1 {key}")
    assert shows(other, 2, r"signals L/rg:")
    podman.tell(other, "phone 2 off")
    assert shows(one, 1, ":sendrecv") and shows(other, 2, ":sendrecv")
    assert "call 1: 000301 -> 000802 connected\n" in podman.logs("agent-rgca")
    podman.tell(one, "phone 1 on")
    podman.tell(other, "phone 2 on")
    assert shows(one, 1, "on signals - connections -") and shows(other, 2, "on signals - connections -")
