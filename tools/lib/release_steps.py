"""What tools/test-release does in a fresh Debian that is booted: the packages that it wants, and
shell words, each of which ends with status 0."""

import re

from linux_kit import Fault
from release_tree import read

# What a monitor is built with, and what a host's package wants besides.
WANTED = (
    "gcc clang g++ pkg-config libc6-dev xz-utils rustc cargo librust-vm-memory-dev python3 lintian"
    " libjansson4 libinih1 libsystemd0 libseccomp2 systemd systemd-sysv dbus "
    "python3-prometheus-client python3-pandas python3-matplotlib man-db bash-completion"
)

WARNINGS = "-Wall -Wextra -Werror"
FLAGS = "$(pkg-config --cflags vb)"
LINKED = "$(pkg-config --cflags --libs vb)"
EXAMPLE = "/usr/share/doc/libvb-dev/examples/example.c"
HEADER = (
    "printf '#include <balloon.h>\\n#include <vb_host.h>\\n#include <vb_policy.h>\\n"
    "int main(void) { return 0; }\\n'"
)

# What the installed page of the simulator shows, beside what its command prints.
EXAMPLE_OF_PAGE = r"""
zcat /usr/share/man/man1/vb_sim.1.gz | sed -n '/^\.EX/,/^\.EE/p' | sed '/^\./d' > /tmp/example
sed -n '1s/^\$ //p' /tmp/example | sed 's/\\e/\\/g' | sh > /tmp/printed
sed 1d /tmp/example | diff - /tmp/printed && test -s /tmp/printed
"""

# Of the library and the simulator.
STEPS = (
    ("example.c by gcc", f"gcc -std=c11 -O2 {WARNINGS} {EXAMPLE} -o /tmp/c {LINKED} && /tmp/c"),
    (
        "example.c by clang",
        f"clang -std=c11 -O2 {WARNINGS} {EXAMPLE} -o /tmp/clang {LINKED} && /tmp/clang",
    ),
    (
        "example.c by g++",
        f"g++ -std=c++17 -O2 {WARNINGS} -x c++ {EXAMPLE} -x none -o /tmp/cpp {LINKED} && /tmp/cpp",
    ),
    (
        "the headers as C11 by gcc",
        f"{HEADER} | gcc -std=c11 {WARNINGS} {FLAGS} -x c -c - -o /tmp/h",
    ),
    (
        "the headers as C11 by clang",
        f"{HEADER} | clang -std=c11 {WARNINGS} {FLAGS} -x c -c - -o /tmp/h",
    ),
    (
        "the headers as C++17 by g++",
        f"{HEADER} | g++ -std=c++17 {WARNINGS} {FLAGS} -x c++ -c - -o /tmp/h",
    ),
    (
        "the headers as C++17 by clang",
        f"{HEADER} | clang++ -std=c++17 {WARNINGS} {FLAGS} -x c++ -c - -o /tmp/h",
    ),
    (
        "the Rust crate, offline",
        "rm -rf /tmp/rust && cp -r /usr/share/cargo/registry/vb-balloon-* /tmp/rust && cd /tmp/rust"
        " && cargo test --offline --quiet && cargo run --offline --quiet --example monitor",
    ),
    ("the conformance scripts", "python3 /usr/share/doc/bigvasta/conformance/conform vb_sim"),
    ("the example of vb_sim's page", EXAMPLE_OF_PAGE),
    (
        "the man pages",
        "test -s /usr/share/man/man1/vb_sim.1.gz && test -s /usr/share/man/man3/vb.3.gz",
    ),
)

# A host as a service. Who is in bigvasta-status sees it and changes nothing; a VMM, which is in
# bigvasta, can't open the control socket.
RUN_HOST = """
sed -i 's/^# budget = 8G/budget = 64M/; s/^mode = 0600/&\\ngroup = bigvasta/' \\
    /etc/bigvasta/host.conf
systemctl start bigvasta-host
bigvasta status | grep -q '^budget 64, held 0, lent 0, missing 0 MiB; tier none; 0 guests; version '
test "$(bigvasta add web-1)" = /run/bigvasta/web-1
test -S /run/bigvasta/web-1
test "$(bigvasta status --names)" = web-1
bigvasta guest web-1 --json |
    python3 -c 'import json, sys; assert json.load(sys.stdin)["guest"]["state"] == "absent"'
as() { local groups=$1; shift; setpriv --reuid=nobody --regid=nogroup --groups=$groups "$@"; }
ends() { local wanted=$1 status=0; shift; "$@" || status=$?; test $status = $wanted; }
test "$(as bigvasta-status bigvasta status --names)" = web-1
ends 1 as bigvasta-status bigvasta remove web-1 --control /run/bigvasta-status/socket
ends 3 as bigvasta-status bigvasta remove web-1
ends 3 as bigvasta bigvasta remove web-1
ends 3 as bigvasta bigvasta status
test "$(bigvasta status --names)" = web-1
sed -i 's/^budget = 64M/budget = 32M/' /etc/bigvasta/host.conf && systemctl reload bigvasta-host
for i in $(seq 40); do test "$(bigvasta budget)" = '32 MiB' && break; sleep 0.5; done
test "$(bigvasta budget)" = '32 MiB'
bigvasta metrics | grep -q '^bigvasta_budget_bytes 3.3554432e+07$'
bigvasta remove web-1
systemctl stop bigvasta-host
"""

# The first example of the planner's help, as it is printed, in a Debian with the packages that it
# names. matplotlib keeps its fonts at home.
PLAN = """
rm -rf /tmp/plan && mkdir /tmp/plan && cd /tmp/plan
export HOME=/tmp/plan
bigvasta plan --help > help
dpkg -s $(sed -n 's/^  apt-get install //p' help) > /dev/null
sed -n '/^example/,/^$/s/^  bigvasta/bigvasta/p' help > example
test "$(wc -l < example)" = 2
sh -ex example > table
grep -q '^budget [0-9]*M: ' table
grep -q '<svg' day.svg
cd / && rm -rf /tmp/plan
"""

# Of the daemons and the client program.
HOST_STEPS = (
    ("the planner's example", PLAN),
    (
        "the programs say how they are called",
        (
            "vhost_user_balloon 2>&1 | grep -q SOCKET; vhost_user_host 2>&1 | grep -q FOLDER; "
            "bigvasta --help | grep -q watch"
        ),
    ),
    ("the user and the group", "getent passwd bigvasta && getent group bigvasta"),
    (
        "the backend's kind, and its description",
        "vhost_user_balloon --print-capabilities | python3 -c 'import json, sys;"
        ' assert json.load(sys.stdin)["type"] == '
        'json.load(open("/usr/share/qemu/vhost-user/50-bigvasta-balloon.json"))["type"]\'',
    ),
    ("the units", "systemd-analyze verify --man=no bigvasta-host.service bigvasta-metrics.service"),
    ("a host by its configuration, and the client program", RUN_HOST),
    ("no host", "bigvasta status || test $? = 3"),
    (
        "the completion",
        "bash -c '. /usr/share/bash-completion/completions/bigvasta && complete -p bigvasta'",
    ),
    (
        "the host's man pages",
        (
            "for each in bigvasta.1 vhost_user_host.1 vhost_user_balloon.1 bigvasta-host.conf.5; "
            "do man -w ${each%.*} && test -s /usr/share/man/man${each##*.}/$each.gz; done"
        ),
    ),
)

# What stays of README's commands where the one at a keyboard isn't there, or QEMU is too old: by
# how a command begins, what is done in its place.
QEMU = "qemu-system-x86_64"
INSTEAD = (
    (
        "bigvasta watch",
        (
            "sleep 2 && (sleep 3; printf q) | timeout 20 script -qec 'bigvasta watch' /dev/null > "
            "/tmp/watch && grep -q 'budget 6144' /tmp/watch"
        ),
    ),
    (
        QEMU,
        """
if {has_device}; then
    ({command} -display none -serial none -monitor none > /tmp/qemu.log 2>&1 &
        echo $! > /tmp/qemu.pid)
    trap 'kill $(cat /tmp/qemu.pid) 2> /dev/null || true' EXIT
    is_absent() { bigvasta guest web-1 --json | grep -q '"state": "absent"'; }
    for i in $(seq 60); do is_absent || break; sleep 0.5; done
    process() { bigvasta guest web-1 --json | sed 's/.*"process": \\([0-9]*\\),.*/\\1/'; }
    first=$(process) && sleep 3 && test "$first" != 0 && test "$(process)" = "$first"
    kill $(cat /tmp/qemu.pid)
    for i in $(seq 60); do is_absent && break; sleep 0.5; done
    is_absent
else
    test -S $(echo '{command}' | sed -n 's/.*socket,id=balloon,path=\\([^ ,]*\\).*/\\1/p')
fi
""",
    ),
)

# Where a Debian sees a newer one, and the program there that runs its QEMU, with the sockets and
# devices of this one.
NEWER = "/srv/newer"
NEWER_QEMU = f"""#!/bin/sh
exec unshare --mount sh -c 'mount --rbind /run {NEWER}/run && mount --rbind /dev {NEWER}/dev &&
    exec chroot {NEWER} {QEMU} "$@"' sh "$@"
"""

# Whether a QEMU is there that has the device.
HAS_DEVICE = f"{QEMU} -device vhost-user-test-device-pci,help 2> /dev/null | grep -q options"

# Root is who types README's commands here, and agrees to what is installed.
SUDO = """
sudo() { case $1 in apt-get) shift; apt-get -q -y "$@" ;; *) "$@" ;; esac; }
cd /srv/released
dpkg --purge bigvasta-host
"""

# What has to be true after README's commands, and how they are undone.
AFTER = """
has_metrics() {
    python3 -c '
import urllib.request
text = urllib.request.urlopen("http://localhost:9750/metrics").read().decode()
assert "bigvasta_up 1.0" in text and "bigvasta_budget_bytes 6.442450944e+09" in text'
}
for i in $(seq 40); do has_metrics 2> /tmp/metrics.err && break; sleep 0.5; done
cat /tmp/metrics.err
test ! -s /tmp/metrics.err
systemctl disable --now bigvasta-host bigvasta-metrics
"""


def readme_commands():
    """Returns README's commands for a host, as they are there."""
    found = [
        it for it in re.findall(r"(?s)```sh\n(.*?)```", read("README.md")) if "bigvasta add" in it
    ]
    if len(found) != 1:
        raise Fault(
            f"README.md has {len(found)} blocks of commands with `bigvasta add`, and one is wanted"
        )
    return found[0].replace("\\\n", " ").splitlines()


def bare(command):
    """Returns one of README's commands as root types it, without what a reader fills in."""
    return command.removeprefix("sudo ").removesuffix(" ..")


def readme_step():
    """Returns the step that runs README's commands for a host."""
    script = [SUDO]
    for command in readme_commands():
        instead = [text for begin, text in INSTEAD if bare(command).startswith(begin)]
        script.append(
            instead[0].replace("{command}", bare(command)).replace("{has_device}", HAS_DEVICE)
            if instead
            else command
        )
    return "README's commands for a host", "\n".join([*script, AFTER])


# The package of QEMU's device, in a Debian whose QEMU is newer than its own.
DEVICE_PACKAGE, DEVICE_PROGRAM = "qemu-bigvasta-balloon", f"{QEMU}-balloon"
DEVICE_REFUSED = f"""
if apt-get -q -y install /srv/released/{DEVICE_PACKAGE}_*.deb > /tmp/refused 2>&1; then false; fi
grep -q 'Depends: qemu-system-x86 (< 1:10.1~)' /tmp/refused
dpkg-deb -x /srv/released/{DEVICE_PACKAGE}_*.deb /tmp/device
export QEMU_BALLOON_MODULE=/tmp/device/usr/lib/bigvasta/vhost-user-balloon.so
status=0
/tmp/device/usr/bin/{DEVICE_PROGRAM} --version 2> /tmp/refused || status=$?
cat /tmp/refused
test $status = 2
grep -qx 'vhost-user-balloon was built for QEMU 10.0, and this is 1[0-9].[0-9]*' /tmp/refused
rm -r /tmp/device
"""
DEVICE_INSTALLED = f"""
apt-get -q -y purge 'qemu-system-*'
apt-get -q -y --no-install-recommends install /srv/released/{DEVICE_PACKAGE}_*.deb
{DEVICE_PROGRAM} --version | grep -q 'version 10.0.'
man -w {DEVICE_PROGRAM}
"""
# The guest of README's line boots this kernel; the host wants 512 MiB of its 2048.
GUEST_KERNEL, GUEST_FILES = "/root/vmlinuz", "/root/initramfs"
DEVICE_RUNS = f"""
systemctl start bigvasta-host
rm -f /tmp/monitor && mkfifo /tmp/monitor
exec 3<> /tmp/monitor
{{command}} -display none -serial none -monitor stdio -kernel {GUEST_KERNEL} \\
    -initrd {GUEST_FILES} -append rdinit=/init < /tmp/monitor > /tmp/balloon 2>&1 &
until bigvasta guest web-1 --json | grep -q '"state": "ready"'; do kill -0 $!; sleep 1; done
bigvasta guest web-1 target=512M
until grep -q 'balloon: actual=1536' /tmp/balloon; do
    kill -0 $!
    echo info balloon >&3
    sleep 1
done
echo quit >&3
wait
systemctl stop bigvasta-host
rm {GUEST_KERNEL} {GUEST_FILES}
"""


def device_steps(archive):
    """Returns the steps of the package of QEMU's device, where the newer QEMU is of this
    archive."""
    command = next(bare(it) for it in readme_commands() if it.startswith(QEMU))
    command = command.replace(QEMU, DEVICE_PROGRAM, 1)
    command = re.sub(r"-device \S+", "-device vhost-user-balloon-pci,chardev=balloon", command)
    return (
        ("a newer QEMU is refused, by its package and as it starts", DEVICE_REFUSED),
        ("the QEMU of this Debian comes with the device's package", DEVICE_INSTALLED),
        ("README's guest with the device, of Linux", DEVICE_RUNS.replace("{command}", command)),
        (
            "the device's package is purged, and the newer QEMU is back",
            f"apt-get -q -y purge {DEVICE_PACKAGE} 'qemu-system-*' && apt-get -q -y"
            f" --no-install-recommends install -t {archive} qemu-system-x86"
            " && apt-get -q -y --purge autoremove",
        ),
    )
