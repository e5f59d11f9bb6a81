"""What tools/test-release does of packages of 0.1.0 in a booted Debian: words for its shell, each
of which ends with status 0."""

# Where the packages of 0.1.0 are there: those with the daemons in `bigvasta`, and the one with the
# service.
DAEMONS, SERVICE = "srv/older/daemons", "srv/older/service"
DROP_IN = "/etc/systemd/system/bigvasta-host.service.d"

OLD_DAEMONS = f"""
dpkg -i /{DAEMONS}/*.deb
dpkg -S /usr/bin/vhost_user_balloon | grep -q ^bigvasta:
"""

# All packages of today but QEMU's device, or the one of a host alone: then the one that has its
# files no longer goes.
NEW_DAEMONS = """
apt-get -q -y install /srv/released/[!q]*.deb
dpkg -S /usr/bin/vhost_user_balloon | grep -q ^bigvasta-host:
vhost_user_balloon --version && vhost_user_host --version
test ! -e /usr/share/man/man1/vhost_user_balloon.1
test -s /usr/share/man/man1/vhost_user_balloon.1.gz
status=$(dpkg-query -W -f '${db:Status-Status} ${Version}' bigvasta || true)
case $status in 'installed 0.1.'*) false ;; esac
"""

# A guest of 128 pages of a client of the tests, which answers as long as its unit runs; it comes by
# the first word.
GUEST = """import sys, threading, types
from hosts import Answering
Answering(types.SimpleNamespace(folder="/run/bigvasta", said=list), sys.argv[1])
threading.Event().wait()
"""
COMES = f"""
printf '%s' '{GUEST}' > /root/guest.py
comes() {{
    local path=/srv/source/client:/srv/source/monitor/tests/kit:/srv/source/monitor/tests/control
    systemd-run --quiet --unit=$1 --setenv=PYTHONPATH=$path python3 -B /root/guest.py $1
}}
"""

# What is asked of a guest that is at work, as one line of JSON without what time changes, and
# without terms that 0.1.0 hasn't.
SHOW = """import json, sys
it = json.load(sys.stdin)["guest"]
assert it["state"] == "ready" and it["answers"], it
it["terms"] = {name: it["terms"][name] for name in ("least", "most", "priority", "strict")}
print(json.dumps({name: it[name] for name in ("process", "memory", "target", "terms", "socket")}))
"""

OLD_SERVICE = f"""
dpkg -i /{SERVICE}/*.deb
sed -i 's/^# budget = .*/budget = 64M/' /etc/bigvasta/host.conf
# The unit of 0.1.0 alone lets its host neither give the control socket its group nor shut guests'
# processes in.
mkdir -p {DROP_IN}
printf '[Service]\nSystemCallFilter=@chown seccomp\n' > {DROP_IN}/older.conf
systemctl daemon-reload
printf '[guest web-1]\\npriority = 3\\n' >> /etc/bigvasta/host.conf
systemctl enable --now bigvasta-host
printf '%s' '{SHOW}' > /root/show.py
{COMES}
comes web-1
shows() {{ bigvasta guest $1 --json | python3 /root/show.py > /root/$2 2> /root/why; }}
for i in $(seq 60); do shows web-1 before && break; sleep 0.5; done
cat /root/why && test -s /root/before
cp /etc/bigvasta/host.conf /root/host.conf && systemctl show -p MainPID bigvasta-host > /root/main
"""

# Whose configuration was changed keeps it; the host restarts, and the guest and its process
# stay. Another guest comes to the new host.
NEW_SERVICE = f"""
rm -r {DROP_IN}
apt-get -q -y -o Dpkg::Options::=--force-confold install /srv/released/bigvasta-host_*.deb
cmp /root/host.conf /etc/bigvasta/host.conf
systemctl is-active bigvasta-host
test "$(systemctl show -p MainPID bigvasta-host)" != "$(cat /root/main)"
version=$(bigvasta status --json |
    python3 -c 'import json, sys; print(json.load(sys.stdin)["host"]["version"])')
vhost_user_host --version | grep -q " $version"
shows() {{ bigvasta guest $1 --json | python3 /root/show.py > /root/$2 2> /root/why; }}
for i in $(seq 60); do shows web-1 after && break; sleep 0.5; done
cat /root/why && diff /root/before /root/after
bigvasta budget | grep -qx '64 MiB'
bigvasta add web-2
{COMES}
comes web-2
for i in $(seq 60); do shows web-2 after && break; sleep 0.5; done
cat /root/why && test -s /root/after
"""

# What is left of a host that ran, once its package is removed, and then purged.
END_SERVICE = """
dpkg --remove bigvasta-host
test "$(systemctl is-active bigvasta-host)" = inactive
test -e /etc/bigvasta/host.conf
systemctl stop web-1 web-2
dpkg --purge bigvasta-host
test ! -e /etc/bigvasta && test ! -e /run/bigvasta && test ! -e /run/bigvasta-status
rm -f /root/guest.py /root/show.py /root/before /root/after /root/why /root/host.conf /root/main
"""

STEPS = (
    ("packages of 0.1.0", OLD_DAEMONS),
    ("their upgrade: the daemons have moved", NEW_DAEMONS),
    ("all of them are purged", "dpkg --purge libvb-dev bigvasta bigvasta-host"),
    ("a service of 0.1.0 with a guest at work", OLD_SERVICE),
    ("its upgrade: the configuration and the guest stay", NEW_SERVICE),
    ("its end: nothing is left", END_SERVICE),
)
