"""Corners of unit files for try_systemd.py: each case is a target with what lies around it.

A line `FOLDER/NAME:` begins a file of that folder (`etc`, `run` or `lib`, below which the folders of units lie, or a path
from the root behind `/`); the lines behind it are its text. A line `FOLDER/NAME -> TARGET` is a link. A service without
a line `ExecStart=` gets one, since systemd takes no other.
"""

CASES = {
    "an empty assignment takes no dependency back": """
lib/case.target:
[Unit]
Wants=one.service two.service
lib/one.service:
[Unit]
After=two.service
After=
Wants=three.service
Wants=
lib/two.service:
[Service]
Type=oneshot
Type=
lib/three.service:
""",
    "asking for what stands pulls nothing in": """
lib/case.target:
[Unit]
Wants=one.service
Requisite=other.target
lib/one.service:
[Unit]
Requisite=two.service
After=two.service
lib/two.service:
lib/other.target:
""",
    "asking for what stands and is started": """
lib/case.target:
[Unit]
Requisite=two.target
Wants=one.service
lib/one.service:
[Unit]
Wants=two.target
lib/two.target:
""",
    "folders of links of other names, templates and prefixes": """
lib/case.target:
[Unit]
Wants=a-b-c.service x-y@one.service
lib/a-b-c.service:
lib/alias.service -> a-b-c.service
lib/alias.service.wants/of-alias.service -> ../of-alias.service
lib/of-alias.service:
lib/a-.service.wants/of-prefix.service -> ../of-prefix.service
lib/of-prefix.service:
lib/a-b-.service.requires/of-long-prefix.service -> ../of-long-prefix.service
lib/of-long-prefix.service:
lib/x-y@.service:
lib/x-y@.service.wants/of-template@.service -> ../of-template@.service
lib/of-template@.service:
lib/x-.service.wants/of-prefix-of-template.service -> ../of-prefix-of-template.service
lib/of-prefix-of-template.service:
lib/x-@.service.wants/of-template-of-prefix.service -> ../of-template-of-prefix.service
lib/of-template-of-prefix.service:
lib/x-@one.service.wants/of-instance-of-prefix.service -> ../of-instance-of-prefix.service
lib/of-instance-of-prefix.service:
lib/x-@two.service.wants/of-other-instance.service -> ../of-other-instance.service
lib/of-other-instance.service:
lib/service.wants/of-kind.service -> ../of-kind.service
lib/of-kind.service:
""",
    "drop-ins of other names, templates, prefixes and kinds": """
lib/case.target:
[Unit]
Wants=a-b.service t@one.service n1.service n2.service n3.service n4.service n5.service n6.service n7.service
lib/a-b.service:
lib/second.service -> a-b.service
lib/second.service.d/10.conf:
[Unit]
After=n1.service
lib/a-.service.d/20.conf:
[Unit]
After=n2.service
lib/t@.service:
lib/t@.service.d/30.conf:
[Unit]
After=n3.service
lib/t@one.service.d/40.conf:
[Unit]
After=n4.service
lib/a-b.service.d/50.conf:
[Unit]
After=n5.service
etc/a-b.service.d/50.conf:
[Unit]
After=n6.service
etc/a-.service.d/60.conf:
[Unit]
After=n1.service
lib/a-b.service.d/60.conf:
[Unit]
After=n7.service
lib/a-b.service.d/70.conf:
[Unit]
After=n3.service
etc/a-b.service.d/70.conf -> /dev/null
lib/n1.service:
lib/n2.service:
lib/n3.service:
lib/n4.service:
lib/n5.service:
lib/n6.service:
lib/n7.service:
""",
    "keys count in their own section": """
lib/case.target:
[Unit]
Wants=one.service two.service
Type=dbus
[Service]
Wants=three.service
[Install]
After=two.service
lib/one.service:
After=two.service
[Unit]
Type=dbus
PrivateTmp=yes
[Service]
After=two.service
[X-Unit]
After=two.service
[Unit] 
Before=three.service
lib/two.service:
[Timer]
OnCalendar=daily
[Service]
 Type = simple 
lib/three.service:
""",
    "a line that begins as a section": """
lib/case.target:
[Unit]
Wants=one.service two.service
lib/one.service:
[Unit]
Wants=three.service
[Unit
lib/two.service:
lib/two.service.d/x.conf:
[Unit]
Wants=four.service
[Unit
Wants=five.service
lib/three.service:
lib/four.service:
lib/five.service:
""",
    "comments and lines that go on": """
lib/case.target:
[Unit]
Wants=one.service \\
  # a comment \\
 two.service \\
; another
 three.service
 # Wants=five.service
Wants="four.service" 'six.service'
Description=ends in two \\\\
Wants=five.service
lib/one.service:
lib/two.service:
lib/three.service:
lib/four.service:
lib/five.service:
lib/six.service:
""",
    "links that lead nowhere, masks, and links out of the folders": """
lib/case.target:
[Unit]
Wants=nowhere.service masked.service empty.service out.service other-kind.service good.service
etc/nowhere.service -> /opt/nowhere.service
etc/masked.service -> /dev/null
lib/masked.service:
etc/empty.service:
etc/out.service -> /opt/elsewhere.service
/opt/elsewhere.service:
[Unit]
Wants=from-out.service
lib/from-out.service:
etc/other-kind.service -> case.target
lib/good.service:
lib/case.target.wants/dangling.service -> ../gone.service
lib/dangling.service:
lib/case.target.wants/left.service -> ../left.service
etc/case.target.wants/left.service -> /dev/null
lib/left.service:
""",
    "names by links, in chains and for instances": """
lib/case.target:
[Unit]
Wants=first.service auto@one.service named@special.service
lib/first.service -> second.service
lib/second.service -> third.service
lib/third.service:
[Unit]
After=real@one.service auto@one.service
lib/auto@.service -> real@.service
lib/real@.service:
[Unit]
Wants=of-%i.service
lib/of-one.service:
lib/named@special.service -> /lib/systemd/system/named@.service
lib/named@.service:
[Unit]
After=first.service
""",
    "templates in place of instances": """
lib/case.target:
[Unit]
Wants=a@one.service plain.service
lib/a@.service:
[Unit]
Wants=b@.service
After=b@.service
lib/b@.service:
lib/plain.service:
[Unit]
Wants=b@.service
""",
    "specifiers in names": """
lib/case.target:
[Unit]
Wants=a-b@c\\x2dd-e.service
lib/a-b@.service:
[Unit]
Wants=i-%i.service p-%p.service j-%j.service n-%N.service big-%I.service host-%H.service two-%%.service
RequiresMountsFor=%f
lib/i-c\\x2dd-e.service:
lib/p-a-b.service:
lib/j-b.service:
lib/n-a-b@.service:
lib/c\\x2dd-e.mount:
[Mount]
What=/dev/x
Where=/c-d/e
lib/c\\x2dd.mount:
[Mount]
What=/dev/x
Where=/c-d
""",
    "slices": """
lib/case.target:
[Unit]
Wants=one.service two@x.service three.service
lib/one.service:
[Service]
Slice=own-inner.slice
lib/own-inner.slice:
lib/own.slice:
[Unit]
Wants=with-slice.service
lib/with-slice.service:
[Unit]
DefaultDependencies=no
lib/two@.service:
lib/system-two.slice:
lib/three.service:
[Service]
Slice=nofile.slice
""",
    "sockets, timers, paths and automounts come before what they start": """
lib/case.target:
[Unit]
Wants=s.socket t.timer p.path acc.socket started.service s.service p.service a.automount a.mount uses.service early.socket
lib/s.socket:
[Socket]
ListenStream=1
lib/t.timer:
[Timer]
OnBootSec=1
Unit=started.service
lib/p.path:
[Path]
PathExists=/x
lib/acc.socket:
[Socket]
ListenStream=2
Accept=yes
lib/acc@.service:
lib/s.service:
lib/p.service:
lib/started.service:
lib/a.automount:
[Automount]
Where=/a
lib/a.mount:
[Mount]
What=/dev/x
Where=/a
lib/uses.service:
[Service]
Sockets=extra.socket
lib/extra.socket:
[Socket]
ListenStream=3
Service=uses.service
lib/early.socket:
[Unit]
DefaultDependencies=no
[Socket]
ListenStream=4
ExecStartPre=/bin/true
lib/early.service:
""",
    "targets come after their units where nothing says otherwise": """
lib/case.target:
[Unit]
Wants=in.target bare.target late.service bound.service up.service
Requires=hard.service
BindsTo=bound.service
Upholds=up.service
Before=late.service
lib/in.target:
[Unit]
Wants=deep.service
lib/bare.target:
[Unit]
DefaultDependencies=no
Wants=deep.service
lib/deep.service:
lib/late.service:
lib/hard.service:
[Unit]
DefaultDependencies=no
lib/bound.service:
lib/up.service:
""",
    "old words and a mark of byte order": """
lib/case.target:
\ufeff[Unit]
Wants=a.service\r
RequiresOverridable=b.service
BindTo=c.service
lib/a.service:
lib/b.service:
lib/c.service:
""",
    "an instance with a file of its own": """
lib/case.target:
[Unit]
Wants=a@one.service a@two.service
lib/a@.service:
[Unit]
Wants=general.service
etc/a@one.service:
[Unit]
Wants=special.service
lib/general.service:
lib/special.service:
""",
    "a wanted unit that requires one that is not there": """
lib/case.target:
[Unit]
Wants=one.service other.service
lib/one.service:
[Unit]
Requires=gone.service
Wants=below.service
lib/other.service:
[Unit]
Wants=one.service
lib/below.service:
""",
    "units that conflict": """
lib/case.target:
[Unit]
Wants=one.service two.service
lib/one.service:
[Unit]
Conflicts=two.service
lib/two.service:
""",
    "the first of the folders counts": """
lib/case.target:
[Unit]
Wants=a.service
lib/a.service:
[Unit]
Wants=b.service
run/a.service:
[Unit]
Wants=c.service
etc/a.service:
[Unit]
Wants=d.service
lib/b.service:
lib/c.service:
lib/d.service:
lib/a.service.d/x.conf:
[Unit]
Wants=e.service
lib/e.service:
""",
    "folders of what upholds, and files in folders of links": """
lib/case.target:
[Unit]
Wants=a.service
lib/a.service:
lib/a.service.upholds/up.service -> ../up.service
lib/up.service:
lib/a.service.wants/plain.service:
lib/plain.service:
lib/a.service.wants/linked.service -> ../linked.service
lib/linked.service:
lib/a.service.requires/needed.service:
lib/needed.service:
""",
    "an image as the root": """
lib/case.target:
[Unit]
Wants=a.service b.service systemd-udevd.service srv.mount
lib/a.service:
[Service]
RootImage=/srv/image.raw
lib/b.service:
[Service]
RootImage=/srv/image.raw
RootImage=
lib/srv.mount:
[Mount]
What=/dev/s
Where=/srv
lib/systemd-udevd.service:
[Unit]
DefaultDependencies=no
""",
    "lines that end in a carriage return and more": """
lib/case.target:
[Unit]\r
Wants=a.service \\\r
 b.service\r
Wants=c.service\rWants=d.service\0Wants=e.service
Wants=f.service \\\r
\r
Wants=g.service\r
lib/a.service:
lib/b.service:
lib/c.service:
lib/d.service:
lib/e.service:
lib/f.service:
lib/g.service:
""",
    "bytes that are no UTF-8": """
lib/case.target:
[Unit]
Wants=a.service b.service c.service d.service
lib/a.service:
[Unit]
Wants=x.service
Description=caf\udce9
lib/b.service:
[Unit]
# caf\udce9
Wants=y.service
lib/c.service:
lib/c.service.d/x.conf:
[Unit]
Wants=z.service
Description=caf\udce9
Wants=w.service
lib/d.service:
[Unit]
Description=no character: \ufffe
Wants=v.service
lib/v.service:
lib/w.service:
lib/x.service:
lib/y.service:
lib/z.service:
""",
    "names by links that lead round in a circle": """
lib/case.target:
[Unit]
Wants=a.service one.service
After=one.service
lib/a.service:
[Unit]
Wants=two.service
lib/one.service -> two.service
lib/two.service -> one.service
""",
}
