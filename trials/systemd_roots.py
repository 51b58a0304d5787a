"""The packages of the roots that try_systemd.py makes."""

# systemd with all that it is linked against.
RUNNING = """
systemd libsystemd-shared libc6 libacl1 libaudit1 libblkid1 libcap2 libcrypt1 libcryptsetup12 libfdisk1 libgcrypt20
libgpg-error0 libkmod2 liblz4-1 liblzma5 libmount1 libpam0g libseccomp2 libselinux1 libssl3 libzstd1 libapparmor1
libip4tc2 libpcre2-8-0 libdevmapper1.02.1 libargon2-1 libjson-c5 libuuid1 libcap-ng0 zlib1g libudev1
""".split()
COMMON = """
dbus dbus-system-bus-common dmeventd udev systemd-sysv systemd-timesyncd systemd-resolved systemd-container systemd-oomd cron rsyslog apt man-db
util-linux e2fsprogs logrotate apparmor auditd openssh-server ufw nftables unattended-upgrades sysstat lvm2 mdadm
smartmontools acpid irqbalance polkitd dbus-user-session kmod procps console-setup keyboard-configuration plymouth
fwupd udisks2 nfs-common rpcbind samba winbind wpasupplicant anacron ifupdown
""".split()
SERVER = """
nginx-common apache2 postgresql-common mariadb-server redis-server memcached haproxy varnish squid named bind9 unbound
dnsmasq isc-dhcp-server fail2ban netfilter-persistent postfix dovecot-core opendkim spamd spamassassin clamav-daemon
clamav-freshclam rspamd docker.io containerd podman libvirt-daemon-system lxc qemu-guest-agent open-vm-tools multipath-tools
open-iscsi nfs-kernel-server autofs prometheus prometheus-node-exporter prometheus-alertmanager collectd-core
zabbix-agent munin-node nagios-nrpe-server snmpd tomcat10 php8.2-fpm uwsgi puppet-agent tor openvpn wireguard-tools
strongswan-starter keepalived corosync pacemaker etcd-server vsftpd proftpd-core rsync mosquitto rabbitmq-server slapd
sssd-common krb5-kdc krb5-admin-server freeradius minidlna systemd-journal-remote drbd-utils glusterfs-server ceph-mon
ceph-osd ceph-mgr ceph-common bird2 frr knot nsd pdns-server pdns-recursor coturn prosody ejabberd erlang-base monit supervisor
kea-dhcp4-server influxdb gdnsd stunnel4 tinyproxy privoxy ganeti iscsid targetcli-fb at atop
""".split()
DESKTOP = """
gdm3 lightdm sddm network-manager modemmanager bluez cups-daemon cups-browsed avahi-daemon colord accountsservice
packagekit upower rtkit bolt geoclue-2.0 thermald power-profiles-daemon switcheroo-control iio-sensor-proxy
usbmuxd pcscd fprintd brltty speech-dispatcher flatpak snapd low-memory-monitor earlyoom zram-tools
systemd-zram-generator systemd-cron systemd-coredump systemd-homed systemd-userdbd kexec-tools iwd connman
network-dispatcher networkd-dispatcher openvpn wireguard-tools strongswan-starter tor transmission-daemon minidlna
mpd pulseaudio pipewire xrdp tigervnc-standalone-server x11-common xserver-xorg-core saned sane-utils ipp-usb gpm
kbd apt-config-auto-update apt-listbugs apticron debsums etckeeper fcron btrfsmaintenance btrfs-progs xfsprogs zfs-zed
zfsutils-linux snapper timeshift rsync nullmailer exim4-base haveged rng-tools5 rng-tools-debian rasdaemon mcelog
lm-sensors fancontrol nut-server nut-client apcupsd hddtemp hdparm laptop-mode-tools powertop tuned preload uptimed
vnstat darkstat fail2ban docker.io libvirt-daemon-system qemu-guest-agent spice-vdagent virtualbox-guest-utils
open-vm-tools lxc gpsd usbguard opensnitch kdeconnect xscreensaver acpi-support laptop-detect bluetooth dundee ofono
""".split()
