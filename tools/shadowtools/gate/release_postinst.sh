#!/bin/sh
# Makes the service's user, and gives it its folders. A second run changes nothing.
set -e
if [ "$1" = configure ]; then
    if ! getent passwd shadowd > /dev/null; then
        useradd --system --user-group --home-dir /var/lib/shadowd --no-create-home --shell /usr/sbin/nologin shadowd
    fi
    if ! dpkg-statoverride --list /var/lib/shadowd > /dev/null; then
        chown shadowd:shadowd /var/lib/shadowd
        chmod 0700 /var/lib/shadowd
    fi
    if ! dpkg-statoverride --list /etc/shadowd > /dev/null; then
        chown root:shadowd /etc/shadowd
        chmod 0750 /etc/shadowd
    fi
    if [ -d /run/systemd/system ]; then systemctl daemon-reload; fi
fi
